"""Sections of the stored run, in its `stdin` and its `stdout`: a line `section WORDS`, and the lines up to the next one."""
import os

FOLDER = os.path.join(os.path.dirname(os.path.abspath(__file__)), '..')


def lines_of(path):
    with open(path, encoding='utf-8') as file:
        return file.read().split('\n')[:-1]


def write(path, lines):
    with open(path, 'w', encoding='utf-8') as file:
        file.write('\n'.join(lines) + '\n')


def bounds(lines, words):
    """The place behind the first line of the section, and that of the next section."""
    start = lines.index('section ' + words) + 1
    later = [place for place, line in enumerate(lines) if place >= start and line.startswith('section ')]
    return start, later[0] if later else len(lines)


def before_courses(name, words):
    """The lines of the section before its first line `course`."""
    lines = lines_of(os.path.join(FOLDER, name))
    start, end = bounds(lines, words)
    first = [place for place in range(start, end) if lines[place].startswith('course ')]
    return lines[start:first[0] if first else end]


def put(name, words, section):
    """Puts these lines in place of the section's."""
    path = os.path.join(FOLDER, name)
    lines = lines_of(path)
    start, end = bounds(lines, words)
    write(path, lines[:start] + section + lines[end:])
