"""Lays crates whose sources stand outside of crates/ beside a copy of the crates that they need.

The gate reads every .rt and .antt file of this repository, and wants each in a crate that crates.txt lists. So the sources of what the gate
does not prove have other endings: `.rattle` for `.rt`, `.logic` for `.antt`. A tree outside of the repository has them as crates. It stays, so that
the next run builds and proves only what changed. Of the crates here it takes what `rt lib` proved of them, too.
"""
import os
import shutil
import subprocess
import sys

TOP = os.path.normpath(os.path.join(os.path.dirname(os.path.abspath(__file__)), '..'))
ENDINGS = {'.rattle': '.rt', '.logic': '.antt'}
# The folders of crates that stand outside, and the files that say what they need, in the form of crates.txt.
OUTSIDE = {'lab_lines': 'tests/lab/lines', 'lab_cores': 'tests/lab/cores', 'lab_stores': 'tests/lab/stores', 'lab': 'tests/lab/program',
           'lab_measures': 'bench/measures'}
NEEDS = 'crates.txt', 'tests/lab/needs', 'bench/measures/needs'


def tree_for(variable, word):
    """The folder that the variable names; by itself smsc_WORD.UID below TMPDIR or /tmp."""
    return os.environ.get(variable, os.path.join(os.environ.get('TMPDIR', '/tmp'), f'smsc_{word}.{os.getuid()}'))


def name_in(line):
    return line.split(':')[0].split()[0]


def lines_of(path):
    with open(os.path.join(TOP, path), encoding='utf-8') as file:
        return [line.rstrip('\n') for line in file if line.strip() and not line.startswith('#')]


def needed(name):
    """The lines of the crate and of those below it, in the order of the files that have them."""
    lines = [line for path in NEEDS for line in lines_of(path)]
    below = {name_in(line): line.split(':')[1].split() for line in lines}
    wanted, ahead = {name}, [name]
    while ahead:
        for other in below[ahead.pop()]:
            if other in below and other not in wanted:
                wanted.add(other)
                ahead.append(other)
    return [line for line in lines if name_in(line) in wanted]


def octets_of(path):
    with open(path, 'rb') as file:
        return file.read()


def put_file(octets, to):
    """Writes the file where it lacks or differs: what is the same keeps its time."""
    os.makedirs(os.path.dirname(to), exist_ok=True)
    if not os.path.isfile(to) or octets_of(to) != octets:
        with open(to, 'wb') as file:
            file.write(octets)


def renamed(name):
    stem, ending = os.path.splitext(name)
    return stem + ENDINGS.get(ending, ending)


def put_folder(source, to):
    """Makes the folder one of the same files, with the endings of Rattle's."""
    found = set()
    for at, _, names in os.walk(source):
        for name in names:
            place = os.path.join(to, os.path.relpath(os.path.join(at, renamed(name)), source))
            put_file(octets_of(os.path.join(at, name)), place)
            found.add(os.path.normpath(place))
    for at, _, names in os.walk(to):
        for name in names:
            if os.path.normpath(os.path.join(at, name)) not in found:
                os.remove(os.path.join(at, name))


def put_crate(name, tree):
    source, to = os.path.join(TOP, OUTSIDE.get(name, os.path.join('crates', name))), os.path.join(tree, 'crates', name)
    for part in ('src', 'specs', 'proofs'):
        if os.path.isdir(os.path.join(source, part)):
            put_folder(os.path.join(source, part), os.path.join(to, part))
        else:
            shutil.rmtree(os.path.join(to, part), ignore_errors=True)
    proved, kept = os.path.join(source, 'out', 'rlib'), os.path.join(to, 'out', 'rlib')
    stamp = os.path.join(proved, 'stamp')
    if os.path.isfile(stamp) and not (os.path.isfile(os.path.join(kept, 'stamp')) and octets_of(stamp) == octets_of(os.path.join(kept, 'stamp'))):
        shutil.rmtree(kept, ignore_errors=True)
        shutil.copytree(proved, kept)


def lay(name, tree):
    """Makes the tree one of the crate and those below it; gives the crate's folder."""
    lines = needed(name)
    names = [name_in(line) for line in lines]
    put_file('\n'.join(lines + ['']).encode(), os.path.join(tree, 'crates.txt'))
    put_file(octets_of(os.path.join(TOP, 'HANDLES')), os.path.join(tree, 'HANDLES'))
    for other in os.listdir(os.path.join(tree, 'crates')) if os.path.isdir(os.path.join(tree, 'crates')) else []:
        if other not in names:
            shutil.rmtree(os.path.join(tree, 'crates', other))
    for other in names:
        put_crate(other, tree)
    return os.path.join(tree, 'crates', name)


def ran(words, folder, log, teller, **more):
    """Runs the words in the folder. Where they fail, tells the end of what they wrote, in whose name, and ends."""
    with open(log, 'wb') as file:
        status = subprocess.run(words, cwd=folder, stdin=subprocess.DEVNULL, stdout=file, stderr=subprocess.STDOUT, **more).returncode
    if status:
        with open(log, encoding='utf-8', errors='replace') as file:
            sys.stderr.write(''.join(file.readlines()[-20:]))
        sys.exit(f'{teller}; the whole of what {" ".join(words[:2])} wrote is in {log}')
