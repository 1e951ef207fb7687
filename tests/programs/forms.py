#!/usr/bin/env python3
"""Lists contracts of the forms behind which a wrong body could hide, and compares the list with the one that is right.

    tests/programs/forms.py            status 0 where each line that is found stands in forms.txt with its reason, and no other
    tests/programs/forms.py oneway     clauses that speak of one outcome alone: a Some without the None, a true without the false, Err of any kind
    tests/programs/forms.py hidden     fields that the Model of a type leaves out, so that no clause can speak of them
    tests/programs/forms.py none       functions without an ensures, but those of a trait's implementation, which have the trait's clauses
    tests/programs/forms.py ignored    arguments that no clause of a function names, so that a body may take others in their place
    tests/programs/forms.py left       arguments behind `&mut` of which no clause says what they are after the call, and results that none names

Tests, laboratory and programs are left out. forms.txt has a paragraph a reason: lines that begin with `#` say it, the others are what is right by it.
"""
import glob
import os
import re
import sys

TOP = os.path.normpath(os.path.join(os.path.dirname(os.path.abspath(__file__)), "..", ".."))
RIGHT = os.path.join(TOP, "tests", "programs", "forms.txt")

def match_clause(s,i): # s[i]=='{', antt text
    d=0
    while i<len(s):
        c=s[i]
        if c=='{': d+=1
        elif c=='}':
            d-=1
            if d==0: return i+1
        i+=1
    raise ValueError('clause')
def match_body(s,i):
    d=0
    while i<len(s):
        c=s[i]
        if s.startswith('//',i):
            j=s.find('\n',i); i=len(s) if j<0 else j; continue
        if c=='"':
            i+=1
            while s[i]!='"':
                if s[i]=='\\': i+=1
                i+=1
            i+=1; continue
        if c=="'":
            m=re.match(r"'(\\.[^']*|[^\\'])'",s[i:i+12])
            if m: i+=m.end(); continue
            i+=1; continue
        if c=='{': d+=1
        elif c=='}':
            d-=1
            if d==0: return i+1
        i+=1
    raise ValueError('body')
FN=re.compile(r'\b(?:const )?(?:unsafe )?fn ([A-Za-z_0-9]+)')
CL=re.compile(r'\b(ensures|requires|ghost)\*?\s*([A-Za-z_0-9]*)\s*:?\s*$')
def functions(s):
    """yield (name, start, head_end(body start), body_end, ctx)"""
    out=[]; i=0; depth=0; stack=[]  # stack of (depth, kind, name)
    pend=None
    n=len(s)
    while i<n:
        c=s[i]
        if s.startswith('//',i):
            j=s.find('\n',i); i=n if j<0 else j; continue
        if c=='"':
            i+=1
            while s[i]!='"':
                if s[i]=='\\': i+=1
                i+=1
            i+=1; continue
        if c=="'":
            m=re.match(r"'(\\.[^']*|[^\\'])'",s[i:i+12])
            i+= m.end() if m else 1; continue
        if s.startswith('ghost ',i) and (i==0 or not (s[i-1].isalnum() or s[i-1]=='_')):
            # ghost use / ghost member : skip to ; or balanced
            if s.startswith('ghost use',i):
                j=s.find(';',i); i=j+1; continue
            m=re.match(r'ghost\s+[\w]+\s*[:=]\s*\{',s[i:])
            if m:
                i=match_clause(s,i+m.end()-1); continue
        m=re.match(r'(impl|mod|trait|enum|struct|union)\b',s[i:]) if (c in 'imtesu' and (i==0 or not(s[i-1].isalnum() or s[i-1] in '_'))) else None
        if m:
            k=m.group(1)
            j=i
            # header up to { or ;
            a=0
            while j<n and s[j] not in '{;':
                j+=1
            if s[j]=='{' and k in('impl','mod','trait'):
                stack.append((depth,k,s[i:j].strip()))
                depth+=1; i=j+1; continue
            if k in('enum','struct','union') and s[j]=='{':
                # skip struct body, with clauses
                i=match_body_struct(s,j); continue
            i=j+1; continue
        m=FN.match(s,i) if c in 'fcu' and (i==0 or not(s[i-1].isalnum() or s[i-1]=='_')) else None
        if m:
            j=m.end(); p=0; last=j
            while True:
                ch=s[j]
                if s.startswith('//',j):
                    e=s.find('\n',j); j=e; continue
                if ch in '([': p+=1
                elif ch in ')]': p-=1
                elif ch==';' and p==0: body=None; break
                elif ch=='{' and p==0:
                    t=re.sub(r'//[^\n]*','',s[last:j])
                    if CL.search(t):
                        j=match_clause(s,j); last=j; continue
                    body=j; break
                j+=1
            if body is None: i=j+1; continue
            e=match_body(s,body)
            out.append((m.group(1),i,body,e,list(stack)))
            i=e; continue
        if c=='{': depth+=1
        elif c=='}':
            depth-=1
            if stack and stack[-1][0]==depth: stack.pop()
        i+=1
    return out


def match_body_struct(s,j):
    d=0;i=j
    while i<len(s):
        if s.startswith('//',i):
            e=s.find('\n',i); i=e; continue
        if s[i]=='{': d+=1
        elif s[i]=='}':
            d-=1
            if d==0: return i+1
        i+=1


LEFT_OUT = ("smscd", "handset", "smsim")


def is_left_out(crate):
    return crate.startswith("test") or crate in LEFT_OUT


def sources():
    for path in sorted(glob.glob(os.path.join(TOP, "crates", "*", "src", "**", "*.rt"), recursive=True)):
        crate = os.path.relpath(path, os.path.join(TOP, "crates")).split(os.sep)[0]
        if not is_left_out(crate):
            with open(path, encoding="utf-8") as file:
                yield os.path.relpath(path, os.path.join(TOP, "crates")), file.read()


def kinds_of(head):
    """In which ways the contract of a function speaks of one outcome alone."""
    ensures = re.findall(r"ensures\*?\s*\w*\s*\{(.*?)\}\s*(?=ensures|requires|$)", head, re.S)
    text = " ".join(ensures)
    answers = re.search(r"->\s*(.*?)\s*(?:where|requires|ensures|ghost)", head, re.S)
    answers = answers.group(1) if answers else ""
    some = r"result (≡|↔)|→ result ≡|option_\w+ .*result|MatchOption"
    if "IfSome result" in text and "IfNone" not in text and not re.search(some, text):
        yield "some"
    true = r"result ≡ (?!true|false)|↔|→ result ≡|→ IsTrue result|only"
    if answers.startswith("bool") and re.search(r"(IsTrue result|result ≡ true) →", text) and not re.search(true, text):
        yield "true"
    if answers.startswith("bool") and re.search(r"result ≡ false →", text) and not re.search(r"result ≡ true|result ≡ \(|↔", text):
        yield "false"
    result = re.match(r"Result<(.*),\s*([\w:<>]+)>$", answers.replace("\n", " "))
    errors = r"IfErr|OnErr|MatchResult|Err |result ≡|(Answer|Outcome|Takes|Answers|Tested|Splits|Adds|Reads|UnlessMemory|refus)"
    if result and result.group(2) not in ("AllocError", "NoMemory") and re.search(r"IfOk|OnOk", text) and not re.search(errors, text):
        yield "any " + result.group(2)


def functions_of(text, path):
    try:
        return functions(text)
    except ValueError:
        print(f"{path}: not understood")
        sys.exit(2)


def oneway():
    for path, text in sources():
        for name, start, body, _, _ in functions_of(text, path):
            head = text[start:body]
            if "ensures" in head:
                yield from (f"oneway {path} {name}: {kind}" for kind in kinds_of(head))


def hidden():
    for path, text in sources():
        for model in re.finditer(r"impl(<[^{]*?>)? Model for (\w+)", text):
            name = model.group(2)
            declared = re.search(r"struct " + name + r"\b[^{;]*\{(.*?)\n\}", text, re.S)
            if not declared:
                continue
            fields = re.findall(r"^\s*(?:pub(?:\([^)]*\))? )?(\w+):", declared.group(1), re.M)
            begin = text.index("{", model.end())
            shown = text[begin : match_clause(text, begin)]
            view = re.search(r"ghost view\s*=\s*", shown)
            if view:
                shown = shown[view.end() : match_clause(shown, view.end())]
            yield from (f"hidden {path} {name}.{field}" for field in fields if not re.search(r"\." + field + r"\b", shown) and field != "alloc")


def none():
    for path, text in sources():
        for name, start, body, _, around in functions_of(text, path):
            is_of_trait = any(kind == "impl" and re.search(r"\bfor\b", head) for _, kind, head in around)
            if not is_of_trait and "ensures" not in text[start:body]:
                yield f"none {path} {name}"


# What a run or a thread is handed, and memory: no value that a contract can name.
HANDLES = ("alloc", "rt")


def parameters_of(head):
    """The parameters of a function, each as its name and its type; and what stands behind them."""
    at = re.match(r"(?:const )?(?:unsafe )?fn \w+", head).end()
    depth = 0
    while head[at] != "(" or depth:
        depth += (head[at] == "<") - (head[at] == ">" and head[at - 1] not in "-=")
        at += 1
    begin, angles, nest, found = at + 1, 0, 0, []
    while True:
        character = head[at]
        nest += (character in "([{") - (character in ")]}")
        angles += (character == "<") - (character == ">" and head[at - 1] not in "-=")
        if nest == 0 or (character == "," and nest == 1 and angles == 0):
            found.append(head[begin:at].strip())
            begin = at + 1
        at += 1
        if nest == 0:
            break
    pairs = []
    for text in found:
        if re.match(r"(&('\w+ )?)?(mut )?self$", text):
            pairs.append(("self", text))
        elif text:
            name, kind = text.split(":", 1)
            pairs.append((name.replace("mut ", "").strip(), kind.strip()))
    return pairs, head[at:]


def with_clauses():
    for path, text in sources():
        for name, start, body, _, _ in functions_of(text, path):
            head = re.sub(r"//[^\n]*", "", text[start:body])
            if "ensures" in head:
                yield path, name, *parameters_of(head)


def ignored():
    for path, name, parameters, clauses in with_clauses():
        for parameter, _ in parameters:
            if parameter not in HANDLES and not re.search(r"\b" + parameter.lstrip("_") + r"\b", clauses):
                yield f"ignored {path} {name}: {parameter}"


def left():
    for path, name, parameters, clauses in with_clauses():
        said = clauses[clauses.find("ensures") :]
        for parameter, kind in parameters:
            if re.match(r"&('\w+ )?mut ", kind) and not re.search(r"\b" + parameter + r"\.new\b", said):
                yield f"left {path} {name}: {parameter}"
        if "->" in clauses[: clauses.find("ensures")] and not re.search(r"\bresult\b", said):
            yield f"left {path} {name}: result"


FORMS = {"oneway": oneway, "hidden": hidden, "none": none, "ignored": ignored, "left": left}


def right_lines():
    with open(RIGHT, encoding="utf-8") as file:
        return [line.strip() for line in file if line.strip() and not line.startswith("#")]


def main(words):
    if words:
        if words[0] not in FORMS:
            print(__doc__)
            return 2
        for line in FORMS[words[0]]():
            print(line)
        return 0
    found = {line for form in FORMS.values() for line in form()}
    right = set(right_lines())
    for line in sorted(found - right):
        print(f"a new one, or one without a reason: {line}")
    for line in sorted(right - found):
        print(f"no longer there: {line}")
    print(f"{len(found)} found, {len(found ^ right)} unlike forms.txt")
    return 1 if found != right or not found else 0


if __name__ == "__main__":
    sys.exit(main(sys.argv[1:]))
