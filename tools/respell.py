#!/usr/bin/env python3
"""Brings the repository's own names in definitions, theorems and proofs to today's spelling, once, after port.py: snake case for functions, fields and lemmas,
with a dash only between two names. Functions of src/, exported names, strings, inputs and outputs keep theirs.

usage: tools/respell.py LANDED [--write]    (LANDED: the commit before port.py ran; without --write it only says what it would do)

It reads the names that the files of specs/ and proofs/ declare, turns them there, in the clauses of src/, in must-fail edits and in the code spans of the pages, and
says where two names would fall together.
"""
import collections
import glob
import re
import subprocess
import sys

WORD = re.compile(r'[^\s(){}.;,@"«»`\[\]|\\:]+')
DECLARED = re.compile(r"^[ ]*(?:(?:abbrev|pub|unfoldable) )*([^\s(){}.;,@\"«»:]+) : ", re.M)
DEFINED = re.compile(r"^[ ]*(?:(?:abbrev|unfoldable) )(?:pub )?([^\s(){}.;,@\"«»:]+) : ", re.M)
FIELD = re.compile(r"^  +(?:pub )?([^\s(){}.;,@\"«»:]+) : ", re.M)
BOUND = re.compile(r"(?:λ|[(])\s*\(?((?:[A-Za-z][^\s(){}.;,@\"«»:]* )+): ")
LET = re.compile(r"\blet ([A-Za-z][^\s(){}.;,@\"«»:]*)(?: :| =|$)")
STRING = re.compile(r'"(?:[^"\\\n]|\\.)*"')
KEPT = re.compile(r'"(?:[^"\\\n]|\\.)*"|Rattle\.[^\s{;]*')
STEPS = {"count_of", "left_by"}  # steps of proofs that are named for a function
SMALL = set("a an the at of in is by no to as or on off out up are be it its not all any each one two some none few most same so than then that there this what where which who with within from for and again only own".split())


def comments_off(t):
    return re.sub(r"--[^\n]*", "", t)


def snake(word):
    "one piece: fourthOfKind is fourth_of_kind; a type's or fact's name stays"
    if not re.match(r"[a-z]", word):
        return word
    w = re.sub(r"(?<=[a-z0-9'])([A-Z])(?=[a-z0-9']|$|[A-Z])", lambda m: "_" + m[1].lower(), word)
    return w.lower() if re.search(r"[A-Z]", w) else w


def files(kind):
    return sorted(glob.glob(f"crates/*/{kind}/**/*.antt", recursive=True))


def landed_text(commit, path):
    r = subprocess.run(["git", "show", f"{commit}:{path}"], capture_output=True, text=True)
    return r.stdout if r.returncode == 0 else ""


def main():
    landed = sys.argv[1]
    write = "--write" in sys.argv
    antt = files("specs") + files("proofs")
    texts = {f: open(f).read() for f in antt}
    declared, defined, fields, bound, kept = set(), set(), set(), set(), set()
    std = set()
    ported = collections.defaultdict(collections.Counter)
    for f, t in texts.items():
        code = comments_off(t)
        goals = set(re.findall(r"^([^\s:]+) : tie\.", code, re.M)) if f.endswith("/Proof.antt") else set()
        names = [n for n in DECLARED.findall(code) if n not in goals]
        declared |= set(names)
        defined |= set(DEFINED.findall(code))
        for m in re.finditer(r"^(?:pub )?record [^\n]* where\n((?:[ ]+[^\n]*\n|\n)*)", code, re.M):
            fields |= set(FIELD.findall(m[1]))
        for m in BOUND.findall(code):
            bound |= set(m.split())
        bound |= set(LET.findall(code))
        for m in re.finditer(r"^(?:pub )?use ([^\s{]+)\.?(?:\{([^}]*)\})?", code, re.M):
            if m[2] and not re.match(r"Rattle\.(%s)\.(specs|proofs)" % CRATES, m[1]):
                std |= {x.strip().split(" as ")[0] for x in m[2].split(",")}
        now = DECLARED.findall(code)
        then = DECLARED.findall(comments_off(landed_text(landed, f)))
        if len(now) == len(then):
            for a, b in zip(then, now):
                if a != b:
                    ported[a][b] += 1
    names = {n for n in defined | fields | std if len(n) > 2 and n not in SMALL and "-" not in n}
    names |= {snake(n) for n in names}

    def new(word):
        parts = [snake(p) for p in word.split("-")]
        out = parts[0]
        for a, b in zip(parts, parts[1:]):
            out += ("-" if a in names and b in names else "_") + b
        return re.sub(r"__+", "_", out)

    own = {n for n in declared | fields | bound if re.match(r"[A-Za-zμα]", n) and (re.match(r"[a-z]", n))}
    own -= std
    table = {n: new(n) for n in own if new(n) != n and (re.search(r"[A-Z]", n) or "-" in n)}
    # a name that would fall together with another of its files: a lemma beside a function of its name takes _lem
    lemmas = declared - defined - fields
    path = re.compile(r"Rattle\.[^\s{;]*|(?:tie|goal|reads|lts|c|l)\.[^\s(){},;]*")
    used = {}
    for f, t in texts.items():
        code = path.sub(" ", STRING.sub(" ", comments_off(t)))
        if f.endswith("/Proof.antt"):
            code = re.sub(r"\.([^\s(){}.;,@\"«»`\[\]|\\:]+)", lambda m: " " + m[1] if m[1] in fields and m[1] not in STEPS else " ", code)
        used[f] = set(WORD.findall(code))
    again = True
    while again:
        again = False
        for f, ws in used.items():
            by = collections.defaultdict(set)
            for w in ws:
                by[table.get(w, w)].add(w)
            for n, olds in by.items():
                if len(olds) > 1:
                    rank = lambda o: 3 if o in defined else 2 if o in fields else 1 if o in declared else 0
                    mine = sorted((o for o in olds if o in own or o in declared), key=lambda o: (rank(o), o))
                    pick = mine[0]
                    table[pick] = n + ("_here" if rank(pick) == 0 else "_lem")
                    print(f"together: {f}: {sorted(olds)} would be {n}: {pick} ({rank(pick)}) is {table[pick]}")
                    again = True
    for a, b in sorted(table.items()):
        print(f"{a}\t{b}")
    whole = dict(table)  # from LANDED's names, for edits and pages
    for a, c in ported.items():
        b = c.most_common(1)[0][0]
        if len(c) > 1:
            print(f"ported: {a} became {dict(c)}")
        whole[a] = table.get(b, b)
    print(len(table), "names;", len(ported), "that port.py turned")
    if not write:
        return

    def turn(text, t, dotted=lambda w: True):
        def one(m):
            w = m[0]
            if w not in t:
                return w
            if text[m.start() - 1:m.start()] == "." and not dotted(w):
                return w
            return t[w]
        out, last = "", 0
        for m in KEPT.finditer(text):
            out += WORD_in(text, last, m.start(), one) + m[0]
            last = m.end()
        return out + WORD_in(text, last, len(text), one)

    def WORD_in(text, a, b, one):
        out, last = "", a
        for m in WORD.finditer(text, a, b):
            out += text[last:m.start()] + one(m)
            last = m.end()
        return out + text[last:b]

    reach = fields | declared
    generated = re.compile(r"(?:tie|goal|reads|lts)\.[^\s(){},;]*")
    for f, t in texts.items():
        if f.endswith("/Proof.antt"):
            parts, out, last = list(generated.finditer(t)), "", 0
            for m in parts:
                out += turn(t[last:m.start()], table, lambda w: w in fields) + m[0]
                last = m.end()
            n = out + turn(t[last:], table, lambda w: w in fields)
        else:
            n = turn(t, table, lambda w: w in reach)
        if n != t:
            open(f, "w").write(n)
    clause = re.compile(r"ghost use [^;]*;|(?:requires|ensures)\*?(?: \w+)? \{[^\n]*\}|(?:requires|ensures)\*?(?: \w+)? \{\n(?:[ ]+[^\n]*\n)*?[ ]*\}|ghost \w+: \{[^\n]*\}")
    for f in sorted(glob.glob("crates/*/src/**/*.rt", recursive=True)):
        t = open(f).read()
        n = clause.sub(lambda m: turn(m[0], table), t)
        if n != t:
            open(f, "w").write(n)
    for f in sorted(glob.glob("crates/*/must-fail/*.edit")):
        t = open(f).read()
        file = re.search(r"^file: (\S+)", t, re.M)
        lines = []
        path = ""
        for line in t.split("\n"):
            if line.startswith("file: "):
                path = line[6:]
            if re.match(r"(old|new|same): ", line) and path.endswith(".antt"):
                head, rest = line.split(": ", 1)
                line = head + ": " + tight(turn(rest, whole))
            lines.append(line)
        n = "\n".join(lines)
        if n != t:
            open(f, "w").write(n)
    span = re.compile(r"`[^`\n]*`")
    for f in sorted(glob.glob("docs/*.md") + ["README.md", "CONTRIBUTING.md"]):
        t = open(f).read()
        n = span.sub(lambda m: turn(m[0], {a: b for a, b in whole.items() if re.search("[A-Z-]", a)}), t)
        if n != t:
            open(f, "w").write(n)


def tight(text):
    "a projection is written tight, and operators with a hole are dotted circles"
    text = re.sub(r"([\w')\]]) \.(?=[\w'])", r"\1.", text)
    return text.replace("getD", "get_or")


CRATES = "|".join(sorted({p.split("/")[1] for p in glob.glob("crates/*/src")}, key=len, reverse=True))
if __name__ == "__main__":
    main()
