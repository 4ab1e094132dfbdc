#!/usr/bin/env python3
"""Respells this repository's own names in definitions, lemmas and clauses, once, after port.py of the kit.

A name with a dash that is declared in specs/ or beside it in proofs/ becomes snake case; where it begins with
a capital letter, it becomes camel case. Names that the checker makes (goals, steps of a function) are declared
below proofs/FUNCTION/ and keep their spelling, and so do strings, comments and the functions of src/. In the
pages, names in backticks and brackets are respelled. A name that would fall together with another stops the run.
"""
import pathlib
import re
import sys

NAME = re.compile(r"(?<![\w'◌-])[A-Za-z_][\w']*(?:-[\w']+)*(?![\w'-])")
# a string, which keeps its words
TEXT = re.compile(r'"(?:[^"\\\n]|\\.)*"')

# what a line of the code binds
BOUND = re.compile(r"\blet (?:mut )?(\w+)|\b(\w+): ")


def declared(folder):
    """The names that the lines of specs/*.antt and proofs/*.antt of all crates declare."""
    found = set()
    for path in sorted(folder.glob("crates/*/specs/*.antt")) + sorted(folder.glob("crates/*/proofs/*.antt")):
        for line in path.read_text().splitlines():
            head = line.split("--")[0]
            if " : " not in head or head.lstrip().startswith("use "):
                continue
            head = head.split(" : ")[0].replace("(", " ").replace("{", " ")
            words = [w for w in head.split() if w not in ("abbrev", "pub", "unfoldable", "record", "data", "mod")]
            if words and NAME.fullmatch(words[0]):
                found.add(words[0])
    return found


def respelled(name):
    if name[0].isupper():
        return "".join(w[0].upper() + w[1:] for w in re.split(r"[-_]", name) if w)
    return name.replace("-", "_")


def pieces(text, comment):
    """The text in pieces: (is it code, the piece)."""
    for line in text.splitlines(keepends=True):
        at = 0
        cut = len(line)
        inside = False
        for i, c in enumerate(line):
            if c == '"' and (i == 0 or line[i - 1] != "\\"):
                inside = not inside
            if not inside and line.startswith(comment, i):
                cut = i
                break
        for m in TEXT.finditer(line[:cut]):
            yield True, line[at : m.start()]
            yield False, m.group(0)
            at = m.end()
        yield True, line[at:cut]
        yield False, line[cut:]


def turned(text, comment, names):
    return "".join(NAME.sub(lambda m: names.get(m.group(0), m.group(0)), p) if code else in_ticks(p, names) for code, p in pieces(text, comment))


def in_ticks(text, names):
    """Names in backticks, in comments and pages."""
    return re.sub(r"`[^`\n]+`", lambda t: NAME.sub(lambda m: names.get(m.group(0), m.group(0)), t.group(0)), text)


def main():
    folder = pathlib.Path(".")
    names = {n: respelled(n) for n in declared(folder) if respelled(n) != n}
    sources = [p for p in sorted(folder.glob("crates/**/*")) if p.suffix in (".rt", ".antt") and "out" not in p.parts]
    taken = declared(folder)
    for p in sources:
        antt = p.suffix == ".antt"
        for code, piece in pieces(p.read_text(), "--" if antt else "//"):
            if code and antt and not re.match(r"\s*(pub )?(use|mod) ", piece):
                # a variable, or a name of std; a module may have the name of its record
                taken |= set(NAME.findall(piece))
            elif code and not antt:
                # a binding, a parameter or a field; a function may have the name of a definition
                taken |= {m.group(1) or m.group(2) for m in BOUND.finditer(piece)}
    fallen = sorted(f"{a} and {b}" for a, b in names.items() if b in taken)
    twice = sorted({b for b in names.values() if list(names.values()).count(b) > 1})
    if fallen or twice:
        sys.exit("these names would fall together: " + ", ".join(fallen + twice))
    for p in sources:
        old = p.read_text()
        new = turned(old, "--" if p.suffix == ".antt" else "//", names)
        if new != old:
            p.write_text(new)
    for p in [folder / "README.md"] + sorted(folder.glob("docs/*.md")):
        old = p.read_text()
        new = in_ticks(old, names)
        if new != old:
            p.write_text(new)
    print(f"{len(names)} names respelled")


main()
