#!/usr/bin/env python3
"""Respells the repository's own definitions and lemmas as today's Rattle spells names; run once, right after the kit's port.py.

usage: tools/respell.py [--check]      at the top of the repository

    messageOk -> message_ok      codes-read-back -> codes_read_back      length-put -> length-put (a lemma about `length`)
    STATION-BYTES -> STATION_BYTES

Types, facts and modules keep their upper camel case. A dash stays behind the name of a definition, since it joins two names there. Functions of
src/, exported names, strings, inputs and outputs keep theirs. --check prints the table and changes nothing. A name that falls together with
another one is printed and left alone.
"""

import collections
import os
import re
import subprocess
import sys

WORD = r"[A-Za-z_][A-Za-z0-9_'₀-₉\-]*"
TOKEN = re.compile(r"(?<![A-Za-z0-9_'₀-₉·◌\-])" + WORD)
# A name that is no part of a path.
FREE = re.compile(r"(?<![A-Za-z0-9_'₀-₉·◌\-.])" + WORD)
HEAD = re.compile(r"^( *)((?:(?:pub|abbrev|unfoldable|data|record|ruleset) )*)(" + WORD + r")((?: (?:[({][^:\n]*:[^)}\n]*[)}]|\{ℓ\}))*) :(?: (.*))?$", re.M)
RULESET = re.compile(r"^ *(?:pub )?ruleset (" + WORD + r")\b", re.M)
# Words of prose with a dash: comments keep them.
PROSE = set("one-to-one read-back half-cycle half-cycles by-case go-on at-most look-up".split())
# Functions of the library, behind which a dash joins two names.
LIBRARY = set(
    "length get_or getD drop take map reverse set sets append sum filter flat_map flatMap concat replicate".split()
)


def files():
    for top in ("crates",):
        for folder, dirs, names in os.walk(top):
            dirs[:] = sorted(d for d in dirs if d != "out")
            for name in sorted(names):
                if name.endswith((".antt", ".rt", ".edit")):
                    yield os.path.join(folder, name)


def read(path):
    with open(path, encoding="utf-8") as f:
        return f.read()


def library_names():
    """Every name with a dash or a capital that the kit's own files declare."""
    page = subprocess.run(["rt", "doc"], capture_output=True, text=True, check=True).stdout.split()[0]
    kit = os.path.join(os.path.dirname(page), "rattle")
    said = subprocess.run(
        ["grep", "-rhoE", "--include=*.antt", r"^ *((pub|abbrev|unfoldable|data|record|ruleset) )*[A-Za-z_][^ ():;{}]* :", kit],
        capture_output=True, text=True, errors="replace",
    ).stdout
    return {line.strip().split(" ")[-2] for line in said.splitlines() if line.strip()}


def declared():
    """Own names: those of specs/ and of lemma files, and local lemmas of the proofs of functions; with the definitions of specs/ apart."""
    own, specs = set(), set()
    for path in files():
        if not path.endswith(".antt"):
            continue
        text = read(path)
        at_function = os.path.basename(path) in ("Proof.antt", "Answers.antt", "Invariants.antt")
        for m in HEAD.finditer(text):
            kind = (m.group(5) or "").strip()
            if at_function and (kind.startswith(("tie.", "goal.")) or "statement" in kind):
                continue
            own.add(m.group(3))
            if "/specs/" in path and not m.group(1) and (m.group(2).strip() or True) and "→" in kind:
                specs.add(m.group(3))
        for m in RULESET.finditer(text):
            own.add(m.group(1))
    return own, specs


def snake(word):
    word = re.sub(r"(?<=[a-z0-9])(?=[A-Z])", "_", word)
    return word if re.match(r"^[A-Z]", word) and not word.isupper() else word.lower()


def respelled(name, joins):
    if re.fullmatch(r"[A-Z][A-Z0-9]*(-[A-Z0-9]+)+", name):
        return name.replace("-", "_")
    if name[0].isupper():
        head, dash, tail = name.partition("-")
        return name if not dash else head + "-" + tail.replace("-", "_")
    parts = name.split("-")
    parts = [p if p[:1].isupper() else snake(p) for p in parts]
    out = parts[0]
    for k in range(1, len(parts)):
        before = "_".join(parts[:k])
        fact = parts[k][:1].isupper()
        out += ("-" if before in joins and k == first_join(parts, joins) or fact else "_") + parts[k]
    return out


def first_join(parts, joins):
    """The place of the one dash that stays: behind the longest beginning that is a definition's name."""
    for k in range(len(parts) - 1, 0, -1):
        if "_".join(parts[:k]) in joins:
            return k
    return 0


def table():
    own, specs = declared()
    kit = library_names()
    joins = {to for to in (snake(n.replace("-", "_")) for n in specs) if "_" in to} | LIBRARY
    moved = {}
    for name in sorted(own):
        if name in kit:
            continue
        to = respelled(name, joins)
        if to != name:
            moved[name] = to
    present = collections.Counter()
    for path in files():
        if path.endswith(".antt"):
            present.update(set(FREE.findall(code_of(read(path)))))
    # A lemma that would have its function's name gets `_lem`.
    functions = {to for n, to in moved.items() if "-" not in n} | {n for n in own if "-" not in n and n not in moved}
    for n, to in moved.items():
        if "-" in n and to in functions:
            moved[n] = to + "_lem"
    by = collections.Counter(moved.values())
    falls = {n: to for n, to in moved.items() if present[to] or to in own or by[to] > 1}
    return moved, falls


def code_of(text):
    return re.sub(r"--[^\n]*", "", text)


def turn_line(line, moved, source):
    """One line with its names turned: in a comment no word of prose, in src/ no line of strings."""
    if source and '"' in line:
        return line
    at = re.search(r"^#|(^|\s)(--|//)", line)
    cut = at.start() if at else len(line)

    def sub(inside):
        def one(m):
            w = m.group(0)
            if inside and (w in PROSE or line.startswith("#") and "-" in w) or source and "-" in w and not re.search(r"ghost use|\{ |λ|≡", line):
                return w
            return moved.get(w, w)

        return one

    return TOKEN.sub(sub(False), line[:cut]) + TOKEN.sub(sub(True), line[cut:])


def main(argv):
    moved, falls = table()
    for n, to in sorted(falls.items()):
        print(f"falls together: {n} -> {to}")
    # Both get out of each other's way: the lemma is `_lem`.
    lemmas = {to: to + "_lem" for to in falls.values()}
    if "--check" in argv:
        for n, to in sorted(moved.items()):
            print(f"{n} -> {to}")
        return 0
    changed = 0
    for path in files():
        text = read(path)
        source = path.endswith(".rt")
        apart = FREE.sub(lambda m: lemmas.get(m.group(0), m.group(0)), text) if path.endswith(".antt") else text
        new = "\n".join(turn_line(line, moved, source) for line in apart.split("\n"))
        if new != text:
            with open(path, "w", encoding="utf-8") as f:
                f.write(new)
            changed += 1
    print(f"{len(moved)} names, {changed} files, {documents()} documents")
    return 0


def documents():
    """Turns the names that documents give between backticks, port.py's too: each that is declared under its new spelling now."""
    now, _ = declared()
    changed = 0
    for path in ["README.md"] + sorted(os.path.join("docs", f) for f in os.listdir("docs") if f.endswith(".md")):
        text = read(path)

        def name(m):
            to = m.group(0).replace("-", "_") if m.group(0).isupper() else snake(m.group(0))
            return to if to in now else m.group(0)

        camel = re.compile(r"(?<![\w/-])(?:[a-z][a-z0-9]*(?:[A-Z][a-z0-9]*)+|[A-Z]+(?:-[A-Z]+)+)(?![\w/-])")
        new = re.sub(r"`[^`\n]*`", lambda m: camel.sub(name, m.group(0)), text)
        if new != text:
            with open(path, "w", encoding="utf-8") as f:
                f.write(new)
            changed += 1
    return changed

if __name__ == "__main__":
    raise SystemExit(main(sys.argv[1:]))
