#!/usr/bin/env python3
"""Respells this repository's own definitions and lemmas as today's Rattle spells them: words in snake case, types and modules in
camel case. Run once at the top of the repository, directly after port.py and before its result is committed.

usage: respell.py          rewrites proof files and contracts, then must-fail edits and pages, which port.py leaves
       respell.py --list   prints each old name with its new one
"""

import glob
import os
import re
import subprocess
import sys

WORD = re.compile(r"[A-Za-z_][A-Za-z0-9_']*(?:-[A-Za-z0-9_']+)*")
DECLARED = re.compile(r"^[ \t]*(?:abbrev |unfoldable |pub |record |data )*([^\s:(){},;]+)(?: \([^)\n]*\))* :(?: (\S+)|$)", re.M)
BINDERS = [re.compile(r"[({]([^(){}:\n]+?) : "), re.compile(r"λ ([^.(\n]+)\."), re.compile(r"let ([^\s:=]+) ")]
# What Rattle names in the proof of a function keeps its spelling.
GOALS = ("Proof.antt", "Answers.antt", "Invariants.antt")
COMMENT = {".antt": "--", ".rt": "//", ".edit": "#"}


def read(path):
    with open(path, encoding="utf-8") as file:
        return file.read()


def proof_files():
    return [p for p in sorted(glob.glob("crates/*/**/*.antt", recursive=True)) if "/out/" not in p]


def declared(path, text):
    of_goals = os.path.basename(path) in GOALS
    return [name for name, kind in DECLARED.findall(text) if not (of_goals and kind.startswith("tie."))]


def is_old(name):
    return bool(re.match(r"[a-z]", name)) and bool(re.search(r"[a-z0-9'][A-Z]|-", name)) and bool(WORD.fullmatch(name))


def snake(name):
    return re.sub(r"(?<=[a-z0-9'])(?=[A-Z])", "_", name).replace("-", "_").lower()


def turned_names():
    """Each old name with its new one. A lemma that would have a definition's name gets `_lem`."""
    names, standing, lemmas = set(), set(), set()
    for path in proof_files():
        text = read(path)
        here = declared(path, text)
        names.update(here)
        for binder in BINDERS:
            for group in binder.findall(text):
                names.update(group.split())
        if os.path.basename(path) not in GOALS:
            standing.update(here)
            lemmas.update(here if "/proofs/" in path else ())
    olds = sorted(filter(is_old, names))
    definitions = {snake(name) for name in olds if "-" not in name}
    turned = {name: snake(name) + ("_lem" if "-" in name and snake(name) in definitions | standing else "") for name in olds}
    turned.update({name: name + "_lem" for name in definitions & lemmas})
    return turned


def before(path):
    """The file as it was before port.py."""
    return subprocess.run(["git", "show", "HEAD:" + path], capture_output=True, text=True, encoding="utf-8").stdout


def all_turned():
    """What port.py and this script turned together, read off the declarations of each file before and after."""
    turned = {}
    for path in proof_files():
        if os.path.basename(path) not in GOALS:
            turned.update(zip(declared(path, before(path)), declared(path, read(path))))
    return {old: new for old, new in turned.items() if old != new}


def respelt_by(turned):
    return lambda text: WORD.sub(lambda match: turned.get(match.group(0), match.group(0)), text)


def in_backticks(text, respelt):
    return re.sub(r"`[^`\n]+`", lambda span: respelt(span.group(0)), text)


def in_code(text, mark, respelt):
    """Respells code whole, and of a comment only what stands between backticks."""
    def of_line(line):
        code, sign, comment = line.partition(mark)
        return respelt(code) + sign + in_backticks(comment, respelt)

    return "\n".join(map(of_line, text.split("\n")))


def todays_forms(line):
    """An edit's text with the paths, operators and projections that port.py writes."""
    line = re.sub(r"Rattle·(\w+)(?:·(?:specs|proofs))?\.", r"Rattle.\1.", line).replace("the-variants", "TheVariants")
    if line.startswith(("old: use ", "new: use ")):
        line = re.sub(r"(?<=[{ ])_(\S+?)_(?=[,}])", r"◌\1◌", line)
    line = re.sub(r"\(((?:now )?[a-z]\w*(?: \.\w+)+)\)", lambda m: re.sub(r" (?=\.)", "", m.group(1)), line)
    return re.sub(r"(?<=[\w)]) (?=\.\w)", "", line)


def rewrite(path, new):
    if new != read(path):
        with open(path, "w", encoding="utf-8") as file:
            file.write(new)


def main():
    turned = turned_names()
    if "--list" in sys.argv:
        for old, new in sorted(turned.items()):
            print(old, new)
        return
    for path in proof_files() + sorted(glob.glob("crates/*/src/**/*.rt", recursive=True)):
        rewrite(path, in_code(read(path), COMMENT[os.path.splitext(path)[1]], respelt_by(turned)))
    respelt = respelt_by(all_turned())
    for path in sorted(glob.glob("crates/*/must-fail/*.edit")):
        text = read(path)
        if "file: src/" not in text:
            text = "\n".join(todays_forms(line) if line.startswith(("old: ", "new: ")) else line for line in text.split("\n"))
        rewrite(path, in_code(text, "#", respelt))
    for pattern in ("docs/**/*.md", "*.md", "*/*/*.md", "include/*.h"):
        for path in glob.glob(pattern, recursive=True):
            rewrite(path, in_backticks(read(path), respelt))


main()
