#!/usr/bin/env python3
"""fits.py: whether each edit of refused/NAME fits the text of crates/NAME.

An edit fits where each of its files is there; each 'old:' text stands exactly once in its file, as the pairs before it leave that; it differs from its 'new:'
text; and what is new has no older spelling and no name that neither the crates' src/ and specs/ nor the library's have, but the names that it gives itself.
The last line is 'N fit, M do not', and the exit status is 1 where M is not 0."""
import glob
import os
import re
import shutil
import sys

os.chdir(os.path.join(os.path.dirname(os.path.abspath(__file__)), ".."))
KIT = os.environ.get("RATTLE_HOME") or os.path.dirname(os.path.dirname(os.path.realpath(shutil.which("rt") or "rt")))
WORD = re.compile(r"(?<![\w'])[^\W\d][\w'₀-₉]*")
OLD = re.compile(r"[⌜⌝·«»′]|(?<![\w)])_[^\s\w]+_(?!\w)|(?<!\.)\bnow\b|\b(entry|exit)\b(?=\))|\w \.[a-z]|\b(the-variants|mathlib|lib)\b|λ \w+\. ⌜")


def read(path):
    with open(path, encoding="utf-8") as f:
        return f.read()


def known():
    """Every word of the crates' sources and definitions, and of the library's."""
    found = set()
    for folder in ("crates/*", f"{KIT}/rattle/core", f"{KIT}/rattle/std"):
        for path in glob.glob(f"{folder}/src/**/*.rt", recursive=True) + glob.glob(f"{folder}/specs/**/*.antt", recursive=True):
            found |= set(WORD.findall(read(path)))
    return found


def bound(text):
    """The names that a piece of text gives: of functions, constants, parameters, and in `let` and λ."""
    rust = re.findall(r"\b(?:fn|const|let|let mut) (\w+)|[(,] ?(\w+): ", text)
    antt = re.findall(r"λ \(?([^.:()]+)[.:]|^abbrev pub (\S+) :", text)
    return {word for pair in rust for word in pair} | set(WORD.findall(" ".join(map(" ".join, antt))))


def wrong(name, edit):
    """What is wrong with an edit, or ''."""
    texts, file, old, pairs = {}, "", "", 0
    for line in edit.split("\n"):
        if line.startswith("file: "):
            file = line[6:]
            if not re.match("(src|specs)/", file) or not os.path.isfile(f"crates/{name}/{file}"):
                return f"'{file}' is no file of src/ or specs/"
            texts.setdefault(file, read(f"crates/{name}/{file}"))
        elif line.startswith("old: "):
            old = line[5:]
        elif line.startswith("new:"):
            new = line[4:].removeprefix(" ")
            if not file or not old or texts[file].count(old) != 1:
                return f"an 'old:' text is in {file} {texts[file].count(old) if file and old else 0} times: {old}"
            if old == new:
                return "'old:' and 'new:' are the same"
            spelling = OLD.search(new)
            if spelling and not OLD.search(texts[file].split(old)[0].rpartition("\n")[2] + old):
                return f"an older spelling: {spelling[0]}"
            strange = set(WORD.findall(new)) - KNOWN - bound(new)
            if strange:
                return f"no text has {' '.join(sorted(strange))}"
            texts[file] = texts[file].replace(old, new)
            old, pairs = "", pairs + 1
    return "" if pairs else "it has no 'old:' and 'new:' pair"


KNOWN = known()
fit = unfit = 0
for path in sorted(glob.glob("refused/*/*.edit")):
    why = wrong(path.split("/")[1], read(path))
    if why:
        print(f"{path.removeprefix('refused/').removesuffix('.edit')}: {why}")
    fit, unfit = fit + (not why), unfit + bool(why)
print(f"{fit} fit, {unfit} do not")
sys.exit(1 if unfit else 0)
