#!/usr/bin/env python3
"""respell.py [FOLDER]: spells the repository's own definitions and lemmas in snake case, once, over the text that the kit's port.py leaves.

A name that a file of specs/, or a file of laws right in proofs/, declares, and a name that a `use` line gives by `as`, is turned: `putWithin` and
`put-within` become `put_within`. Types and modules keep their capital. Names that Rattle makes, and names of Rust, stay. Where two names would fall
together, the dashed one gets `_lem`. Below FOLDER (the current folder if none is named) it turns crates/*/{src,specs,proofs}, of src/ what only
proofs see, and prints the table of what it turned."""
import glob
import os
import re
import sys

os.chdir(sys.argv[1] if len(sys.argv) > 1 else ".")
WORD = re.compile(r'[^\s(){}.;,@"«»`\[\]|:]+')
DECLARED = re.compile(r"^ *(?:(?:pub|abbrev|unfoldable) )*((?:[^\s:(){}]+ )+):(?= |$)", re.M)
AS = re.compile(r" as ([^\s,;}]+)")
CAMEL = re.compile(r"[a-z]\w*[a-z0-9][A-Z]\w*")


def read(path):
    with open(path, encoding="utf-8") as f:
        return f.read()


def snake(name):
    return re.sub(r"(?<=[a-z0-9])[A-Z]", lambda m: "_" + m[0].lower(), name).replace("-", "_")


def plain(name):
    return re.fullmatch(r"[a-zA-Z_][\w'₀-₉-]*", name) and not re.search(r"[A-Z]\w*-|-\w*[A-Z]", name) and name[0].islower()


specs = sorted(glob.glob("crates/*/specs/**/*.antt", recursive=True))
laws = sorted(glob.glob("crates/*/proofs/*.antt"))
proofs = sorted(set(glob.glob("crates/*/proofs/**/*.antt", recursive=True)) - set(laws))
sources = sorted(glob.glob("crates/*/src/**/*.rt", recursive=True))
texts = {path: read(path) for path in specs + laws + proofs + sources}

own = set()
for path in specs + laws:
    bare = re.sub(r"--.*", "", texts[path])
    for found in DECLARED.findall(bare):
        own |= set(found.split())
    own |= {word for word in WORD.findall(bare) if CAMEL.fullmatch(word)}  # what is bound in a definition
for path in specs + laws + proofs + sources:
    for line in re.findall(r"^\s*(?:pub |ghost )*use .*$", texts[path], re.M):
        own |= {name for name in AS.findall(line) if CAMEL.fullmatch(name)}
own = {name for name in own if plain(name) and snake(name) != name}

# The names that stand alone in a file, and so could be met there: not those behind a dot, no label, and of Rust not the names of functions.
there, where = {}, {}
for path, text in texts.items():
    bare = re.sub(r"--.*" if path.endswith(".antt") else r"//.*|\"[^\"]*\"", "", text)
    where[path] = set(WORD.findall(text))
    if path in sources:
        bare = re.sub(r"\bfn \w+|\w+\(|\bmod \w+|::\w+|\w+::|^(pub )?use .*|\b(ensures|requires) \w+|\.\w+", "", bare, flags=re.M)
        there[path] = set(re.findall(r"\b\w+\b", bare))
    else:
        there[path] = {m[0] for m in WORD.finditer(bare) if bare[m.start() - 1:m.start()] != "."}
turned = {}
for name in sorted(own, key=lambda name: ("-" in name, name)):
    new = snake(name)
    while new in turned.values() or any(name in where[path] and new in there[path] for path in texts):
        new += "_lem" if "-" in name else "_of"
    turned[name] = new


def word(m, text, dashed):
    name = m[0]
    if name not in turned or "-" in name and not dashed:
        return name
    before = text[m.start() - 1:m.start()]
    if before == "\\" or "-" in name and before == ".":
        return name
    return turned[name]


def antt(text):
    return WORD.sub(lambda m: word(m, text, True), text)


def rust(text):
    """Of Rattle's text the lines that only proofs see, and what comments name; a name in camel case is never Rust's."""
    def line(row):
        ghost = re.match(r"\s*(ghost |requires|ensures|//)", row) is not None
        return WORD.sub(lambda m: word(m, row, ghost and not row.lstrip().startswith("//")), row)
    return "\n".join(row if '"' in row else line(row) for row in text.split("\n"))


for path, text in texts.items():
    new = rust(text) if path in sources else antt(text)
    if new != text:
        with open(path, "w", encoding="utf-8") as f:
            f.write(new)
for old, new in sorted(turned.items()):
    print(f"{old}\t{new}")
