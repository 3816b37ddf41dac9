#!/usr/bin/env python3
"""reach.py NAME FILE:LINE: the declarations of a crate to which names lead from those at a place. tools/refused asks which edits can have caused an error.

A crate is read as pieces: each declaration of specs/ and proofs/, with its signature, its clauses and the head of its section; each item of src/, a
function's contract and its body apart, but for those in a trait or an impl, which is one piece by the names of its head and its members. A piece leads to every piece of the crate that a word of it may name: one of its own file, one that a `use` line
of the file brings, in src/ any item that is so spelled. A name that stands for what Rattle makes of a type or a function leads to that type, to that
contract or, as in the function's own proof, to its body too. Nothing else leads to a body. What Rattle proves by itself of a function, at a place of src/,
is of its contract and body, and so of its invariants; its answers count too.

antt has no instances, coercions or hints: a check uses what the text names, what the texts of these name, and so on; and what Rattle tries by itself has
the facts of the code and the kit's own lemmas, and those that an attribute `tactic` names. A word that only looks like a name is taken for one, and a
definition or a proof is read on wherever it is named, opened or not: more is reached than a check can use."""
import functools
import os
import re
import sys

NAME = r'[^\s(){}.;,@"«»]+'
WORD = re.compile(NAME)
DECLARED = re.compile(rf"(?:(?:unfoldable|abbrev|opaque|axiom|pub) )*(?:(record|data|ruleset) ({NAME})|({NAME})(?: \{{[^}}]*\}})? :(?: |$))")
ITEM = re.compile(r'(?:pub(?:\(crate\))? )?(?:unsafe )?(?:extern "C" )?(fn|const|static|struct|enum|type) (\w+)')
BLOCK = re.compile(r"(?:pub(?:\(crate\))? )?(?:unsafe )?(?:impl|trait)\b")
MEMBER = re.compile(r" +(?:pub(?:\(crate\))? )?(?:fn|ghost|const|type) (\w+)")
OTHER = re.compile(r"(?:pub(?:\(crate\))? )?(?:unsafe )?(?:union|macro_rules!|extern)\b")
USE = re.compile(r"(?:pub )?(?:ghost )?use ([^\s{;]+)(?:\{([^}]*)\})?(?: as ([^\s;]+))?")
OF_A_CONTRACT = ("Reads", "Kinds", "Statement", "Met")  # what Rattle makes of a function's contract alone
PROOF = re.compile(r"proofs/(?:.*/)?([^/]*)/(Answers|Invariants|Proof)\.antt$")  # a file of a function's proof


class Piece:
    """A declaration or an item: its file, its place, which is where it starts, its lines and their text, and the names that it declares. The mate of a
    contract is its body, and of a body its contract."""

    def __init__(self, file, line, names):
        self.file, self.place, self.names, self.lines, self.text, self.mate = file, f"{file}:{line}", names, [], "", None

    def add(self, line, text):
        self.lines.append(line)
        self.text += text + "\n"


def declarations(file, text):
    """The pieces of a file of antt, and its `use` lines."""
    pieces, uses, sections, piece, data = [], [], [], None, False
    for line, words in enumerate(text.split("\n"), 1):
        indent, words = len(words) - len(words.lstrip(" ")), words.strip()
        if not words or words.startswith("--"):
            continue
        while sections and indent < sections[-1][0]:
            sections.pop()
        level = sections[-1][0] if sections else 0
        found = DECLARED.match(words) if indent == level else None
        if indent == 0 and re.match("(pub )?(use|mod) ", words):
            uses.append(words)
        elif indent == level and words.startswith("module "):
            sections.append((level + 2, [(line, words)]))
            piece = None
        elif found:
            piece, data = Piece(file, line, {found[2] or found[3]}), found[1] == "data"
            pieces.append(piece)
            for head in (head for _, heads in sections for head in heads):
                piece.add(*head)
            piece.add(line, words)
        elif piece:
            piece.add(line, words)
            if data and (constructor := re.match(rf"({NAME}) :", words)):
                piece.names.add(constructor[1])
        elif sections:
            sections[-1][1].append((line, words))
        elif uses:
            uses[-1] += " " + words
    return pieces, uses


def items(file, text):
    """The pieces of a file of Rattle, and its `use` lines. A body starts behind a line at the margin that ends in '{'. An attribute belongs to the item
    below it, and one of the whole file to each piece."""
    pieces, uses, piece, function, marks, whole, open_mark = [], [], None, False, [], [], 0
    for line, words in enumerate(text.split("\n"), 1):
        found = ITEM.match(words)
        if not words.strip() or words.strip().startswith("//"):
            continue
        if open_mark or words.startswith(("#[", "#![")):
            (whole if words.startswith("#!") or (open_mark and not marks) else marks).append((line, words))
            open_mark += words.count("[") - words.count("]")
            continue
        if not found and OTHER.match(words):
            raise ValueError(f"{file}:{line}: an item that is not known here: {words}")
        if re.match("(pub )?(ghost )?(use|mod) ", words):
            uses.append(words)
            piece = None
        elif BLOCK.match(words):
            piece, function = Piece(file, line, set(re.findall(r"\b[A-Z]\w*", words))), False
            pieces.append(piece)
            for mark in marks:
                piece.add(*mark)
            marks = []
        elif found:
            piece, function = Piece(file, line, {found[2]}), found[1] == "fn"
            pieces.append(piece)
            for mark in marks:
                piece.add(*mark)
            marks = []
        elif not piece and uses:
            uses[-1] += " " + words.strip()
        if piece:
            piece.add(line, words)
            if BLOCK.match(piece.text) and (member := MEMBER.match(words)):
                piece.names |= {member[1]} | ({"into"} if member[1] == "from" else set())
        if piece and function and words[0] != " " and words.endswith("{"):
            body, function = Piece(file, line + 1, set()), False
            piece.mate, body.mate, piece = body.place, piece.place, body
            pieces.append(body)
    for piece in pieces:
        for mark in whole:
            piece.add(*mark)
    return pieces, uses


@functools.lru_cache(4096)
def read(file, text):
    return items(file, text) if file.endswith(".rt") else declarations(file, text)


def parts(words):
    """Words, with the parts of those that are operators."""
    return {part for word in words for part in (word, *word.split("◌"))} - {""}


class Crate:
    """The pieces of a crate, by their places, and where names lead. The sources are given by their paths below the crate."""

    def __init__(self, name, texts):
        self.name, self.own, self.texts = name, re.compile(rf"Rattle\.{name}\.(specs|proofs)\b\.?([^\s(){{}};,]*)"), texts
        self.files = {file: read(file, text) for file, text in texts.items()}
        self.pieces = {piece.place: piece for pieces, _ in self.files.values() for piece in pieces}
        self.items, self.cycles, self.proofs, self.known, self.led, self.back = {}, {}, {}, {}, {}, ({}, {})
        for piece in self.pieces.values():
            for word in piece.names if piece.file.endswith(".rt") else ():
                self.items.setdefault(word, set()).add(piece.place)
            for word in re.findall(r"#\[cycle\((\w+)\)\]", piece.text) if piece.mate else ():
                self.cycles.setdefault(word, set()).add(piece.place)
        for file, (pieces, _) in self.files.items():
            if proof := PROOF.match(file):
                for place in self.functions(proof[1]):
                    self.proofs.setdefault(place, {}).setdefault(proof[2], set()).update(piece.place for piece in pieces)

    def with_mates(self, places):
        return places | {self.pieces[place].mate for place in places} - {None}

    def spelled(self, words):
        """The items of src/ that have one of some words for a name."""
        return {place for word in words for place in self.items.get(word, ())}

    def functions(self, word):
        """The functions whose proof stands in a folder of this name: of a cycle of calls where it begins with '+'."""
        word = word.removeprefix("+")
        return {place for place in self.spelled([word]) if self.pieces[place].mate} | self.cycles.get(word, set())

    def proof_of(self, place, *kinds):
        """The pieces of the proof of a function, which has its contract or its body at the place."""
        piece = self.pieces[place]
        contract = place if piece.names else piece.mate
        return {other for kind, places in self.proofs.get(contract, {}).items() if kind in kinds for other in places}

    def brought(self, path, name=""):
        """The pieces of this crate that a path, or a name behind it, stands for: declarations of a file, or what Rattle makes a module of, which is named
        last, or before the names that Rattle gives."""
        found = self.own.match(path)
        if not found:
            return self.spelled(path.split("::")) if "::" in path else set()
        path = [part for part in found[2].split(".") + name.split(".") if part]
        for end in range(len(path), 0, -1):
            pieces, _ = self.files.get(f"{found[1]}/{'/'.join(path[:end])}.antt", ((), ()))
            if pieces:
                named = {piece.place for piece in pieces if path[end:] and path[end] in piece.names}
                return named or {piece.place for piece in pieces}
        made_of = [self.spelled([part]) | self.functions(part) for part in path]
        made_of = set().union(*made_of[-1:], next(filter(None, reversed(made_of[:-1])), set()))
        if not made_of:
            return {place for place, piece in self.pieces.items() if piece.file.endswith(".rt")}
        of_a_contract = found[1] == "specs" or set(OF_A_CONTRACT) & set(path)
        return made_of if of_a_contract else self.with_mates(made_of)

    def names(self, file):
        """What each word may stand for in a file: its own declarations, and what its `use` lines bring."""
        if file not in self.known:
            pieces, uses = self.files[file]
            known = self.known[file] = {}

            def bring(word, places):
                for part in parts([word]):
                    known.setdefault(part, set()).update(places)

            for piece in pieces if file.endswith(".antt") else ():
                for word in piece.names:
                    bring(word, {piece.place})
            for use in filter(None, map(USE.match, uses)):
                path, earlier = use[1].rstrip(".:"), known.get(use[1].split(".")[0], set())
                if use[2] is None:
                    bring(use[3] or re.split(r"\.|::", path)[-1], self.brought(path) | earlier)
                else:
                    for item in use[2].split(","):
                        name, _, other = item.strip().partition(" as ")
                        bring(other or name.split(".")[-1], self.brought(path, name) | earlier)
        return self.known[file]

    def leads(self, place):
        """The pieces to which a piece leads in one step."""
        if place not in self.led:
            piece = self.pieces[place]
            names = self.names(piece.file)
            found = {other for word in WORD.findall(piece.text) for other in names.get(word, ())}
            found |= {other for path in self.own.finditer(piece.text) for other in self.brought(path[0])}
            if piece.file.endswith(".rt"):
                found |= self.spelled(re.findall(r"\w+", piece.text))
                for part, path in re.findall(r"\bcrate::(specs|proofs)::([\w:]+)", piece.text):
                    found |= self.brought(f"Rattle.{self.name}.{part}.{path.replace('::', '.')}")
                if piece.mate and not piece.names:
                    found |= self.proof_of(place, "Invariants")
            self.led[place] = found
        return self.led[place]

    def reach(self, places, leads=None):
        """All pieces to which names lead from some, with these."""
        found, todo = set(), list(places)
        while todo:
            place = todo.pop()
            if place not in found:
                found.add(place)
                todo += (leads or self.leads)(place)
        return found

    def users(self, places, waiting=False):
        """All pieces from which names lead to some, with these; or those too that wait for the proofs of functions from which names do, and so on."""
        back = self.back[waiting]
        if not back:
            for place, piece in self.pieces.items():
                proof = PROOF.match(piece.file)
                for other in self.leads(place):
                    back.setdefault(other, set()).add(place)
                if waiting and (proof or piece.mate):
                    back.setdefault(place, set()).update(self.functions(proof[1]) if proof else {piece.mate})
        return self.reach(places, lambda place: back.get(place, ()))

    def at(self, file, line):
        """The pieces at a line: several at the head of a section, and of a function contract, body and the pieces of its proof. A line of none, as a `use`
        line, stands for all of its file and all that it brings."""
        pieces, _ = self.files.get(file, ((), ()))
        found = self.with_mates({piece.place for piece in pieces if line in piece.lines})
        if pieces and not found:
            found = self.with_mates({piece.place for piece in pieces}.union(*self.names(file).values()))
        return found | {other for place in found if self.pieces[place].mate for other in self.proof_of(place, "Answers", "Invariants", "Proof")}

    def changed(self, lines, before):
        """The pieces that some lines change. A line of none, as a `use` line, changes those of its file that have a word in which it differs from before."""
        found = set()
        for file, line in lines:
            pieces = {piece.place for piece in self.files[file][0] if line in piece.lines}
            old, new = (parts(WORD.findall(texts[file].split("\n")[line - 1])) for texts in (before, self.texts))
            found |= pieces or {piece.place for piece in self.files[file][0] if (old ^ new) & set(WORD.findall(piece.text))}
        return found


def lines_of(texts, others):
    """The files and lines in which two states of the same sources differ; an edit makes no line more or fewer."""
    pairs = {file: zip(texts[file].split("\n"), others[file].split("\n")) for file in texts if texts[file] != others[file]}
    return {(file, line) for file, both in pairs.items() for line, (old, new) in enumerate(both, 1) if old != new}


def texts_of(folder):
    """The sources of a crate, by their paths below its folder; no links."""
    paths = [os.path.join(at, name) for part in ("src", "specs", "proofs") for at, _, names in os.walk(f"{folder}/{part}") for name in names]
    paths = [path for path in sorted(paths) if path.endswith((".rt", ".antt")) and not os.path.islink(path)]
    return {os.path.relpath(path, folder): open(path, encoding="utf-8").read() for path in paths}


if __name__ == "__main__":
    if len(sys.argv) != 3:
        sys.exit(__doc__)
    os.chdir(os.path.join(os.path.dirname(os.path.abspath(__file__)), ".."))
    crate = Crate(sys.argv[1], texts_of(f"crates/{sys.argv[1]}"))
    where, line = sys.argv[2].split(":")[:2]
    for place in sorted(crate.reach(crate.at(where, int(line)))):
        print(f"{place}: {' '.join(sorted(crate.pieces[place].names)) or 'the body of ' + ' '.join(crate.pieces[crate.pieces[place].mate].names)}")
