#!/usr/bin/env python3
"""respell_edits.py ROOM: brings the edits of refused/ from the text of the commit LANDED (docs/PORT.md) over to today's text, once.

Into the new folder ROOM it puts src/ and specs/ of LANDED's crates, and beside each file one more for every edit of it, with the edit made. The kit's port.py
turns them all (twenty minutes), and the names that tools/respell.py turned are turned in them too. So of each edit there is the wrong text in today's
spelling. Where it differs from the turned file without the edit, there are the new pairs: the old ones, if they still lead to it, or as near as that can be.

An edit is written only if it stands as in LANDED, so one that was mended by hand stays. For those that it can't turn it prints why; they are brought over by
hand. If ROOM is there already, with what port.py made, that is taken."""
import difflib
import os
import re
import shutil
import subprocess
import sys
import tempfile

sys.dont_write_bytecode = True
ROOT = os.path.realpath(os.path.join(os.path.dirname(os.path.abspath(__file__)), ".."))
KIT = os.environ.get("RATTLE_HOME") or os.path.dirname(os.path.dirname(os.path.realpath(shutil.which("rt") or "rt")))
if len(sys.argv) != 2:
    sys.exit(__doc__)
ROOM = os.path.abspath(sys.argv[1])
with tempfile.TemporaryDirectory() as none:
    sys.argv = ["respell.py", none]  # its words, with no text to turn
    import respell
    os.chdir(ROOT)

LANDED, SPELLED = re.findall(r"^(?:LANDED|Commit of the spelling): (\w+)$", open("docs/PORT.md", encoding="utf-8").read(), re.M)
ASIDE = {"growing/refused_leaf_counts"}  # it names std, and so port.py would turn the whole crate otherwise; its text still fits as it is
APART = re.compile(r"; ((?:ghost )?use |(?:pub(?:\(crate\))? )?fn )")  # port.py takes an import by its line
WORDS = re.compile(r"\.?[\w'₀-₉]+|\s+|[^\w\s(){}\[\],;]+|.")


def at(commit, path):
    return subprocess.run(["git", "show", f"{commit}:{path}"], capture_output=True, text=True, check=True).stdout


def read(path):
    with open(path, encoding="utf-8") as f:
        return f.read()


def write(path, text):
    with open(path, "w", encoding="utf-8") as f:
        f.write(text)


def pairs_of(edit):
    """The pairs of an edit's text, each with its file."""
    file, old, pairs = "", "", []
    for line in edit.split("\n"):
        if line.startswith("file: "):
            file = line[6:]
        elif line.startswith("old: "):
            old = line[5:]
        elif line.startswith("new:"):
            pairs.append((file, old, line[4:].removeprefix(" ")))
    return pairs


def made(text, pairs):
    """The text with the pairs, or None where one of them does not fit."""
    for old, new in pairs:
        if not old or text.count(old) != 1 or old == new:
            return None
        text = text.replace(old, new)
    return text


EDITS = {}  # NAME/LABEL: the pairs by file
for path in subprocess.run(["git", "ls-tree", "-r", "--name-only", LANDED, "refused"], capture_output=True, text=True, check=True).stdout.split():
    name = path.removeprefix("refused/").removesuffix(".edit")
    EDITS[name] = {}
    for file, *pair in pairs_of(at(LANDED, path)):
        EDITS[name].setdefault(file, []).append(tuple(pair))


def beside(file, label):
    """The name of a file's variant: as its own, with the edit's label behind."""
    base, ending = os.path.splitext(file)
    return f"{base}_{label}{ending}" if ending == ".rt" else f"{base}{''.join(map(str.capitalize, label.split('_')))}{ending}"


def fill():
    subprocess.run(f"git archive {LANDED} crates crates.txt | tar -x -C {ROOM} --exclude=proofs --exclude=stdin --exclude=stdout", shell=True, check=True)
    for name, files in EDITS.items():
        crate, label = name.split("/")
        for file, pairs in files.items():
            text = made(read(f"{ROOM}/crates/{crate}/{file}"), pairs)
            if file.endswith(".rt") and any(APART.search(new) for _, new in pairs):
                text = APART.sub(r";\n\1", text)
            if name not in ASIDE:
                write(f"{ROOM}/crates/{crate}/{beside(file, label)}", text)
    for words in (["init", "-q"], ["add", "-A"], ["-c", "user.name=-", "-c", "user.email=-", "commit", "-q", "-m", "-"]):
        subprocess.run(["git", *words], cwd=ROOM, check=True)
    subprocess.run([sys.executable, f"{KIT}/port/port.py"], cwd=ROOM, check=True)


def spelled(file, text):
    return respell.rust(text) if file.endswith(".rt") else respell.antt(text)


def learn(texts):
    """The names that were turned after port.py, by what stands in each place of the unedited files since."""
    for (crate, file), text in texts.items():
        words = respell.WORD.findall(read(f"{ROOM}/crates/{crate}/{file}"))
        respell.turned.update((a, b) for a, b in zip(words, respell.WORD.findall(text), strict=True) if a != b)
    for (crate, file), text in texts.items():
        if spelled(file, read(f"{ROOM}/crates/{crate}/{file}")) != text:
            sys.exit(f"respell_edits.py: {crate}/{file} does not come out as in {SPELLED}")


def ways(text):
    """A piece of text, and in the newer spellings that it may have, without regard to what stands around it."""
    yield text
    text = respell.antt(text)
    yield text
    text = re.sub(r"\bgetD\b", "get_or", text).replace("the-variants", "TheVariants").replace("·specs.specs", "·specs").replace("·", ".")
    text = respell.WORD.sub(lambda m: respell.snake(m[0]) if respell.plain(m[0]) else m[0], text)
    yield text
    for moment in ("now", "old"):
        it = re.sub(r"\(now \((\w+) \.(entry|exit)\)\)|now \((\w+) \.(entry|exit)\)|\(now (\w+)\)",
                    lambda m: f"{m[1] or m[3] or m[5]}.{'new' if 'exit' in (m[2], m[4]) else moment}", text)
        yield it
        for bare in (r"\((\w+)((?: \.\w+)+)\)", r"(?<![\w)])(\w+)((?: \.\w+)+)(?![\w(])"):
            it = re.sub(bare, lambda m: m[1] + m[2].replace(" ", ""), it)
            yield it


def plain(text):
    """The text without what line breaks bring: blanks, and a comma behind the last of several; and without the order of names in an import."""
    text = re.sub(r"(\.Prelude\.\{)([^}]*)", lambda m: m[1] + ", ".join(sorted(re.findall(r"[^\s,]+", m[2]))), text)
    text = re.sub(r",? ?([)\]}])", r"\1", re.sub(r"\s+", " ", text))
    return re.sub(r"([(\[{]) ", r"\1", text)


def sides(old, new):
    """Two pieces of text in words, and how many of them they have in common before what differs, and behind it."""
    a, b = WORDS.findall(old), WORDS.findall(new)
    most = min(len(a), len(b))
    before = next((i for i in range(most) if a[i] != b[i]), most)
    behind = next((i for i in range(most - before) if a[-1 - i] != b[-1 - i]), most - before)
    return a, b, before, behind


def cut(line, new, texts, margin):
    """A piece of the line that stands once in each text, and what it becomes in the new line: what differs, with a margin of words, and more where needed."""
    a, b, before, behind = sides(line, new)
    first = int(line.startswith(" "))
    start, end = max(first, before - margin[0]), max(0, behind - margin[1])
    while True:
        old = "".join(a[start:len(a) - end])
        if old.strip() and old[0] != " " and old[-1] != " " and all(text.count(old) == 1 for text in texts):
            return old, "".join(b[start:len(b) - end])
        if start == first and end == 0:
            return None
        start, end = (start - 1, end) if end == 0 or start > first and (start + end) % 2 else (start, end - 1)


def piece(line, new, pairs, texts):
    """The pair for one line that changes: as one of the edit's own pairs cuts it, or with as many words around what changes."""
    if re.search(r"\.Prelude\.\{", line):
        a, b, before, behind = sides(line, new)
        if before + behind == len(a):  # names are added to an import
            more = re.sub(r"^, |, $", "", "".join(b[before:len(b) - behind])) + ","
            head = line[:line.index("{") + 1]
            if all(text.count(head) == 1 for text in texts) and re.fullmatch(r"[^{}]*,", more):
                return head, head + more
    for old, _ in pairs:
        for own in ways(old):
            if line.count(own) == 1 and all(text.count(own) == 1 for text in texts):
                head, tail = line.split(own)
                if new.startswith(head) and new.endswith(tail) and len(new) >= len(head + tail):
                    return own, new[len(head):len(new) - len(tail)]
    margin = sides(*pairs[0])[2:]
    return cut(line, new, texts, margin) or cut(line, new, texts, (0, 0))


def in_one(lines):
    """Lines in one line, without what their breaks bring."""
    text = re.sub(r"\s*\n\s*", " ", "\n".join(lines)).strip()
    return re.sub(r"([(\[]) ", r"\1", re.sub(r", ([)\]])|, ( })", r"\1\2", text))


def found(file, pairs, before, after, today):
    """The pairs that lead from the turned file to the turned file with the edit, and fit today's; or why there are none."""
    for olds, news in ((o, n) for o in range(9) for n in range(9)):
        same = [([*ways(old)][olds], [*ways(new)][news]) for old, new in pairs]
        if made(today, same) is not None and plain(made(before, same) or "") == plain(after):
            return same
    a, b, result, texts = before.split("\n"), after.split("\n"), [], (before, today)
    for _, i, j, k, l in [it for it in difflib.SequenceMatcher(None, a, b, False).get_opcodes() if it[0] != "equal"]:
        if plain("\n".join(a[i:j])) == plain("\n".join(b[k:l])):
            continue
        if i == j and file.endswith(".rt"):  # what comes new goes behind the line above
            lines = [(a[i - 1], f"{a[i - 1]} {in_one(b[k:l])}")]
        elif j - i == l - k:
            lines = [it for it in zip(a[i:j], b[k:l]) if it[0] != it[1]]
        elif j - i == 1 and k < l:
            lines = [(a[i], re.match(" *", a[i])[0] + in_one(b[k:l]))]
        else:
            return "lines come or go"
        for line, new in lines:
            it = piece(line, new, pairs, texts)
            if not it:
                return "no piece of the line stands once"
            result.append(it)
            texts = [text.replace(*it) for text in texts]
    if made(today, result) is None or plain(made(before, result) or "") != plain(after):
        return "what was found does not lead there"
    return result


def main():
    if not os.path.isdir(ROOM):
        os.makedirs(ROOM)
        fill()
    edited = {(name.split("/")[0], file) for name, files in EDITS.items() for file in files}
    turned = {(crate, file): at(SPELLED, f"crates/{crate}/{file}") for crate, file in edited}
    learn(turned)
    written = 0
    for name, files in sorted(EDITS.items()):
        crate, label = name.split("/")
        edit = read(f"refused/{name}.edit")
        if name in ASIDE or edit != at(LANDED, f"refused/{name}.edit"):
            continue
        new, why = [], ""
        for file, pairs in files.items():
            after = spelled(file, read(f"{ROOM}/crates/{crate}/{beside(file, label)}"))
            it = found(file, pairs, turned[crate, file], after, read(f"crates/{crate}/{file}"))
            if isinstance(it, str):
                why = f"{file}: {it}"
                break
            new += [f"file: {file}"] + [line for old, by in it for line in (f"old: {old}", f"new: {by}" if by else "new:")]
        if why:
            print(f"{name}: by hand: {why}")
            continue
        lines = edit.split("\n")
        rest = [line for line in lines if not re.match("(file|old|new):", line)]
        first = next(i for i, line in enumerate(lines) if line.startswith("file: "))
        head = lines[:first]
        write(f"refused/{name}.edit", "\n".join(head + new + rest[len(head):]))
        written += 1
    print(f"{written} of {len(EDITS)} edits written")


main()
