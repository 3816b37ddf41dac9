#!/usr/bin/env python3
"""forms.py [DIR]: the places in DIR/crates/*/src (of this checkout if none is named) of the forms that docs/DESIGN-PASS.md counts, by its eight points.

1  a case of an enum that says 'refused' or 'none', a number beside a value, a function that answers a refusal's number, a constant for one
2  functions of one crate, or of two, whose text is the same but for names, numbers and types
3  'while'
4  bytes of a number put together or taken apart by hand, and functions that only compare, convert or copy
5  a conjunct of 'requires' or 'ensures' that three or more functions of a crate have, and three or more parameters that three or more functions have in a row
6  a length beside an array, in a struct or as parameters, and two constant arrays of one length
7  'match' on, or a flag for, what says which step to run
8  (proofs) 'let l = c in', what is well formed by numbers in a row, and a long answer that four or more goals have

Each place is a line; the last lines are the counts."""
import collections
import glob
import os
import re
import sys

ROOT = sys.argv[1] if len(sys.argv) > 1 else os.path.join(os.path.dirname(os.path.abspath(__file__)), "..")
os.chdir(ROOT)
FUNCTION = re.compile(r"^( *)(?:pub |pub\(crate\) |extern \"C\" )*fn (\w+)(?:<[^(\n]*>)?\(", re.M)
found = collections.defaultdict(list)


def read(path):
    with open(path, encoding="utf-8") as f:
        return f.read()


def functions(text):
    """Where each function begins, its name, its parameters, its answer and clauses, and its body."""
    for m in FUNCTION.finditer(text):
        end, depth = m.end(), 1
        while depth:
            depth += (text[end] == "(") - (text[end] == ")")
            end += 1
        rest = text[end:]
        brace = re.search(rf"^{m[1]}\{{\}}?$| \{{\}}?$|^;", rest, re.M)
        body = rest[brace.end() :]
        close = re.search(rf"^{m[1]}\}}", body, re.M)
        yield m.start(), m[2], text[m.end() : end - 1], rest[: brace.start()], body[: close.start()] if close and brace[0].endswith("{") else ""


def line_of(text, at):
    return text.count("\n", 0, at) + 1


def each(point, pattern, texts, note=""):
    for path, text in texts.items():
        for m in re.finditer(pattern, text, re.M):
            found[point].append(f"{path}:{line_of(text, m.start())}: {note}{m.group(0).strip()[:100]}")


def shape(body):
    """A body without names of one crate, numbers and types: what twins share."""
    body = re.sub(r"//.*", "", body)
    body = re.sub(r"\b(?:0x[\da-f_]+|\d[\d_]*)(?:u\d+|usize)?\b", "N", body)
    body = re.sub(r"\b(?:sha256|sm3|SHA256|SM3|Sha256|Sm3)\b", "A", body)
    body = re.sub(r"\b[a-z_]\w*::|\b[A-Z]\w*::", "", body)
    return " ".join(re.sub(r"\b(?!(?:if|else|let|mut|match|return|while|for|in|as|true|false)\b)[A-Za-z_]\w*\b", "v", body).split())


def parameters(text):
    depth, part, parts = 0, "", []
    for ch in text:
        depth += ch in "<[("
        depth -= ch in ">])"
        if ch == "," and not depth:
            parts.append(part)
            part = ""
        else:
            part += ch
    return [" ".join(p.split()) for p in parts + [part] if p.strip()]


def conjuncts(head):
    for kind, clause in re.findall(r"\b(requires|ensures)[ \w]*\{(.*?)\}\n", head + "\n", re.S):
        for part in re.split(r"\) × \(|\)\s*\n\s*× \(", clause):
            yield kind, " ".join(part.strip(" ()\n").split())


sources = {p: read(p) for p in sorted(glob.glob("crates/*/src/**/*.rt", recursive=True))}
each(1, r"^    (?:Refused|Unknown|Bad|Wrong|Not|Fine)\b.*", sources)
each(1, r"^    (?:pub )?(?:number: u32|held: bool|lost: bool|ended: bool|whole: bool)", sources)
each(1, r"^(?:pub(?:\(crate\))? )?const [A-Z]+: u32 = \d+;", {p: t for p, t in sources.items() if "limits" not in p})
twins = collections.defaultdict(list)
shared = collections.defaultdict(set)
rows = collections.defaultdict(set)
for path, text in sources.items():
    crate = path.split("/")[1]
    for start, name, args, head, body in functions(text):
        at = f"{path}:{line_of(text, start)}: {name}"
        if re.search(r"-> (?:u32|bool|u8)\b", head) and re.search(r"\b(?:return )?(?:1?\d|[A-Z]{4,});?$", body, re.M) and "-> u32" in head:
            found[1].append(f"{at} answers a number")
        if len(shape(body)) > 50:
            twins[shape(body)].append(at)
        for kind, clause in conjuncts(head):
            if len(clause) > 8 and kind == "requires":
                shared[crate, kind, clause].add(at)
        ps = parameters(args)
        for i in range(len(ps)):
            for j in range(i + 3, len(ps) + 1):
                rows[crate, tuple(ps[i:j])].add(at)
        if re.search(r"\bmatch (?:entry|job|letter|which|alg|second|page)\b", body) or re.search(r"\b(?:second|page): bool", args):
            found[7].append(at)
for same in twins.values():
    if len(same) > 1:
        found[2] += [f"{at} (of {len(same)})" for at in same]
each(3, r"^ *while .*", sources)
each(4, r"^.*(?:\* 256\b|% 256\b|>> 24).*", sources)
each(4, r"^(?:pub(?:\(crate\))? )?fn (?:same|equals|wide|be8|width_of|big_endian|put_word|word_of|byte|id_of|root_of|hash_from|id_from|digest_from|digit|shift|seek|copy|words_in|put_words|copied)\(.*", sources)
for (crate, kind, clause), places in shared.items():
    if len(places) > 2:
        found[5].append(f"crates/{crate}: {kind} {clause}: {len(places)} functions")
for (crate, ps), places in rows.items():
    longer = [q for (c, q), at in rows.items() if c == crate and len(q) == len(ps) + 1 and ps in (q[1:], q[:-1]) and len(at) > 2]
    if len(places) > 2 and not longer:
        found[5].append(f"crates/{crate}: {', '.join(ps)}: {len(places)} functions")
each(6, r"^    (?:pub )?(?:idlen|count|have|used|made): \w+,", sources)
each(6, r"\b(?:n|count|used|have|from: usize, to): usize,(?=[^{]*\[)", sources)
each(6, r"^const \w+: \[\w+; [A-Z]+\] = \[", sources)
proofs = {p: read(p) for p in sorted(glob.glob("crates/*/proofs/**/*.antt", recursive=True))}
each(8, r"\blet l = c in\b", proofs)
each(8, r"\bwell_formed(?:\.\d+)+", proofs)
answers = collections.Counter(m for t in proofs.values() for m in re.findall(r"^\S+ c = (.*)$", t, re.M))
found[8] += [f"an answer of {n} goals: {text[:100]}" for text, n in answers.items() if n > 3 and len(text) > 50]
for point in range(1, 9):
    for place in found[point]:
        print(point, place)
print(f"answers: {sum(answers.values())}; files of proofs: {len(proofs)}")
for point in range(1, 9):
    print(f"point {point}: {len(found[point])}")
