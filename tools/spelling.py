#!/usr/bin/env python3
"""Spells the repository's own definitions and lemmas as today's Rattle does: in snake case, whatever the kit's port.py left in camel case or
with dashes. Run once, at the top, right after port.py.

Types, modules, functions of src/, exported names, strings, inputs and outputs keep their names. Where two names of one file would fall
together, `LEM` tells them apart: a lemma that would get a definition's name ends in `_lem`. The crate `hex` becomes `hex_digits`, since the
kit has a library `hex`.
"""
import collections
import os
import re
import sys

ROOT = sys.argv[1] if len(sys.argv) > 1 else "."
WORD = re.compile(r"(?<![A-Za-z0-9_'\-\u2032\u03b1-\u03c9\u2080-\u2089\u2070-\u209f])[a-z][A-Za-z0-9_'\u2032\u03b1-\u03c9\u2070-\u209f]*(?:-[A-Za-z0-9_'\u2032\u03b1-\u03c9\u2070-\u209f]+)*")
DECLARED = re.compile(r"^\s*(?:(?:pub|abbrev|unfoldable|mutual) )*([a-z][^\s(){}\[\],;.:\"@]*) : ")
BINDS = re.compile(r"\(([a-z][^(){}:]*?) : |let ([a-z][^\s(){}\[\],;.:\"@]*) [:=]")

# a lemma that falls together with a definition, and the words of bits that have the library's names
LEM = {
    "nth-is": "nth_is_lem",
    "on-block": "on_block_lem",
    "or-all": "or_all_lem",
    "pdep-turns": "pdep_turns_lem",
    "pext-turns": "pext_turns_lem",
    "rook-bits": "rook_bits_lem",
    "same-list": "same_list_lem",
    "bit-and": "bit_of_and",
    "bit-or": "bit_of_or",
    "bit-xor": "bit_of_xor",
}
# the same in one file alone
LEM_IN = {
    "square/proofs/Names.antt": {"read_name": "read_name_lem", "read-name": "read_name_lem"},
    "bmis/proofs/Sums.antt": {"size-at": "size_at_lem"},
    "bmis/proofs/fill/Proof.antt": {"size-at": "size_at_lem"},
    "bitboard/proofs/set/Proof.antt": {"make-square": "make-square"},
}
# the library's words in must-fail edits, which port.py leaves
KIT = [
    (r"\u2032", "'"),
    (r"\bbitAnd\b", "bit_and"),
    (r"\bbitOr\b", "bit_or"),
    (r"\bbitXor\b", "bit_xor"),
    (r"\bgetD\b", "get_or"),
    (r"\(now (\w+)\.entry\.", r"(\1.old."),
    (r"\(now (\w+)\.entry\)", r"\1.old"),
    (r"\bnow (\w+)\.entry\b", r"\1.old"),
    (r"\bnow (\w+)\.exit\b", r"\1.new"),
    (r"\br \u2261", "result \u2261"),
    (r"(?<![\w'])now (\w+)\b(?! ?\.)", r"\1.now"),
]


def snake(name):
    name = re.sub(r"([a-z0-9])([A-Z])", lambda m: m.group(1) + "_" + m.group(2).lower(), name)
    name = re.sub(r"_([A-Z])", lambda m: "_" + m.group(1).lower(), name)
    return re.sub(r"-([A-Z])", lambda m: "-" + m.group(1).lower(), name).replace("-", "_")


def files(*ends):
    for folder, dirs, names in os.walk(ROOT):
        dirs[:] = sorted(d for d in dirs if d not in ("out", "target", ".git", "unpacked"))
        for n in sorted(names):
            if n.endswith(ends):
                yield os.path.join(folder, n)


def read(p):
    with open(p, encoding="utf-8") as f:
        return f.read()


def write(p, old, new):
    if old != new:
        with open(p, "w", encoding="utf-8") as f:
            f.write(new)


declared = set()
for p in files(".antt"):
    for line in read(p).split("\n"):
        if not line.lstrip().startswith("--"):
            m = DECLARED.match(line)
            if m:
                declared.add(m.group(1))
            for a, b in BINDS.findall(line):
                declared.update(x for x in (a or b).split())
turn = {n: snake(n) for n in declared if snake(n) != n and not n.startswith("loop-")}
turn.update(LEM)
final = set(turn.values()) | declared


def own(p):
    parts = p.replace(os.sep, "/").split("crates/")[-1]
    t = dict(turn)
    t.update(LEM_IN.get(parts, {}))
    return t


def respell(text, t):
    return WORD.sub(lambda m: t.get(m.group(0), m.group(0)), text)


def quoted(text, t):
    """In prose: what stands between backquotes, where it is a name of ours."""

    def one(m):
        def word(w):
            w = w.group(0)
            return t.get(w) or (snake(w) if snake(w) != w and snake(w) in final and snake(w) not in RUST else w)

        return WORD.sub(word, m.group(0))

    return re.sub(r"`[^`\n]*`", one, text)


RUST = set()
for p in files(".rt"):
    RUST.update(re.findall(r"\bfn ([a-z0-9_]+)", read(p)))

for p in files(".antt"):
    old = read(p)
    t = own(p)
    lines = []
    for line in old.split("\n"):
        code, dash, note = line.partition("--") if re.match(r"^\s*--|.*\s--\s", line) else (line, "", "")
        lines.append(respell(code, t) + dash + quoted(note, t))
    write(p, old, "\n".join(lines))

for p in files(".rt"):
    old = read(p)
    t = own(p)
    camel = {k: v for k, v in t.items() if "-" not in k and k != snake(k)}
    lines = []
    for line in old.split("\n"):
        code, bars, note = line.partition("//")
        lines.append(respell(code, t if "ghost use" in code else camel) + bars + quoted(note, t))
    write(p, old, "\n".join(lines))

for p in files(".edit"):
    old = read(p)
    lines = []
    for line in old.split("\n"):
        if line.startswith(("old:", "new:")):
            for a, b in KIT:
                line = re.sub(a, b, line)
            line = WORD.sub(lambda m: turn.get(m.group(0)) or (snake(m.group(0)) if snake(m.group(0)) in final and m.group(0) != snake(m.group(0)) else m.group(0)), line)
            line = re.sub(r"(?<=[A-Za-z0-9_'\)]) \.(?=[a-z])", ".", line)
            line = re.sub(r"\(([A-Za-z0-9_']+(?:\.[a-z][a-z0-9_]*)+)\)", r"\1", line)
        elif line.startswith("#"):
            line = quoted(line, turn)
        lines.append(line)
    write(p, old, "\n".join(lines))

for p in files(".md"):
    old = read(p)
    write(p, old, quoted(old, turn))

# the crate hex
if os.path.isdir(os.path.join(ROOT, "crates/hex")):
    os.rename(os.path.join(ROOT, "crates/hex"), os.path.join(ROOT, "crates/hex_digits"))
for p in list(files(".antt", ".rt", ".edit")) + [os.path.join(ROOT, "crates.txt")]:
    old = read(p)
    new = re.sub(r"\bRattle\.hex\.", "Rattle.hex_digits.", old)
    new = re.sub(r"\bhex::", "hex_digits::", new)
    if p.endswith("crates.txt"):
        new = re.sub(r"\bhex\b", "hex_digits", new)
    write(p, old, new)
