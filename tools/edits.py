#!/usr/bin/env python3
"""docs/EDITS.md from the must-fail edits: what each tries, and its change.

edits.py          writes docs/EDITS.md
edits.py check    status 1 where docs/EDITS.md is not what it would write, or docs/PROMISES.md does not name an edit
"""
import pathlib
import re
import sys

top = pathlib.Path(__file__).resolve().parent.parent
listed = top / "docs" / "EDITS.md"
head = """# Must-fail edits

Each changes a line of code or of a definition (two lines where the second says `and`), keeps the shape of the rest, and must be
refused by the prover: `rt ci` tries all of them, `rt must-fail CRATE` those of a crate. What each tries stands first in its file,
`crates/CRATE/must-fail/EDIT.edit`. Written by tools/edits.py.
"""


def fields(path):
    """What an edit tries, and its changes: file, old, new. A file may have several pairs of old and new."""
    tries, changes, name, old = [], [], "", ""
    for line in path.read_text().splitlines():
        if line.startswith("#"):
            tries.append(line.lstrip("# "))
        elif line.startswith("file: "):
            name = line[len("file: "):].strip()
        elif line.startswith("old: "):
            old = line[len("old: "):]
        elif line.startswith("new:"):
            changes.append([name, old, line[len("new:"):]])
    return " ".join(tries), changes


def code(text):
    text = text.strip().replace("|", "\\|")
    return f"`` {text} ``" if "`" in text else f"`{text}`"


def text():
    rows = [line.split("#")[0] for line in (top / "crates.txt").read_text().splitlines()]
    crates = [row.split(":")[0].split()[0] for row in rows if ":" in row]  # a static library has a word after its name
    out, count = [], 0
    for crate in crates:
        edits = sorted((top / "crates" / crate / "must-fail").glob("*.edit"))
        if not edits:
            continue
        out += [f"\n## {crate}\n", "| edit | tries | in | old | new |", "|---|---|---|---|---|"]
        for edit in edits:
            tries, changes = fields(edit)
            for k, (name, old, new) in enumerate(changes):
                out.append(f"| {edit.stem if k == 0 else 'and'} | {tries if k == 0 else ''} | {name} | {code(old)} | {code(new)} |")
        count += len(edits)
    return head + f"{count} edits.\n" + "\n".join(out) + "\n"


if sys.argv[1:] == ["check"]:
    named = set(re.findall(r"\w+", (top / "docs" / "PROMISES.md").read_text()))
    missing = [str(p) for p in sorted(top.glob("crates/*/must-fail/*.edit")) if p.stem not in named]
    if missing:
        sys.exit("docs/PROMISES.md does not name " + ", ".join(missing))
    sys.exit(0 if listed.exists() and listed.read_text() == text() else f"{listed.name} is not what tools/edits.py writes")
elif sys.argv[1:]:
    sys.exit(__doc__)
listed.write_text(text())
