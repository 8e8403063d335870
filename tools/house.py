#!/usr/bin/env python3
"""For each crate: lines of code, definitions and proofs, must-fail edits; with `time`, what `rt check` takes.

house.py         counts lines that are neither empty nor comments nor `#![..]`; a contract (`requires`, `ensures`) counts as a definition
house.py time    also proves each crate in the order of crates.txt: seconds of wall clock, and the largest process in MiB. Begin with
                 no folder out in any crate, here and in other copies on the machine, so that nothing is remembered
"""
import pathlib
import subprocess
import sys

top = pathlib.Path(__file__).resolve().parent.parent


def lines(paths, comment):
    text = [line.strip() for path in paths for line in path.read_text().splitlines()]
    return [line for line in text if line and not line.startswith(comment)]


def counts(crate):
    folder = top / "crates" / crate
    source = [line for line in lines(sorted((folder / "src").glob("*.rt")), "//") if not line.startswith("#![")]
    contract = [line for line in source if line.startswith(("requires", "ensures", "ghost use"))]
    specs = lines((folder / "specs").rglob("*.antt"), "--")
    proofs = lines((folder / "proofs").rglob("*.antt"), "--")
    edits = list((folder / "must-fail").glob("*.edit"))
    return len(source) - len(contract), len(contract) + len(specs), len(proofs), len(edits)


def checked(crate):
    """Seconds and MiB of `rt check` in the crate's folder, by a process of its own, so that the peak is this crate's."""
    program = (
        "import resource, subprocess, sys, time; t = time.time(); "
        "s = subprocess.run(['rt', 'check'], stdout=subprocess.DEVNULL, stderr=subprocess.DEVNULL).returncode; "
        "print(round(time.time() - t), resource.getrusage(resource.RUSAGE_CHILDREN).ru_maxrss // 1024, s)"
    )
    folder = top / "crates" / crate
    out = subprocess.run([sys.executable, "-c", program], cwd=folder, capture_output=True, text=True).stdout.split()
    if out[2] != "0":
        sys.exit(f"rt check in crates/{crate} failed")
    return out[0], out[1]


timed = sys.argv[1:] == ["time"]
if sys.argv[1:] and not timed:
    sys.exit(__doc__)
rows = [line.split("#")[0] for line in (top / "crates.txt").read_text().splitlines()]
crates = [row.split(":")[0].split()[0] for row in rows if ":" in row]  # a static library has a word after its name
print("| crate | code | definitions | proofs | proofs / code | edits |" + (" seconds | MiB |" if timed else ""))
print("|---|---|---|---|---|---|" + ("---|---|" if timed else ""))
total = [0] * 4
for crate in crates:
    row = counts(crate)
    total = [a + b for a, b in zip(total, row)]
    ratio = f"{row[2] / row[0]:.1f}" if row[0] else ""
    more = "".join(f" {x} |" for x in checked(crate)) if timed else ""
    print(f"| {crate} | {row[0]} | {row[1]} | {row[2]} | {ratio} | {row[3]} |{more}", flush=True)
print(f"| all | {total[0]} | {total[1]} | {total[2]} | {total[2] / total[0]:.1f} | {total[3]} |" + (" | |" if timed else ""))
