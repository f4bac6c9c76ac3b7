"""The program `mx_measure`, and what a run of it takes, as valgrind's callgrind counts."""

import re
import subprocess
import sys
import tempfile
from pathlib import Path

ROOT = Path(__file__).resolve().parent.parent
CRATE = ROOT / "crates" / "mx_measure"
PROGRAM = CRATE / "out" / "mx_measure"

sys.path.append(str(ROOT / "tests"))


def build():
    if not PROGRAM.exists():
        print("mx_measure isn't built: it and the crates below it are proved first, which may take an hour", file=sys.stderr)
    run = subprocess.run(["rt", "run", "--", "0"], cwd=CRATE, stdin=subprocess.DEVNULL, capture_output=True)
    if run.returncode != 0:
        sys.exit(run.stdout.decode(errors="replace") + run.stderr.decode(errors="replace"))


def instructions(given, *words, program=PROGRAM, prints=None):
    """How many instructions the program takes with these arguments and this input, where it prints this."""
    with tempfile.TemporaryFile() as file:
        file.write(given)
        file.seek(0)
        tool = ["valgrind", "--tool=callgrind", "--callgrind-out-file=/dev/null"]
        ended = subprocess.run([*tool, program, *map(str, words)], stdin=file, capture_output=True)
    report = ended.stderr.decode(errors="replace")
    collected = re.search(r"Collected : (\d+)", report)
    if ended.returncode != 0 or collected is None or prints not in (None, ended.stdout.strip()):
        sys.exit(f"the run ended with status {ended.returncode}:\n{report}")
    return int(collected.group(1))
