"""Counting of checks, and those that training/ and vectors/ share."""

import shlex
import subprocess
import sys
from pathlib import Path

from fields import lines_of

counts = {True: 0, False: 0}


def check(good, what):
    counts[bool(good)] += 1
    if not good:
        print(f"FAILED: {what}")


def finish():
    print(f"{counts[True]} passed, {counts[False]} failed")
    sys.exit(counts[False] > 0)


def files(folder, kind):
    return sorted(path.relative_to(folder) for path in Path(folder).rglob(f"*.{kind}"))


def content(path):
    return path.read_bytes() if path.exists() else None


def check_remade(folder):
    """The folder has exactly the files that its script makes, byte for byte."""
    made = Path("target/tests") / folder
    for kind in ("txt", "listing"):
        for name in sorted(set(files(folder, kind)) | set(files(made, kind))):
            same = content(Path(folder) / name) == content(made / name)
            check(same, f"{folder}/{name} is not what {folder}/make.sh makes")


def check_programs(folder, commands):
    """Every program prints the expected listing of every file."""
    check(commands, "no program is compared")
    for command in commands:
        for name in files(folder, "txt"):
            lines = Path(folder) / name
            with open(lines, "rb") as stdin:
                got = subprocess.run(shlex.split(command), stdin=stdin, stdout=subprocess.PIPE, check=False)
            good = got.returncode == 0 and got.stdout == content(lines.with_suffix(".listing"))
            check(good, f"{command} < {lines} (status {got.returncode})")


def read_lines(path):
    with open(path, "rb") as file:
        return lines_of(file)
