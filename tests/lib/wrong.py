"""Tries the wrong programs: each crates/NAME/wrong/LABEL.edit changes a copy of its crate, the prover must refuse it.

An edit has the form of rt's must-fail edits and one line more, `fact: FILE NAME`: the declaration whose fact no longer
holds. So an edit that only breaks a proof's shape, or that no longer reaches its fact, is a failure.

`rt ci` and `rt must-fail` would check the crate anew for each edit. Here `rt check` proves each crate as it stands, and
`rattle check`, as `rt check` calls it, then begins with what that kept, so that only what edits touch is proved again;
and edits within the bodies of different functions are tried together. A function is proved from its own body and the
contracts of others, so each such edit answers alone for what fails in its function's proof. A caller is not tried where
a function that it calls is refused: where a fact is not to be seen beside the other edits, its edit is tried alone.

With --place EDIT.. it prints the line `fact:` of each in place of comparing it, and with --write it puts it there.
"""

import os
import re
import shutil
import subprocess
import sys
import tempfile
from concurrent.futures import ThreadPoolExecutor
from pathlib import Path

ROOT = Path.cwd()
KIT = Path(shutil.which("rt")).resolve().parent.parent
PARTS = ("src", "specs", "proofs")
ERROR = re.compile(r"^(?:\./)?((?:src|specs|proofs)/\S+?):\d+:\d+: error: (?:`([^`]+)`)?(.*)", re.M)
BARE = re.compile(r"^fn \S+: no proof: .*?(?:\./)?(proofs/\S+?\.antt)\b.*?; `search` did not prove (`.*)", re.M)
NAME = re.compile(r"`([^`]+)`")
CONSEQUENCE = re.compile(r"was not admitted|was rejected|is not admitted|has no `|has no field|is not in scope")
FUNCTION = re.compile(r"^( *)(?:pub(?:\(\w+\))? )?(?:const )?fn (\w+)")
IMPL = re.compile(r"^impl (\w+)")
# What a check takes of the memory, at most, in kilobytes.
MEMORY = 2_500_000


class BadEdit(Exception):
    pass


class Edit:
    """What an edit replaces, as (file, old, new); the fact that it names; and the proof of the function it is within."""

    def __init__(self, path):
        self.path = path
        self.crate = path.parent.parent.name
        self.label = f"{self.crate}/{path.stem}"
        self.replacements, self.fact = [], ""
        file, old = None, None
        for line in path.read_text(encoding="utf-8").splitlines():
            key, _, text = line.partition(":")
            text = text.removeprefix(" ")
            if key == "file":
                file = text
            elif key == "old":
                old = text
            elif key == "new":
                self.replacements.append((file, old, text))
            elif key == "fact":
                self.fact = text
        homes = {home_of(ROOT / "crates" / self.crate, file, old) for file, old, _ in self.replacements}
        self.home = homes.pop() if len(homes) == 1 else ""

    def shares(self, placing):
        """Whether it stays within the body of one function, in whose own proof its fact lies."""
        return self.home != "" and (placing or self.fact.startswith(self.home))

    def write(self, fact):
        lines = [line for line in self.path.read_text(encoding="utf-8").splitlines() if not line.startswith("fact:")]
        self.path.write_text("\n".join([*lines, f"fact: {fact}", ""]), encoding="utf-8")


def home_of(crate, file, old):
    """The folder for the proof of the function in whose body a text stands; empty where it stands in none."""
    if not file.startswith("src/"):
        return ""
    text = (crate / file).read_text(encoding="utf-8")
    at, end, line = text.find(old), text.find(old) + len(old), 0
    module = [] if file == "src/lib.rt" else list(Path(file).with_suffix("").parts[1:])
    owner, indent, name, opened = [], "", "", -1
    for words in text.splitlines(keepends=True):
        begun, of = FUNCTION.match(words), IMPL.match(words)
        if of:
            owner = [of[1]]
        if begun:
            indent, name, opened = begun[1], begun[2], -1
        line += len(words)
        if name and opened < 0 and words.rstrip().endswith("{"):
            opened = line
        elif name and opened >= 0 and words.rstrip() == indent + "}":
            if opened <= at and end <= line:
                return "/".join(["proofs", *module, *(owner if indent else []), name, ""])
            name = ""
    return ""


def apply(edit, crate):
    if not edit.replacements:
        raise BadEdit("it replaces nothing")
    for file, old, new in edit.replacements:
        text = (crate / file).read_text(encoding="utf-8")
        if text.count(old) != 1:
            raise BadEdit(f"its old text is {text.count(old)} times in {file}")
        (crate / file).write_text(text.replace(old, new), encoding="utf-8")


def libraries():
    """The libraries that each crate uses, as crates.txt names them."""
    rows = [line.partition("#")[0].partition(":") for line in (ROOT / "crates.txt").read_text(encoding="utf-8").splitlines()]
    return {head.split()[0]: needs.split() for head, _, needs in rows if head.strip()}


USES = libraries()


def below(crate):
    """The repository's own libraries that it stands on, those of these too."""
    found = [library for library in USES[crate] if library in USES]
    return {*found, *(lower for library in found for lower in below(library))}


def rlib(crate):
    return ROOT / "crates" / crate / "out" / "rlib" / f"{crate}.rlib"


def words(crate):
    """What `rt check` tells rattle of a library."""
    said = ["check", "--crate-name", crate, "src/lib.rt", "--extern", f"std={KIT}/rlibs/std.rlib"]
    for library in USES[crate]:
        said += ["--extern", f"{library}={rlib(library) if library in USES else KIT / 'rlibs' / (library + '.rlib')}"]
    for at in [KIT / "rlibs", *(rlib(library).parent for library in sorted(below(crate)))]:
        said += ["-L", f"dependency={at}"]
    said += ["--antt-project", f"{KIT}/rattle/logic/antt-project.json", "--logic-built", f"{KIT}/logic_built"]
    return [*said, "--links", f"{crate}=", "--jobs", "1"]


def prove(crate):
    """Has rt keep what it proves of a crate, and of those below it."""
    ran = subprocess.run(["rt", "check"], cwd=ROOT / "crates" / crate, capture_output=True, text=True, check=False)
    if ran.returncode != 0:
        print(ran.stdout[-2000:], ran.stderr[-2000:])
        sys.exit(f"crate {crate} is not proved as it stands")


def kept(file, copy):
    """Checked modules are linked, where the disk is the same: a check replaces such a file, and changes none."""
    try:
        return os.link(file, copy) if file.endswith(".oantt") else shutil.copy2(file, copy)
    except OSError:
        return shutil.copy2(file, copy)


def failing(edits):
    """The facts that fail in a crate with these edits; none where it is proved all the same. What fails since another
    declaration did, or since a proof no longer fits the code's shape, is left out. A function with no proof of ours says its facts in a line of its own."""
    name = edits[0].crate
    home = ROOT / "crates" / name
    with tempfile.TemporaryDirectory() as work:
        work = Path(work)
        for part in PARTS:
            if (home / part).is_dir():
                shutil.copytree(home / part, work / part)
        shutil.copytree(home / "out" / "incremental", work / "kept", copy_function=kept)
        for edit in edits:
            apply(edit, work)
        command = [KIT / "bin" / "rattle", *words(name), "--incremental", work / "kept"]
        pipe, joined = subprocess.PIPE, subprocess.STDOUT
        ran = subprocess.run(command, cwd=work, stdin=subprocess.DEVNULL, stdout=pipe, stderr=joined, text=True, check=False)
    if ran.returncode == 0:
        return []
    if ran.returncode != 1 or "\nlogic=not-proved" not in ran.stdout:
        raise BadEdit(f"it did not reach the prover: {ran.stdout[-300:]}")
    facts = [(file, fact or "-") for file, fact, why in ERROR.findall(ran.stdout) if not CONSEQUENCE.search(why)]
    facts += [(file, fact) for file, all_of_it in BARE.findall(ran.stdout) for fact in NAME.findall(all_of_it)]
    if not facts:
        raise BadEdit("it is refused only since a proof names what it took away, or where no error names a file of the crate")
    return [f"{file} {fact}" for file, fact in facts]


def rounds(edits, placing):
    """Lists of edits to try at once: of each crate those that share, one for each function, and every other alone."""
    tried = []
    for crate in sorted({edit.crate for edit in edits}):
        left = [edit for edit in edits if edit.crate == crate]
        while any(edit.shares(placing) for edit in left):
            together = list({edit.home: edit for edit in left if edit.shares(placing)}.values())
            left = [edit for edit in left if edit not in together]
            tried.append(together)
        tried += [[edit] for edit in left]
    return tried


def try_round(edits):
    """For each edit whether it is refused at its fact, and a line that says so."""
    try:
        facts = failing(edits)
    except BadEdit as bad:
        if len(edits) > 1:
            return [said for edit in edits for said in try_round([edit])]
        return [(False, f"wrong {edits[0].label}: BAD EDIT: {bad}")]
    said = []
    for edit in edits:
        if edit.fact in facts:
            said.append((True, f"wrong {edit.label}: refused at {edit.fact}"))
        elif len(edits) > 1:
            said += try_round([edit])
        elif facts:
            said.append((False, f"wrong {edit.label}: refused at {facts[0]}, not at its fact {edit.fact or '(none)'}"))
        else:
            said.append((False, f"wrong {edit.label}: NOT REFUSED"))
    return said


def place_round(edits):
    """Each edit with the first fact that fails: of the function that it is within, where that is one of them."""
    try:
        facts = failing(edits)
    except BadEdit as bad:
        if len(edits) > 1:
            return [placed for edit in edits for placed in place_round([edit])]
        return [(edits[0], f"BAD EDIT: {bad}")]
    placed = []
    for edit in edits:
        own = [fact for fact in facts if edit.home and fact.startswith(edit.home)]
        if own or len(edits) == 1:
            placed.append((edit, [*own, *facts, "NOT REFUSED"][0]))
        else:
            placed += place_round([edit])
    return placed


def at_once():
    """How many checks the processors and the memory hold."""
    free = re.search(r"MemAvailable: +(\d+)", Path("/proc/meminfo").read_text(encoding="ascii"))
    return max(1, min(len(os.sched_getaffinity(0)), int(free[1]) // MEMORY))


def main(arguments):
    placing, writing = "--place" in arguments or "--write" in arguments, "--write" in arguments
    chosen = [Edit(ROOT / word) for word in arguments if word not in ("--place", "--write")]
    edits = chosen or [Edit(path) for path in sorted(ROOT.glob("crates/*/wrong/*.edit"))]
    for crate in sorted({edit.crate for edit in edits}, key=lambda crate: len(below(crate))):
        prove(crate)
    good, bad = 0, 0
    with ThreadPoolExecutor(at_once()) as pool:
        if placing:
            for placed in pool.map(place_round, rounds(edits, True)):
                for edit, fact in placed:
                    print(f"{edit.path.relative_to(ROOT)} fact: {fact}", flush=True)
                    if writing and fact.startswith(PARTS):
                        edit.write(fact)
            return 0
        for said in pool.map(try_round, rounds(edits, False)):
            for refused, line in said:
                print(line, flush=True)
                good, bad = good + refused, bad + (not refused)
    print(f"{good} passed, {bad} failed")
    return 0 if bad == 0 else 1


sys.exit(main(sys.argv[1:]))
