"""The checks of training/: its files, every program's listing of them, and what its page says of them."""

import re
import shlex
import subprocess
import sys
from itertools import zip_longest
from pathlib import Path

from checks import check, check_programs, check_remade, files, finish, read_lines
from fields import SHORT, parse, walk

FOLDER = Path("training")
EARNED_BY_STRETCHES = ("0", "3", "4", "5", "6", "7", "8", "9", "10", "11", "13", "B")
EARNED_BY_CALLS = ("1", "2", "12")
SAVING = ("target/tests/second mask", "./hundurzek save -")
CASES_HEADER = ["case", "file", "its last answer", "accepted differs in"]
WORKED_HEADER = ["place", "width", "field", "value"]
LONGER_HEADER = ["file", "bits more", "answer", "place", "messages", "at the field", "needed", "left", "missing"]
PART = 1695


def cases():
    return {str(name.parent) for name in files(FOLDER, "txt")}


def lines(case, name):
    return read_lines(FOLDER / case / f"{name}.txt")


def listing(path):
    return path.with_suffix(".listing").read_text(encoding="ascii").splitlines()


# ---- the table of cases


def distance(one, other):
    """Places where two strings differ, or only one is."""
    return sum(a != b for a, b in zip_longest(one, other))


def difference(one, other):
    """In words: bits in which the lines differ, characters where a line is bad, and lines that only the other has."""
    bits = [[parse(line) for line in lines] for lines in (one, other)]
    bad = None in bits[0] + bits[1]
    one, other = (one, other) if bad else bits
    more = len(other) - len(one)
    without = [other[:k] + other[k + more:] for k in range(len(one) + 1)]
    least = min(sum(map(distance, one, rest)) for rest in without)
    return counted(least, "character" if bad else "bit") + (f", {counted(more, 'line')} more" if more else "")


def counted(number, unit):
    return f"{number} {unit}" + ("" if number == 1 else "s")


def last_answer(case, name):
    """The last stop's number, or the bad line where there is one."""
    answers = [line.split("\t") for line in listing(FOLDER / case / f"{name}.txt") if line[0] in "BE"]
    bad = [f"B {answer[1]}" for answer in answers if answer[0] == "B"]
    return bad[0] if bad else answers[-1][1]


def check_case(case, name, answer, differs):
    check(last_answer(case, name) == answer, f"{case}/{name}: last answer {last_answer(case, name)}")
    accepted = listing(FOLDER / case / "accepted.txt")
    check(all(line[0] in "MR" or line.startswith("E\t0\t") for line in accepted), f"{case}/accepted is refused")
    check(any(line[0] == "M" for line in accepted), f"{case}/accepted has no message")
    found = difference(lines(case, name), lines(case, "accepted"))
    check(found == differs, f"{case}: accepted differs in {found}")


def check_cases(rows):
    check({row[0] for row in rows} == cases(), "the cases are not the folders")
    for row in rows:
        check_case(*row)


def check_answers():
    """Every answer that a stretch can earn is there."""
    earned = set()
    for name in files(FOLDER, "txt"):
        for line in listing(FOLDER / name):
            earned.add(line.split("\t")[1] if line[0] == "E" else line[0])
    for answer in EARNED_BY_STRETCHES:
        check(answer in earned, f"no stretch earns {answer}")


# ---- the tables of fields


def spelled(value, width):
    return format(int(value, 0) % (1 << width), f"0{width}b")


def check_worked(rows):
    """The fields follow one another and spell the worked stretch."""
    bits = ""
    for place, width, _, value in rows:
        check(len(bits) == int(place), f"the worked stretch: place {place}")
        bits += spelled(value, int(width))
    check(bits == parse(lines("03-short-body", "accepted")[0]), "the worked stretch is not spelled")


def check_value(case, name, row, value):
    """The field of a table's row has this value in a file, or - where it is past the line's end."""
    line, place, width, field = int(row[0]), int(row[1]), int(row[2]), row[3]
    bits = parse(lines(case, name)[line - 1])
    want = "" if value == "-" else spelled(value, width)
    check(bits[place:place + width] == want, f"{case}/{name}: {field} at {place} of line {line}")


def check_fields(case, header, rows):
    """Both files have the values told, and outside the fields told their lines are the same."""
    one, other = header[4:]
    told = {(int(row[0]), int(row[1]) + k) for row in rows for k in range(int(row[2]))}
    for row in rows:
        check_value(case, one, row, row[4])
        check_value(case, other, row, row[5])
    for line in {line for line, _ in told}:
        pairs = zip_longest(*(parse(lines(case, name)[line - 1]) for name in (one, other)))
        differ = {(line, place) for place, (a, b) in enumerate(pairs) if a != b}
        check(differ <= told, f"{case}: line {line} also differs at {sorted(differ - told)}")


# ---- the tables of stretches made longer


def longer(case, name, more):
    """What a file's stretch gives with so many of the accepted one's bits behind it."""
    bits, accepted = (parse(lines(case, each)[0]) for each in (name, "accepted"))
    return walk(bits + accepted[len(bits):len(bits) + more], None)


def needed_left_missing(answer):
    """Of the field or the body that is short."""
    left = len(answer.stopped.bits) - answer.stopped.place
    return [left + answer.missing, left, answer.missing] if answer.stop == SHORT else ["-", "-", "-"]


def check_longer(case, rows):
    """Each stops as told, and one without bits more as it is listed."""
    for name, more, *told in rows:
        answer = longer(case, name, int(more))
        stop = [answer.stop, answer.place, len(answer.messages), answer.field or "-"]
        found = list(map(str, stop + needed_left_missing(answer)))
        check(found == told, f"{case}/{name}, {more} bits more: {found}")
        if more == "0":
            said = listing(FOLDER / case / f"{name}.txt")[-1].split("\t")
            check(said[1:4] + said[5:] == told[:3] + told[6:], f"{case}/{name} is listed with {said}")


# ---- the page


def tables(text):
    """The tables of a page: for each its header and its rows, lists of cells."""
    found, rows = [], []
    for line in text.splitlines() + [""]:
        if line.startswith("|"):
            rows.append([cell.strip() for cell in line.strip("|").split("|")])
        elif rows:
            found.append((rows[0], rows[2:]))
            rows = []
    return found


def check_block(case, block):
    """A listing on the page stands so in one of the case's listings."""
    listings = [name.read_text(encoding="ascii") for name in (FOLDER / case).glob("*.listing")]
    check(any("\n" + block in "\n" + text for text in listings), f"{case}: no file lists\n{block}")


def check_section(title, text):
    for header, rows in tables(text):
        if header == CASES_HEADER:
            check_cases(rows)
        elif header == WORKED_HEADER:
            check_worked(rows)
        elif header == LONGER_HEADER:
            check_longer(title, rows)
        else:
            check_fields(title, header, rows)
    for block in re.findall(r"^```\n(.*?)^```$", text, re.M | re.S):
        check_block(title, block)


def check_page():
    page = (FOLDER / "README.md").read_text(encoding="ascii")
    for title, text in re.findall(r"^##? (.*?)\n(.*?)(?=^## |\Z)", page, re.M | re.S):
        check_section(title, text)
    titles = set(re.findall(r"^## (\S+)$", page, re.M))
    check(cases() <= titles, "a case has no section")


def check_mistakes():
    """Mistake 3's careless reader goes on at place 67."""
    refused, careless = (parse(lines("mistake-3-reading-on", name)[1]) for name in ("refused", "careless"))
    check(refused[67:] == careless, "mistake 3: careless is not the rest from place 67 on")


def check_parts():
    """The lost part: what is there is whole data parts, and what is missing of a body lies within one."""
    case = "03-part-lost"
    whole, two, one, foreign = (parse(lines(case, name)[0]) for name in ("accepted", "refused", "two-lost", "foreign"))
    check(len(whole) == 3 * PART and len(foreign) == 2 * PART, f"{case}: whole data parts")
    check(two == whole[:2 * PART] and one == whole[:PART], f"{case}: not the same subframe")
    check(1 <= longer(case, "refused", 0).missing <= PART, f"{case}: more is missing than a part")
    for name in ("refused", "two-lost"):
        check_missing(case, name)


def check_saved():
    """What the page says of saved masks: that of the empty holding after 13; cell flag 0, and flag 1 with all ones."""
    flag_0 = lines("13-flag-and-cells", "refused")[:1]
    for sent, end in ((lines("13-changed-mask", "refused"), "S\t-\n"), (flag_0, "\t0\t-\n"),
                      (lines("13-flag-and-cells", "accepted"), "\t1\tF\n")):
        for command in SAVING:
            got = subprocess.run(shlex.split(command), input="".join(sent), capture_output=True, text=True, check=False)
            check(got.stdout.endswith(end), f"{command}: {got.stdout!r} does not end with {end!r}")


def check_missing(case, name):
    """What the number says: with fewer bits more the same field is short still, with that many it is not."""
    short = longer(case, name, 0)
    for more in range(1, short.missing + 1):
        answer = longer(case, name, more)
        still = (answer.stop, answer.place, answer.field) == (SHORT, short.place, short.field)
        check(still == (more < short.missing), f"{case}/{name}: {more} bits more")
        check(not still or answer.missing == short.missing - more, f"{case}/{name}: missing with {more} bits more")


def check_calls():
    """calls.c prints what is expected, and each answer that a call alone earns is there."""
    printed = Path("target/tests/calls.out").read_text(encoding="ascii")
    check(printed == (FOLDER / "calls.out").read_text(encoding="ascii"), "training/calls.c prints something else")
    for answer in EARNED_BY_CALLS:
        check(f"\tanswer {answer}\t" in printed, f"no call earns {answer}")


def main():
    check_remade("training")
    check_programs("training", [line.strip() for line in sys.stdin])
    check_page()
    check_answers()
    check_mistakes()
    check_parts()
    check_saved()
    check_calls()
    finish()


main()
