"""The checks of vectors/: its files, every program's listing of them, and that each group has what its page says.

The page's tables are worked out here from the files; one that differs is printed as it should be.
"""

import sys
from pathlib import Path

from checks import check, check_programs, check_remade, files, finish, read_lines
from fields import CHANGED, SHORT, SIGNED, listed, parse, walk
from groups import late, limits, order

FOLDER = Path("vectors")
STOPS = (0, 3, 4, 5, 6, 7, 8, 9, 10, 11, 13)
SUB_TYPES = (1, 2, 3, 4, 5, 6, 7, 10, 11)
MOST_BYTES = 2000000


class Group:
    """A file's lines; what each gives read field by field; and of its listing, each line's part."""

    def __init__(self, name):
        self.lines = read_lines(FOLDER / f"{name}.txt")
        self.answers = listed(self.lines)
        self.parts = parts((FOLDER / f"{name}.listing").read_text(encoding="ascii").splitlines())

    def stop(self, number):
        """Of a line, from 0: the stop, or B."""
        last = self.parts[number][-1]
        return "B" if last[0] == "B" else int(last.split("\t")[1])


def parts(listing):
    """Each line's part of a listing ends with E or B."""
    found, part = [], []
    for record in listing:
        part.append(record)
        if record[0] in "BE":
            found.append(part)
            part = []
    return found


def table(header, rows):
    lines = ["| " + " | ".join(map(str, line)) + " |\n" for line in [header] + rows]
    return "".join(lines[:1] + ["|" + "---|" * len(header) + "\n"] + lines[1:])


def check_table(header, rows):
    text = table(header, rows)
    check(text in (FOLDER / "README.md").read_text(encoding="ascii"), f"vectors/README.md has not\n{text}")


# ---- all groups


def check_agreement(name, group):
    """Read field by field, each line stops as its listing says: number, place, messages, bits missing."""
    check(len(group.parts) == len(group.lines), f"{name}: parts of the listing")
    for number, (answer, part) in enumerate(zip(group.answers, group.parts), 1):
        said = part[-1].split("\t")
        want = list(map(str, ["B", number] if answer is None else stop_line(answer, said[4:5])))
        check(said == want, f"{name}: line {number} is listed with {said}, read field by field {want}")


def stop_line(answer, rows):
    """The E line, but for how many rows: reading field by field counts none."""
    return ["E", answer.stop, answer.place, len(answer.messages), *rows, answer.missing or "-"]


def check_alone(groups):
    """Lines that need no other one: by themselves they stop just so."""
    for name in ("accepted", "limits", "one-bit"):
        for number, (line, answer) in enumerate(zip(groups[name].lines, groups[name].answers), 1):
            alone = listed([line])[0]
            same = alone and answer and stop_line(alone, []) == stop_line(answer, [])
            check(same or alone is answer is None, f"{name}: line {number} needs another one")


def check_groups(groups):
    rows = []
    for name, group in groups.items():
        stops = [group.stop(number) for number in range(len(group.lines))]
        messages = sum(record[0] == "M" for part in group.parts for record in part)
        rows.append([name, len(stops), messages, stops.count("B")] + [stops.count(stop) for stop in STOPS])
    check_table(["group", "lines", "messages", "bad", *STOPS], rows)


# ---- changed masks


PARTS = {"satellite mask": lambda system: system.satellites, "signal mask": lambda system: system.signals,
         "cell flag": lambda system: system.cells is None, "cell mask": lambda system: system.cells}
CHANGES = ("number of systems", "GNSS ID", "order of systems", *PARTS)


def changed_in(held, other):
    """The first thing of CHANGES in which two masks differ; the order where the systems are the same."""
    ids, other_ids = ([system.id for system in mask.systems] for mask in (held, other))
    if len(ids) != len(other_ids):
        return "number of systems"
    if ids != other_ids:
        return "order of systems" if sorted(ids) == sorted(other_ids) else "GNSS ID"
    return next(name for name, part in PARTS.items() if [*map(part, held.systems)] != [*map(part, other.systems)])


def changes(group):
    """For each changed mask of a group what is changed."""
    found, held = [], None
    for line, answer in zip(group.lines, group.answers):
        if answer and answer.stop == CHANGED:
            before = answer.messages[-1].held if answer.messages else held
            found.append(changed_in(before, walk(parse(line)[answer.place:], None).messages[0].held))
        held = answer.held if answer else held
    return found


def check_changes(groups):
    """How often each thing is changed under the held issue, in each group that has 13."""
    found = {name: changes(group) for name, group in groups.items()}
    names = [name for name in found if found[name]]
    check_table(["changed in", *names],
                [[change] + [found[name].count(change) or "" for name in names] for change in CHANGES])


# ---- single groups


def check_refusals(group):
    """How often each refusal is earned at each field of each sub type."""
    found = [(answer.stop, answer.field, answer.stopped.sub_type) for answer in group.answers if answer.stop]
    pairs = sorted(dict.fromkeys(earned[:2] for earned in found), key=lambda pair: pair[0])
    rows = [[*pair] + [found.count((*pair, sub_type)) or "" for sub_type in (None, *SUB_TYPES)] for pair in pairs]
    check_table(["answer", "at the field", "any", *SUB_TYPES], rows)


def check_missing(group):
    """How many bits are missing at each field that is short; of many numbers the least and the greatest."""
    seen, rows = {}, {}
    for answer in group.answers:
        if answer.stop == SHORT:
            seen.setdefault((answer.field, answer.stopped.sub_type or "any"), set()).add(answer.missing)
    for (field, sub_type), numbers in seen.items():
        many = f"{len(numbers)} numbers, {min(numbers)} to {max(numbers)}"
        said = many if len(numbers) > 3 else ", ".join(map(str, sorted(numbers)))
        rows.setdefault((field, said), []).append(sub_type)
    check_table(["short at the field", "bits missing", "sub types"],
                [[*row, ", ".join(map(str, sorted(sub_types)))] for row, sub_types in rows.items()])


def check_order(group):
    """Each faulty line, by its name; the lines between show that the mask is kept."""
    faulty = [answer for answer in group.answers if answer.stop]
    check(len(faulty) == len(order.names()), "order: lines that are refused")
    check_table(["two faults", "answer", "at the field"],
                [[name, answer.stop, answer.field] for name, answer in zip(order.names(), faulty)])


def check_limits(group):
    """Each pair of lines, by its name: idle at the end, and refused."""
    rows = []
    for k, name in enumerate(limits.names()):
        check(group.stop(2 * k) == 0, f"limits: line {2 * k + 1} is refused")
        check(group.stop(2 * k + 1) != 0, f"limits: line {2 * k + 2} is not refused")
        rows.append([f"{2 * k + 1}, {2 * k + 2}", name, group.stop(2 * k + 1)])
    check(len(group.lines) == 2 * len(rows), "limits: pairs of lines")
    check_table(["lines", "good", "a step further"], rows)


def value(field):
    negative = field.name in SIGNED and field.value >> (field.width - 1)
    return field.value - (1 << field.width) if negative else field.value


def check_extremes(group):
    """The least and the greatest value of each field, by sub type; number and sub type have one value each."""
    seen = {}
    for message in (message for answer in group.answers for message in answer.messages):
        for field in message.taken[2:]:
            seen.setdefault((field.name, field.width, message.sub_type), set()).add(value(field))
    rows = {}
    for (name, width, sub_type), values in sorted(seen.items(), key=lambda item: item[0][2]):
        rows.setdefault((name, width, min(values), max(values)), []).append(sub_type)
    check_table(["field", "width", "least", "greatest", "sub types"],
                [[*row, ", ".join(map(str, sub_types))] for row, sub_types in rows.items()])


def check_one_bit(group):
    """Blocks of lines: a stretch that is read whole, then the same with one bit wrong, place after place."""
    rows, base = [], ""
    for number, bits in enumerate(map(parse, group.lines)):
        wrong = [place for place in range(len(bits)) if bits[place] != base[place:place + 1]]
        if len(bits) == len(base) and len(wrong) == 1:
            rows[-1][3] += wrong
            continue
        base = bits
        check(group.stop(number) == 0, f"one-bit: line {number + 1} is refused")
        rows.append([number + 1, group.answers[number].messages[-1].sub_type, len(bits), []])
    for row in rows:
        check(row[3] == list(range(row[3][0], row[2])), f"one-bit: places damaged from line {row[0]} on")
        row[3] = f"{row[3][0]} to {row[3][-1]}"
    check_table(["from line", "sub type", "bits", "places damaged"], rows)


# ---- late joiners


def check_late(groups):
    """Demand 3 with document 02's Ask 2, its premise and what it promises, for each receiver; and the table of them."""
    first = groups["late-whole"]
    check(all(answer.stop == 0 for answer in first.answers), "late: the first receiver is refused")
    rows = []
    for name in late.RECEIVERS:
        second = groups[name]
        numbers = [first.lines.index(line) for line in second.lines]
        check(numbers == sorted(set(numbers)), f"{name}: stretches in order")
        for own, number in enumerate(numbers):
            check_stretch(f"{name}: stretch {number + 1}", (first, number), (second, own))
        stops = [second.stop(own) for own in range(len(numbers))]
        rows.append([name, " ".join(str(number + 1) for number in numbers), " ".join(map(str, stops))])
    check_table(["receiver", "gets stretches", "stops with"], rows)


def check_stretch(name, first, second):
    """The same stretch, by its number in the run of each receiver."""
    whole, mask = handed_out(*first)
    part, own_mask = handed_out(*second)
    same_issue = mask and own_mask and mask.iod == own_mask.iod
    check(not same_issue or mask == own_mask, f"{name}: the premise")
    check(whole[:len(part)] == part, f"{name}: not an opening part")
    stop, place = second[0].stop(second[1]), second[0].answers[second[1]].place
    check(stop in (0, 6, 7, CHANGED), f"{name}: another stop")
    opens_with_mask = first[0].answers[first[1]].messages[0].sub_type == 1
    taken = opens_with_mask and (stop, place) != (CHANGED, 0)
    check(part == whole or not (taken or mask == own_mask), f"{name}: not all of them")


def handed_out(group, number):
    """What a receiver hands out in a stretch, and the mask that it opens it with."""
    return group.parts[number][:-1], group.answers[number - 1].held if number else None


def main():
    check_remade("vectors")
    check_programs("vectors", [line.strip() for line in sys.stdin])
    check(sum(path.stat().st_size for path in FOLDER.iterdir() if path.is_file()) < MOST_BYTES, "vectors/ is too large")
    groups = {name.stem: Group(name.stem) for name in files(FOLDER, "txt")}
    for name, group in groups.items():
        check_agreement(name, group)
    check_alone(groups)
    check_groups(groups)
    check_changes(groups)
    check_refusals(groups["refusals"])
    check_missing(groups["refusals"])
    check_order(groups["order"])
    check_limits(groups["limits"])
    check_extremes(groups["extremes"])
    check_one_bit(groups["one-bit"])
    check_late(groups)
    finish()


main()
