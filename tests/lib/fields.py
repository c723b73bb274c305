"""A stretch read field by field, with the field where it stops (document 01, "Reader's order"; document 02, Asks 1, 2).

The listing says why and where a stretch stops, not at which field; this says it. As a program it takes lines of the
listing's input and prints each field (place, width, name, value, bits), then the stop; of a field or a body that is
short also how many of its bits are missing (document 02, Ask 7). A changed mask is no field's fault: the stop is the
message as a whole.
"""

import re
import sys
from typing import NamedTuple, Optional

from messages import (CLOCK, CODE, COLUMNS, CORRECTIONS, NUMBER, PHASE, SATELLITE_PLACES, SIGNAL_PLACES, Mask, System,
                      celled, cells, named, orbit, satellites)

IDLE, SHORT, OTHER_NUMBER, SUB_TYPE, NO_MASK, OTHER_ISSUE, SYSTEM, RESERVED, SIZE, NETWORK = 0, *range(3, 12)
CHANGED = 13
WHOLE = "the message as a whole"
STRETCH_BITS = 50850
SIGNED = ("radial", "along-track", "cross-track", "clock", "code bias", "phase bias")


class Stop(Exception):
    """Its number, the field where it was given or the whole, and how many of its bits are missing where it is short."""

    def __init__(self, number, field, missing=None):
        self.number, self.field, self.missing = number, field, missing


class Field(NamedTuple):
    name: str
    place: int
    width: int
    value: int


class Message:
    """One message from a place on: the fields taken so far, and the mask held after it."""

    def __init__(self, bits, place, held):
        self.bits, self.place, self.held = bits, place, held
        self.taken, self.sub_type = [], None

    def need(self, name, width):
        """So many bits are left for a field or a body."""
        missing = self.place + width - len(self.bits)
        if missing > 0:
            raise Stop(SHORT, name, missing)

    def take(self, name, width):
        self.need(name, width)
        value = int(self.bits[self.place:self.place + width] or "0", 2)
        self.taken.append(Field(name, self.place, width, value))
        self.place += width
        return value

    def refuse(self, number, when):
        if when:
            raise Stop(number, self.taken[-1].name)

    def read(self):
        self.refuse_idle()
        self.refuse(OTHER_NUMBER, self.take("number", 12) != NUMBER)
        sub_type = self.take("sub type", 4)
        self.refuse(SUB_TYPE, sub_type not in (1, 10) + CORRECTIONS)
        self.sub_type = sub_type
        {1: self.mask, 10: self.service}.get(sub_type, self.correction)()

    def refuse_idle(self):
        if "1" not in self.bits[self.place:]:
            raise Stop(IDLE, "")

    def common(self, epoch_width):
        for name, width in (("epoch", epoch_width), ("interval", 4), ("indicator", 1)):
            self.take(name, width)
        return self.take("IOD SSR", 4)

    def mask(self):
        mask = Mask(self.common(20), ())
        for _ in range(self.take("systems", 4)):
            mask = mask._replace(systems=mask.systems + (self.system(mask),))
        if self.held is not None and self.held.iod == mask.iod and self.held != mask:
            self.held = None
            raise Stop(CHANGED, WHOLE)
        self.held = mask

    def system(self, before):
        system_id = self.take("GNSS ID", 4)
        self.refuse(SYSTEM, system_id > 4 or system_id in [system.id for system in before.systems])
        chosen = self.places("satellite mask", 40, SATELLITE_PLACES[system_id])
        self.refuse(SIZE, len(satellites(before)) + len(chosen) > 64)
        signals = self.places("signal mask", 16, SIGNAL_PLACES[system_id])
        flags = None
        if self.take("cell flag", 1):
            width = len(chosen) * len(signals)
            flags = format(self.take("cell mask", width), f"0{width}b") if width else ""
        system = System(system_id, chosen, signals, flags)
        self.refuse(SIZE, len(cells(Mask(before.iod, before.systems + (system,)))) > 256)
        return system

    def places(self, name, width, assigned):
        value = self.take(name, width)
        chosen = tuple(place for place in range(width) if value >> (width - 1 - place) & 1)
        self.refuse(RESERVED, any(place >= assigned for place in chosen))
        return chosen

    def service(self):
        self.take("indicator", 1)
        self.take("counter", 3)
        self.body([("data", 8)] * 5 * (self.take("size", 2) + 1))

    def correction(self):
        iod = self.common(12)
        self.refuse(NO_MASK, self.held is None)
        self.refuse(OTHER_ISSUE, iod != self.held.iod)
        self.body({6: self.biases, 11: self.combined}.get(self.sub_type, self.plain)())

    def plain(self):
        return [column for k in named(self.sub_type, self.held) for column in COLUMNS[self.sub_type](k)]

    def combined(self):
        orbits, clocks, each = self.selected("orbit flag", "clock flag")
        return [column for system_id, _ in each for column in orbit(system_id) * orbits + CLOCK * clocks]

    def biases(self):
        codes, phases, each = self.selected("code flag", "phase flag")
        return (CODE * codes + PHASE * phases) * sum(count for _, count in each)

    def selected(self, one, other):
        """Two flags, and GNSS ID and cells of each satellite that the network leaves."""
        flags, each = [self.take(one, 1), self.take(other, 1)], celled(self.held)
        if self.take("network flag", 1):
            self.refuse(NETWORK, self.take("network ID", 5) == 0)
            selection = self.take("selection", len(each))
            each = [satellite for k, satellite in enumerate(each) if selection >> (len(each) - 1 - k) & 1]
            self.refuse(NETWORK, self.sub_type == 6 and any(count == 0 for _, count in each))
        return *flags, each

    def body(self, columns):
        self.need("body", sum(width for _, width in columns))
        for name, width in columns:
            self.take(name, width)


class Walked(NamedTuple):
    messages: list
    stop: int
    place: int
    stopped: Message  # the message that was not accepted
    field: str  # at which field, or the whole; none where idle
    missing: Optional[int]  # of its bits; none where it is not short
    held: Mask


def walk(bits, held):
    messages, place = [], 0
    while True:
        message = Message(bits, place, held)
        try:
            message.read()
        except Stop as stop:
            return Walked(messages, stop.number, place, message, stop.field, stop.missing, message.held)
        messages.append(message)
        place, held = message.place, message.held


def parse(line):
    """The bits of a good line with its line feed, else None (document 01, "Saved mask and listing")."""
    found = re.fullmatch(r"(0|[1-9][0-9]{0,4})\t([0-9A-F]*)\n", line)
    if not found:
        return None
    count, digits = int(found[1]), found[2]
    bits = "".join(format(int(digit, 16), "04b") for digit in digits)
    good = count <= STRETCH_BITS and len(digits) == -(-count // 4) and "1" not in bits[count:]
    return bits[:count] if good else None


def lines_of(file):
    """The lines of a file of bytes, each with its line feed if it has one."""
    return [line.decode("latin-1") for line in file]


def listed(lines):
    """What each line gives: a Walked, or None for a bad line."""
    held, answers = None, []
    for line in lines:
        bits = parse(line)
        answers.append(None if bits is None else walk(bits, held))
        held = held if bits is None else answers[-1].held
    return answers


def field_line(bits, field):
    signed = field.name in SIGNED and field.value >> (field.width - 1)
    value = field.value - (1 << field.width) if signed else field.value
    return f"{field.place:6} {field.width:3}  {field.name:14} {value:13}  {bits[field.place:field.place + field.width]}"


def stopped_in(answer):
    if answer.stop == CHANGED:
        return f", {answer.field}: another mask under the held issue; nothing is held now"
    field = f", field {answer.field}" if answer.field else ""
    return field + (f", bits missing: {answer.missing}" if answer.missing else "")


def main():
    for number, answer in enumerate(listed(lines_of(sys.stdin.buffer)), 1):
        print(f"line {number}" + (": bad" if answer is None else ""))
        for message in answer.messages + [answer.stopped] if answer else []:
            for field in message.taken:
                print(field_line(message.bits, field))
        if answer:
            print(f"stop {answer.stop} at {answer.place}" + stopped_in(answer))


if __name__ == "__main__":
    main()
