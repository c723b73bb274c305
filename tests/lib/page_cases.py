"""What the bench page must show: the second program's listing line by line, and the fields that fields.py reads."""

import re
import struct
import subprocess
import zlib
from typing import NamedTuple, Optional

from checks import check
from fields import CHANGED, IDLE, SHORT, STRETCH_BITS, parse
from messages import Mask, System, celled, combined, correction, mask_message, spell, text

SECOND = "target/tests/second"
WORKED = "03-short-body/accepted"  # document 01's stretch

# The page's names of fields, where they are not those of fields.py.
NAMES = {
    "number": "message number", "interval": "update interval", "indicator": "multiple message indicator",
    "systems": "number of systems", "counter": "message counter", "size": "data size", "data": "data byte",
    "code flag": "code bias flag", "phase flag": "phase bias flag", "selection": "satellite selection",
    "clock": "clock C0", "discontinuity": "discontinuity indicator", "URA": "SSR URA",
}
ROW_NAMES = ("IODE", "radial", "along-track", "cross-track", "clock", "code bias", "phase bias", "discontinuity", "URA",
             "data")
DATA_BYTES = 5  # of a row of service data

# Document 01, "Answer numbers"; 13 is document 02's.
ANSWER_NAMES = {0: "idle", 3: "short", 4: "number", 5: "sub type", 6: "no mask", 7: "other issue", 8: "system",
                9: "reserved", 10: "size", 11: "network", 13: "changed mask"}


# ---- the second program


def second(*words, given=b""):
    return subprocess.run([SECOND, *words], input=given, capture_output=True, check=True).stdout


def random_lines(seed, count):
    return second("lines", str(seed), str(count))


def by_line(listing):
    """Of each line of the input its part of the listing: M, R and E lines, or a B."""
    return re.findall(r"(?:[MR].*\n)*[BE].*\n", listing)


def listings(given):
    return by_line(second("listing", given=given).decode("ascii"))


def saved(given):
    return second("mask", given=given).decode("ascii").rstrip("\n")


# ---- fields


class Piece(NamedTuple):
    message: Optional[int]  # of an accepted message alone
    row: Optional[int]
    place: int
    width: int
    name: Optional[str]  # none where nothing was read
    kind: str  # "", "refused", "unread" or "idle"


def page_name(name, sub_type):
    if name == "epoch":
        return "epoch" if sub_type == 1 else "hourly epoch"
    return NAMES.get(name, name)


def row_of(names, k):
    """Which row of its message the k-th field of a row belongs to: every row begins with the same field."""
    return k // DATA_BYTES if names[0] == "data" else names[:k + 1].count(names[0]) - 1


def taken(message, index):
    """The fields that were taken of a message; of no bits nothing can be drawn."""
    rows = [field.name for field in message.taken if field.name in ROW_NAMES]
    pieces, k = [], 0
    for field in message.taken:
        row = row_of(rows, k) if field.name in ROW_NAMES else None
        k += row is not None
        pieces.append(Piece(index, row, field.place, field.width, page_name(field.name, message.sub_type), ""))
    return [piece for piece in pieces if piece.width > 0]


def stopped(answer):
    """Those of the message that was not accepted, the field where it was refused, and what was not read."""
    message = answer.stopped
    pieces, end = taken(message, None), len(message.bits)
    if answer.stop == SHORT:
        width = end - message.place + answer.missing
        name = page_name(answer.field, message.sub_type)
        return pieces + [Piece(None, None, message.place, width, name, "refused")] * (message.place < end)
    if answer.stop not in (IDLE, CHANGED):
        pieces[-1] = pieces[-1]._replace(kind="refused")
    rest = "idle" if answer.stop == IDLE else "unread"
    return pieces + [Piece(None, None, message.place, end - message.place, None, rest)] * (message.place < end)


def expected_pieces(answer):
    """All that is drawn of a line, in order, for a Walked of fields.py."""
    accepted = [piece for index, message in enumerate(answer.messages) for piece in taken(message, index)]
    return accepted + stopped(answer)


# ---- one line as it is shown


def says(text, *parts):
    """Whether a text has each of these, as words."""
    return all(re.search(rf"(?<![\w-]){re.escape(str(part))}(?![\w])", text) for part in parts)


def check_tiles(shown, bits, where):
    """The pieces are the stretch, one behind another, no element of them over the end of a row."""
    check("".join(piece["bits"] for piece in shown["pieces"]) == bits, f"{where}: the band is not the stretch")
    place = 0
    for index, piece in enumerate(shown["pieces"]):
        _, _, said_place, width, _, kind = piece["said"]
        whole = len(piece["bits"]) == width or kind == "refused" and len(piece["bits"]) < width
        good = (piece["index"], said_place, piece["over"]) == (index, place, False) and whole
        if not good:
            return check(False, f"{where}: piece {index} at {place} says {piece}")
        place += len(piece["bits"])
    return check(True, where)


def check_pieces(shown, answer, where):
    """They are the fields that fields.py reads, each named and in its row, refused at the same one."""
    got = [Piece(*piece["said"]) for piece in shown["pieces"]]
    got = [piece._replace(name=None) if piece.kind in ("unread", "idle") else piece for piece in got]
    want = expected_pieces(answer)
    differ = [pair for pair in zip(got, want) if pair[0] != pair[1]]
    check(got == want, f"{where}: {len(got)} pieces for {len(want)}, drawn and expected {differ[:1]}")


def check_stop(shown, answer, where):
    """Why it stopped, where, at which field and what is missing."""
    parts = [answer.stop, ANSWER_NAMES[answer.stop], answer.place]
    parts += [answer.missing] if answer.stop == SHORT else []
    if answer.stop not in (0, 13):
        parts.append(page_name(answer.field, answer.stopped.sub_type))
    check(says(shown["stop"], *parts), f"{where}: the stop {parts} is told as {shown['stop']!r}")


def check_mask(shown, held, where):
    """A table for each system, a row for each satellite, and each cell."""
    each = celled(held) if held else []
    want = [len(held.systems) if held else 0, len(each), sum(count for _, count in each)]
    check(shown["grid"] == want, f"{where}: tables, satellites and cells are {shown['grid']}, not {want}")


def check_messages(shown, listing, where):
    """Each message begins with its M line."""
    want = [" ".join(line.split("\t")) for line in listing.splitlines() if line[0] == "M"]
    got = [" ".join(text.split()) for text in shown["messages"]]
    good = len(got) == len(want) and all(has.startswith(line) for has, line in zip(got, want))
    check(good, f"{where}: messages {got[:2]}, expected {want[:2]}")


def check_line(shown, number, listing, line, answer, where):
    """All that is shown of a line, against its listing and what fields.py reads."""
    check(shown["line"] == number, f"{where}: line {shown['line']} is chosen")
    check(shown["listing"] == listing, f"{where}: listed as {shown['listing'][:200]!r}, not {listing[:200]!r}")
    check(shown["wrong"] == "", f"{where}: {shown['wrong']}")
    sign = "B" if answer is None else f"{answer.stop}, {ANSWER_NAMES[answer.stop]}"
    check(re.match(rf"{number}\W+{sign}\b", shown["option"]), f"{where}: the option is {shown['option']!r}, not {sign}")
    if answer is None:
        check(not shown["pieces"] and not shown["messages"], f"{where}: a bad line has pieces")
        return
    check_tiles(shown, parse(line), where)
    check_pieces(shown, answer, where)
    check_stop(shown, answer, where)
    check_mask(shown, answer.held, where)
    check_messages(shown, listing, where)


# ---- lines of the greatest length


def filled(mask, message):
    """A stretch of 30 data parts: the mask, that message over and over, and zeros."""
    bits, more = spell(mask_message(mask)), spell(message)
    bits += more * ((STRETCH_BITS - len(bits)) // len(more))
    return (text(bits.ljust(STRETCH_BITS, "0")) + "\n").encode("ascii")


def longest_lines():
    """By what they are made of: few fields a message and many messages, many satellites, and the smallest fields."""
    worked = Mask(3, (System(0, (0, 2), (0, 7), "1011"),))
    full = Mask(4, (System(0, tuple(range(40)), ()), System(3, tuple(range(24)), ())))
    return {
        "clocks of 2 satellites": filled(worked, correction(3, worked, (5, -16384))),
        "accuracies of 64 satellites": filled(full, correction(7, full, range(64))),
        "orbits and clocks of 64 satellites, none sent": filled(full, combined(full, (), orbits=0, clocks=0)),
    }


# ---- screenshots


def unfiltered(kind, line, above, step):
    """A row of a PNG (RFC 2083, 6) without its filter."""
    for k, byte in enumerate(line):
        left = line[k - step] if k >= step else 0
        corner = above[k - step] if k >= step else 0
        guess = left + above[k] - corner
        paeth = min((left, above[k], corner), key=lambda near: abs(guess - near))
        line[k] = (byte + (0, left, above[k], (left + above[k]) // 2, paeth)[kind]) % 256
    return line


def colours(png):
    """How often each colour stands in a PNG of 8 bits a channel."""
    width, height, depth, kind = struct.unpack(">IIBB", png[16:26])
    step = {2: 3, 6: 4}[kind] * (depth // 8)
    parts, at = [], 8
    while at < len(png):
        length, name = struct.unpack(">I4s", png[at:at + 8])
        parts += [png[at + 8:at + 8 + length]] * (name == b"IDAT")
        at += 12 + length
    raw, above, counts = zlib.decompress(b"".join(parts)), bytearray(width * step), {}
    for row in range(height):
        start = row * (width * step + 1)
        above = unfiltered(raw[start], bytearray(raw[start + 1:start + 1 + width * step]), above, step)
        for k in range(0, len(above), step):
            colour = bytes(above[k:k + step])
            counts[colour] = counts.get(colour, 0) + 1
    return counts
