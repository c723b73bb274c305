"""Compact SSR messages laid down field by field (document 01, "Message layouts"; document 02, Ask 1), good or not.

A message is a list of fields, a field a name, a width and a value; what is too wide loses its upper bits, so that a
negative value is its two's complement. Bits are a string of 0 and 1. Satellites and signals are given by their places.
"""

from typing import NamedTuple, Optional

NUMBER = 4073
GPS, GLONASS, GALILEO, BEIDOU, QZSS = range(5)
SATELLITE_PLACES = (40, 24, 37, 40, 10)
SIGNAL_PLACES = (14, 13, 15, 9, 10)
CORRECTIONS = (2, 3, 4, 5, 6, 7, 11)

CLOCK = (("clock", 15),)
CODE = (("code bias", 11),)
PHASE = (("phase bias", 15), ("discontinuity", 2))
ACCURACY = (("URA", 6),)


class System(NamedTuple):
    id: int
    satellites: tuple
    signals: tuple
    cells: Optional[str] = None  # the cell mask, None for cell flag 0


class Mask(NamedTuple):
    iod: int
    systems: tuple


# ---- bits and lines


def spell(fields):
    return "".join(format(value % (1 << width), f"0{width}b") for _, width, value in fields if width)


def text(bits):
    """A line of the listing's input, without its line feed."""
    padded = bits + "0" * (-len(bits) % 4)
    digits = "".join(format(int(padded[i:i + 4], 2), "X") for i in range(0, len(padded), 4))
    return f"{len(bits)}\t{digits}"


def flip(bits, place):
    return bits[:place] + "10"[int(bits[place])] + bits[place + 1:]


def places(chosen, width):
    """A mask field with these places set."""
    return sum(1 << (width - 1 - place) for place in set(chosen))


# ---- what a mask names


def satellites(mask):
    """GNSS ID of each satellite, in order."""
    return [system.id for system in mask.systems for _ in system.satellites]


def cells(mask):
    """GNSS ID of each cell, in order."""
    return [system_id for system_id, count in celled(mask) for _ in range(count)]


def celled(mask):
    """GNSS ID of each satellite, and how many cells it has, in order."""
    return [(system.id, row.count("1")) for system in mask.systems for row in cell_rows(system)]


def cell_rows(system):
    """Each satellite's part of the cell mask; all ones where the cell flag is 0."""
    width = len(system.signals)
    full = "1" * (len(system.satellites) * width)
    flags = full if system.cells is None else system.cells
    return [flags[k * width:(k + 1) * width] for k in range(len(system.satellites))]


# ---- messages


def opening(sub_type):
    return [("number", 12, NUMBER), ("sub type", 4, sub_type)]


def common(epoch_width, epoch, interval, indicator, iod):
    return [("epoch", epoch_width, epoch), ("interval", 4, interval), ("indicator", 1, indicator), ("IOD SSR", 4, iod)]


def mask_message(mask, epoch=100, interval=5, indicator=0, count=None):
    """Sub type 1; count is the number of systems that it says, where that is not their own."""
    said = len(mask.systems) if count is None else count
    fields = opening(1) + common(20, epoch, interval, indicator, mask.iod) + [("systems", 4, said)]
    for system in mask.systems:
        fields += system_fields(system)
    return fields


def system_fields(system):
    fields = [("GNSS ID", 4, system.id), ("satellite mask", 40, places(system.satellites, 40)),
              ("signal mask", 16, places(system.signals, 16)), ("cell flag", 1, int(system.cells is not None))]
    if system.cells:
        fields.append(("cell mask", len(system.cells), int(system.cells, 2)))
    return fields


def orbit(system_id):
    iode = 10 if system_id == GALILEO else 8
    return (("IODE", iode), ("radial", 15), ("along-track", 13), ("cross-track", 13))


# Of the sub types without flags the columns by GNSS ID.
COLUMNS = {2: orbit, 3: lambda _: CLOCK, 4: lambda _: CODE, 5: lambda _: PHASE, 7: lambda _: ACCURACY}


def body(columns_of, ids, values):
    """The columns of each satellite or cell; each field takes the next of the values."""
    values = iter(values)
    return [(name, width, next(values)) for system_id in ids for name, width in columns_of(system_id)]


def head(sub_type, mask, iod=None, epoch=100, interval=2, indicator=0):
    """The 37 bits that open a correction for this mask; of another issue where iod says so."""
    return opening(sub_type) + common(12, epoch, interval, indicator, mask.iod if iod is None else iod)


def correction(sub_type, mask, values, **said):
    """Sub types 2, 3, 4, 5 and 7; what its head says can be given as head's."""
    return head(sub_type, mask, **said) + body(COLUMNS[sub_type], named(sub_type, mask), values)


def named(sub_type, mask):
    """GNSS ID of each cell where biases are sent, else of each satellite."""
    return cells(mask) if sub_type in (4, 5) else satellites(mask)


def combined(mask, values, orbits=1, clocks=1, network=None, selection="", **said):
    """Sub type 11; the selection counts where there is a network ID."""
    fields = head(11, mask, **said) + [("orbit flag", 1, orbits), ("clock flag", 1, clocks)]
    fields += selecting(network, selection)
    ids = chosen(satellites(mask), network, selection)
    return fields + body(lambda system_id: orbit(system_id) * orbits + CLOCK * clocks, ids, values)


def biases(mask, values, codes=1, phases=1, network=None, selection="", **said):
    """Sub type 6; as sub type 11, but for each cell of the satellites."""
    fields = head(6, mask, **said) + [("code flag", 1, codes), ("phase flag", 1, phases)]
    fields += selecting(network, selection)
    ids = [system_id for system_id, count in chosen(celled(mask), network, selection) for _ in range(count)]
    return fields + body(lambda _: CODE * codes + PHASE * phases, ids, values)


def selecting(network, selection):
    if network is None:
        return [("network flag", 1, 0)]
    return [("network flag", 1, 1), ("network ID", 5, network), ("selection", len(selection), int(selection or "0", 2))]


def chosen(each, network, selection):
    """Of what is said of each satellite what the network leaves."""
    return each if network is None else [one for one, bit in zip(each, selection) if bit == "1"]


def service(values, indicator=0, counter=0, size=0):
    """Sub type 10: five bytes for each 40 bits."""
    fields = opening(10) + [("indicator", 1, indicator), ("counter", 3, counter), ("size", 2, size)]
    values = iter(values)
    return fields + [("data", 8, next(values)) for _ in range(5 * (size + 1))]
