"""Makes the stretches of this folder: make.py FOLDER writes FOLDER/CASE/NAME.txt, lines of the listing's input."""

import os
import sys
from functools import reduce
from itertools import count
from operator import xor

from messages import (BEIDOU, GALILEO, GLONASS, GPS, QZSS, Mask, System, biases, combined, correction, mask_message,
                      service, spell, text)

# Document 01's worked stretch: GPS satellites 1 and 3, signal places 0 and 7, cells 1011; two clocks.
MASK = Mask(3, (System(GPS, (0, 2), (0, 7), "1011"),))
CLOCKS = (5, -16384)
WORKED = mask_message(MASK) + correction(3, MASK, CLOCKS)

TWELVE = (1, 2, 3, 4, 5, 6, 7, 8, 9, 10, 11, 12)


def one_system(system):
    """A mask of issue 3 with this system alone."""
    return Mask(3, (system,))


def under(mask, *messages):
    """One stretch: the mask message, then the messages."""
    return [spell(mask_message(mask) + [field for message in messages for field in message])]


def clock_with(**head):
    return [spell(mask_message(MASK) + correction(3, MASK, CLOCKS, **head))]


def renumbered(number):
    """The worked stretch with another message number in front of the clocks."""
    clocks = correction(3, MASK, CLOCKS)
    return under(MASK, [("number", 12, number)] + clocks[1:])


def followed(*fields):
    return [spell(WORKED + list(fields))]


def packet(sub_type):
    opening, rest = service(TWELVE)[:1], service(TWELVE)[2:]
    return opening + [("sub type", 4, sub_type)] + rest


def no_systems(**head):
    return mask_message(Mask(4, ()), **head)


def qzss(satellites, signals, sub_type):
    """A QZSS mask, and values for those of its places that are assigned."""
    assigned = one_system(System(QZSS, (0, 9), (0, 9) if sub_type == 4 else (0,)))
    return under(one_system(System(QZSS, satellites, signals)), correction(sub_type, assigned, TWELVE))


def with_second_system(system_id):
    first, second = MASK.systems[0], System(system_id, (4,), (0,))
    true = Mask(3, (first, second._replace(id=GLONASS)))
    return under(Mask(3, (first, second)), correction(3, true, (5, -16384, 20)))


def unknown_system(system_id):
    system = System(system_id, (0,), (0,))
    return under(one_system(system), correction(3, one_system(system), TWELVE))


def many(*systems):
    return under(Mask(3, systems))


def cell_mask(count):
    """33 GPS satellites by 8 signals, so many of the 264 cells set."""
    return many(System(GPS, range(33), range(8), "1" * count + "0" * (264 - count)))


def network(network_id):
    return under(MASK, combined(MASK, (40,), orbits=0, network=network_id, selection="01"))


def without_cell(**network):
    """Code biases under a mask whose second satellite, 3, has no cell."""
    mask = one_system(MASK.systems[0]._replace(cells="1100"))
    return under(mask, biases(mask, (10, 20), phases=0, **network))


# A part lost: a subframe of three data parts, orbits and clocks of eleven satellites by turns, zeros behind them.
PART = 1695
ELEVEN = one_system(System(GPS, range(11), (0,)))
TURNS = [correction(sub_type, ELEVEN, count(1), epoch=100 + 5 * turn) for turn in range(6) for sub_type in (2, 3)]
SUBFRAME = under(ELEVEN, *TURNS)[0].ljust(3 * PART, "0")


def position(second):
    """What is no Compact SSR: a line of a position log in letters, as receivers write it (NMEA 0183)."""
    said = f"GPGGA,1200{second:02},3540.60,N,13944.50,E,1,08,0.9,40.0,M,39.5,M,,"
    return f"${said}*{reduce(xor, said.encode()):02X}\r\n"


FOREIGN = "".join(format(letter, "08b") for second in range(7) for letter in position(second).encode())


# Mistake 1: the next issue names satellite 4 where this one names 3; a message for it is as long.
NEXT = Mask(4, (System(GPS, (0, 3), (0, 7), "1011"),))


# A mask that changes under one issue: it is counted up where the one in front of it has issue 2.
def changed(iod):
    """In front of the worked stretch the mask with satellite 4."""
    return [spell(mask_message(NEXT._replace(iod=iod))), spell(WORKED)]


def flag_and_cells(iod):
    """Cell flag 0, then flag 1 with all cells, and biases for them."""
    system = System(GPS, (0, 2), (0, 7))
    every = one_system(system._replace(cells="1111"))
    return [spell(mask_message(Mask(iod, (system,))))] + under(every, correction(4, every, (10, 20, 30, 40)))


def polite(iod, mask):
    """The worked mask under this issue, then a mask of issue 3, then clocks of issue 3."""
    lines = mask_message(MASK._replace(iod=iod)), mask_message(mask), correction(3, mask, (12, 625))
    return [spell(fields) for fields in lines]


def next_issue(*masks, iod=4):
    return [spell(mask_message(mask)) for mask in masks] + [spell(correction(3, NEXT, (12, -9), iod=iod))]


# Mistake 2: the seventh satellite that the mask names.
def seventh(place):
    mask = one_system(System(GPS, (0, 1, 2, 3, 4, 5, place), (0,)))
    return under(mask, correction(3, mask, (-3, 8, 1, 0, -2, 4, 625)))


# Mistake 3: clocks for eight satellites; from place 67 on, where two would end, their bits look like a message.
EIGHT = Mask(4, (System(GPS, range(8), (0,)),))
LOOK_ALIKE = spell(correction(3, MASK, (3000, -2500))).ljust(90, "0")
SIX_CLOCKS = [int(LOOK_ALIKE[place:place + 15], 2) for place in range(0, 90, 15)]
LONG = spell(correction(3, EIGHT, [12, -9] + SIX_CLOCKS))


def reading_on(mask, stretch):
    return [spell(mask_message(mask)), stretch]


# The other habits of document 01, "How trainees break it"; the last is one with document 02's sub type 6.
def code_biases(cells):
    return under(one_system(System(GPS, (0, 2), (0, 7), cells)), correction(4, MASK, (10, 20, 30)))


def all_cells(flag_cells):
    system = System(GPS, (0, 2), (0, 7))
    codes = correction(4, one_system(system), (10, 20, 30, 40))
    return [spell(mask_message(one_system(system._replace(cells=flag_cells)))), spell(codes)]


def orbit(system_id):
    galileo = one_system(System(GALILEO, (0,), (0,)))
    return under(one_system(System(system_id, (0,), (0,))), correction(2, galileo, (77, 100, -50, 25)))


def satellite_3(values):
    """Code bias, phase bias and discontinuity of both cells of satellite 3, alone in network 1."""
    return under(MASK, biases(MASK, values, network=1, selection="01"))


BIASES = (5, -300, 1, 12, 450, 0)


def codes_first():
    """What the same bits say to whoever takes both code biases from them before the rest."""
    body = satellite_3(BIASES)[0][-56:]
    return satellite_3([int(body[start:end], 2) for start, end in
                        ((0, 11), (22, 37), (37, 39), (11, 22), (39, 54), (54, 56))])


STRETCHES = {
    "00-idle": {"idle": ["0" * 49], "accepted": [spell(mask_message(Mask(0, ()), epoch=0, interval=0))],
                "filling": followed(("filling", 24, 0))},
    "03-short-body": {"refused": [spell(WORKED)[:-1]], "accepted": [spell(WORKED)]},
    "03-short-field": {"refused": [followed(*no_systems())[0][:-1]], "accepted": followed(*no_systems())},
    "03-part-lost": {"refused": [SUBFRAME[:2 * PART]], "accepted": [SUBFRAME], "two-lost": [SUBFRAME[:PART]],
                     "foreign": [FOREIGN[:2 * PART]], "tiny": [FOREIGN[:8]]},
    "04-number": {"refused": renumbered(4072), "accepted": renumbered(4073)},
    "05-sub-type": {"refused": followed(*packet(8)), "accepted": followed(*packet(10))},
    "06-no-mask": {"refused": [spell(WORKED)[114:]], "accepted": [spell(WORKED)[:114], spell(WORKED)[114:]]},
    "07-other-issue": {"refused": clock_with(iod=2), "accepted": clock_with()},
    "08-system-unknown": {"refused": unknown_system(5), "accepted": unknown_system(QZSS)},
    "08-system-twice": {"refused": with_second_system(GPS), "accepted": with_second_system(GLONASS)},
    "09-reserved-satellite": {"refused": qzss((0, 9, 10), (0,), 3), "accepted": qzss((0, 9), (0,), 3)},
    "09-reserved-signal": {"refused": qzss((0, 9), (0, 9, 10), 4), "accepted": qzss((0, 9), (0, 9), 4)},
    "10-size-satellites": {"refused": many(System(GPS, range(40), ()), System(BEIDOU, range(25), ())),
                           "accepted": many(System(GPS, range(40), ()), System(BEIDOU, range(24), ()))},
    "10-size-all-cells": {"refused": many(System(GPS, range(32), range(9))),
                          "accepted": many(System(GPS, range(32), range(8)))},
    "10-size-cell-mask": {"refused": cell_mask(257), "accepted": cell_mask(256)},
    "11-network": {"refused": network(0), "accepted": network(1)},
    "11-satellite-without-cell": {"refused": without_cell(network=1, selection="11"),
                                  "accepted": without_cell(network=1, selection="10"), "all": without_cell()},
    "13-changed-mask": {"refused": changed(3), "accepted": changed(2),
                        "after": changed(3) + [spell(WORKED)[114:], spell(WORKED)[:114], spell(WORKED)[114:]]},
    "13-flag-and-cells": {"refused": flag_and_cells(3), "accepted": flag_and_cells(2)},
    "mistake-1-another-mask": {"refused": next_issue(MASK), "accepted": next_issue(MASK, NEXT),
                               "careless": next_issue(MASK, iod=3)},
    "mistake-2-satellite-seven": {"accepted": seventh(7), "careless": seventh(6)},
    "mistake-3-reading-on": {"refused": reading_on(MASK, LONG), "accepted": reading_on(EIGHT, LONG),
                             "careless": reading_on(MASK, LONG[67:])},
    "habit-cells-by-signal": {"accepted": code_biases("1011"), "careless": code_biases("1101")},
    "habit-flag-0-no-cells": {"accepted": all_cells(None), "careless": all_cells("0000")},
    "habit-galileo-iode": {"accepted": orbit(GALILEO), "careless": orbit(GPS)},
    "habit-codes-first": {"accepted": satellite_3(BIASES), "careless": codes_first()},
    "habit-polite-receiver": {"refused": polite(3, NEXT._replace(iod=3)), "accepted": polite(2, NEXT._replace(iod=3)),
                              "careless": polite(3, MASK)},
}


def bad_lines():
    """Mask, clocks, clocks again; the middle line is spoilt, or the last one's line feed is missing."""
    mask, clocks = text(spell(WORKED)[:114]), text(spell(WORKED)[114:])
    good = f"{mask}\n{clocks}\n{clocks}\n"
    return {
        "bad-line-spare-bit": {"refused": f"{mask}\n{clocks[:-1]}1\n{clocks}\n", "accepted": good},
        "bad-line-small-letter": {"refused": f"{mask}\n{clocks.replace('FE', 'Fe')}\n{clocks}\n", "accepted": good},
        "bad-line-unended": {"refused": good[:-1], "accepted": good},
    }


def write(folder, case, name, content):
    os.makedirs(os.path.join(folder, case), exist_ok=True)
    with open(os.path.join(folder, case, name + ".txt"), "w", encoding="ascii", newline="\n") as file:
        file.write(content)


def main(folder):
    contents = {case: {name: "".join(text(bits) + "\n" for bits in lines) for name, lines in files.items()}
                for case, files in STRETCHES.items()}
    for case, files in {**contents, **bad_lines()}.items():
        for name, content in files.items():
            write(folder, case, name, content)


if __name__ == "__main__":
    main(sys.argv[1])
