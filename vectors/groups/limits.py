"""Both sides of each limit: pairs of lines, the first good, the second one step further and refused.

Each line opens with the mask message that it needs, so that no line needs another one; masks that differ have different
issues from pair to pair, but for those of 13, which leave nothing held.
"""

from messages import (BEIDOU, GALILEO, GLONASS, GPS, QZSS, SATELLITE_PLACES, SIGNAL_PLACES, Mask, System, biases,
                      combined, correction, mask_message, service, spell, text)

from . import BASE, EACH, NOTHING, Random, clock, line, message, with_system

GPS_ALONE = Mask(4, (System(GPS, (0,), ()),))
GALILEO_ALONE = Mask(5, (System(GALILEO, (0,), ()),))
MOST = Mask(7, (System(GPS, range(32), range(8)),))
STRETCH_BITS = 50850
SYSTEM_NAMES = ("GPS", "GLONASS", "Galileo", "BeiDou", "QZSS")


def full(system_id, count):
    return System(system_id, range(count), ())


def satellites(name, first, system_id, count):
    """The first systems, and so many satellites of a further one; then one more."""
    return name, first + [full(system_id, count)], first + [full(system_id, count + 1)]


def satellite_limits():
    return [
        satellites("64 satellites, GPS and BeiDou", [full(GPS, 40)], BEIDOU, 24),
        satellites("64 satellites, BeiDou and GPS", [full(BEIDOU, 40)], GPS, 24),
        satellites("64 satellites, Galileo and GPS", [full(GALILEO, 37)], GPS, 27),
        satellites("64 satellites, GPS, GLONASS and QZSS", [full(GPS, 40), full(GLONASS, 23)], QZSS, 1),
        satellites("64 satellites, all systems", [full(GPS, 15), full(GLONASS, 15), full(GALILEO, 15), full(QZSS, 9)],
                   BEIDOU, 10),
    ]


def cell_limits():
    def masked(width, height, ones):
        return System(GPS, range(width), range(height), ("1" * ones).ljust(width * height, "0"))

    most, one = System(GPS, range(32), range(8)), System(QZSS, (0,), (0,))
    return [
        ("256 cells by cell flag 0", [most], [most._replace(signals=range(9))]),
        ("256 cells by cell flag 0, two systems", [most, one._replace(signals=())], [most, one]),
        ("256 ones of 264 cell bits", [masked(33, 8, 256)], [masked(33, 8, 257)]),
        ("256 ones of 560 cell bits", [masked(40, 14, 256)], [masked(40, 14, 257)]),
        ("256 ones in two systems", [most, one._replace(cells="0")], [most, one._replace(cells="1")]),
    ]


def assigned_places():
    """The last assigned place of each system that has one without assignment behind it."""
    made = []
    for k, name in enumerate(SYSTEM_NAMES):
        end = SATELLITE_PLACES[k]
        if end < 40:
            good, past = System(k, (end - 1,), ()), System(k, (end,), ())
            made.append((f"{name} satellite place {end - 1}", [good], [past]))
        end = SIGNAL_PLACES[k]
        good, past = System(k, (), (end - 1,)), System(k, (), (end,))
        made.append((f"{name} signal place {end - 1}", [good], [past]))
    return made


def systems():
    five = [System(k, (0,), (0,)) for k in range(5)]
    return [
        ("GNSS ID 4", [System(4, (0,), (0,))], [System(5, (0,), (0,))]),
        ("5 systems", five, five + five[:1]),
        ("each system once", five[:2], [five[0], five[0]]),
    ]


def masks():
    """Each pair under an issue of its own."""
    return [(name, *(line(mask_message(Mask(k % 16, tuple(systems)))) for systems in pair))
            for k, (name, *pair) in enumerate(satellite_limits() + cell_limits() + assigned_places() + systems())]


def under(*fields):
    return line(mask_message(BASE), *fields)


def heads(random):
    """The held issue and the message number, and what is next to them."""
    clocks = clock(BASE, random)
    return [
        ("the held issue, and one above", under(clocks), under(clock(BASE, random, iod=4))),
        ("the held issue, and one below", under(clocks), under(clock(BASE, random, iod=2))),
        ("number 4073, and one below", under(clocks), under([("number", 12, 4072)], clocks[1:])),
        ("number 4073, and one above", under(clocks), under([("number", 12, 4074)], clocks[1:])),
    ]


def networks(random):
    """The network IDs, and what is next to them; every satellite that has a cell, and the one that has none."""
    made = []
    for sub_type, sent in ((6, biases), (11, combined)):
        network = [under(sent(BASE, random, network=k, selection="0" * 7)) for k in (31, 1, 0)]
        made += [(f"network ID 1, sub type {sub_type}", network[1], network[2]),
                 (f"network ID 31, and 32, whose five bits are zero, sub type {sub_type}", network[0], network[2])]
    selected = [under(biases(BASE, random, network=1, selection=f"1{bit}11111")) for bit in "01"]
    return made + [("all satellites but the one without a cell", *selected)]


def changed_masks():
    """A mask and the same again, or another under the next issue; then another under its own."""
    wide = System(GPS, range(40), range(14), ("1" * 255).ljust(560, "0"))

    def again(name, mask, other):
        return name, line(mask_message(mask), mask_message(mask)), line(mask_message(mask), mask_message(other))

    def under_next(name, other):
        return name, under(mask_message(other._replace(iod=BASE.iod + 1))), under(mask_message(other))

    return [
        again("the held mask again, and a satellite more", BASE, with_system(BASE, 1, satellites=(4, 35, 36))),
        again("the held mask again, and without its last cell", BASE, with_system(BASE, 2, cells="1100")),
        again("the held mask again, and cell flag 1 with all cells", BASE, with_system(BASE, 1, cells="11")),
        again("five systems again, and the last two the other way round", EACH,
              EACH._replace(systems=EACH.systems[:3] + EACH.systems[:2:-1])),
        again("no systems again, and one without satellites and signals", NOTHING,
              NOTHING._replace(systems=(System(GPS, (), ()),))),
        again("560 cell bits again, and the last one set", Mask(3, (wide,)),
              with_system(Mask(3, (wide,)), 0, cells=wide.cells[:-1] + "1")),
        under_next("a system less under the next issue, and under the held one",
                   BASE._replace(systems=BASE.systems[:2])),
        under_next("no systems under the next issue, and under the held one", BASE._replace(systems=())),
    ]


def lengths(random):
    """Each message whole, and without its last bit; and the shortest stretches."""
    made = [(f"sub type {k}, its last bit", *whole(message(k, BASE, random))) for k in (1, 2, 3, 4, 5, 6, 7, 11)]
    made += [(f"sub type 10 of size {size}, its last bit", *whole(service(random, size=size))) for size in range(4)]
    made += [("orbit of one GPS satellite, 86 bits", *whole(correction(2, GPS_ALONE, random), GPS_ALONE)),
             ("orbit of one Galileo satellite, 88 bits", *whole(correction(2, GALILEO_ALONE, random), GALILEO_ALONE)),
             ("no systems, 49 bits", *whole(mask_message(NOTHING))),
             ("no satellites, 37 bits", *whole(clock(NOTHING, random), NOTHING)),
             ("accuracy of one satellite, 43 bits", *whole(correction(7, GPS_ALONE, random), GPS_ALONE)),
             ("biases of no cell, 40 bits", *whole(biases(GPS_ALONE, random), GPS_ALONE))]
    return made + longest(random) + [("11 zero bits", text("0" * 11), text("0" * 10 + "1")),
                   ("no bits", text(""), text("1"))]


def longest(random):
    """The longest body that there is: 256 cells of 28 bits."""
    bits = spell(mask_message(MOST) + biases(MOST, random))
    return [("biases of 256 cells, 7,208 bits", *whole(biases(MOST, random), MOST)),
            ("their body, 7,168 bits, and none of it", text(bits), text(bits[:-7168]))]


def whole(fields, mask=BASE):
    bits = spell(mask_message(mask) + fields)
    return text(bits), text(bits[:-1])


def stretches():
    """The longest stretch: of zeros, and with as many messages as it can have; one bit more is a bad line."""
    empty_clock = spell(correction(3, NOTHING, ()))
    bits = (spell(mask_message(NOTHING)) + empty_clock * 1400)[:STRETCH_BITS // 37 * 37 + 12]
    return [("50,850 bits of zeros", text("0" * STRETCH_BITS), text("0" * (STRETCH_BITS + 1))),
            ("50,850 bits of messages", text(bits.ljust(STRETCH_BITS, "0")), text(bits.ljust(STRETCH_BITS + 1, "0")))]


def named():
    random = Random(3)
    return masks() + heads(random) + networks(random) + changed_masks() + lengths(random) + stretches()


def made():
    return [each for _, good, past in named() for each in (good, past)]


def names():
    return [name for name, _, _ in named()]
