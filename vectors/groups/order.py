"""Two faults in one message: the one that comes first in the reader's order is told. BASE is held to the end.

Each faulty mask has BASE's issue and is another one, so 13 would be its second fault, or its third. 13 comes last; the
lines that earn it drop BASE, and it is sent again.
"""

from messages import BEIDOU, GLONASS, GPS, QZSS, Mask, System, biases, combined, mask_message, opening, spell, text

from . import BASE, Random, clock, line, message, with_system

BODY = 7 * (49 + 15) + 2 * 2  # of sub type 11 for all of BASE's satellites, two of them Galileo's


def cut(fields, bits):
    return text(spell(fields)[:-bits])


def masked(*systems, count=None):
    return mask_message(Mask(3, systems), count=count)


def faulty_messages(random):
    other = message(11, BASE, random, iod=4)
    network = combined(BASE, random, network=0, selection="1" * 7)
    return [
        ("number and sub type", line([("number", 12, 4072), ("sub type", 4, 12)])),
        ("number, nothing behind it", line([("number", 12, 4072)])),
        ("sub type, nothing behind it", line(opening(12))),
        ("other issue, no body", cut(clock(BASE, random, iod=4), 7 * 15)),
        ("other issue, a bit of the body missing", cut(clock(BASE, random, iod=4), 1)),
        ("other issue, network 0", line(other[:9] + [("network ID", 5, 0)] + other[10:])),
        ("network 0, no selection", cut(network, BODY + 7)),
        ("network 0, no body", cut(network, BODY)),
    ]


def faulty_biases(random):
    """Sub type 6: BASE's second satellite has no cell, all others together have 8 of 28 bits."""
    def to_all(**said):
        return biases(BASE, random, selection="1" * 7, **said)

    return [
        ("other issue, satellite without a cell", line(to_all(network=1, iod=4))),
        ("network 0, satellite without a cell", line(to_all(network=0))),
        ("biases of network 0, no selection", cut(to_all(network=0), 8 * 28 + 7)),
        ("satellite without a cell, a bit of the selection missing", cut(to_all(network=1), 8 * 28 + 1)),
        ("satellite without a cell, no body", cut(to_all(network=1), 8 * 28)),
        ("satellite without a cell, a bit of the body missing", cut(to_all(network=1), 1)),
    ]


def faulty_masks():
    one = System(GPS, (0,), (0,))
    many = System(GPS, range(40), (0,))
    wide = System(GPS, range(33), range(8), "1" * 264)
    return [
        ("unknown system, nothing behind it", cut(masked(System(6, (), ())), 57)),
        ("system named twice, nothing behind it", cut(masked(one, one), 57)),
        ("reserved satellite, over 64 satellites", line(masked(many, System(GLONASS, range(25), ())))),
        ("over 64 satellites, reserved signal", line(masked(many, System(BEIDOU, range(25), (9,))))),
        ("over 64 satellites, nothing behind it", cut(masked(many, System(BEIDOU, range(25), ())), 17)),
        ("reserved satellite, reserved signal", line(masked(System(QZSS, (10,), (10,))))),
        ("reserved signal, nothing behind it", cut(masked(System(QZSS, (9,), (10,))), 1)),
        ("over 256 cells, next system unknown", line(masked(System(GPS, range(40), range(7)), System(6, (), ())))),
        ("cell mask of over 256 cells, a bit of it missing", cut(masked(wide), 1)),
        ("sixth system, a system named twice", line(masked(*(one._replace(id=k) for k in (0, 1, 2, 3, 4, 0))))),
        ("15 systems said, one there", line(masked(one, count=15))),
    ]


def faulty_and_changed():
    """Another mask under BASE's issue, and a fault in its last system: all is tested before 13 is."""
    def changed(**last):
        return mask_message(with_system(with_system(BASE, 0, satellites=(0, 3, 31)), 2, **last))

    return [
        ("changed mask, its last bit missing", cut(changed(), 1)),
        ("changed mask, unknown system as its last", line(changed(id=6))),
        ("changed mask, its last system named already", line(changed(id=GPS))),
        ("changed mask, reserved satellite in its last system", line(changed(satellites=(0, 10)))),
        ("changed mask, reserved signal in its last system", line(changed(signals=(0, 10)))),
        ("changed mask, over 64 satellites with its last system",
         line(masked(System(GPS, range(40), ()), System(BEIDOU, range(25), ())))),
        ("changed mask, over 256 cells with its last system",
         line(masked(System(GPS, range(32), range(8)), System(QZSS, (0,), (0,))))),
    ]


def changed_masks():
    """13, and what is wrong behind the mask message, which is not reached."""
    changed = mask_message(with_system(BASE, 0, satellites=(0, 3, 31)))
    return [
        ("changed mask, number behind it", line(changed, [("number", 12, 4072)])),
        ("changed mask, sub type behind it", line(changed, opening(12))),
        ("changed mask, another one behind it", line(changed, mask_message(BASE._replace(systems=())))),
        ("changed mask, one bit behind it", line(changed, [("rest", 1, 1)])),
    ]


def named(random):
    """The line before any mask; then the others, for which BASE is held; then those that drop it."""
    first = [("no mask, no body", cut(clock(BASE, random), 7 * 15))]
    kept = faulty_messages(random) + faulty_biases(random) + faulty_masks() + faulty_and_changed()
    return first, kept, changed_masks()


def made():
    """After each a clock that shows what is held still; where BASE was dropped it comes in front of that."""
    random = Random(2)
    first, kept, dropped = named(random)
    shown = [made for _, faulty in kept for made in (faulty, line(clock(BASE, random)))]
    shown += [made for _, faulty in dropped for made in (faulty, line(mask_message(BASE), clock(BASE, random)))]
    return [faulty for _, faulty in first] + [line(mask_message(BASE))] + shown


def names():
    return [name for each in named(Random(2)) for name, _ in each]
