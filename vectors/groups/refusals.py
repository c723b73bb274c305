"""Each refusal at each field that can earn it. No mask is held in the first lines; then BASE is, to the end.

13 alone drops it: behind each a clock shows that nothing is held, and BASE is sent again.
"""

from itertools import permutations

from messages import (BEIDOU, CORRECTIONS, GLONASS, GPS, NUMBER, QZSS, SATELLITE_PLACES, SIGNAL_PLACES, Mask, System,
                      biases, cell_rows, combined, flip, mask_message, opening, service, spell, text)

from . import BASE, Random, clock, line, message

ASSIGNED_SUB_TYPES = (1, 10) + CORRECTIONS
IDS = range(5)


def no_mask(random):
    """6 for every sub type and issue; sub type 10 needs no mask."""
    return [line(message(sub_type, BASE, random, iod=iod)) for sub_type in CORRECTIONS for iod in range(16)] + \
           [line(service(random, size=size)) for size in range(4)]


def cuts(fields):
    """Before each field, and a bit before its end: 3 at that field or, in a body, at the body."""
    places, place = set(), 0
    for _, width, _ in fields:
        places |= {place, place + max(width - 1, 0)}
        place += width
    return sorted(places - {0})


def short(random):
    """3 at every field of every sub type."""
    made = []
    for sub_type in (2, 3, 4, 5, 6, 7, 10, 11):
        fields = message(sub_type, BASE, random)
        made += [text(spell(fields)[:cut]) for cut in cuts(fields)]
    fields = mask_message(BASE)
    return made + kept([text(spell(fields)[:cut]) for cut in cuts(fields)], random)


def kept(refused, random):
    """After each refused mask message a clock that shows what is held still."""
    return [made for each in refused for made in (each, line(clock(BASE, random)))]


def numbers(random):
    """4 for each bit of the number that may be wrong, and for zeros in front of something."""
    rest = clock(BASE, random)[1:]
    wrong = [NUMBER ^ 1 << k for k in range(12)] + [0]
    return [line([("number", 12, number)], rest) for number in wrong]


def sub_types(random):
    """5 for each sub type that is not one of the nine, with something behind it and with nothing."""
    others = [sub_type for sub_type in range(16) if sub_type not in ASSIGNED_SUB_TYPES]
    made = []
    for other in others:
        made += [line(opening(other), [("rest", 64, next(random))]), line(opening(other))]
    return made


def other_issues(random):
    """7 for every sub type and issue, the body as long as it would be."""
    return [line(message(sub_type, BASE, random, iod=iod)) for sub_type in CORRECTIONS for iod in range(16)
            if iod != BASE.iod]


def masks(systems_of_each):
    return [line(mask_message(Mask(3, tuple(systems)))) for systems in systems_of_each]


def one(system_id):
    return System(system_id, (0,), (0,))


def systems():
    """8 for each ID over 4, as first and as second; for each ID twice, next to it and as a sixth."""
    unknown = [[one(other)] for other in range(5, 16)] + [[one(GPS), one(other)] for other in range(5, 16)]
    twice = [[one(known), one(known)] for known in IDS] + [[one(k) for k in IDS] + [one(known)] for known in IDS]
    return masks(unknown + twice)


def reserved():
    """9 for each place without assignment, of satellites and of signals."""
    satellites = [[System(k, (0, place), (0,))] for k in IDS for place in range(SATELLITE_PLACES[k], 40)]
    signals = [[System(k, (0,), (0, place))] for k in IDS for place in range(SIGNAL_PLACES[k], 16)]
    return masks(satellites + signals)


def sizes():
    """10 after a satellite mask, after a zero cell flag, after a cell mask; in the first system and in a later one."""
    gps = System(GPS, range(40), ())
    full = System(GPS, range(32), range(8))
    return masks([
        [gps, System(BEIDOU, range(25), (0,))],
        [gps, System(BEIDOU, range(40), (0,))],
        [System(GPS, range(32), range(9))],
        [full, one(BEIDOU)],
        [System(GPS, range(33), range(8), "1" * 257 + "0" * 7)],
        [full, one(BEIDOU)._replace(cells="1")],
    ])


def resized(system, satellites, signals):
    """The system with other satellites and signals: of its cells those that are left, and no others are set."""
    if system.cells is None:
        return system._replace(satellites=satellites, signals=signals)
    kept = [(satellite, signal) for satellite, row in zip(system.satellites, cell_rows(system))
            for signal, bit in zip(system.signals, row) if bit == "1"]
    cells = "".join("01"[(satellite, signal) in kept] for satellite in satellites for signal in signals)
    return System(system.id, satellites, signals, cells)


def beside(chosen):
    """A place more, one fewer, and another one in place of the last."""
    rest, last = chosen[:-1], chosen[-1]
    return (*rest, last - 1, last), rest, (*rest, last - 1)


def changed_systems(system):
    """One thing of a system: its ID; a satellite or a signal more, fewer, another; the cell flag; each cell."""
    _, satellites, signals, cells = system
    more, fewer, other = beside(satellites)
    made = [resized(system, more, signals), resized(system, fewer, signals), system._replace(satellites=other)]
    more, fewer, other = beside(signals)
    made += [resized(system, satellites, more), resized(system, satellites, fewer), system._replace(signals=other)]
    made += [system._replace(id=GLONASS if system.id == QZSS else BEIDOU),
             system._replace(cells="1" * (len(satellites) * len(signals)) if cells is None else None)]
    return made + [system._replace(cells=flip(cells, place)) for place in range(len(cells or ""))]


def changed_masks():
    """13 for BASE in another order, with a system fewer, with one more, with none, and with a system changed."""
    first, second, third = BASE.systems
    made = list(permutations(BASE.systems))[1:] + [(second, third), (first, third), (first, second), ()]
    made += [BASE.systems[:k] + (one(GLONASS),) + BASE.systems[k:] for k in range(4)]
    made += [BASE.systems[:k] + (changed,) + BASE.systems[k + 1:]
             for k, system in enumerate(BASE.systems) for changed in changed_systems(system)]
    return masks(made)


def dropped(refused, random):
    """After each changed mask a clock, which finds nothing held; then BASE again, which is taken."""
    return [made for each in refused
            for made in (each, line(clock(BASE, random)), line(mask_message(BASE), clock(BASE, random)))]


def networks(random):
    """11 with each of the two other flags, and with the selection all zeros and all ones."""
    return [line(sent(BASE, random, one, other, network=0, selection=selection))
            for sent in (biases, combined) for one in (0, 1) for other in (0, 1) for selection in ("0" * 7, "1" * 7)]


def without_cell(random):
    """11 for BASE's second satellite, alone and among others, with bits behind the selection and with none."""
    made = []
    for selection in ("0100000", "1100000", "0100001", "1111111"):
        for flags in [(one, other) for one in (0, 1) for other in (0, 1)]:
            fields = biases(BASE, random, *flags, network=1, selection=selection)
            made += [line(fields, [("rest", 64, next(random))]), line(fields[:11])]
    return made


def made():
    random = Random(1)
    refused_masks = systems() + reserved() + sizes()
    return no_mask(random) + [line(mask_message(BASE))] + short(random) + numbers(random) + sub_types(random) + \
        other_issues(random) + kept(refused_masks, random) + networks(random) + without_cell(random) + \
        [line(message(sub_type, BASE, random)) for sub_type in CORRECTIONS] + dropped(changed_masks(), random)
