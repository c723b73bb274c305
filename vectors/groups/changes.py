"""Masks that change from line to line and within a line; each line is read under what the lines before left."""

from messages import (BEIDOU, GALILEO, GLONASS, GPS, QZSS, SATELLITE_PLACES, SIGNAL_PLACES, Mask, System, combined,
                      head, mask_message, opening)

from . import BASE, NOTHING, Random, clock, line, message, with_system

# Masks that differ in one thing or in more: satellites, as many, fewer, none; signals, cells, flags, orders, systems.
ONE, OTHER = System(GPS, (0, 2), (0, 7), "1011"), System(GALILEO, (0, 2), (0, 7))
MASKS = [Mask(3, systems) for systems in (
    (ONE,), (ONE._replace(satellites=(0, 3)),), (ONE._replace(satellites=(0,), cells="11"),), (OTHER,),
    (ONE._replace(signals=(0, 8)),), (ONE._replace(cells="0111"),), (ONE._replace(cells="1111"),),
    (ONE._replace(cells=None),), (ONE, OTHER), (OTHER, ONE), (), (ONE._replace(satellites=(), cells=""),))]


def at(step):
    """Another mask for each step of the counter."""
    return Mask(step % 16, (System(GPS, (step, step + 1, 39), (0, 1)), System(QZSS, (step % 9,), (0,))))


def counted(random):
    """Issues 0 to 15 and 0 again, another mask each: its clocks, then clocks of the issue before, which are refused."""
    made, before = [], None
    for step in range(17):
        mask = at(step)
        made += [line(mask_message(mask), clock(mask, random)), line(clock(mask, random), message(5, mask, random))]
        made += [line(clock(before, random))] if before else []
        before = mask
    return made


def same_issue(random):
    """Another mask under the held issue, which is refused with 13; the head of clocks, for which nothing is held; then
    that mask again, which is taken, and messages for it."""
    made = [line(mask_message(BASE))]
    for mask in MASKS:
        made += [line(mask_message(mask)), line(head(3, mask)), line(mask_message(mask)),
                 line(message(2, mask, random), message(4, mask, random)),
                 line(message(11, mask, random)), line(message(6, mask, random), message(7, mask, random))]
    return made


def same_mask(random):
    """The same mask again under its issue, and under another."""
    mask, other = BASE._replace(iod=8), BASE._replace(iod=9)
    return [line(mask_message(mask), clock(mask, random)), line(mask_message(mask)), line(clock(mask, random)),
            line(mask_message(other)), line(clock(other, random)), line(clock(mask, random))]


def within_a_stretch(random):
    """Two masks in one stretch; what stands between and after them."""
    one = Mask(1, (System(GPS, (4,), (0,)),))
    two = Mask(2, (System(BEIDOU, (5, 6), (0, 8)), System(GLONASS, (23,), ())))
    return [
        line(mask_message(one), clock(one, random), mask_message(two), clock(two, random), message(4, two, random)),
        line(clock(two, random)),
        line(mask_message(one), mask_message(two), clock(one, random)),
        line(clock(two, random)),
        line(clock(two, random), mask_message(two)),
        line(clock(one, random)),
        line(message(10, one, random), mask_message(two), message(10, two, random), clock(two, random)),
    ]


def refused_after(mask, random):
    """For each refusal that a stretch can earn behind this mask a message that earns it: 3, 4, 5, 7, 8, 9, 10, 11."""
    def other(system):
        return mask_message(Mask((mask.iod + 1) % 16, (system,)))

    return [clock(mask, random)[:-1], [("number", 12, 4072)], opening(12), clock(mask, random, iod=(mask.iod + 1) % 16),
            other(System(6, (), ())), other(System(QZSS, (10,), ())), other(System(GPS, range(32), range(9))),
            combined(mask, random, network=0, selection="1")]


def adopted_before(random):
    """A mask that is adopted in front of a refusal stays, whichever it is; see dropped for 13."""
    made = []
    for turn in range(8):
        mask = Mask(turn, (System(GPS, (30 + turn,), (0,)),))
        made += [line(mask_message(mask), refused_after(mask, random)[turn]), line(clock(mask, random))]
    return made


def not_adopted(random):
    """A refused mask, a bad line, a mask without its last bit: what was held stays."""
    reserved = mask_message(Mask(3, (System(QZSS, (10,), (0,)),)))
    cut = mask_message(Mask(3, ()))[:-1] + [("systems", 3, 0)]
    return [line(mask_message(BASE)), line(reserved), line(clock(BASE, random)), line(cut), line(clock(BASE, random)),
            "49\tFE91", line(clock(BASE, random)), line(), line(clock(BASE, random))]


def dropped(random):
    """13 drops a mask that was adopted in the same stretch, too; the next one is taken, whatever its issue."""
    other = with_system(BASE, 1, satellites=(4, 35))
    return [
        line(mask_message(BASE), clock(BASE, random), mask_message(other), clock(other, random)),
        line(clock(BASE, random)), line(message(10, BASE, random), clock(other, random)),
        line(mask_message(other), clock(other, random)),
        line(message(10, other, random), mask_message(NOTHING), mask_message(BASE), mask_message(other)),
        line(mask_message(NOTHING), clock(NOTHING, random)), line(mask_message(BASE)),
        line(mask_message(BASE), mask_message(other._replace(iod=4)), clock(other, random, iod=4)),
    ]


def missed_turn(random):
    """A mask, and what comes when the counter has gone round once: clocks for another mask of its number, which nothing
    gives away; that mask, refused with 13; clocks for it, refused too; the mask again, which is taken; its clocks."""
    before, now = at(0), at(16)
    return [line(mask_message(before), clock(before, random)), line(clock(now, random)), line(mask_message(now)),
            line(clock(now, random)), line(mask_message(now)), line(clock(now, random))]


def each_after_each():
    """Each mask followed by each, by itself too, in one stretch."""
    return [line(mask_message(one), mask_message(other)) for one in MASKS for other in MASKS]


def one_place():
    """Each satellite place and each signal place of each system as the one thing that changes."""
    made = []
    for k in range(5):
        system = System(k, (0,), (0,))
        changed = [system._replace(satellites=tuple({0} ^ {place})) for place in range(SATELLITE_PLACES[k])]
        changed += [system._replace(signals=tuple({0} ^ {place})) for place in range(SIGNAL_PLACES[k])]
        made += [line(*(mask_message(Mask(k, (each,))) for each in (system, other))) for other in changed]
    return made


def made():
    random = Random(6)
    return counted(random) + same_issue(random) + same_mask(random) + within_a_stretch(random) + \
        adopted_before(random) + not_adopted(random) + dropped(random) + missed_turn(random) + each_after_each() + \
        one_place()
