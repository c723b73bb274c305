"""The groups of vectors/, a module for each, and what they share."""

from messages import (BEIDOU, GALILEO, GLONASS, GPS, QZSS, Mask, System, biases, combined, correction, mask_message,
                      satellites, service, spell, text)

# A mask with cell flags of both sorts, systems of both IODE widths, and a cell mask with gaps: 7 satellites, 8 cells.
# The second satellite, GPS 3, has no cell.
BASE = Mask(3, (System(GPS, (0, 2, 31), (0, 7), "100011"), System(GALILEO, (4, 36), (1,)),
                System(QZSS, (0, 9), (0, 9), "1101")))

# As little as shows the same: 3 satellites, 3 cells.
SMALL = Mask(3, (System(GPS, (0, 2), (0, 7), "1100"), System(GALILEO, (4,), (1,))))

# As little as a mask can name; another issue.
NOTHING = Mask(6, ())

# Every system, a satellite and a signal each.
EACH = Mask(3, tuple(System(system_id, (1,), (1,)) for system_id in (GPS, GLONASS, GALILEO, BEIDOU, QZSS)))


class Random:
    """Numbers of 64 bits from a fixed seed (splitmix64), the same on every machine."""

    def __init__(self, seed):
        self.state = seed

    def __iter__(self):
        return self

    def __next__(self):
        self.state = (self.state + 0x9E3779B97F4A7C15) % 2**64
        mixed = (self.state ^ self.state >> 30) * 0xBF58476D1CE4E5B9 % 2**64
        mixed = (mixed ^ mixed >> 27) * 0x94D049BB133111EB % 2**64
        return mixed ^ mixed >> 31

    def below(self, bound):
        return next(self) % bound

    def pick(self, choices):
        return choices[self.below(len(choices))]

    def some(self, choices, count):
        """So many of the choices, in their order."""
        chosen = sorted(choices, key=lambda _: next(self))[:count]
        return tuple(choice for choice in choices if choice in chosen)

    def bits(self, count, percent=50):
        return "".join("01"[self.below(100) < percent] for _ in range(count))


def line(*parts):
    """A line of these messages, one after another."""
    return text("".join(spell(part) for part in parts))


def with_system(mask, k, **changed):
    """The mask with its k-th system changed, from 0."""
    return mask._replace(systems=mask.systems[:k] + (mask.systems[k]._replace(**changed),) + mask.systems[k + 1:])


def clock(mask, random, **head):
    return correction(3, mask, random, **head)


def message(sub_type, mask, values, **head):
    """A message of any sub type: for 6 and 11 with both flags, network 16 and every other satellite selected."""
    if sub_type == 1:
        return mask_message(mask)
    if sub_type == 10:
        return service(values, size=1)
    if sub_type in (6, 11):
        count = len(satellites(mask))
        made = biases if sub_type == 6 else combined
        return made(mask, values, network=16, selection=("10" * count)[:count], **head)
    return correction(sub_type, mask, values, **head)
