"""Good messages under masks of every kind: each line opens with its mask; then every sub type, in any order.

At the end comes the mask again, which is the same and so accepted. No line has the issue of the line before: the masks
differ, and would be refused with 13.
"""

from messages import (SATELLITE_PLACES, SIGNAL_PLACES, Mask, System, biases, celled, cells, combined, correction,
                      mask_message, satellites, service)

from . import Random, line

LINES = 80


def system(random, system_id):
    count = random.pick((0, 1, 2, 3, 5, 8))
    chosen = random.some(range(SATELLITE_PLACES[system_id]), count)
    signals = random.some(range(SIGNAL_PLACES[system_id]), random.pick((0, 1, 2, 3, 4)))
    flagged = random.below(2)
    cell_mask = random.bits(len(chosen) * len(signals), random.pick((0, 30, 60, 100))) if flagged else None
    return System(system_id, chosen, signals, cell_mask)


def mask(random, before):
    """Any systems in any order, under another issue than the one before."""
    ids = sorted(range(5), key=lambda _: next(random))[:random.below(6)]
    iod = random.below(16)
    if iod == before:
        iod = (iod + 1) % 16
    return Mask(iod, tuple(system(random, system_id) for system_id in ids))


def head(random):
    return {"epoch": random.below(3600), "interval": random.below(16), "indicator": random.below(2)}


def some_message(random, held, sub_type):
    if sub_type == 10:
        return service(random, random.below(2), random.below(8), random.below(4))
    if sub_type not in (6, 11):
        return correction(sub_type, held, random, **head(random))
    network = random.pick((None, 1 + random.below(31)))
    selection = random.bits(len(satellites(held)))
    if sub_type == 6:
        selection = "".join(bit if count else "0" for bit, (_, count) in zip(selection, celled(held)))
    made = biases if sub_type == 6 else combined
    return made(held, random, random.below(2), random.below(2), network, selection, **head(random))


def made():
    random, made, before = Random(5), [], None
    while len(made) < LINES:
        held = mask(random, before)
        if len(satellites(held)) <= 64 and len(cells(held)) <= 256:
            order = sorted((2, 3, 4, 5, 6, 7, 10, 11), key=lambda _: next(random))[:1 + random.below(8)]
            sent = [some_message(random, held, sub_type) for sub_type in order]
            made.append(line(mask_message(held, epoch=random.below(604800)), *sent, mask_message(held)))
            before = held.iod
    return made
