"""Each field at its least, its greatest and next to them. EACH is held unless a line opens with another mask."""

from messages import (CORRECTIONS, GPS, SATELLITE_PLACES, SIGNAL_PLACES, Mask, System, biases, celled, combined,
                      correction, mask_message, service)

from . import EACH, Random, line, message

INTERVALS = range(16)
FLAGS = [(one, other) for one in (0, 1) for other in (0, 1)]
BODY = ("IODE", "radial", "along-track", "cross-track", "clock", "code bias", "phase bias", "discontinuity", "URA",
        "data")


def extremes(width):
    """Least, greatest and next to them, unsigned and signed: as bits these are the same few."""
    half, full = 1 << (width - 1), 1 << width
    return [0, 1, half - 1, half, half + 1, full - 1]


def turned(fields, turn):
    """The message with the extremes in its body, going round from field to field and from line to line."""
    body = [k for k, (name, _, _) in enumerate(fields) if name in BODY]
    return [(name, width, extremes(width)[(turn + k) % 6] if k in body else value)
            for k, (name, width, value) in enumerate(fields)]


def bodies():
    zeros = [0] * 100
    sent = [correction(sub_type, EACH, zeros) for sub_type in (2, 3, 4, 5, 7)]
    sent += [biases(EACH, zeros), combined(EACH, zeros), service(zeros, size=3)]
    return [line(turned(fields, turn)) for fields in sent for turn in range(6)]


def mask_heads():
    epochs = [line(mask_message(EACH, epoch=epoch)) for epoch in (0, 1, 604799, 604800, 2**20 - 1)]
    intervals = [line(mask_message(EACH, interval=interval, indicator=interval % 2)) for interval in INTERVALS]
    counts = [line(mask_message(Mask((EACH.iod + count - 5) % 16, EACH.systems[:count]))) for count in range(6)]
    return epochs + intervals + counts


def heads(random):
    """Epochs, intervals and indicators of the corrections; every issue, with a mask of it."""
    made = []
    for k in CORRECTIONS:
        made += [line(message(k, EACH, random, epoch=epoch, indicator=epoch % 2)) for epoch in (0, 1, 3599, 3600, 4095)]
        made += [line(message(k, EACH, random, interval=interval)) for interval in INTERVALS]
        made += [line(mask_message(EACH._replace(iod=iod)), message(k, EACH, random, iod=iod)) for iod in range(16)]
        made.append(line(mask_message(EACH)))
    return made


def flags(random):
    """Sub types 6 and 11: all flags, every network ID, every selection of five."""
    made = []
    for sent in (biases, combined):
        made += [line(sent(EACH, random, *flags)) for flags in FLAGS]
        made += [line(sent(EACH, random, *flags, network=9, selection="01101")) for flags in FLAGS]
        made += [line(sent(EACH, random, network=k, selection=format(k, "05b"))) for k in range(1, 32)]
        made.append(line(sent(EACH, random, network=31, selection="00000")))
    return made


def packets(random):
    """Sub type 10: counters and sizes."""
    return [line(service(random, indicator, counter, size))
            for indicator in (0, 1) for counter in range(8) for size in range(4)]


def accuracies():
    """Sub type 7: every value, five satellites at a time."""
    return [line(correction(7, EACH, range(first, first + 5))) for first in range(0, 64, 5)]


def changed():
    """13 under every issue: from no system to all of them, and back."""
    made = []
    for iod in range(16):
        none, each = mask_message(Mask(iod, ())), mask_message(EACH._replace(iod=iod))
        made += [line(none, each), line(each, none)]
    return made


def places(random):
    """Each satellite place and each signal place of each system alone, all of them, and none."""
    made = []
    for k in range(5):
        chosen = [((place,), (0,)) for place in range(SATELLITE_PLACES[k])]
        chosen += [((0,), (place,)) for place in range(SIGNAL_PLACES[k])]
        chosen += [((), ()), ((), (0,)), ((0,), ()), (range(SATELLITE_PLACES[k]), ()), ((), range(SIGNAL_PLACES[k]))]
        for satellites, signals in chosen:
            mask = Mask(len(made) % 16, (System(k, tuple(satellites), tuple(signals)),))
            made.append(line(mask_message(mask), correction(3, mask, random), correction(4, mask, random)))
    return made


def cell_masks(random):
    """Each cell mask of two satellites by two signals, and none; biases combined, of all satellites and of a network's,
    those that have a cell."""
    made = []
    for k, cells in enumerate([format(k, "04b") for k in range(16)] + [None]):
        mask = Mask(k % 16, (System(GPS, (0, 2), (0, 7), cells),))
        selection = "".join("01"[count > 0] for _, count in celled(mask))
        made.append(line(mask_message(mask), correction(4, mask, random), correction(5, mask, random)))
        made.append(line(*(biases(mask, random, *flags) for flags in FLAGS)))
        made.append(line(*(biases(mask, random, *flags, network=7, selection=selection) for flags in FLAGS)))
    return made


def made():
    random = Random(4)
    return [line(mask_message(EACH))] + bodies() + mask_heads() + heads(random) + flags(random) + packets(random) + \
        accuracies() + changed() + places(random) + cell_masks(random)
