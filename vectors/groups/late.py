"""Late joiners (demand 3): a run of fifteen stretches, and receivers that get some of them, whole and in order."""

from messages import BEIDOU, GALILEO, GPS, QZSS, Mask, System

from . import Random, line, message

A = Mask(14, (System(GPS, (0, 2, 6), (0, 7), "101101"), System(QZSS, (1,), (0,))))
B = Mask(15, (System(GPS, (0, 3, 6), (0, 7), "101101"), System(QZSS, (1,), (0,))))
C = Mask(0, ())
D = Mask(1, (System(GALILEO, (4, 36), (1, 14)), System(GPS, (6,), (0,)), System(BEIDOU, (0,), (8,), "0")))

# The issue goes on to 13, a mask each; then two have the numbers of A and B, and are others.
COUNTED = [Mask(iod, (System(GPS, (iod, 39), (0,)),)) for iod in range(2, 14)]
E = A._replace(systems=(System(GPS, (0, 2, 7), (0, 7), "101101"), System(QZSS, (1,), (0,))))
F = B._replace(systems=B.systems[:1])

# The stretches that each receiver gets, from 1.
RECEIVERS = {
    "late-whole": range(1, 16), "late-from-2": range(2, 11), "late-from-3": range(3, 11), "late-from-4": range(4, 11),
    "late-from-5": range(5, 11), "late-from-7": range(7, 11), "late-from-8": range(8, 11), "late-even": range(2, 11, 2),
    "late-odd": range(1, 11, 2), "late-gap-2-to-5": (1, 6, 7, 8, 9, 10), "late-gap-4-to-8": (1, 2, 3, 9, 10),
    "late-gap-6-to-9": (1, 2, 3, 4, 5, 10), "late-gap-4-to-11": (1, 2, 3, 12, 13, 14, 15),
    "late-gap-7-to-12": (1, 2, 3, 4, 5, 6, 13, 14, 15),
}


def run(random):
    """A to B within stretch 4, B to C within 7, C to D at the opening of 9; twelve masks in 11; E opens 12, F is within
    13: sixteen changes after A, and after B."""
    def sent(mask, *sub_types):
        return [message(sub_type, mask, random) for sub_type in sub_types]

    return [
        sent(A, 1, 2, 3), sent(A, 3, 4, 6), sent(A, 10, 1, 5), sent(A, 3) + sent(B, 1, 3), sent(B, 11, 4, 6, 7),
        sent(B, 1, 2, 3), sent(B, 7) + sent(C, 1, 3), sent(C, 10), sent(D, 1, 2, 3, 4, 5, 6, 7, 10, 11),
        sent(D, 3, 11, 6), sent(D, 3) + [sent_one for mask in COUNTED for sent_one in sent(mask, 1, 3)],
        sent(E, 1, 3), sent(E, 10) + sent(F, 1, 3), sent(F, 3, 4, 6), sent(F, 1, 2, 3),
    ]


def made():
    stretches = [line(*messages) for messages in run(Random(8))]
    return {name: [stretches[number - 1] for number in numbers] for name, numbers in RECEIVERS.items()}
