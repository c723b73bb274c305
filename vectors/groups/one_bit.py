"""Damage of one bit: a stretch of a mask and a message as it should be, then with each bit of it wrong in turn.

Each line opens with the mask message, so that no line needs another one. The mask's own bits are damaged twice: in
front of the clocks, where a mask of no systems, of another issue, opens the line; and behind the same mask, which is
held under that issue, so that 13 meets them.
"""

from messages import biases, combined, flip, mask_message, spell, text

from . import NOTHING, SMALL, Random, message


def damaged(bits, start):
    return [text(bits)] + [text(flip(bits, place)) for place in range(start, len(bits))]


def made():
    random = Random(7)
    nothing, mask = spell(mask_message(NOTHING)), spell(mask_message(SMALL))
    sent = [message(sub_type, SMALL, random) for sub_type in (2, 4, 5, 6, 7, 10, 11)]
    sent += [combined(SMALL, random, orbits=0), biases(SMALL, random, phases=0)]
    made = damaged(nothing + mask + spell(message(3, SMALL, random)), len(nothing))
    for fields in sent + [mask_message(SMALL)]:
        made += damaged(mask + spell(fields), len(mask))
    return made
