"""Lines that are bad, each with a good one behind it, which is read under the mask of the first line.

They are spoilt from a line of 82 bits, whose last digit has two spare ones.
"""

from messages import mask_message

from . import SMALL, Random, clock, line


def bad_forms(good):
    """What is no count, tab and digits."""
    count, digits = good.split("\t")
    return [
        "", "\t", "-", count, f"{count}\t", f"\t{digits}", f"{count} {digits}", f"{count}\t\t{digits}", f"{good}\t",
        f" {good}", f"{good} ", f"{good}\r", "M\t0\t114",
    ]


def bad_counts(good):
    """A count that is no decimal number without leading zeros, over the limit, or not that of the digits."""
    count, digits = good.split("\t")
    counts = [f"0{count}", f"+{count}", f"-{count}", f"{count}.0", f"0x{int(count):X}", f"\xb2{count}"]
    counts += [int(count) + 4, int(count) - 4, 2**32 + int(count), 2**64 + int(count), "9" * 40]
    return [f"{other}\t{digits}" for other in counts] + ["00\t", "0\t0", "50851\t0"]


def bad_digits(good):
    """Too few, too many, other characters than capitals and digits, spare bits that are not zero."""
    count, digits = good.split("\t")
    others = [digits[:-1], digits[1:], digits + "0", "0" * 60, digits.lower(), digits[0].lower() + digits[1:]]
    others += [digits[:-1] + other for other in "G/:@`"]
    others += [digits[:5] + other + digits[6:] for other in " \0\xa0"]
    others += [digits[:-1] + f"{int(digits[-1], 16) | spare:X}" for spare in (1, 2)]
    return [f"{count}\t{other}" for other in others] + ["1\t4", "1\tC", "3\t1"]


def good_lines():
    """The least and oddest lines that are good."""
    return ["0\t", "1\t0", "1\t8", "2\t4", "3\tE", "4\tF", "5\tF8"]


def made():
    """The last line has no line feed."""
    random = Random(9)
    lines = [line(mask_message(SMALL))]
    good = line(clock(SMALL, random))
    for bad in bad_forms(good) + bad_counts(good) + bad_digits(good):
        lines += [bad, line(clock(SMALL, random))]
    return "\n".join(lines + good_lines() + [line(clock(SMALL, random))])
