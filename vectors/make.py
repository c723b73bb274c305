"""Makes the groups of this folder: make.py FOLDER writes FOLDER/GROUP.txt, lines of the listing's input."""

import os
import sys

from groups import accepted, changes, extremes, late, limits, lines, one_bit, order, refusals

GROUPS = {"accepted": accepted, "changes": changes, "extremes": extremes, "limits": limits, "one-bit": one_bit,
          "order": order, "refusals": refusals}


def main(folder):
    made = {name: group.made() for name, group in GROUPS.items()}
    made.update(late.made())
    contents = {name: "".join(line + "\n" for line in group) for name, group in made.items()}
    contents["lines"] = lines.made()
    for name, content in contents.items():
        with open(os.path.join(folder, name + ".txt"), "w", encoding="latin-1", newline="\n") as file:
            file.write(content)


if __name__ == "__main__":
    main(sys.argv[1])
