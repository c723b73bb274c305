"""The pictures of training/README.md and README.md, taken from the bench page: pictures.py PAGE.html FOLDER."""

import sys
from pathlib import Path

from page_browser import Page

# Of each picture the case, its line, and the field that is pointed at: its name, and which of that name.
PICTURES = {
    "mistake-1-another-mask": ("mistake-1-another-mask/refused", 2, "IOD SSR", 0),
    "mistake-2-satellite-seven": ("mistake-2-satellite-seven/accepted", 1, "clock C0", 6),
    "mistake-3-reading-on": ("mistake-3-reading-on/refused", 2, "IOD SSR", 0),
}


def main(file, folder):
    page = Page()
    page.load(Path(file))
    page.ask("for (const id of ['entry', 'chosen', 'listing', 'fields']) at(id).hidden = true;")
    for name, (case, line, field, which) in PICTURES.items():
        page.take_case(case)
        page.show([line])
        page.ask("document.querySelectorAll(`.piece.first[data-name='${a}']`)[b].focus();", field, which)
        page.find("main").screenshot(str(Path(folder, f"{name}.png")))
    page.driver.quit()


main(*sys.argv[1:])
