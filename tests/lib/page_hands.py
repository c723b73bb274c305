"""The bench page under a pointer and under keys: what is told of a field, and what is marked with it."""

from io import BytesIO
from pathlib import Path
from typing import NamedTuple

from selenium.webdriver.common.keys import Keys

from checks import check
from fields import SIGNED, listed, lines_of
from messages import Mask, System, correction, mask_message, service, spell, text
from page_cases import WORKED, listings, page_name, says

SYSTEMS = ("GPS", "GLONASS", "Galileo", "BeiDou", "QZSS")
ABSENT = "-"

# What is marked: pieces and rows by their numbers; what is told of the field, what has the focus, and all rows.
MARKED = """
const all = (what, of) => Array.from(document.querySelectorAll(what), of);
const numbers = (what, key) => [...new Set(all(what, ({ dataset }) => Number(dataset[key])))];
const texts = ({ cells }) => Array.from(cells, (cell) => cell.textContent);
return { pieces: numbers("#band .piece.marked", "piece"), rows: numbers("#rows tr.marked", "row"),
  field: words(at("field")), focused: { ...document.activeElement.dataset },
  table: all("#rows tr[data-row]", texts) };
"""


class Line(NamedTuple):
    bits: str
    fields: list  # each beside its message, as fields.py reads them
    rows: list  # of each message its rows, as they are listed
    pieces: list  # as they are drawn
    name: str


def last_line(page, given, name):
    """Of lines that the page has read."""
    answer, rows = listed(lines_of(BytesIO(given)))[-1], []
    for line in listings(given)[-1].splitlines():
        if line[0] == "M":
            rows.append([])
        elif line[0] == "R":
            rows[-1].append(line.split("\t")[1:])
    messages = answer.messages + [answer.stopped]
    fields = [(message, field) for message in messages for field in message.taken if field.width]
    return Line(answer.stopped.bits, fields, rows, page.ask("return pieces()"), name)


def take_case(page, case):
    page.take_case(case)
    return last_line(page, Path("training", f"{case}.txt").read_bytes(), case)


# ---- one field


def in_row(line, message, row):
    return [k for k, piece in enumerate(line.pieces) if piece["said"][:2] == [message, row]]


def check_row(page, line, message, row, where):
    """Its pieces are marked and no others, and itself."""
    marked = page.ask(MARKED)
    got, want = (marked["pieces"], marked["rows"]), (in_row(line, message, row), [row])
    check(got == want, f"{line.name}, {where} row {row}: pieces and rows marked are {got}, not {want}")


def check_piece(page, line, index, where):
    """It is marked, with its row where it has one, and told."""
    marked = page.ask(MARKED)
    message, row = line.pieces[index]["said"][:2]
    alone = message is None or row is None
    got, want = (marked["pieces"], marked["rows"]), ([index], []) if alone else (in_row(line, message, row), [row])
    check(got == want, f"{line.name}, {where} piece {index}: pieces and rows marked are {got}, not {want}")
    if index < len(line.fields):
        parts = told(line, *line.fields[index]) + ([] if alone else owner(line.rows[message][row]))
        check(says(marked["field"], *parts), f"{line.name}, {where}: {parts} is told as {marked['field']!r}")
    return marked


def told(line, message, field):
    """Place, width, bits, name and value."""
    negative = field.name in SIGNED and field.value >> (field.width - 1)
    value = field.value - (1 << field.width) if negative else field.value
    bits = line.bits[field.place:field.place + field.width]
    parts = [field.place, field.width, bits, page_name(field.name, message.sub_type)]
    return parts + ([value] if field.width <= 40 else [])


def owner(row):
    """Whose a field is, by its row in the listing; service data is nobody's."""
    system, satellite, signal = row[:3]
    if system == ABSENT:
        return []
    return [f"{SYSTEMS[int(system)]} {satellite}"] + ([] if signal == ABSENT else [f"signal place {signal}"])


# ---- by the pointer


def check_pointing(page, line):
    """Over each piece, and over each row of the last message."""
    for index in range(len(line.pieces)):
        moved = page.point(f'#band [data-piece="{index}"]')
        check(moved == 0, f"{line.name}, pointed at piece {index}: it moves away by {moved} pixels")
        check_piece(page, line, index, "pointed at")
    last = len(line.rows) - 1
    page.click(f'#messages [data-message="{last}"]')
    for row in range(len(line.rows[-1])):
        page.point(f'#rows [data-row="{row}"]')
        check_row(page, line, last, row, "pointed at")
    page.rest()


def check_table(page, line, message, where):
    table = page.ask(MARKED)["table"]
    check(table == line.rows[message], f"{line.name}, {where} message {message}: its rows are {table}")


def check_clicks(page, line):
    for message in range(len(line.rows)):
        page.click(f'#messages [data-message="{message}"]')
        check_table(page, line, message, "clicked")


def check_width(page):
    """The bits of a long field are all to be seen: nothing is wider than where it stands."""
    take_case(page, "10-size-cell-mask/accepted")
    page.ask("document.querySelector('[data-name=\"cell mask\"]').focus();")
    cut = page.ask("""const wide = ({ clientWidth, scrollWidth }) => clientWidth > 0 && scrollWidth > clientWidth;
        return [at("field"), ...at("field").querySelectorAll("*")].filter(wide).map(({ outerHTML }) => outerHTML);""")
    check(not cut, f"a cell mask of 264 bits is cut: {cut[:1]}")


def check_rows(page, case):
    """64 bits stand beside one another, and the next ones below them."""
    take_case(page, case)
    spans = page.ask("""let place = 0;
        return Array.from(document.querySelectorAll("#band .piece"), (element) => {
          const { top, bottom } = element.getBoundingClientRect(), from = place;
          place += element.textContent.length;
          return [Math.floor(from / 64), (top + bottom) / 2];
        });""")
    for (row, middle), (next_row, next_middle) in zip(spans, spans[1:]):
        good = next_middle - middle > 10 if next_row > row else abs(next_middle - middle) < 5
        check(good, f"{case}: row {next_row} of the band stands {next_middle - middle} pixels below row {row}")


# ---- by keys


def tab_to(page, selector):
    """Tab until the focus is there; whether it came there."""
    for _ in range(40):
        page.press(Keys.TAB)
        if page.ask("return document.activeElement.closest(a) !== null", selector):
            return True
    return False


def check_focused(page, kind, number, where):
    focused = page.ask(MARKED)["focused"]
    check(focused.get(kind) == str(number), f"{where}: {focused} has the focus, not {kind} {number}")


def check_keys(page, line):
    """Tab into the band, arrows through all of its pieces and back, Tab out of it and back."""
    page.ask("at('read').focus();")
    check(tab_to(page, "#band"), f"{line.name}: Tab does not come into the band")
    for index in range(len(line.pieces)):
        check_focused(page, "piece", index, line.name)
        check_piece(page, line, index, "by keys")
        page.press(Keys.ARROW_RIGHT)
    for index in reversed(range(len(line.pieces) - 1)):
        page.press(Keys.ARROW_LEFT)
        check_piece(page, line, index, "by keys back")
    page.press(Keys.TAB)
    check(page.ask("return document.activeElement.closest('#band') === null"), f"{line.name}: Tab stays in the band")
    page.press(Keys.TAB, shift=True)
    check_focused(page, "piece", 0, f"{line.name}, back by Tab")


def check_lists(page, line):
    """Tab to the messages, arrows from one to the next, each with its rows; the same with the last one's rows."""
    page.ask("document.querySelector('#band .piece').focus();")
    check(tab_to(page, "#messages [data-message]"), f"{line.name}: Tab does not come to the messages")
    for message in range(len(line.rows)):
        if message > 0:
            page.press(Keys.ARROW_DOWN)
        check_focused(page, "message", message, line.name)
        check_table(page, line, message, "by keys")
    for row in range(len(line.rows[-1])):
        if row > 0:
            page.press(Keys.ARROW_DOWN)
        else:
            check(tab_to(page, "#rows tr[data-row]"), f"{line.name}: Tab does not come to the rows")
        check_row(page, line, len(line.rows) - 1, row, "by keys")


def check_lists_of_two(page):
    """The same where the second receiver's stop stands between the first and the second message."""
    mask = Mask(3, (System(0, (0, 2), (0, 7), "1011"),))
    both = spell(service(range(5))) + spell(correction(3, mask, (5, -16384)))
    given = "".join(text(bits) + "\n" for bits in (spell(mask_message(mask)), both))
    page.read(given, join="2")
    check_lists(page, last_line(page, given.encode("ascii"), "with a second receiver"))
    page.read("", join="")


def check_hands(page):
    for case in (WORKED, "habit-codes-first/accepted", "03-short-body/refused"):
        line = take_case(page, case)
        check_pointing(page, line)
        check_keys(page, line)
    for case in (WORKED, "habit-codes-first/accepted", "08-system-twice/accepted", "05-sub-type/accepted"):
        line = take_case(page, case)
        check_clicks(page, line)
        check_lists(page, line)
    check_lists_of_two(page)
    check_width(page)
    for case in (WORKED, "03-part-lost/accepted"):
        check_rows(page, case)
    page.check_console("pointing and keys")
