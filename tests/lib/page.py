"""The checks of the bench page in a browser; page.py FOLDER, which has page.html and the pages that are broken."""

import re
import shutil
import sys
import time
from io import BytesIO
from pathlib import Path

from selenium.common.exceptions import WebDriverException

from checks import check, files, finish
from fields import listed, lines_of
from page_browser import Page
from page_cases import (ANSWER_NAMES, WORKED, by_line, check_line, colours, listings, longest_lines, random_lines,
                        saved, says)
from page_hands import check_hands
from page_people import check_people

FOLDER = Path(sys.argv[1])
STRETCHES, SEED, LINES = 2000, 2, 2750
MOST_BYTES = 300_000


# ---- the file


def check_alone(page):
    """One small file that asks for nothing else."""
    text = (FOLDER / "page.html").read_text(encoding="utf-8")
    check(len(text.encode()) < MOST_BYTES, f"the page has {len(text.encode())} bytes")
    links = re.findall(r"""<[^<>]*\s(?:src|href)\s*=\s*["']?([^"'\s>]*)""", text)
    outside = [link for link in links if not link.startswith(("#", "data:"))]
    check(not outside, f"the page links to {outside}")
    asked = page.ask("return performance.getEntriesByType('resource').map(({ name }) => name)")
    asked = [name for name in asked if not name.startswith(("data:", "blob:"))]
    check(not asked, f"the page asks for {asked}")


def check_screenshot(page):
    """The worked example, on which there is something to be seen."""
    page.take_case(WORKED)
    path = FOLDER / "worked.png"
    page.driver.save_screenshot(str(path))
    counts = colours(path.read_bytes())
    most = max(counts.values()) / sum(counts.values())
    check(len(counts) >= 20 and most < 0.97, f"{path} has {len(counts)} colours, one on {most:.1%} of it")


# ---- listings and fields


def check_lines(page, lines, wanted, where):
    """Every line, some at a time; and now and then the mask that is held after it."""
    answers = listed(lines)
    count = page.ask("return at('lines').options.length")
    check(count == len(lines) == len(wanted), f"{where}: {count} options for {len(lines)} lines")
    for first in range(0, min(count, len(lines)), 100):
        numbers = list(range(first + 1, min(first + 100, count, len(lines)) + 1))
        all_shown = page.show(numbers)
        for k, shown in zip(numbers, all_shown):
            check_line(shown, k, wanted[k - 1], lines[k - 1], answers[k - 1], f"{where}, line {k}")
        last, held = all_shown[-1], saved("".join(lines[:numbers[-1]]).encode("latin-1"))
        check(last["held"] == held, f"{where}, line {numbers[-1]}: held is {last['held']!r}, not {held!r}")
    return answers


def check_case(page, case):
    path = Path("training", f"{case}.txt")
    lines = lines_of(BytesIO(path.read_bytes()))
    page.take_case(case)
    check(page.ask("return at('input').value") == "".join(lines), f"{case}: #input is not the file")
    check(page.ask("return at('lines').value") == str(len(lines)), f"{case}: the last line is not chosen")
    check_lines(page, lines, by_line(path.with_suffix(".listing").read_text(encoding="ascii")), case)


def check_training(page):
    want = [str(name.with_suffix("")) for name in files("training", "txt")]
    got = page.ask("return Array.from(at('case').options, ({ value }) => value).filter((value) => value !== '')")
    check(sorted(got) == sorted(want), f"#case has {len(got)} of {len(want)} cases")
    for case in want:
        check_case(page, case)
    page.check_console("the training cases")


def take_file(page, given, name):
    path = FOLDER / name
    path.write_bytes(given)
    page.read_file(path)


def check_random(page):
    given = random_lines(SEED, LINES)
    take_file(page, given, "random.txt")
    answers = check_lines(page, lines_of(BytesIO(given)), listings(given), "random")
    stretches = sum(answer is not None for answer in answers)
    check(stretches >= STRETCHES, f"{stretches} random stretches")
    page.check_console("random lines")


def check_texts(page):
    """What is typed into the text field: good and bad lines, none at all, and letters that are no ASCII."""
    page.take_case(WORKED)
    worked = page.ask("return at('input').value")
    for text in ("", "\n", "\n\n", "0\t\n", "0\t", "0", "x", worked + worked.lower() + worked, worked + " " + worked,
                 "\u0661\tF\n" + worked, "8\t\uff26\n", worked * 3 + "4\t1", "00\t\n0\t0\n4\tF\n3\tF\n"):
        page.read(text)
        check_lines(page, lines_of(BytesIO(text.encode())), listings(text.encode()), repr(text[:40]))
    page.check_console("texts")


def check_files(page):
    """Bytes that are no text, selected and dropped: each is read as it is, from when it is given."""
    worked = Path("training", f"{WORKED}.txt").read_bytes()
    for given in (worked, b"\xef\xbb\xbf" + worked, worked.replace(b"\n", b"\r\n"), worked + b"\xc3\n\xff" + worked * 2,
                  worked.replace(b"\t", b"\0"), b"\xfe\xff\n" + worked[:-1], b"0\t\r0\t\n\x0c\n"):
        for drop in (False, True):
            where = f"{'dropped' if drop else 'selected'} {given[:9]!r}"
            state = page.give(given, drop)
            check(state == "reading", f"{where}: the page's state is {state} while it reads")
            check_lines(page, lines_of(BytesIO(given)), listings(given), where)
    page.check_console("files")


def check_text_of_fields(page, case):
    """The fields as text: a line for each piece."""
    page.take_case(case)
    pieces, said = page.ask("""at("fields").open = true; await new Promise((done) => setTimeout(done, 50));
        const said = at("fields-text").textContent; at("fields").open = false; return [pieces(), said];""")
    lines = said.splitlines()
    good = len(lines) == len(pieces) and all(
        says(line, piece["said"][2], piece["bits"], piece["said"][4]) for line, piece in zip(lines, pieces))
    check(good, f"{case}: the fields as text are {said[:300]!r}")


def check_copy(page):
    """The listing's lines, copied by a click."""
    allowed = {"permissions": ["clipboardReadWrite", "clipboardSanitizedWrite"]}
    page.driver.execute_cdp_cmd("Browser.grantPermissions", allowed)
    page.take_case(WORKED)
    page.click('[data-copies="listing-text"]')
    copied = page.ask("await new Promise((done) => setTimeout(done, 100)); return navigator.clipboard.readText();")
    check(copied == page.ask("return shown().listing"), f"copied is {copied!r}")
    page.check_console("copying")


def check_fields_and_copy(page):
    for case in (WORKED, "03-short-body/refused", "00-idle/filling", "07-other-issue/refused"):
        check_text_of_fields(page, case)
    check_copy(page)


# ---- where reading starts


def check_start(page):
    """A saved line, none, one that does not count, and one that is no saved line."""
    mask, clocks = Path("training/06-no-mask/accepted.txt").read_text(encoding="ascii").splitlines(keepends=True)
    line, after_mask, alone = saved(mask.encode()), listings((mask + clocks).encode())[1], listings(clocks.encode())[0]
    for start, without, want in ((line, False, after_mask), ("", False, alone), (line, True, alone),
                                 ("S\t-", False, alone), (line + "\n", False, after_mask)):
        page.read(clocks, start=start, without=without)
        shown, = page.show([1])
        check(shown["listing"] == want, f"from {start!r}, without {without}: {shown['listing']!r}, not {want!r}")
        held = line if want == after_mask else "S\t-"
        check(shown["held"] == held, f"from {start!r}, without {without}: {shown['held']!r} is held")
    page.read(clocks, start="S\t3\t0")
    check(page.ask("return words(at('entry'))").count("no saved mask") == 1, "a line that is no saved one is not told")
    check(page.show([1])[0]["listing"] == alone, "a line that is no saved one: another listing")
    page.read("")
    left = page.ask("return at('listing-text').textContent + at('band').textContent")
    check(left == "", f"no lines: {left[:80]!r} is left")
    page.check_console("starts")


def check_second(shown, number, listing, where):
    """Where the second receiver stopped, by the listing of the lines since it joined."""
    if listing is None:
        check(not shown["second"].strip(), f"{where}, line {number}: {shown['second']!r}")
    elif listing[0] != "B":
        _, stop, place, messages, *_ = listing.splitlines()[-1].split("\t")
        good = says(shown["second"], stop, ANSWER_NAMES[int(stop)], place)
        check(good, f"{where}, line {number}: stop {stop} at {place} behind {messages} is told as {shown['second']!r}")


def check_joined(page, lines, join, where):
    later = listings("".join(lines[join - 1:]).encode("latin-1"))
    wanted = [None] * (join - 1) + later
    first = listings("".join(lines).encode("latin-1"))
    for k, shown in enumerate(page.show(list(range(1, len(lines) + 1))), 1):
        check_second(shown, k, wanted[k - 1], where)
        check(shown["listing"] == first[k - 1], f"{where}, line {k}: the first receiver's listing is another one")


def check_receivers(page):
    """One that joins late, in a training case and among random lines; without it there is none."""
    text = Path("training/mistake-1-another-mask/accepted.txt").read_text(encoding="ascii")
    for join in (1, 2, 3):
        page.read(text, join=str(join))
        check_joined(page, text.splitlines(keepends=True), join, f"mistake 1, joined at {join}")
    given = random_lines(6, 120)
    take_file(page, given, "joined.txt")
    for join in (1, 30, 120):
        page.ask("await change('join', 'value', a);", str(join))
        check_joined(page, lines_of(BytesIO(given)), join, f"random, joined at {join}")
    page.ask("await change('join', 'value', '');")
    check(not page.show([120])[0]["second"].strip(), "a second receiver that never joined")
    page.check_console("receivers")


# ---- long input


def check_longest(page):
    """30 data parts: how long until they are drawn."""
    worked = Path("training", f"{WORKED}.txt").read_text(encoding="ascii")
    for what, line in longest_lines().items():
        page.read(worked + line.decode("ascii"))
        drawn, laid = page.ask("""at("listing").open = false; await choose(1);
            const start = performance.now(); await choose(2);
            const drawn = performance.now() - start; at("band").getBoundingClientRect();
            const laid = performance.now() - start; at("listing").open = true;
            await new Promise((done) => setTimeout(done, 50));
            return [drawn, laid];""")
        print(f"50,850 bits, {what}: drawn in {drawn:.0f} ms, {laid:.0f} ms with the browser's layout")
        check(laid < 3000, f"{what}: drawn in {laid:.0f} ms")
        lines = [worked, line.decode("ascii")]
        listing = listings("".join(lines).encode())[1]
        check_line(page.ask("return shown()"), 2, listing, lines[1], listed(lines)[1], what)
    page.check_console("long lines")


# The longest time in which the page did nothing else, and how far its progress was seen.
WATCH = """
window.watched = { gap: 0, progress: [], reading: false };
let last = performance.now();
const tick = () => {
  const now = performance.now(), reading = root.dataset.state === "reading";
  watched.gap = Math.max(watched.gap, now - last);
  last = now;
  if (reading && seen("progress")) watched.progress.push(at("progress").position);
  if (!watched.reading || reading) setTimeout(tick, 5);
  watched.reading ||= reading;
};
tick();
"""


def check_long_file(page):
    """10,000 lines by #file: the page answers all the while, and shows how far it is."""
    path, given = FOLDER / "long.txt", random_lines(4, 10000)
    path.write_bytes(given)
    page.ask(WATCH)
    started, slowest, answered = time.monotonic(), 0, 0
    page.begin_file(path)
    while time.monotonic() < started + 120:
        asked = time.monotonic()
        state = page.driver.execute_script("return [document.documentElement.dataset.state, watched.reading]")
        slowest = max(slowest, time.monotonic() - asked)
        answered += state[0] == "reading"
        if state == ["ready", True]:
            break
    took, watched = time.monotonic() - started, page.ask("return watched")
    print(f"10,000 lines, {len(given)} bytes: {took:.1f} s, answered {answered} calls meanwhile, longest gap "
          f"{watched['gap']:.0f} ms, slowest call {1000 * slowest:.0f} ms")
    check(page.ask("return root.dataset.state") == "ready", "10,000 lines: the page is not ready")
    frozen = watched["gap"] > max(1000, 1000 * took / 3)  # a slow machine is slow in all
    check(answered > 1 and not frozen, "10,000 lines: the page does not answer")
    moved = watched["progress"]
    check(len(set(moved)) > 1 and moved == sorted(moved), f"10,000 lines: progress {moved[:5]}")
    check(not page.ask("return seen('progress')"), "10,000 lines: the progress stays")
    last, lines = listings(given)[-1], lines_of(BytesIO(given))
    check(page.ask("return at('lines').options.length") == len(lines), "10,000 lines: not as many options")
    check(page.ask("return shown()")["listing"] == last, "10,000 lines: the last one's listing")
    page.check_console("10,000 lines")


def check_meanwhile(page):
    """While lines are read: a line is chosen, and reading goes on; another join, and all is read again."""
    page.begin_file(shutil.copy(FOLDER / "long.txt", FOLDER / "long-too.txt"))
    states = page.ask("""await window.began;
        while (at("lines").options.length === 0) await new Promise((done) => setTimeout(done));
        const before = root.dataset.state;
        at("lines").value = "1"; at("lines").dispatchEvent(new Event("change", { bubbles: true }));
        return [before, root.dataset.state];""")
    check(states == ["reading", "reading"], f"a line chosen while lines are read: the page's state is {states}")
    page.ask("await change('join', 'value', '5');")
    count = page.ask("return at('lines').options.length")
    check(count == 10000, f"another join while lines are read: {count} of 10000 lines are left")
    page.ask("await change('join', 'value', '');")
    page.check_console("meanwhile")


# ---- layouts that are broken


def is_red(colour):
    red, green, blue = map(int, re.findall(r"\d+", colour)[:3])
    return red > 128 and red > 2 * max(green, blue)


def check_broken(page, name, case, sound):
    """Where the layout does not fit, the notice and no band; where it does, the band again."""
    page.load(FOLDER / f"{name}.html")
    page.take_case(case)
    shown = page.ask("return shown()")
    paints = page.ask("const style = getComputedStyle(at('wrong')); return [style.color, style.backgroundColor];")
    check(shown["wrong"].strip(), f"{name} broken, {case}: no notice")
    check(any(map(is_red, paints)), f"{name} broken: the notice has the colours {paints}")
    check(not shown["pieces"] and not shown["band"].strip(), f"{name} broken, {case}: the band is drawn")
    page.take_case(sound)
    shown = page.ask("return shown()")
    check(shown["wrong"] == "" and shown["pieces"], f"{name} broken, {sound}: not drawn")
    page.check_console(f"{name} broken")


def check_layouts(page):
    """The clock a bit narrower, the widths of two columns exchanged, a network ID a bit narrower (tests/page.sh)."""
    check_broken(page, "clock", WORKED, "00-idle/accepted")
    check_broken(page, "orbit", "habit-galileo-iode/accepted", WORKED)
    check_broken(page, "network", "11-network/accepted", WORKED)


PARTS = (check_alone, check_screenshot, check_training, check_texts, check_files, check_fields_and_copy, check_start,
         check_receivers, check_hands, check_people, check_random, check_longest, check_long_file, check_meanwhile,
         check_layouts)


def run(page, part):
    """A part that the page does not let come to its end has failed."""
    started = time.monotonic()
    try:
        part(page)
    except (RuntimeError, WebDriverException) as error:
        check(False, f"{part.__name__}: {str(error).splitlines()[0]}")
    print(f"{part.__name__}: {time.monotonic() - started:.1f} s")


def main():
    page = Page()
    try:
        page.load(FOLDER / "page.html")
        page.check_console("the page")
        for part in PARTS:
            run(page, part)
    finally:
        page.driver.quit()
    finish()


main()
