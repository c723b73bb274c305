"""A browser without a screen and without a network, and what the bench page shows in it."""

import json
import shutil

from selenium import webdriver
from selenium.webdriver.chrome.service import Service
from selenium.webdriver.common.action_chains import ActionChains
from selenium.webdriver.common.by import By
from selenium.webdriver.common.keys import Keys

from checks import check

# In the page: waiting, choosing a line, and what is shown of it. A field that runs over the end of a row of the band is
# several elements; it is one here, and says where an element lies across such an end.
HELPERS = r"""
const root = document.documentElement, at = (id) => document.getElementById(id);
const ready = () => new Promise((done) => {
  if (root.dataset.state === "ready") return done();
  const watch = new MutationObserver(() => {
    if (root.dataset.state !== "ready") return;
    watch.disconnect();
    done();
  });
  watch.observe(root, { attributes: true });
});
/* From when on the page reads what it is given next. */
const begins = () => new Promise((done) =>
  new MutationObserver(done).observe(root, { attributes: true, attributeFilter: ["data-state"] }));
const change = (id, key, value) => {
  at(id)[key] = value;
  for (const kind of ["input", "change"]) at(id).dispatchEvent(new Event(kind, { bubbles: true }));
  return ready();
};
const choose = (line) => change("lines", "value", String(line));
/* The texts in an element, however they are laid out. */
const words = (element) => {
  const walker = document.createTreeWalker(element, NodeFilter.SHOW_TEXT), all = [];
  while (walker.nextNode()) all.push(walker.currentNode.data);
  return all.join("\n");
};
const seen = (id) => at(id) !== null && at(id).getClientRects().length > 0;
const number = (text) => (text === undefined ? null : Number(text));
const pieces = () => {
  const all = [];
  let place = 0;
  for (const element of document.querySelectorAll("#band .piece")) {
    const bits = element.textContent.replace(/\s/g, ""), { dataset, classList } = element;
    const kind = ["refused", "unread", "idle"].filter((name) => classList.contains(name)).join(" ");
    const said = [number(dataset.message), number(dataset.row), number(dataset.place), number(dataset.width),
      dataset.name, kind];
    const index = number(dataset.piece), over = place % 64 + bits.length > 64, last = all.at(-1);
    place += bits.length;
    if (last && last.index === index) {
      last.bits += bits;
      last.over ||= over || JSON.stringify(last.said) !== JSON.stringify(said);
    } else all.push({ index, bits, said, over });
  }
  return all;
};
const shown = () => ({
  line: number(at("lines").value), option: at("lines").selectedOptions[0].textContent.trim(), pieces: pieces(),
  listing: at("listing-text").textContent, held: at("held").textContent.trim(), stop: at("stop").textContent,
  second: seen("second") ? at("second").textContent : "", wrong: seen("wrong") ? at("wrong").textContent : "",
  band: at("band").textContent,
  messages: Array.from(document.querySelectorAll("#messages [data-message]"), (one) => one.textContent),
  grid: ["table", "tr[data-satellite]", "td.cell"].map((what) => at("mask").querySelectorAll(what).length),
});
"""


class Page:
    """The page in a browser that reaches no network."""

    def __init__(self):
        options = webdriver.ChromeOptions()
        for word in ("--headless=new", "--no-sandbox", "--disable-dev-shm-usage", "--window-size=1200,1400",
                     "--host-resolver-rules=MAP * ~NOTFOUND"):
            options.add_argument(word)
        options.set_capability("goog:loggingPrefs", {"browser": "ALL"})
        self.driver = webdriver.Chrome(service=Service(shutil.which("chromedriver")), options=options)
        self.driver.set_script_timeout(60)

    def load(self, path):
        """From the disk; its listing is opened, so that it is filled."""
        self.driver.get(path.resolve().as_uri())
        self.ask("await ready(); at('listing').open = true;")

    def ask(self, body, *given):
        """What a script in the page returns, to which a and b are given; it may wait."""
        script = HELPERS + """const [a, b] = arguments, done = arguments[arguments.length - 1];
            const tell = (answer) => done(JSON.stringify(answer));
            const run = async () => {""" + body + """};
            run().then((value) => tell({ value }), (error) => tell({ error: String(error) }));"""
        answer = json.loads(self.driver.execute_async_script(script, *given))
        if "error" in answer:
            raise RuntimeError(f"{answer['error']} in {body}")
        return answer.get("value")

    # ---- what people do

    def take_case(self, case):
        self.ask("await change('case', 'value', a);", case)

    def read(self, lines, start="", without=False, join=""):
        """The lines by the text field and the button."""
        self.ask("""await change("start", "value", b.start); await change("without", "checked", b.without);
                    await change("join", "value", b.join); at("input").value = a;
                    at("read").click(); await ready();""", lines, {"start": start, "without": without, "join": join})

    def begin_file(self, path):
        """Selects a file; a later ask can wait for window.began, from which on the page reads."""
        self.ask("window.began = begins();")
        self.find("#file").send_keys(str(path.resolve()))

    def read_file(self, path):
        self.begin_file(path)
        self.ask("await window.began; await ready();")

    def give(self, content, drop):
        """The same with a file of these bytes, selected or dropped on the page; the state right after that."""
        return self.ask("""const given = new DataTransfer(), began = begins();
            given.items.add(new File([Uint8Array.from(a)], "lines.txt"));
            at("file").files = given.files;
            const drop = new DragEvent("drop", { dataTransfer: given, bubbles: true, cancelable: true });
            if (b) at("band").dispatchEvent(drop);
            else at("file").dispatchEvent(new Event("change", { bubbles: true }));
            const state = root.dataset.state;
            await began; await ready();
            return state;""", list(content), drop)

    def show(self, lines):
        """What is shown of each of these lines, by their numbers."""
        return self.ask("""const all = [];
            for (const line of a) { await choose(line); all.push(shown()); }
            return all;""", lines)

    def rest(self):
        """Moves the pointer to the edge, where nothing comes under it however the page is scrolled."""
        actions = ActionChains(self.driver, duration=0)
        actions.w3c_actions.pointer_action.move_to_location(1, 1)
        actions.perform()

    def point(self, element):
        """Moves the pointer there, and over nothing before it, with the page scrolled as far down as it can be; how far
        what is pointed at moved away by that."""
        self.rest()
        place = f"""for (let k = 0; k < 2; k++) await new Promise(requestAnimationFrame);
            return document.querySelector({json.dumps(element)}).getBoundingClientRect().top;"""
        scroll = "scrollTo(0, root.scrollHeight); document.querySelector(a).scrollIntoView({ block: 'nearest' });"
        before = self.ask(scroll + place, element)
        ActionChains(self.driver, duration=0).move_to_element(self.find(element)).perform()
        return self.ask(place) - before

    def click(self, element):
        """In the middle of the window, where no edge of a scrolled part lies over it."""
        self.ask("document.querySelector(a).scrollIntoView({ block: 'center' });", element)
        self.find(element).click()

    def press(self, key, shift=False):
        keys = ActionChains(self.driver, duration=0)
        if shift:
            keys.key_down(Keys.SHIFT).send_keys(key).key_up(Keys.SHIFT).perform()
        else:
            keys.send_keys(key).perform()

    def find(self, selector):
        return self.driver.find_element(By.CSS_SELECTOR, selector)

    def check_console(self, what):
        said = self.driver.get_log("browser")
        check(not said, f"{what}: the console says {said[:3]}")
