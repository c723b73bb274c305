/* The bench page: lines in, one of them drawn. What is answered comes from the module (reading.js); the fields are the
   page's own (layout.js), and are drawn only where they fit (agreement.js). */
import { open } from "../library/hundurzek.js";
import { Receiver, savedLine, loadedHolding } from "./reading.js";
import { maskOf } from "./mask.js";
import { layOut } from "./layout.js";
import { difference } from "./agreement.js";
import { listingOf } from "./listing.js";
import { answerName } from "./words.js";
import { Drawing } from "./drawing.js";

const by = (id) => document.getElementById(id);
const embedded = (id) => by(id).textContent.trim();
const bytesOf = (base64) => Uint8Array.from(atob(base64), (letter) => letter.charCodeAt(0));
const module = await open(bytesOf(embedded("module")));
const drawing = new Drawing(by);

/* How long lines are read before the page answers its user again, in milliseconds. */
const TURN = 40;
const state = (word) => (document.documentElement.dataset.state = word);
const nextTurn = () => new Promise((done) => setTimeout(done));

// ---- reading all lines

/* Of each line: its number and text; what the receivers hold before it, nothing for one that has not joined; and what
   an option says of it. */
let lines = [], entries = [];
let turn = 0; // the number of the last reading that was begun: a later one ends it
let underWay = false;

function startHolding() {
  const line = by("start").value;
  const holding = by("without").checked || line.trim() === "" ? null : loadedHolding(module, line);
  const bad = !by("without").checked && line.trim() !== "" && holding === null;
  by("unsaid").textContent = bad ? "12, value: no saved mask; it starts without one." : "";
  return holding;
}

function readEntry(receiver, second, line, number) {
  const before = receiver.holding.slice(), secondBefore = second && second.holding.slice();
  const stretch = receiver.stretchOf(line);
  if (stretch === null) return { number, line, before, secondBefore, said: `${number}  B, bad line` };
  const { answer, place, messages } = receiver.walk(stretch);
  if (second) second.walk(stretch);
  const said = `${number}  ${answerName(answer)} at ${place}, messages: ${messages}`;
  return { number, line, before, secondBefore, said };
}

function addOptions(some) {
  const options = some.map(({ number, said }) => new Option(said, number));
  by("lines").append(...options);
}

async function readLines(text) {
  const mine = ++turn, join = Number(by("join").value) || Infinity;
  const receiver = new Receiver(module, startHolding());
  let second = null, shown = 0, since = performance.now();
  lines = text === "" ? [] : text.split(/(?<=\n)/);
  begin();
  entries = [];
  by("lines").replaceChildren();
  by("progress").hidden = false;
  for (const [k, line] of lines.entries()) {
    if (k + 1 === join) second = new Receiver(module, null);
    entries.push(readEntry(receiver, second, line, k + 1));
    if (performance.now() - since < TURN) continue;
    addOptions(entries.slice(shown));
    shown = entries.length;
    by("progress").value = shown / lines.length;
    await nextTurn();
    if (mine !== turn) return;
    since = performance.now();
  }
  addOptions(entries.slice(shown));
  by("progress").hidden = true;
  underWay = false;
  if (by("lines").selectedIndex < 0) by("lines").value = entries.length;
  drawChosen();
}

function begin() {
  underWay = true;
  state("reading");
}

const readInput = () => readLines(by("input").value);

// ---- one line drawn

function laidOut({ stretch, messages, stop }) {
  const laid = (one) => layOut(stretch, one.place, maskOf(one.before));
  return { messages: messages.map(laid), stop: stop.answer === 0 ? null : laid(stop) };
}

/* A reading of a line by a receiver that holds this before it; nothing for a bad line. */
function readingOf(line, before) {
  const receiver = new Receiver(module, before), stretch = receiver.stretchOf(line);
  const reading = stretch && receiver.read(stretch);
  return { reading, held: savedLine(module, receiver.holding) };
}

function drawChosen() {
  const entry = entries[by("lines").value - 1];
  state("reading");
  if (entry) drawEntry(entry);
  else drawing.clear("No lines.");
  drawing.fillTexts();
  if (!underWay) state("ready");
}

function drawEntry({ number, line, before, secondBefore }) {
  const { reading, held } = readingOf(line, before);
  const second = secondBefore && readingOf(line, secondBefore).reading;
  if (reading === null) {
    drawing.clear(`Line ${number} is no line of the listing: B`);
    drawing.showMask(before);
  } else {
    const laid = laidOut(reading), wrong = difference(reading, laid.messages, laid.stop);
    if (wrong) drawing.refuse(`The page's layout does not fit what the module read, so nothing is drawn. ${wrong}.`);
    else drawing.show(reading, laid, second);
  }
  by("held").textContent = held;
  drawing.texts.listing = () => listingOf(reading, number);
}

// ---- what people do

function cases() {
  const all = JSON.parse(embedded("cases"));
  by("case").append(...Object.keys(all).map((name) => new Option(name)));
  by("case").addEventListener("change", ({ target }) => {
    by("input").value = target.value === "" ? "" : atob(all[target.value]);
    readInput();
  });
}

/* A file's bytes as they are: what is no text makes bad lines. */
async function readFile(file) {
  begin();
  await readLines(new TextDecoder("latin1").decode(await file.arrayBuffer()));
}

function dropped(event) {
  event.preventDefault();
  const [file] = event.dataTransfer.files;
  if (file) return readFile(file);
  by("input").value = event.dataTransfer.getData("text");
  return readInput();
}

/* Where a browser lets no page write to its clipboard, the text is selected, to be copied by hand. */
async function copied(text) {
  try {
    await navigator.clipboard.writeText(text.textContent);
  } catch {
    getSelection().selectAllChildren(text);
  }
}

function listen() {
  by("read").addEventListener("click", readInput);
  by("input").addEventListener("paste", () => setTimeout(readInput));
  by("file").addEventListener("change", ({ target }) => target.files.length > 0 && readFile(target.files[0]));
  const again = () => readLines(lines.join(""));
  for (const id of ["start", "without", "join"]) by(id).addEventListener("change", again);
  by("lines").addEventListener("change", drawChosen);
  document.addEventListener("dragover", (event) => event.preventDefault());
  document.addEventListener("drop", dropped);
  for (const button of document.querySelectorAll("[data-copies]"))
    button.addEventListener("click", () => copied(by(button.dataset.copies)));
}

cases();
listen();
by("input").value = "181\tFE91000645188500000000040806FFA4C1908600160000\n"; // document 01's worked stretch
readInput();
