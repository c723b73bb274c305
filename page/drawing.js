/* One stretch as it is seen: the band of bits, what is pointed at, the mask, messages and rows, and all as text. */
import { element } from "./elements.js";
import { maskOf } from "./mask.js";
import { ANSWERS, KINDS, SUB_TYPES, answerName } from "./words.js";
import { messageLine, rowLine } from "./listing.js";
import { piecesOf, drawBand, pieceLabel, pieceFrom } from "./band.js";
import { drawGrid, markInGrid } from "./grid.js";

const ROW_NAMES = ["system", "satellite", "signal place", "v1", "v2", "v3", "v4", "v5"];

export class Drawing {
  constructor(by) {
    this.by = by;
    this.listen();
    this.clear("");
  }

  // ---- what is drawn

  clear(said) {
    const { by } = this;
    Object.assign(this, { pieces: [], reading: null, shown: -1, holding: null, mask: null });
    this.texts = { listing: () => "", fields: () => "" };
    for (const id of ["band", "legend", "field", "messages", "rows", "mask", "held"]) by(id).replaceChildren();
    by("wrong").hidden = by("second").hidden = true;
    by("stop").textContent = said;
  }

  refuse(wrong) {
    this.clear("");
    this.by("wrong").textContent = wrong;
    this.by("wrong").hidden = false;
  }

  show(reading, laid, second) {
    this.clear(stopText(reading, laid.stop));
    this.reading = reading;
    this.pieces = piecesOf(reading, laid.messages, laid.stop);
    this.texts.fields = () => this.pieces.map((piece) => fieldLine(reading.stretch, piece)).join("");
    drawBand(this.by("band"), reading.stretch, this.pieces);
    const kinds = new Set(this.pieces.map(({ kind }) => kind));
    this.by("legend").append(...Array.from(kinds, (kind) => element("span", KINDS[kind], { class: `key ${kind}` })));
    this.showMessages(second);
    this.showSecond(second);
    this.showMessage(reading.messages.length - 1);
    this.showMask(reading.stop.after);
  }

  showMask(holding) {
    if (holding === this.holding) return;
    this.holding = holding;
    this.mask = maskOf(holding);
    drawGrid(this.by("mask"), this.mask);
  }

  showMessages(second) {
    const { by, reading } = this;
    const items = reading.messages.map((message, k) => {
      const text = `${messageLine(message)}  ${SUB_TYPES[message.head[0]]}`;
      const reached = { "data-message": k, value: k + 1, tabindex: k === 0 ? 0 : -1, "aria-label": text };
      return element("li", text, reached);
    });
    if (second) items.splice(second.messages.length, 0, element("li", secondText(second), { class: "second" }));
    by("messages").replaceChildren(...items);
  }

  showSecond(second) {
    const { by } = this;
    by("second").hidden = !second;
    if (!second) return;
    by("second").textContent = secondText(second);
    const at = this.pieces.findIndex(({ place, width }) => second.stop.place < place + width);
    if (at >= 0) by(`piece-${at}`).classList.add("second-stops");
  }

  /* Its rows, and the mask under which it was read, or which it made. */
  showMessage(k) {
    const { by, reading } = this, message = reading.messages[k];
    if (message) this.showMask(message.after);
    if (k === this.shown) return;
    this.shown = k;
    const head = element("tr", "");
    head.append(...ROW_NAMES.map((name) => element("th", name, { scope: "col" })));
    const rows = message ? message.rows.map((row, r) => this.rowOf(row, r)) : [];
    by("rows").replaceChildren(...(rows.length > 0 ? [head, ...rows] : []));
    for (const item of by("messages").children) item.classList.toggle("shown", item.dataset.message === String(k));
  }

  rowOf(row, r) {
    const made = element("tr", "", { "data-row": r, tabindex: r === 0 ? 0 : -1, "aria-label": rowLine(row) });
    made.append(...rowLine(row).split("\t").slice(1).map((text) => element("td", text)));
    return made;
  }

  // ---- what is pointed at

  unmark() {
    for (const place of ["band", "rows", "mask"])
      for (const old of this.by(place).querySelectorAll(".marked")) old.classList.remove("marked");
  }

  markRow(message, r) {
    const { by } = this;
    for (const part of by("band").querySelectorAll(`[data-message="${message}"][data-row="${r}"]`))
      part.classList.add("marked");
    by("rows").querySelector(`[data-row="${r}"]`)?.classList.add("marked");
    markInGrid(by("mask"), this.mask, this.reading.messages[message].rows[r]);
  }

  pointAtPiece(index, bit) {
    const { by, reading } = this, piece = this.pieces[index];
    this.unmark();
    if (piece.message !== undefined) this.showMessage(piece.message);
    else this.showMask(reading.stop.before);
    for (const part of by("band").querySelectorAll(`[data-piece="${index}"]`)) part.classList.add("marked");
    if (piece.message !== undefined && piece.field.row !== undefined) this.markRow(piece.message, piece.field.row);
    by("field").replaceChildren(...fieldParts(reading.stretch, piece, bit));
  }

  pointAtRow(r) {
    this.unmark();
    this.showMessage(this.shown);
    this.markRow(this.shown, r);
  }

  // ---- what people do

  listen() {
    const { by } = this;
    const pieceAt = (event) => event.target.closest(".piece");
    by("band").addEventListener("mouseover", (event) => this.overBand(pieceAt(event), event));
    by("band").addEventListener("mousemove", (event) => this.overBand(pieceAt(event), event));
    by("band").addEventListener("focusin", (event) => this.pointAtPiece(Number(pieceAt(event).dataset.piece)));
    by("band").addEventListener("keydown", (event) => this.keyInBand(event));
    for (const kind of ["mouseover", "focusin"])
      by("rows").addEventListener(kind, (event) => {
        const row = event.target.closest("[data-row]");
        if (row) this.pointAtRow(Number(row.dataset.row));
      });
    for (const kind of ["click", "focusin"])
      by("messages").addEventListener(kind, (event) => {
        const item = event.target.closest("[data-message]");
        if (item) this.showMessage(Number(item.dataset.message));
      });
    for (const id of ["messages", "rows"]) by(id).addEventListener("keydown", (event) => keyInList(event));
    for (const id of ["listing", "fields"]) by(id).addEventListener("toggle", () => this.fillTexts());
  }

  /* Which of the piece's bits it is follows from where its part of the band is pointed at. */
  overBand(part, event) {
    if (!part) return;
    const { left, width } = part.getBoundingClientRect();
    const bits = part.textContent.length, at = Math.floor(((event.clientX - left) / width) * bits);
    let before = 0;
    for (const other of this.by("band").querySelectorAll(`[data-piece="${part.dataset.piece}"]`)) {
      if (other === part) break;
      before += other.textContent.length;
    }
    this.pointAtPiece(Number(part.dataset.piece), before + Math.max(0, Math.min(at, bits - 1)));
  }

  keyInBand(event) {
    const from = Number(event.target.closest(".piece").dataset.piece);
    const to = pieceFrom(this.pieces, from, event.key);
    if (to < 0) return;
    event.preventDefault();
    moveFocus(this.by(`piece-${from}`), this.by(`piece-${to}`));
  }

  // ---- text

  /* Long texts are made when they are looked at. */
  fillTexts() {
    for (const id of ["listing", "fields"]) {
      const text = this.by(id).open ? this.texts[id]() : "";
      this.by(`${id}-text`).textContent = text;
    }
  }
}

/* One of many can be reached by Tab, the others from it. */
function moveFocus(from, to) {
  from.tabIndex = -1;
  to.tabIndex = 0;
  to.focus();
}

function keyInList(event) {
  const step = { ArrowDown: 1, ArrowUp: -1 }[event.key], from = event.target.closest("[tabindex]");
  if (!step || !from) return;
  event.preventDefault();
  const all = [...event.currentTarget.querySelectorAll("[tabindex]")], to = all[all.indexOf(from) + step];
  if (to) moveFocus(from, to);
}

// ---- words

function stopText({ stretch, stop }, laid) {
  const [name, sentence] = ANSWERS[stop.answer];
  const said = `Stop ${stop.answer}, ${name}, at place ${stop.place} of ${stretch.end}`;
  if (stop.answer === 0) return `${said}: “${sentence}”. Idle padding: ${stretch.end - stop.place} bits.`;
  const { refused } = laid;
  const field = refused ? `at the field “${refused.name}”, place ${refused.place}` : "the message as a whole";
  const missing = stop.missing > 0 ? ` Bits missing: ${stop.missing}.` : "";
  return `${said}, ${field}: “${sentence}”.${missing} What is behind it was not read.`;
}

function secondText({ messages, stop }) {
  const why = answerName(stop.answer);
  return `The second receiver stops with ${why}, at place ${stop.place}; messages: ${messages.length}.`;
}

function fieldLine(stretch, piece) {
  return `${piece.place}\t${piece.width}\t${stretch.text(piece.place, piece.width)}\t${pieceLabel(piece)}\n`;
}

/* What is told of a piece, and of the bit of it that is pointed at. */
function fieldParts(stretch, piece, bit) {
  const { place, width, name, field } = piece;
  const told = [["name", name], ["place", place], ["width", field?.width ?? width]];
  told.push(["bits", stretch.text(place, width)]);
  if (field && field.value !== null) told.push(["value", field.value]);
  if (field?.missing > 0) told.push(["bits missing", field.missing]);
  if (field?.whose) told.push(["whose", `${name} ${field.whose}`]);
  if (field?.note) told.push(["note", field.note]);
  const at = place + bit;
  if (bit !== undefined) told.push(["bit", `${stretch.bit(at)} at place ${at}, bit ${bit + 1} of ${width}`]);
  const list = element("dl", "");
  for (const [what, value] of told) list.append(element("dt", what), element("dd", value, { class: what }));
  return [list];
}
