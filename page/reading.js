/* A receiver: what the module answers, message by message, for the lines that it is given, the holding kept from line
   to line. Nothing is decoded here. */
import { HOLDING, ROW, ROOM, STRETCH, MESSAGE, DONE, LINE } from "../library/hundurzek.js";
import { Stretch } from "./stretch.js";

export const BAD_LINE = "B";

/* A line of text with its line feed, as bytes: what is no ASCII character makes a bad line of it. */
const ascii = (text) => Uint8Array.from(text, (letter) => Math.min(letter.charCodeAt(0), 255));

export class Receiver {
  constructor(module, holding) {
    this.module = module;
    this.holding = new Uint8Array(HOLDING);
    if (holding) this.holding.set(holding);
    else module.empty(this.holding);
    this.rows = new Int32Array(ROOM);
  }

  /* The stretch that a line says, or nothing for a bad line. */
  stretchOf(line) {
    const bytes = new Uint8Array(STRETCH);
    const { answer, count } = this.module.line(ascii(line), bytes);
    return answer === DONE ? new Stretch(bytes.slice(0, Math.ceil(count / 8)), count) : null;
  }

  /* One message: where it stands, its head and rows; what was held before it, and after. Or why there is none. */
  readOne(stretch, start) {
    const before = this.holding.slice();
    const { answer, place, missing, rows, head } =
      this.module.read(this.holding, stretch.bytes, stretch.end, start, this.rows);
    const after = this.holding.slice();
    if (answer !== MESSAGE) return { answer, place, missing, before, after };
    const all = Array.from({ length: rows }, (_, k) => this.rows.slice(ROW * k, ROW * (k + 1)));
    return { answer, place: start, length: place - start, head, rows: all, before, after };
  }

  /* All messages of a stretch up to the stop. */
  read(stretch) {
    const messages = [];
    for (let place = 0; ; ) {
      const one = this.readOne(stretch, place);
      if (one.answer !== MESSAGE) return { stretch, messages, stop: one };
      messages.push(one);
      place += one.length;
    }
  }

  /* The same without the messages: why it stopped and where, and how many messages there were. */
  walk(stretch) {
    return this.module.walk(this.holding, stretch.bytes, stretch.end, this.rows);
  }
}

/* The saved line of a holding, and the holding that such a line says, with or without its line feed; nothing for
   another line. */
export function savedLine(module, holding) {
  const line = new Uint8Array(LINE);
  const { count } = module.save(holding, line);
  return new TextDecoder().decode(line.subarray(0, count)).trimEnd();
}

export function loadedHolding(module, line) {
  const { answer, holding } = module.load(ascii(line.trimEnd() + "\n"));
  return answer === DONE ? holding : null;
}
