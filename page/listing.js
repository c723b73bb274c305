/* The listing's lines of one line of input (document 01, "Saved mask and listing"; document 02, Ask 7). */
import { ABSENT } from "../library/hundurzek.js";
import { BAD_LINE } from "./reading.js";

const SHORT_STOP = 3;
const shown = (number) => (number === ABSENT ? "-" : String(number));

export function messageLine({ place, length, head, rows }) {
  return ["M", place, length, ...Array.from(head, shown), rows.length].join("\t");
}

export const rowLine = (row) => ["R", ...Array.from(row, shown)].join("\t");

export function endLine({ messages, stop }) {
  const rows = messages.reduce((sum, message) => sum + message.rows.length, 0);
  const missing = stop.answer === SHORT_STOP ? stop.missing : "-";
  return ["E", stop.answer, stop.place, messages.length, rows, missing].join("\t");
}

/* All of them, each ended by a line feed. */
export function listingOf(reading, number) {
  if (reading === null) return `${BAD_LINE}\t${number}\n`;
  const lines = reading.messages.flatMap((message) => [messageLine(message), ...message.rows.map(rowLine)]);
  return [...lines, endLine(reading), ""].join("\n");
}
