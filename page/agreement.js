/* Whether the page's own layout is what the module read: the fields of a message are its length together, each number
   of a row is the bits that are shown for it, and a refusal is the module's, at the page's field. Where it is not,
   nothing is drawn, and the page says what differs. */
import { ABSENT, MESSAGE } from "../library/hundurzek.js";

const VALUES = 5; // of a row's numbers those behind its keys, v1 to v5

/* The rows as the fields say them, number by number. */
function rowsOf({ rows, fields }) {
  const values = rows.map(() => Array.from({ length: VALUES }, () => ABSENT));
  for (const { row, column, value } of fields) if (row !== undefined) values[row][column] = value;
  return rows.map((keys, k) => [...keys, ...values[k]]);
}

function rowDifference(handed, shown) {
  if (handed.length !== shown.length) return `it has ${handed.length} rows, its fields ${shown.length}`;
  const row = handed.findIndex((numbers, k) => numbers.some((number, column) => number !== shown[k][column]));
  return row < 0 ? null : `row ${row + 1} is ${handed[row].join(" ")}, the bits shown say ${shown[row].join(" ")}`;
}

/* What differs in an accepted message, or nothing. */
function messageDifference(message, laid) {
  if (laid.answer !== MESSAGE) return `the layout refuses it with ${laid.answer}`;
  const sum = laid.fields.reduce((bits, field) => bits + field.width, 0);
  if (sum !== message.length) return `its fields have ${sum} bits, it has ${message.length}`;
  return rowDifference(message.rows, rowsOf(laid));
}

/* What differs in a reading of a stretch, whose messages are laid out, and the refused one's where there is one. */
export function difference(reading, laidMessages, laidStop) {
  const { messages, stop } = reading;
  for (let k = 0; k < messages.length; k++) {
    const found = messageDifference(messages[k], laidMessages[k]);
    if (found) return `message ${k + 1} at place ${messages[k].place}: ${found}`;
  }
  if (laidStop === null) return null;
  const same = laidStop.answer === stop.answer && laidStop.missing === stop.missing;
  return same ? null : `at place ${stop.place}: the module answers ${stop.answer}, ${stop.missing} bits missing; ` +
    `the layout ${laidStop.answer}, ${laidStop.missing}`;
}
