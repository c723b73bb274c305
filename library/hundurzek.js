/* Hundurzek for a browser, and for node: the functions of hundurzek.wasm over typed arrays. docs/HOST.md fixes what
   each call takes, what it answers and what it leaves in the arrays lent. Nothing is decoded here: the arrays are
   copied into the module's memory, and those that a call may change are copied back, so that they change in place as
   in C. A call that throws has changed nothing. */

// As in the header: bytes of a holding, numbers of a row, the numbers that a row buffer needs, and what isn't there;
// the answer that is a message, and that something is done; bytes that are room for every line, and every stretch.
export const HOLDING = 194, ROW = 8, ROOM = 2048, ABSENT = -32768;
export const MESSAGE = 255, DONE = 255;
export const LINE = 512, STRETCH = 6357;

// The numbers of 64 bits that each result begins with; and bytes that are room for every result.
const READING = ["answer", "place", "missing", "rows", "rawOffset", "rawCount"];
const WALKED = ["answer", "place", "missing", "messages", "rows"];
const FINISHED = ["answer", "place", "count"];
const LOADED = ["answer"];
const RESULT = 208;

const PAGE = 65536;
const aligned = (address) => Math.ceil(address / 8) * 8;

// A count or a place for a call. BigInt throws for a fraction, but takes a text; and -1 would pass as 2^64 - 1.
function wide(number) {
  if (typeof number !== "number" && typeof number !== "bigint") throw new TypeError("a count or a place is a number");
  const whole = BigInt(number);
  if (whole !== BigInt.asUintN(64, whole)) throw new RangeError("a count or a place is from 0 to 2^64 - 1");
  return whole;
}

// A number of a result. Only a start that was asked for can be too large for a Number.
const plain = (whole) => (whole > BigInt(Number.MAX_SAFE_INTEGER) ? whole : Number(whole));

// An array to lend. One of another kind would be taken for other numbers than it has, so it is refused.
function lent(Kind, array, changes) {
  if (!(array instanceof Kind)) throw new TypeError(`what is lent here is of the kind ${Kind.name}`);
  return { Kind, array, changes };
}
const Bytes = Uint8Array, Numbers = Int32Array;
const kept = (Kind, array) => lent(Kind, array, false);
const changed = (Kind, array) => lent(Kind, array, true);

// The response for a URL; but node fetches no files, so there it is a file's bytes.
async function fetched(url) {
  if (url.protocol !== "file:" || !globalThis.process) return fetch(url);
  return (await import("node:fs/promises")).readFile(url);
}

async function compiled(source) {
  let given = await source;
  if (typeof given === "string" || given instanceof URL) given = await fetched(new URL(given, import.meta.url));
  if (given instanceof Response && !given.ok) throw new Error(`status ${given.status}: ${given.url}`);
  if (given instanceof Response) given = await given.arrayBuffer();
  return given instanceof WebAssembly.Module ? given : WebAssembly.compile(given);
}

// Opens the module: a URL, or its text, relative to this file; a response; the bytes; or one that is compiled already.
export async function open(source = new URL("hundurzek.wasm", import.meta.url)) {
  const { exports } = await WebAssembly.instantiate(await compiled(source));
  const memory = exports.memory, out = aligned(exports.__heap_base.value);

  // Each array that is lent lies after the one before, the first after the result; it passes as a pointer and a count.
  function call(name, ...taken) {
    const arrays = taken.filter((one) => one.array);
    let end = out + RESULT;
    for (const one of arrays) end = aligned((one.at = end) + one.array.byteLength);
    if (end > memory.buffer.byteLength) memory.grow(Math.ceil((end - memory.buffer.byteLength) / PAGE));
    const inside = ({ Kind, array, at }) => new Kind(memory.buffer, at, array.length);
    for (const one of arrays) inside(one).set(one.array);
    const passed = taken.flatMap((one) => (one.array ? [one.at, BigInt(one.array.length)] : one));
    const answer = exports[`hundurzek_${name}`](...passed);
    for (const one of arrays) if (one.changes) one.array.set(inside(one));
    return answer;
  }

  // The numbers of a call's result, and what comes after them.
  function ask(name, names, ...taken) {
    call(name, out, ...taken);
    const view = new DataView(memory.buffer, out, RESULT);
    return Object.fromEntries(names.map((field, i) => [field, plain(view.getBigUint64(8 * i, true))]));
  }
  const after = (names, Kind, count) => new Kind(memory.buffer, out + 8 * names.length, count).slice();

  return {
    empty: (holding) => Number(call("empty", changed(Bytes, holding))),
    read: (holding, bytes, end, start, rows) => ({
      ...ask("read", READING, changed(Bytes, holding), kept(Bytes, bytes), wide(end), wide(start),
        changed(Numbers, rows)),
      head: after(READING, Numbers, ROW),
    }),
    walk: (holding, bytes, end, rows) =>
      ask("walk", WALKED, changed(Bytes, holding), kept(Bytes, bytes), wide(end), changed(Numbers, rows)),
    write: (holding, head, numbers, rows, bytes, start) =>
      ask("write", FINISHED, kept(Bytes, holding), kept(Numbers, head), kept(Numbers, numbers), wide(rows),
        changed(Bytes, bytes), wide(start)),
    save: (holding, line) => ask("save", FINISHED, kept(Bytes, holding), changed(Bytes, line)),
    load: (line) => ({ ...ask("load", LOADED, kept(Bytes, line)), holding: after(LOADED, Bytes, HOLDING) }),
    line: (line, bytes) => ask("line", FINISHED, kept(Bytes, line), changed(Bytes, bytes)),
  };
}
