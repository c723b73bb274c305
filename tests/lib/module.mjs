/* What hundurzek.js itself sees to, over the module beside it: node module.mjs FOLDER. That is how it is opened, how
   numbers and arrays pass, and document 01's worked example through every call; replay.mjs compares what the calls
   answer in all else. */
import { readFileSync } from "node:fs";
import { isDeepStrictEqual } from "node:util";
import { pathToFileURL } from "node:url";

const folder = pathToFileURL(`${process.argv[2]}/`);
const [script, wasm] = ["hundurzek.js", "hundurzek.wasm"].map((name) => new URL(name, folder));
const { open, HOLDING, ROW, ROOM, ABSENT, MESSAGE, DONE, LINE, STRETCH } = await import(script);
const code = readFileSync(wasm);
const library = await open();

let passed = 0, failed = 0;

function same(what, got, want) {
  if (isDeepStrictEqual(got, want)) {
    passed++;
  } else {
    failed++;
    console.log(`${what}:`, got, "expected", want);
  }
}

// Whether a call throws an error of this kind.
function throws(what, Kind, call) {
  try {
    same(what, call(), Kind.name);
  } catch (error) {
    same(what, error.constructor, Kind);
  }
}

// ---- the worked example

const ascii = (text) => new TextEncoder().encode(text);
const BITS = 181;
const HEX = "FE91000645188500000000040806FFA4C1908600160000";
const bytes = Uint8Array.from(Buffer.from(HEX, "hex"));
const SAVED = ascii("S\t3\t0\tA000000000\t8100\t1\tB\n");
const [no, absentHead] = [ABSENT, new Int32Array(ROW).fill(ABSENT)];
const MASK = { answer: MESSAGE, place: 114, missing: 0, rows: 0, rawOffset: 0, rawCount: 15,
  head: Int32Array.of(1, 100, 5, 0, 3, 1, no, no) };
const CLOCKS = { answer: MESSAGE, place: BITS, missing: 0, rows: 2, rawOffset: 14, rawCount: 9,
  head: Int32Array.of(3, 100, 2, 0, 3, no, no, no) };
const IDLE = { answer: 0, place: BITS, missing: 0, rows: 0, rawOffset: 0, rawCount: 0, head: absentHead };
const ROWS = Int32Array.of(0, 1, no, 5, no, no, no, no, 0, 3, no, -16384, no, no, no, no);
const WALKED = { answer: 0, place: BITS, missing: 0, messages: 2, rows: 2 };

// What a receiver has that starts anew. Before it is made empty, its holding is none.
function receiver({ empty } = library) {
  const holding = new Uint8Array(HOLDING).fill(0x5a);
  same("empty", empty(holding), 0);
  return { holding, rows: new Int32Array(ROOM) };
}

// Reads message after message, and writes each where it was read.
function readAndWrite({ read, write }, { holding, rows }) {
  const written = new Uint8Array(bytes.length);
  let start = 0;
  for (const want of [MASK, CLOCKS]) {
    const got = read(holding, bytes, BITS, start, rows);
    same("read", got, want);
    const count = want.place - start;
    same("write", write(holding, got.head, rows, got.rows, written, start), { answer: DONE, place: want.place, count });
    start = want.place;
  }
  same("read at the end", read(holding, bytes, BITS, start, rows), IDLE);
  same("rows read", rows.slice(0, ROWS.length), ROWS);
  same("bytes written", written, bytes);
}

// The line of its input, the messages one by one, the walk, and the mask saved and loaded.
function example(opened) {
  const stretch = new Uint8Array(STRETCH);
  same("line", opened.line(ascii(`${BITS}\t${HEX}\n`), stretch), { answer: DONE, place: 0, count: BITS });
  same("bytes of the line", stretch.slice(0, bytes.length), bytes);
  const one = receiver(opened);
  readAndWrite(opened, one);
  const other = receiver(opened);
  same("walk", opened.walk(other.holding, stretch, BITS, other.rows), WALKED);
  same("holding after the walk", other.holding, one.holding);
  same("rows after the walk", other.rows, one.rows);
  const line = new Uint8Array(LINE);
  same("save", opened.save(one.holding, line), { answer: DONE, place: 0, count: SAVED.length });
  same("saved line", line.slice(0, SAVED.length), SAVED);
  same("load", opened.load(SAVED), { answer: DONE, holding: one.holding });
  same("load of no line", opened.load(bytes), { answer: 12, holding: new Uint8Array(HOLDING) });
}

// ---- opening

const FUNCTIONS = ["empty", "line", "load", "read", "save", "walk", "write"];

function module() {
  const compiled = new WebAssembly.Module(code);
  const named = WebAssembly.Module.exports(compiled).filter(({ kind }) => kind === "function");
  same("imports", WebAssembly.Module.imports(compiled), []);
  same("exports", named.map(({ name }) => name).sort(), FUNCTIONS.map((name) => `hundurzek_${name}`));
  same("functions", Object.keys(library).sort(), FUNCTIONS);
  same("under 100 lines", readFileSync(script, "utf8").split("\n").length - 1 < 100, true);
  return compiled;
}

const response = (status) => new Response(code, { status, headers: { "content-type": "application/wasm" } });

async function opening(compiled) {
  const within = new Uint8Array(code.length + 16);
  within.set(code, 8);
  const sources = {
    "the default": undefined, "a URL": wasm, "a text": wasm.href, "a path": wasm.pathname, "a name": "hundurzek.wasm",
    "a URL that is fetched": new URL(`data:application/wasm;base64,${code.toString("base64")}`),
    "a response": response(200), "a promised response": Promise.resolve(response(200)), "a module": compiled,
    "a typed array": new Uint8Array(code), "a part of one": within.subarray(8, 8 + code.length),
    "a buffer": new Uint8Array(code).buffer,
  };
  for (const [name, source] of Object.entries(sources)) {
    const opened = await open(source).catch((error) => error);
    same(`opened from ${name}`, Object.keys(opened).sort(), FUNCTIONS);
    example(opened);
  }
  const refused = { "status 404": response(404), "no module": bytes, "no source": null, "no file": "no.wasm" };
  for (const [name, source] of Object.entries(refused))
    same(`refused: ${name}`, await open(source).catch(() => "refused"), "refused");
}

// ---- numbers

const readAt = (start, end = BITS) => {
  const { holding, rows } = receiver();
  return library.read(holding, bytes, end, start, rows);
};
const walkTo = (end) => library.walk(new Uint8Array(HOLDING), bytes, end, new Int32Array(ROOM));
const writeAt = (start, count = 0) =>
  library.write(new Uint8Array(HOLDING), MASK.head, ROWS, count, new Uint8Array(8), start);

function numbers() {
  const refused = { ...IDLE, answer: 2 };
  same("start as a BigInt", readAt(0n, BigInt(BITS)), MASK);
  same("start -0", readAt(-0), MASK);
  for (const place of [BITS + 1, 2 ** 32, Number.MAX_SAFE_INTEGER]) {
    same(`start ${place}`, readAt(place), { ...refused, place });
    same(`start ${place}n`, readAt(BigInt(place)), { ...refused, place });
  }
  for (const place of [2n ** 53n, 2n ** 63n, 2n ** 64n - 1n])
    same(`start ${place}n`, readAt(place), { ...refused, place });
  same("start 2 ** 60", readAt(2 ** 60), { ...refused, place: 2n ** 60n });
  same("end 2n ** 64n - 1n", readAt(0, 2n ** 64n - 1n), { ...refused, place: 0 });
  same("writing far away", writeAt(2n ** 64n - 1n), { answer: 2, place: 2n ** 64n - 1n, count: 0 });
  const calls = { start: readAt, end: (end) => readAt(0, end), "walk's end": walkTo, "write's start": writeAt,
    "write's rows": (count) => writeAt(0, count) };
  for (const [name, call] of Object.entries(calls)) {
    for (const number of [-1, -1n, 1.5, NaN, Infinity, 2 ** 64, 2n ** 64n, -(2n ** 64n)])
      throws(`${name} ${number}`, RangeError, () => call(number));
    for (const value of ["1", "", true, null, [1], {}]) throws(`${name} ${typeof value}`, TypeError, () => call(value));
  }
}

// ---- arrays

// Every array of every call, one after another in place of the right one: of other kinds, and no array at all.
function kinds() {
  const { holding, rows } = receiver();
  const line = new Uint8Array(LINE);
  const calls = { empty: [holding], read: [holding, bytes, BITS, 0, rows], walk: [holding, bytes, BITS, rows],
    write: [holding, MASK.head, rows, 0, line, 0], save: [holding, line], load: [line], line: [line, holding] };
  const others = [Int8Array, Uint8ClampedArray, Int16Array, Uint32Array, Float32Array, BigInt64Array, Array,
    ArrayBuffer];
  for (const [name, right] of Object.entries(calls))
    right.forEach((value, i) => {
      if (!ArrayBuffer.isView(value)) return;
      const turned = value instanceof Uint8Array ? Int32Array : Uint8Array;
      const wrong = [turned, ...others].map((Kind) => new Kind(4096));
      for (const array of [...wrong, new DataView(new ArrayBuffer(4096)), undefined, null]) {
        const given = Object.assign([...right], { [i]: array });
        throws(`${name}, ${i}: ${array?.constructor.name}`, TypeError, () => library[name](...given));
      }
    });
  same("nothing is changed by what throws", [holding, rows, line],
    [new Uint8Array(HOLDING), new Int32Array(ROOM), new Uint8Array(LINE)]);
}

// Lengths around a holding's, in the middle of other bytes; then no elements at all.
function lengths() {
  for (let count = 0; count <= 2 * HOLDING; count++) {
    const all = new Uint8Array(count + 16).fill(0x5a);
    const want = all.slice();
    if (count >= HOLDING) want.fill(0, 8, 8 + HOLDING);
    same(`empty of ${count}`, library.empty(all.subarray(8, 8 + count)), count < HOLDING ? 1 : 0);
    same(`around empty of ${count}`, all, want);
  }
  const { holding, rows } = receiver();
  const [none, noNumbers] = [new Uint8Array(0), new Int32Array(0)];
  same("no holding", library.read(none, bytes, BITS, 0, rows), { ...IDLE, answer: 12, place: 0 });
  same("no bytes", library.read(holding, none, 0, 0, rows), { ...IDLE, place: 0 });
  same("no row buffer", library.read(holding, bytes, BITS, 0, noNumbers), { ...IDLE, answer: 1, place: 0 });
  same("nothing to write", library.write(holding, noNumbers, noNumbers, 0, none, 0), { answer: 5, place: 0, count: 0 });
  same("no room to save", library.save(holding, none), { answer: 1, place: 0, count: 0 });
  same("nothing to load", library.load(none), { answer: 12, holding });
  same("no line", library.line(none, none), { answer: 12, place: 0, count: 0 });
}

// Megabytes lent, so that the memory grows, as parts of longer arrays: the last element of each must be there too.
async function growth() {
  const { read, write, walk } = await open();
  const { holding } = receiver();
  const all = new Uint8Array(5 * 2 ** 20 + 3), long = all.subarray(1, -1);
  const rows = new Int32Array(2 ** 20);
  long.set(bytes);
  long[long.length - 1] = rows[rows.length - 1] = 77;
  same("walk of megabytes", walk(holding, long, BITS, rows), WALKED);
  same("read of megabytes", read(holding, long, BITS, MASK.place, rows), CLOCKS);
  const start = 8 * bytes.length;
  const place = start + BITS - MASK.place;
  same("write of megabytes", write(holding, CLOCKS.head, rows, 2, long, start), { answer: DONE, place, count: 67 });
  same("read back", read(holding, long, place, start, rows), { ...CLOCKS, place, rawOffset: bytes.length });
  same("rows of megabytes", rows.slice(0, ROWS.length), ROWS);
  same("ends", [long.at(-1), rows.at(-1), all[0], all.at(-1)], [77, 77, 0, 0]);
  same("small again", read(holding, bytes, BITS, BITS, new Int32Array(ROOM)), IDLE);
}

// What was answered is the caller's own: later calls do not change it.
function results() {
  const { holding, rows } = receiver();
  const message = library.read(holding, bytes, BITS, 0, rows);
  const loaded = library.load(SAVED);
  library.load(bytes);
  same("a message after another call", message, MASK);
  same("what is loaded after another call", loaded, { answer: DONE, holding });
}

// Two at once over one compiled module: what one has read, the other does not hold.
async function instances(compiled) {
  const [one, other] = await Promise.all([open(compiled), open(compiled)]);
  const [first, second] = [receiver(one), receiver(other)];
  same("read by one", one.read(first.holding, bytes, BITS, 0, first.rows), MASK);
  const noMask = { ...IDLE, answer: 6, place: MASK.place };
  same("not held by the other", other.read(second.holding, bytes, BITS, MASK.place, second.rows), noMask);
  same("held by the one", one.read(first.holding, bytes, BITS, MASK.place, first.rows), CLOCKS);
  same("the other's arrays", [second.holding, second.rows], [new Uint8Array(HOLDING), new Int32Array(ROOM)]);
}

try {
  const compiled = module();
  await opening(compiled);
  numbers();
  kinds();
  lengths();
  await growth();
  results();
  await instances(compiled);
} catch (error) {
  failed++;
  console.log(error);
}
console.log(`${passed} passed, ${failed} failed`);
process.exitCode = failed === 0 && passed > 0 ? 0 : 1;
