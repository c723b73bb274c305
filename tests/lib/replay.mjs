/* Compares the WebAssembly module with the second program, through hundurzek.js, as the programs in C compare the
   library (streams.h): node replay.mjs FOLDER/hundurzek.js [--least KIND=N]... with the second program's streams one
   after another on the standard input (second/emit.rs and what is in second/emit/ say their format byte by byte).
   Every array is lent between guard bytes, and is compared whole, guards and all, after each call. */
import { readSync } from "node:fs";
import { pathToFileURL } from "node:url";
import { inspect, isDeepStrictEqual, parseArgs } from "node:util";

const GUARD = 64, GUARD_BYTE = 0xa5;
const TOLD = 10; // differences that are told; the rest is only counted

const { positionals: [file], values: { least } } =
  parseArgs({ allowPositionals: true, options: { least: { type: "string", multiple: true, default: [] } } });
const { open, DONE, ROW } = await import(pathToFileURL(file));
const library = await open();

// ---- the streams: of the standard input what lies from one place to before another in this memory

let input = Buffer.alloc(1 << 20), at = 0, end = 0;

function broken(what) {
  throw new Error(`the stream is broken: ${what}`);
}

// How many bytes came now, 0 at the end. Where there are none yet, it waits a little.
function more() {
  for (;;) {
    try {
      return readSync(0, input, end, input.length - end, null);
    } catch (error) {
      if (error.code !== "EAGAIN") throw error;
      Atomics.wait(new Int32Array(new SharedArrayBuffer(4)), 0, 0, 5);
    }
  }
}

// Whether so many bytes come; they are in memory then.
function there(count) {
  if (end - at >= count) return true;
  const old = input;
  if (count > input.length) input = Buffer.alloc(2 * count);
  end = old.copy(input, 0, at, end);
  at = 0;
  for (let got = 1; end < count && got > 0; end += got) got = more();
  return end >= count;
}

// The next bytes, good until others are taken.
function get(count) {
  if (!there(count)) broken("it ends early");
  at += count;
  return input.subarray(at - count, at);
}

// A number as hundurzek.js takes and answers it.
function number(width) {
  if (width < 8) return get(width).readUIntLE(0, width);
  const whole = get(width).readBigUInt64LE();
  return whole > Number.MAX_SAFE_INTEGER ? whole : Number(whole);
}

// ---- what is lent: an array between guards, and all of that memory as it is and as it must be

class Lent {
  constructor(name, Kind, count) {
    this.name = name;
    this.size = count * Kind.BYTES_PER_ELEMENT;
    this.got = new Uint8Array(GUARD + this.size + GUARD).fill(GUARD_BYTE);
    this.want = this.got.slice();
    this.array = new Kind(this.got.buffer, GUARD, count);
  }

  // From a byte on it must be what comes now in the stream.
  expect(count, from = 0) {
    if (from + count > this.size) broken("more is written than there is room for");
    this.want.set(get(count), GUARD + from);
  }

  // What follows begins with the array as it must be, so that a difference is told once.
  compare() {
    if (Buffer.compare(this.got, this.want) === 0) return;
    const byte = this.got.findIndex((value, i) => value !== this.want[i]);
    differ(`${this.name}, byte ${byte - GUARD} of ${this.size}`, this.got[byte], this.want[byte]);
    this.got.set(this.want);
  }
}

function take(name, Kind, count) {
  const lent = new Lent(name, Kind, count);
  lent.expect(lent.size);
  lent.got.set(lent.want);
  return lent;
}

// Of what comes only the first elements are lent; the others lie behind them, and must not count.
function takeFirst(name, Kind, width) {
  const count = number(width);
  const lent = take(name, Kind, number(width));
  if (count > lent.array.length) broken("more is lent than there is");
  lent.array = lent.array.subarray(0, count);
  return lent;
}

// What is filled by the second program's rule: x becomes x * 6364136223846793005 + 1442695040888963407 modulo 2^64,
// and its upper bits are the next element. In halves of 32 bits, each product under 2^53: a BigInt is far too slow.
function takeFilled(name, Kind) {
  const lent = new Lent(name, Kind, number(4));
  const shift = 32 - 8 * Kind.BYTES_PER_ELEMENT;
  let low = number(4), high = number(4);
  for (let i = 0; i < lent.array.length; i++) {
    const upper = low * 0x4c95;
    const lower = low * 0x7f2d + (upper & 0xffff) * 2 ** 16 + 0xf767814f;
    const carry = Math.floor(upper / 2 ** 16) + Math.floor(lower / 2 ** 32);
    high = (Math.imul(high, 0x4c957f2d) + Math.imul(low, 0x5851f42d) + carry + 0x14057b7e) >>> 0;
    low = lower >>> 0;
    lent.array[i] = high >>> shift;
  }
  lent.want.set(lent.got);
  return lent;
}

// ---- comparing

const now = { kind: "", record: 0, family: "", call: 0 };
let passed = 0, failed = 0, differences = 0;

const shown = (value) => inspect(value, { breakLength: Infinity, compact: true, maxArrayLength: null });

function differ(what, got, want) {
  if (differences++ >= TOLD) return;
  const { kind, record, family, call } = now;
  console.log(`${kind} ${record} (${family}), call ${call}: ${what}: ${shown(got)}, expected ${shown(want)}`);
}

// Makes a call, and compares what it answers, field by field, and then all that was lent.
function compare(want, lent, call) {
  const before = differences;
  now.call++;
  KINDS[now.kind].calls++;
  try {
    const got = call();
    for (const name of Object.keys({ ...want, ...got }))
      if (!isDeepStrictEqual(got[name], want[name])) differ(name, got[name], want[name]);
  } catch (error) {
    differ("it throws", error.message, want);
  }
  for (const one of lent) one.compare();
  if (differences === before) passed++;
  else failed++;
}

// ---- records: what is taken comes in the order in which it stands here

function takeStretch() {
  const holding = take("holding", Uint8Array, number(2));
  const stretch = take("stretch", Uint8Array, number(4));
  const bits = number(8), start = number(8);
  const rows = takeFilled("row buffer", Int32Array);
  return { holding, stretch, bits, start, rows, lent: [holding, stretch, rows] };
}

// Readings one after another, each at the place where the one before must end.
function compareReadings() {
  const { holding, stretch, bits, start, rows, lent } = takeStretch();
  let place = start;
  for (let readings = number(4); readings > 0; readings--) {
    const stop = { answer: number(1), place: number(8), missing: number(8) };
    const head = Int32Array.from({ length: ROW }, () => get(4).readInt32LE());
    const want = { ...stop, head, rows: number(4), rawOffset: number(8), rawCount: number(8) };
    rows.expect(4 * ROW * want.rows);
    holding.expect(holding.size);
    compare(want, lent, () => library.read(holding.array, stretch.array, bits, place, rows.array));
    place = want.place;
  }
}

function compareWalk() {
  const { holding, stretch, bits, rows, lent } = takeStretch();
  const want = { answer: number(1), place: number(8), missing: number(8), messages: number(8), rows: number(8) };
  holding.expect(holding.size);
  rows.expect(4 * number(4));
  compare(want, lent, () => library.walk(holding.array, stretch.array, bits, rows.array));
}

function compareWrite() {
  const holding = takeFirst("holding", Uint8Array, 2);
  const head = takeFirst("head", Int32Array, 2);
  const rows = takeFirst("rows", Int32Array, 4);
  const counted = number(8);
  const bytes = takeFilled("bytes", Uint8Array);
  const start = number(8);
  const want = { answer: number(1), place: number(8), count: number(8) };
  const from = Math.floor(Number(start) / 8);
  if (want.answer === DONE) bytes.expect(Math.ceil(want.place / 8) - from, from);
  compare(want, [holding, head, rows, bytes], () =>
    library.write(holding.array, head.array, rows.array, counted, bytes.array, start));
}

// Lines have one form of record, in which there are no bytes of what the kind does not lend.
function compareText() {
  const holding = take("holding", Uint8Array, number(2));
  const line = take("line", Uint8Array, number(4));
  const buffer = takeFilled("buffer", Uint8Array);
  const answer = number(1), count = number(8), written = number(4);
  const result = now.kind === "load" ? { holding: Uint8Array.from(get(written)) } : { place: 0, count };
  if (now.kind !== "load") buffer.expect(written);
  const calls = {
    save: () => library.save(holding.array, buffer.array),
    load: () => library.load(line.array),
    line: () => library.line(line.array, buffer.array),
  };
  compare({ answer, ...result }, [holding, line, buffer], calls[now.kind]);
}

// ---- all of it: how each kind is compared, and how much of it came

const of = (compareRecord) => ({ compareRecord, records: 0, calls: 0 });
const KINDS = {
  fixed: of(compareReadings), read: of(compareReadings), stretch: of(compareReadings), bench: of(compareWalk),
  walk: of(compareWalk), write: of(compareWrite), save: of(compareText), load: of(compareText), line: of(compareText),
};

function compareStream() {
  now.kind = get(8).toString().replace(/\0+$/, "");
  if (!Object.hasOwn(KINDS, now.kind)) throw new Error(`the kind ${shown(now.kind)} is not compared here`);
  const kind = KINDS[now.kind], records = number(8);
  for (now.record = 1; now.record <= records; now.record++, kind.records++) {
    now.family = get(number(1)).toString();
    now.call = 0;
    kind.compareRecord();
  }
}

function fail(what) {
  console.log(what);
  failed++;
}

try {
  while (there(1)) compareStream();
} catch (error) {
  fail(String(error));
}
if (differences > TOLD) console.log(`and ${differences - TOLD} more`);
for (const kind in KINDS) console.log(`${kind}: ${KINDS[kind].records} records, ${KINDS[kind].calls} calls`);
for (const [kind, count] of least.map((one) => one.split("=")))
  if (!(KINDS[kind]?.records >= Number(count))) fail(`too few of the kind ${kind}: ${count} must come`);
console.log(`${passed} passed, ${failed} failed`);
process.exitCode = failed === 0 && passed > 0 ? 0 : 1;
