// Counts the chars, UTF-16 code units and line breaks of a text, converts between those indices and byte indices of its
// UTF-8 form, tells its lines, and maps byte indices to and from positions of a language server, by the proved functions of
// `str_indices`, `positions` and `text_index` as WebAssembly.
//
//     import { load } from "./str_indices.mjs";
//
//     const indices = await load();                   // reads str_indices_web.wasm from beside this file
//     indices.utf16.toByteIdx("a🐸b", 3);             // 5
//     const text = indices.text("one\r\ntwo");        // gets an index, for many questions
//     text.linesCrlf.toByteIdx(1);                    // 5
//     text.positionOf("crlf", "utf16", 6);            // { line: 1, character: 1 }
//
// A text is a string, or its bytes as a `Uint8Array`. A string is encoded as UTF-8, where a lone surrogate becomes
// U+FFFD; bytes that are not UTF-8 are a `TypeError`. An index is a number or a BigInt from 0 on, or `Infinity`, and
// anything else a `RangeError`; each index past the end has an answer. What ends a line is "lf", "crlf" or "lines", and what
// an offset on a line counts is "utf8", "utf16" or "utf32". Answers are numbers; `exactByteOf`, `byteRange` and
// `exactPositionOf` answer `null` where there is none.

const GREATEST = 2n ** 64n - 1n;

// a position is two numbers of 64 bits
const POSITION_SIZE = 16;
// the place for what is not the text: what is asked at its beginning, and what is answered at its end, which are a range of
// two positions, and a position or two bytes
const PLACE_SIZE = 3 * POSITION_SIZE;

// what the export that makes an index answers where it has made one
const FILLED = 0;

// a module that has one page of memory with 64-bit addresses
const WIDE_MEMORY = new Uint8Array([0, 0x61, 0x73, 0x6d, 1, 0, 0, 0, 5, 3, 1, 4, 1]);

/**
 * Every scheme, in the order of the numbers by which the exports know it: the name of its functions, that of the one among
 * them which counts, and the kind of line whose breaks these are.
 */
export const SCHEMES = frozen([
  { module: "chars", count: "count" },
  { module: "utf16", count: "count" },
  { module: "linesLf", count: "countBreaks", lineType: "lf" },
  { module: "linesCrlf", count: "countBreaks", lineType: "crlf" },
  { module: "lines", count: "countBreaks", lineType: "lines" },
]);

// the numbers by which the exports know what is counted, what ends a line, and what an offset on a line counts
const SCHEME_NUMBERS = new Map(SCHEMES.map(({ module }, number) => [module, number]));
const LINE_TYPE_NUMBERS = new Map(SCHEMES.flatMap(({ lineType }, number) => (lineType ? [[lineType, number]] : [])));
const ENCODING_NUMBERS = new Map([["utf8", 5], ["utf16", 1], ["utf32", 0]]);

// each question about lines and positions by its name, and what it takes beside the text
const QUESTIONS = [
  ["line", askLine],
  ["lineEnd", askLineEnd],
  ["positionOf", askPositionOf],
  ["exactPositionOf", askExactPositionOf],
  ["rangeOf", askRangeOf],
  ["byteOf", askByteOf],
  ["exactByteOf", askExactByteOf],
  ["byteRange", askByteRange],
];

// each function over a text, in the same way
const FUNCTIONS = [
  ...SCHEMES.flatMap(({ module, count }) => [
    [`${module}.${count}`, askCount],
    [`${module}.fromByteIdx`, askIndex],
    [`${module}.toByteIdx`, askIndex],
  ]),
  ["utf16.countSurrogates", askCount],
  ...QUESTIONS,
];

// each function over a text that is known: the same, with its export over an index, and the number that this takes after that
const KNOWN_FUNCTIONS = [
  ...SCHEMES.flatMap(({ module, count }, scheme) => [
    [`${module}.${count}`, askKnownCount, "count", scheme],
    [`${module}.fromByteIdx`, askIndex, "from_byte_idx", scheme],
    [`${module}.toByteIdx`, askIndex, "to_byte_idx", scheme],
  ]),
  ["utf16.countSurrogates", askKnownSurrogates, "count"],
  ...QUESTIONS,
];

/** Whether this engine has WebAssembly with 64-bit memory, which the functions want. */
export function isSupported() {
  return typeof WebAssembly === "object" && WebAssembly.validate(WIDE_MEMORY);
}

/**
 * Loads the functions, from a URL, in Node also from a path, or from the bytes of `str_indices_web.wasm`.
 *
 * @param {URL | string | ArrayBuffer | Uint8Array} [source]
 */
export async function load(source = besideModule()) {
  if (!isSupported()) {
    throw new Error(unsupported());
  }
  const inHand = source instanceof ArrayBuffer || ArrayBuffer.isView(source);
  const bytes = inHand ? source : await read(source);
  try {
    const { instance } = await WebAssembly.instantiate(bytes);
    return indicesOver(new Machine(instance.exports));
  } catch (error) {
    const name = inHand ? "what was handed over" : source;
    throw new Error(`${name} is not the WebAssembly of str_indices: ${error.message}`, { cause: error });
  }
}

/** Where the WebAssembly lies beside this module, which a bundle as CommonJS or as a script has no word for. */
function besideModule() {
  if (import.meta.url === undefined) {
    throw new Error("this bundle is no module, and does not know its place: hand load the path, the URL or the bytes of " +
      "str_indices_web.wasm, or import str_indices/inline");
  }
  return new URL("str_indices_web.wasm", import.meta.url);
}

const nodeVersion = () => globalThis.process?.versions?.node;

function unsupported() {
  const missing = "this engine has no 64-bit WebAssembly memory";
  return nodeVersion() === undefined
    ? `${missing}; Chromium has it from 133 on, Firefox from 134 on`
    : `${missing}; Node ${nodeVersion()} has it behind a flag or not at all: try node --experimental-wasm-memory64, ` +
      'or before load setFlagsFromString("--experimental-wasm-memory64") of node:v8';
}

/** The bytes at a URL, or in Node those of a file, which `fetch` does not read there. */
async function read(source) {
  try {
    if (nodeVersion() !== undefined && !/^(https?|data|blob):/.test(source)) {
      const files = await import(/* webpackIgnore: true */ /* @vite-ignore */ "node:fs/promises");
      return await files.readFile(String(source).startsWith("file:") ? new URL(source) : source);
    }
    const response = await fetch(source);
    if (!response.ok) {
      throw new Error(`the server answers ${response.status}`);
    }
    return await response.arrayBuffer();
  } catch (error) {
    throw new Error(`${source} cannot be read: ${error.message}`, { cause: error });
  }
}

/** A text that is known: it lies in the memory with its index, or both were saved when another text took their place. */
class Kept {
  saved = null;

  constructor(length, handle) {
    this.length = length;
    this.handle = handle;
  }
}

/**
 * The exports, and their memory: a place for what is asked and answered, and after it one text at a time. A text that is
 * known has its index after it: a handle, and the marks.
 *
 * What is asked is an export, and the numbers that it takes after a text that is known.
 */
class Machine {
  #exports;
  #memory;
  #place;
  #view;
  #start;
  #wideStart;
  // how many bytes a text may have, and a text with its index
  #most;
  #mostKept;
  // the string or the text that is known that lies in the memory now, where it is one of these, and how many bytes lie there
  #held = null;
  #length = 0;

  constructor(exports) {
    this.#exports = exports;
    this.#place = Number(exports.__heap_base.value);
    this.#start = this.#place + PLACE_SIZE;
    this.#wideStart = BigInt(this.#start);
    this.#memory = new Uint8Array(exports.memory.buffer);
    this.#view = new DataView(exports.memory.buffer);
    this.#most = this.#memory.length - this.#start;
    this.#mostKept = greatest(this.#most, (length) => this.#endOf(length) <= this.#memory.length);
  }

  /** What is asked by an export of this name, with the numbers that it takes after a text that is known. */
  asked(name, numbers) {
    return { exported: this.#exports[name], numbers };
  }

  /** Sees to it that the text lies in the memory, where it is checked; answers how many bytes it takes. */
  put(text) {
    if (text === this.#held) {
      return this.#length;
    }
    this.#save();
    if (text instanceof Kept) {
      this.#memory.set(text.saved, this.#start);
      this.#length = text.length;
      this.#held = text;
    } else {
      this.#length = this.#take(text, this.#most);
      if (typeof text === "string") {
        this.#held = text;
      } else if (!this.#exports.str_indices_is_utf8(this.#wideStart, BigInt(this.#length))) {
        throw notUtf8();
      }
    }
    return this.#length;
  }

  /** Puts the text into the memory with its index, for many questions; answers by what it is found again. */
  keep(text) {
    this.#save();
    const length = this.#take(text, this.#mostKept);
    const handle = BigInt(this.#handleOf(length));
    const marks = handle + this.#exports.str_index_size(0n);
    // a handle has to be one before it is filled: of the empty text, without marks
    this.#write(Number(handle), [this.#wideStart, 0n, marks, 0n]);
    const size = BigInt(length);
    // a string was written as UTF-8, and bytes are checked
    const fill = typeof text === "string" ? this.#exports.index_fill_utf8 : this.#exports.index_fill;
    if (fill(this.#wideStart, size, marks, this.#exports.index_marks(size), handle) !== FILLED) {
      throw notUtf8();
    }
    this.#length = length;
    this.#held = new Kept(length, handle);
    return this.#held;
  }

  /** The bytes of the text that lies in the memory, as an array of the caller's own. */
  bytes() {
    return this.#memory.slice(this.#start, this.#start + this.#length);
  }

  /** The number that the export answers. */
  number(asked, text, ...more) {
    return narrow(this.#call(asked, text, more));
  }

  /** The number that the export answers, or `null` for the greatest one, by which the exports say none. */
  numberOrNull(asked, text, ...more) {
    const number = BigInt.asUintN(64, this.#call(asked, text, more));
    return number === GREATEST ? null : Number(number);
  }

  /** The `count` numbers that the export answers by their address. */
  numbers(count, { exported, numbers }, text, ...more) {
    const address = this.#start - 8 * count;
    const length = this.put(text);
    if (text instanceof Kept) exported(BigInt(address), text.handle, ...numbers, ...more);
    else exported(BigInt(address), this.#wideStart, BigInt(length), ...more);
    const answers = [];
    for (let at = address; at < this.#start; at += 8) answers.push(this.#view.getBigUint64(at, true));
    return answers;
  }

  /** Puts numbers into the place; answers their address. */
  write(numbers) {
    this.#write(this.#place, numbers);
    return BigInt(this.#place);
  }

  #call({ exported, numbers }, text, more) {
    const length = this.put(text);
    return text instanceof Kept
      ? exported(text.handle, ...numbers, ...more)
      : exported(this.#wideStart, BigInt(length), ...more);
  }

  #write(address, numbers) {
    numbers.forEach((number, i) => this.#view.setBigUint64(address + 8 * i, number, true));
  }

  /** Where the handle of a text of this length lies: after the text, where a number of 64 bits may. */
  #handleOf(length) {
    return Math.ceil((this.#start + length) / 8) * 8;
  }

  /** Where the index of a text of this length ends. */
  #endOf(length) {
    return this.#handleOf(length) + Number(this.#exports.str_index_size(BigInt(length)));
  }

  /** Makes room for another text: one that is known is saved with its index. */
  #save() {
    if (this.#held instanceof Kept) {
      this.#held.saved ??= this.#memory.slice(this.#start, this.#endOf(this.#length));
    }
    this.#held = null;
  }

  /** Takes a text of at most `most` bytes into the memory; answers how many it has. */
  #take(text, most) {
    const room = this.#memory.subarray(this.#start, this.#start + most);
    if (typeof text === "string") {
      const { read, written } = new TextEncoder().encodeInto(text, room);
      if (read < text.length) {
        throw tooLong(most);
      }
      return written;
    }
    if (!(text instanceof Uint8Array)) {
      throw new TypeError("a text is a string or a Uint8Array");
    }
    // one view for both, since an array over a buffer that grows may become longer at any time; and others may change the
    // bytes meanwhile, so the copy is what is checked
    const view = text.subarray(0, text.length);
    if (view.length > most) {
      throw tooLong(most);
    }
    room.set(view);
    return view.length;
  }
}

const notUtf8 = () => new TypeError("the bytes are not UTF-8");

const tooLong = (most) => new RangeError(`the text does not fit the memory: at most ${most} bytes do`);

/** The greatest number up to `most` that fits, where all below one that fits do. */
function greatest(most, fits) {
  let [low, high] = [0, most + 1];
  while (high - low > 1) {
    const middle = Math.floor((low + high) / 2);
    if (fits(middle)) low = middle;
    else high = middle;
  }
  return low;
}

function askCount(machine, asked, text) {
  return machine.number(asked, text);
}

/** A count of a text that is known: another text would be left out of it in silence. */
function askKnownCount(machine, asked, text, argument) {
  if (argument !== undefined) {
    throw new TypeError("a text that is known is counted by itself: the call takes no argument");
  }
  return machine.number(asked, text);
}

function askKnownSurrogates(machine, asked, text, argument) {
  const countOf = (scheme) => askKnownCount(machine, { ...asked, numbers: [scheme] }, text, argument);
  return countOf(SCHEME_NUMBERS.get("utf16")) - countOf(SCHEME_NUMBERS.get("chars"));
}

function askIndex(machine, asked, text, index) {
  return machine.number(asked, text, wideIndex(index));
}

function askLine(machine, asked, text, lines, line) {
  return bytesOf(machine.numbers(2, asked, text, lineType(lines), wideIndex(line)));
}

function askLineEnd(machine, asked, text, lines, line) {
  return machine.number(asked, text, lineType(lines), wideIndex(line));
}

function askPositionOf(machine, asked, text, lines, encoding, byte) {
  return positionOf(machine.numbers(2, asked, text, lineType(lines), encodingOf(encoding), wideIndex(byte)));
}

function askExactPositionOf(machine, asked, text, lines, encoding, byte) {
  const numbers = machine.numbers(2, asked, text, lineType(lines), encodingOf(encoding), wideIndex(byte));
  return numbers[0] === GREATEST ? null : positionOf(numbers);
}

function askRangeOf(machine, asked, text, lines, encoding, bytes) {
  const { start, end } = rangeFrom(bytes);
  const span = machine.write([wideIndex(start, "start"), wideIndex(end, "end")]);
  const numbers = machine.numbers(4, asked, text, lineType(lines), encodingOf(encoding), span);
  return { start: positionOf(numbers.slice(0, 2)), end: positionOf(numbers.slice(2)) };
}

function askByteOf(machine, asked, text, lines, encoding, position) {
  return machine.number(asked, text, lineType(lines), encodingOf(encoding), machine.write(numbersOf(position)));
}

function askExactByteOf(machine, asked, text, lines, encoding, position) {
  return machine.numberOrNull(asked, text, lineType(lines), encodingOf(encoding), machine.write(numbersOf(position)));
}

function askByteRange(machine, asked, text, lines, encoding, range) {
  const { start, end } = rangeFrom(range);
  const places = machine.write([...numbersOf(start), ...numbersOf(end)]);
  const numbers = machine.numbers(2, asked, text, lineType(lines), encodingOf(encoding), places);
  return numbers[0] === GREATEST ? null : bytesOf(numbers);
}

const lineType = (name) => numberNamed(LINE_TYPE_NUMBERS, name, "kind of line");

const encodingOf = (name) => numberNamed(ENCODING_NUMBERS, name, "encoding");

/** The number by which the exports know what has this name. */
function numberNamed(numbers, name, what) {
  const number = numbers.get(name);
  if (number === undefined) {
    throw new RangeError(`${shown(name)} is no ${what}, which is one of ${[...numbers.keys()].join(", ")}`);
  }
  return number;
}

const positionOf = ([line, character]) => ({ line: Number(line), character: Number(character) });

const bytesOf = ([start, end]) => ({ start: Number(start), end: Number(end) });

function rangeFrom(range) {
  if (typeof range !== "object" || range === null) {
    throw new TypeError("a range is an object with a start and an end");
  }
  return range;
}

/** The line and the character of a position, as the exports take them. */
function numbersOf(position) {
  if (typeof position !== "object" || position === null) {
    throw new TypeError("a position is an object with a line and a character");
  }
  return [wideIndex(position.line, "line"), wideIndex(position.character, "character")];
}

/** A text that is known, with its index, for many questions. */
class Text {
  #machine;
  #kept;

  constructor(machine, functions, source) {
    this.#machine = machine;
    this.#kept = machine.keep(source);
    this.length = this.#kept.length;
    Object.assign(this, boundTo(this.#kept, functions));
    Object.freeze(this);
  }

  /** The text's bytes, as an array of the caller's own. */
  bytes() {
    this.#machine.put(this.#kept);
    return this.#machine.bytes();
  }
}

function indicesOver(machine) {
  const known = functionsBy(KNOWN_FUNCTIONS, "str_index", machine);
  const text = (source) => new Text(machine, known, source);
  return Object.freeze({ text, ...functionsBy(FUNCTIONS, "str_indices", machine) });
}

/** The name in the exports of what has this name here: of `linesLf.toByteIdx` it is `lines_lf_to_byte_idx`. */
const exportedName = (path) => path.replace(".", "_").replace(/[A-Z]/g, (letter) => `_${letter.toLowerCase()}`);

/** The functions of a table by their names, each over a text that is its first argument. */
function functionsBy(table, library, machine) {
  const all = {};
  for (const [path, ask, exported = exportedName(path), ...numbers] of table) {
    const names = path.split(".");
    const last = names.pop();
    const place = names.reduce((place, name) => (place[name] ??= {}), all);
    const asked = machine.asked(`${library}_${exported}`, numbers);
    place[last] = (text, ...words) => ask(machine, asked, text, ...words);
  }
  return frozen(all);
}

/** The same, and all objects in it, from now on as they are. */
function frozen(all) {
  for (const inner of Object.values(all)) {
    if (typeof inner === "object") frozen(inner);
  }
  return Object.freeze(all);
}

/** The same functions over this text, without that argument. */
function boundTo(text, functions) {
  const bound = {};
  for (const [name, inner] of Object.entries(functions)) {
    bound[name] = typeof inner === "object" ? boundTo(text, inner) : (...words) => inner(text, ...words);
  }
  return Object.freeze(bound);
}

const narrow = (number) => Number(BigInt.asUintN(64, number));

/** The index as the exports take it: one that 64 bits do not hold is past every text's end. */
function wideIndex(index, what = "index") {
  const whole = typeof index === "bigint" || Number.isInteger(index);
  if ((!whole && index !== Infinity) || index < 0) {
    throw new RangeError(`${shown(index)} is no ${what}, which is a whole number or a BigInt from 0 on, or Infinity`);
  }
  return index > GREATEST ? GREATEST : BigInt(index);
}

/** The value that was handed over instead of an index, for a message. */
function shown(value) {
  const kind = value === null ? "null" : typeof value;
  if (kind === "string") {
    return `the string ${JSON.stringify(value)}`;
  }
  return kind === "number" ? String(value) : kind === "bigint" ? `${value}n` : kind;
}
