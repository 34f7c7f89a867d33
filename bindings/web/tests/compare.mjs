// Compares every function with worked answers and with the engine's own strings. `compareAll` answers what passed, what
// failed, and what is to be told of that; a browser runs it, and Node.
import { load, SCHEMES } from "./str_indices.mjs";
import { LongText } from "./long_text.mjs";
import { inField, ofField } from "./field.mjs";

const FROGS = "Hel🐸lo world! こん🐸にち🐸🐸は!";
const EVERY_BREAK = "\nHello\r\n\rせ\vか\fい\u0085. There\u2028is something.\u2029";
// a CR at byte 1, a line separator at 2, chars of two and four bytes at 5 and 7, and one at 11
const EACH_KIND = "a\r\u2028é🐸b";
const LARGE = [2n ** 32n - 1n, 2n ** 32n, 2n ** 32n + 1n, 2n ** 53n, 2n ** 63n - 1n, 2n ** 63n, 2n ** 64n - 1n, 2n ** 64n, 2n ** 70n];

// a function, a text, what it takes beside that, or a list of these, and the answer; no two functions have the same answers
// throughout, and none has them for another kind of line or another encoding
const WORKED = [
  ["chars.count", FROGS, null, 23],
  ["chars.fromByteIdx", "せかい", 8, 2],
  ["chars.fromByteIdx", "せかい", Infinity, 3],
  ["chars.fromByteIdx", "🐸a\n", 4, 1],
  ["chars.toByteIdx", "せかい", 2, 6],
  ["chars.toByteIdx", "せかい", 2n ** 64n - 1n, 9],
  ["chars.toByteIdx", "🐸a\n", 2, 5],
  ["utf16.count", FROGS, null, 27],
  ["utf16.countSurrogates", FROGS, null, 4],
  ["utf16.fromByteIdx", FROGS, 26, 17],
  ["utf16.fromByteIdx", "🐸a\n", 4, 2],
  ["utf16.toByteIdx", FROGS, 18, 23],
  ["utf16.toByteIdx", FROGS, 28, 45],
  ["utf16.toByteIdx", "🐸a\n", 2, 4],
  ["linesLf.countBreaks", "\r\r\n\n", null, 2],
  ["linesLf.fromByteIdx", "a\r\nb", 2, 0],
  ["linesLf.fromByteIdx", "\r\r\n\n", 3, 1],
  ["linesLf.toByteIdx", "a\r\nb", 1, 3],
  ["linesLf.toByteIdx", "\r\r\n\n", 1, 3],
  ["linesCrlf.countBreaks", "\r\r\n\n", null, 3],
  ["linesCrlf.countBreaks", "a\u2028b", null, 0],
  ["linesCrlf.fromByteIdx", "\r\r\n\n", 3, 2],
  ["linesCrlf.fromByteIdx", "a\u2028b", 4, 0],
  ["linesCrlf.toByteIdx", "\r\r\n\n", 1, 1],
  ["linesCrlf.toByteIdx", "a\r\nb", 1, 3],
  ["linesCrlf.toByteIdx", "a\u2028b", 1, 5],
  ["lines.countBreaks", EVERY_BREAK, null, 8],
  ["lines.countBreaks", "a\u2028b", null, 1],
  ["lines.fromByteIdx", "é\u0085x", 4, 1],
  ["lines.fromByteIdx", "a\u2028b", 4, 1],
  ["lines.toByteIdx", "a\u2028b", 1, 4],
  ["chars.count", "\ud83d", null, 1],
  ["utf16.toByteIdx", "\ud83d", 1, 3],
  ["lineEnd", "a\r\nbé\n", ["crlf", 0], 1],
  ["lineEnd", "a\r\nbé\n", ["crlf", 1], 6],
  ["lineEnd", "a\r\nbé\n", ["crlf", 9], 7],
  ["positionOf", "a\ré🐸b", ["crlf", "utf8", 8], "1:6"],
  ["positionOf", "a\ré🐸b", ["crlf", "utf16", 8], "1:3"],
  ["positionOf", "a\ré🐸b", ["crlf", "utf32", 8], "1:2"],
  ["byteOf", "a\ré🐸b", ["crlf", "utf8", { line: 1, character: 6 }], 8],
  ["byteOf", "a\ré🐸b", ["crlf", "utf16", { line: 1, character: 3 }], 8],
  ["byteOf", "a\ré🐸b", ["crlf", "utf32", { line: 1, character: 2 }], 8],
  ["byteOf", "ab\r\nc", ["crlf", "utf16", { line: 0, character: 99 }], 2],
  ["byteOf", "ab\r\nc", ["crlf", "utf16", { line: 2n ** 64n, character: 0 }], 5],
  ["byteOf", "ab\r\nc", ["crlf", "utf16", { line: 1n, character: 2n ** 63n }], 5],
  ["exactByteOf", "a\ré🐸b", ["crlf", "utf8", { line: 1, character: 6 }], 8],
  ["exactByteOf", "a\ré🐸b", ["crlf", "utf8", { line: 1, character: 3 }], null],
  ["exactByteOf", "a\ré🐸b", ["crlf", "utf16", { line: 1, character: 3 }], 8],
  ["exactByteOf", "a\ré🐸b", ["crlf", "utf16", { line: 1, character: 2 }], null],
  ["exactByteOf", "a\ré🐸b", ["crlf", "utf32", { line: 1, character: 2 }], 8],
  ["exactByteOf", "a\ré🐸b", ["crlf", "utf32", { line: 1, character: 4 }], null],
  ["exactByteOf", "ab\r\nc", ["crlf", "utf16", { line: 0, character: 2 }], 2],
  ["exactByteOf", "ab\r\nc", ["crlf", "utf16", { line: 0, character: 3 }], null],
  ["exactByteOf", "ab\r\nc", ["crlf", "utf16", { line: 2, character: 0 }], null],
  ["byteRange", "a\ré🐸b", ["crlf", "utf8", places(1, 0, 1, 6)], "2..8"],
  ["byteRange", "a\ré🐸b", ["crlf", "utf16", places(1, 0, 1, 3)], "2..8"],
  ["byteRange", "a\ré🐸b", ["crlf", "utf32", places(1, 0, 1, 2)], "2..8"],
  ["byteRange", "ab\r\nc", ["crlf", "utf16", places(0, 1, 0, 99)], "1..2"],
  ["byteRange", "ab\r\nc", ["crlf", "utf16", places(0, 1, 2n ** 64n, 0)], "1..5"],
  ["byteRange", "ab\r\nc", ["crlf", "utf16", places(0, 2, 0, 1)], null],
  ["byteRange", "ab\r\nc", ["crlf", "utf16", places(1, 0, 0, 9)], null],
  ["line", "a\r\nb\u2028c", ["lf", 0], "0..2"],
  ["line", "a\r\nb\u2028c", ["lf", 1], "3..8"],
  ["line", "a\r\nb\u2028c", ["crlf", 0], "0..1"],
  ["line", "a\r\nb\u2028c", ["crlf", 1], "3..8"],
  ["line", "a\r\nb\u2028c", ["crlf", 2], "8..8"],
  ["line", "a\r\nb\u2028c", ["lines", 1], "3..4"],
  ["line", "a\r\nb\u2028c", ["lines", 2n], "7..8"],
  ["line", "a\r\nb\u2028c", ["lines", Infinity], "8..8"],
  ["exactPositionOf", "a\ré🐸b", ["crlf", "utf8", 8], "1:6"],
  ["exactPositionOf", "a\ré🐸b", ["crlf", "utf16", 8], "1:3"],
  ["exactPositionOf", "a\ré🐸b", ["crlf", "utf32", 8], "1:2"],
  ["exactPositionOf", "a\ré🐸b", ["crlf", "utf16", 5], null],
  ["exactPositionOf", "a\r\nb", ["crlf", "utf16", 2], null],
  ["exactPositionOf", "a\r\nb", ["crlf", "utf16", 4], "1:1"],
  ["exactPositionOf", "a\r\nb", ["crlf", "utf16", 5], null],
  ["rangeOf", "a\ré🐸b", ["crlf", "utf8", { start: 2, end: 8 }], "1:0-1:6"],
  ["rangeOf", "a\ré🐸b", ["crlf", "utf16", { start: 2, end: 8 }], "1:0-1:3"],
  ["rangeOf", "a\ré🐸b", ["crlf", "utf32", { start: 2, end: 8 }], "1:0-1:2"],
  ["rangeOf", "a\r\nb", ["crlf", "utf16", { start: Infinity, end: 2 }], "1:1-0:1"],
  // by each kind of line a byte of this text has another position
  ["lineEnd", EACH_KIND, ["lf", 0], 12],
  ["lineEnd", EACH_KIND, ["crlf", 0], 1],
  ["lineEnd", EACH_KIND, ["crlf", 1], 12],
  ["lineEnd", EACH_KIND, ["lines", 1], 2],
  ["positionOf", EACH_KIND, ["lf", "utf16", 11], "0:6"],
  ["positionOf", EACH_KIND, ["crlf", "utf16", 11], "1:4"],
  ["positionOf", EACH_KIND, ["lines", "utf16", 11], "2:3"],
  ["positionOf", EACH_KIND, ["lines", "utf8", Infinity], "2:7"],
  ["exactPositionOf", EACH_KIND, ["lf", "utf16", 11], "0:6"],
  ["exactPositionOf", EACH_KIND, ["crlf", "utf16", 11], "1:4"],
  ["exactPositionOf", EACH_KIND, ["lines", "utf16", 11], "2:3"],
  ["exactPositionOf", "a\r\nb", ["lf", "utf16", 2], "0:2"],
  ["rangeOf", EACH_KIND, ["lf", "utf16", { start: 5, end: 11 }], "0:3-0:6"],
  ["rangeOf", EACH_KIND, ["crlf", "utf16", { start: 5, end: 11 }], "1:1-1:4"],
  ["rangeOf", EACH_KIND, ["lines", "utf16", { start: 5, end: 11 }], "2:0-2:3"],
  ["byteOf", EACH_KIND, ["lf", "utf16", { line: 0, character: 6 }], 11],
  ["byteOf", EACH_KIND, ["crlf", "utf16", { line: 1, character: 4 }], 11],
  ["byteOf", EACH_KIND, ["lines", "utf16", { line: 2, character: 3 }], 11],
  ["byteOf", EACH_KIND, ["lines", "utf16", { line: 1, character: 4 }], 2],
  ["exactByteOf", EACH_KIND, ["lf", "utf16", { line: 0, character: 6 }], 11],
  ["exactByteOf", EACH_KIND, ["crlf", "utf16", { line: 1, character: 4 }], 11],
  ["exactByteOf", EACH_KIND, ["lines", "utf16", { line: 2, character: 3 }], 11],
  ["exactByteOf", EACH_KIND, ["lines", "utf16", { line: 1, character: 4 }], null],
  ["byteRange", EACH_KIND, ["lf", "utf16", places(0, 3, 0, 6)], "5..11"],
  ["byteRange", EACH_KIND, ["crlf", "utf16", places(1, 1, 1, 4)], "5..11"],
  ["byteRange", EACH_KIND, ["lines", "utf16", places(2, 0, 2, 3)], "5..11"],
];

/** A range from a line and a character to another. */
function places(line, character, endLine, endCharacter) {
  return { start: { line, character }, end: { line: endLine, character: endCharacter } };
}

const CHARACTERS = ["a", "b", " ", "é", "せ", "🐸", "\n", "\r", "\r\n", "\v", "\f", "\u0085", "\u2028", "\u2029", "\u0084", "\u2027", "\ud83d"];
// how far apart marks stand
const STRETCH = 1024;
// how many bytes a text may have, and one with an index
const LONGEST = 300941072;
const LONGEST_KNOWN = 287466048;
const TEXTS = 250;
const LONGEST_RANDOM = 60;
const LONG_SIZES = [255, 1535, 1537, 5000, 65536, 1048576];

const BREAKS = {
  linesLf: /\n/g,
  linesCrlf: /\r\n|\n|\r/g,
  lines: /\r\n|[\n\v\f\r\u0085\u2028\u2029]/g,
};
const MODULES = SCHEMES.map(({ module }) => module);
// what ends a line, by the names of the questions about lines and positions
const LINE_TYPES = { lf: BREAKS.linesLf, crlf: BREAKS.linesCrlf, lines: BREAKS.lines };
const ENCODINGS = { utf8: (char) => sizeOf(char), utf16: (char) => char.length, utf32: () => 1 };

const encoder = new TextEncoder();
const sizeOf = (string) => encoder.encode(string).length;
const countOf = (module) => (module in BREAKS ? "countBreaks" : "count");

let passed = 0;
let failed = 0;
let told = [];

/** An answer as the table says it. */
function shownAnswer(found) {
  if (typeof found !== "object" || found === null) return found;
  if ("line" in found) return `${found.line}:${found.character}`;
  return typeof found.start === "object" ? `${shownAnswer(found.start)}-${shownAnswer(found.end)}` : `${found.start}..${found.end}`;
}

function same(answer, expected, what) {
  if (answer === expected) {
    passed += 1;
  } else {
    failed += 1;
    told.push(`FAILED: ${what}: ${answer}, not ${expected}`);
  }
}

/** Numbers that look random and are the same in each run. */
function numbersFrom(seed) {
  let state = seed;
  return (below) => {
    state = (Math.imul(state, 1664525) + 1013904223) >>> 0;
    return (state >>> 8) % below;
  };
}

function randomText(next, most) {
  return Array.from({ length: next(most + 1) }, () => CHARACTERS[next(CHARACTERS.length)]).join("");
}

/** At each byte of the text and one past it, what is there: chars, units and breaks, from one walk over its chars. */
function walk(string) {
  const chars = Array.from(string);
  const at = Object.fromEntries(MODULES.map((module) => [module, []]));
  const now = Object.fromEntries(MODULES.map((module) => [module, 0]));
  const begins = [];
  chars.forEach((char, i) => {
    begins.push(at.chars.length);
    for (let byte = sizeOf(char); byte > 0; byte--) for (const module of MODULES) at[module].push(now[module]);
    now.chars += 1;
    now.utf16 += char.length;
    const inPair = char === "\r" && chars[i + 1] === "\n";
    now.linesLf += char === "\n" ? 1 : 0;
    now.linesCrlf += (char === "\n" || char === "\r") && !inPair ? 1 : 0;
    now.lines += /[\n\v\f\r\u0085\u2028\u2029]/.test(char) && !inPair ? 1 : 0;
  });
  begins.push(at.chars.length);
  for (const module of MODULES) at[module].push(now[module]);
  return { at, begins, size: at.chars.length - 1 };
}

/** The byte of an index by the walk: where the char begins that has it, or where the line begins. */
function byteAt({ at, begins, size }, module, index) {
  const all = at[module];
  if (index > all[size]) return size;
  if (module in BREAKS) return index === 0 ? 0 : all.indexOf(index);
  const last = begins.findLastIndex((byte) => all[byte] <= index);
  return begins[last];
}

function compareText(indices, string, places) {
  const model = walk(string);
  const bytes = encoder.encode(string);
  const text = indices.text(string);
  const what = (call) => `${call} of ${JSON.stringify(string.slice(0, 80))} (${bytes.length} bytes)`;
  same(text.length, bytes.length, what("length"));
  for (const module of MODULES) {
    const total = model.at[module][model.size];
    same(text[module][countOf(module)](), total, what(`${module} count`));
    for (const place of places(model.size)) {
      // strings and bytes in turn, and a text that is known
      const source = place % 2 ? bytes : string;
      same(indices[module].fromByteIdx(source, place), model.at[module][Math.min(place, model.size)], what(`${module} from ${place}`));
      const index = Math.min(place, total + 2);
      same(text[module].toByteIdx(index), byteAt(model, module, index), what(`${module} to ${index}`));
    }
    for (const large of LARGE) {
      for (const index of [large, Number(large)]) {
        same(text[module].fromByteIdx(index), total, what(`${module} from ${index}`));
        same(text[module].toByteIdx(index), bytes.length, what(`${module} to ${index}`));
      }
    }
  }
  same(text.utf16.countSurrogates(), model.at.utf16[model.size] - model.at.chars[model.size], what("pairs"));
}

/** The positions of a text's chars, from its lines as the engine splits them. */
function comparePositions(indices, string) {
  const text = indices.text(string);
  for (const [lines, breaks] of Object.entries(LINE_TYPES)) {
    const parts = string.split(new RegExp(`(${breaks.source})`));
    let byte = 0;
    for (let line = 0; line * 2 < parts.length; line++) {
      const content = parts[line * 2];
      const what = (call) => `${call} on line ${line} by ${lines} of ${JSON.stringify(string)}`;
      for (const encoding of Object.keys(ENCODINGS)) {
        compareLine(text, lines, encoding, line, byte, content, what);
      }
      const end = byte + sizeOf(content);
      same(text.lineEnd(lines, line), end, what("the end"));
      same(shownAnswer(indices.line(string, lines, line)), `${byte}..${end}`, what("the content"));
      byte = end + sizeOf(parts[line * 2 + 1] ?? "");
    }
  }
}

/** The positions of the chars of a line, which begins at that byte, and their bytes. */
function compareLine(text, lines, encoding, line, byte, content, what) {
  let [at, character] = [byte, 0];
  for (const char of [...Array.from(content), ""]) {
    const here = `${line}:${character}`;
    same(shownAnswer(text.positionOf(lines, encoding, at)), here, what(`${encoding} position of ${at}`));
    same(shownAnswer(text.exactPositionOf(lines, encoding, at)), here, what(`${encoding} exact position of ${at}`));
    same(text.byteOf(lines, encoding, { line, character: BigInt(character) }), at, what(`${encoding} byte of ${here}`));
    same(text.exactByteOf(lines, encoding, { line, character }), at, what(`${encoding} exact byte of ${here}`));
    same(shownAnswer(text.byteRange(lines, encoding, places(0, 0, line, character))), `0..${at}`, what(`${encoding} bytes up to ${here}`));
    same(shownAnswer(text.rangeOf(lines, encoding, { start: 0, end: at })), `0:0-${here}`, what(`${encoding} range up to ${at}`));
    at += sizeOf(char);
    character += ENCODINGS[encoding](char);
  }
}

/** The function of that name, of all or of a text. */
const named = (functions, path) => path.split(".").reduce((place, name) => place[name], functions);

function compareWorked(indices) {
  for (const [path, text, argument, answer] of WORKED) {
    const words = argument === null ? [] : [argument].flat();
    const what = `${path} of ${JSON.stringify(text)} by ${words.filter((word) => typeof word === "string")}`;
    same(shownAnswer(named(indices, path)(text, ...words)), answer, what);
    same(shownAnswer(named(indices.text(text), path)(...words)), answer, `${what} that is known`);
  }
}

function compareTexts(indices) {
  const next = numbersFrom(20111);
  for (let i = 0; i < TEXTS; i++) {
    const string = randomText(next, LONGEST_RANDOM).toWellFormed();
    compareText(indices, string, (size) => Array.from({ length: size + 3 }, (_, place) => place));
    comparePositions(indices, string);
  }
  for (const size of LONG_SIZES) {
    const part = randomText(next, 4000).toWellFormed();
    let string = part;
    while (sizeOf(string) < size) string += string.length < size / 8 ? string : part;
    compareText(indices, string, (bytes) => Array.from({ length: 6 }, () => next(bytes + 2)));
  }
}

/** Texts with a char or a break over the places where marks stand, and with one mark, none and many. */
function awkwardTexts(next) {
  const over = ["\r\n", "🐸", "é", "\u2028", "\r", "\n"];
  const filled = (part) => {
    let string = "";
    for (let edge = STRETCH; edge <= 4 * STRETCH; edge += STRETCH) {
      const short = edge - 1 - next(sizeOf(part)) - sizeOf(string);
      string += Array.from({ length: short }, () => "ab\n"[next(40) ? next(2) : 2]).join("") + part;
    }
    return string;
  };
  const random = [1023, 1024, 1025, 2048, 9000].map((size) => {
    let string = "";
    while (string.length < size) string += randomText(next, 100).toWellFormed();
    return string;
  });
  return ["", "a".repeat(1024), "a".repeat(5000), "é🐸".repeat(1500), "\r\n".repeat(1500), "\n".repeat(2048), ...over.map(filled), ...random];
}

/** A text that is known answers as the functions that go over the text, at the places round its marks and at any. */
function compareIndex(indices) {
  const next = numbersFrom(1024);
  for (const string of awkwardTexts(next)) {
    const text = indices.text(string);
    const what = (call) => `${call} of ${JSON.stringify(string.slice(0, 20))} (${text.length} bytes) by its index`;
    const edges = Array.from({ length: 5 * 9 }, (_, i) => Math.floor(i / 9) * STRETCH + (i % 9) - 4).filter((byte) => byte >= 0);
    const bytes = [...edges, text.length - 1, text.length, text.length + 1, Infinity, ...Array.from({ length: 20 }, () => next(text.length + 2))].filter((byte) => byte >= 0);
    for (const module of MODULES) {
      same(text[module][countOf(module)](), indices[module][countOf(module)](string), what(`${module} count`));
      for (const byte of bytes) {
        const index = indices[module].fromByteIdx(string, byte);
        same(text[module].fromByteIdx(byte), index, what(`${module} from ${byte}`));
        for (const near of [index, index + 1]) {
          same(text[module].toByteIdx(near), indices[module].toByteIdx(string, near), what(`${module} to ${near}`));
        }
      }
    }
    for (const lines of Object.keys(LINE_TYPES)) {
      for (const encoding of Object.keys(ENCODINGS)) {
        for (const byte of bytes) comparePlace(indices, text, string, [lines, encoding], byte, what);
      }
    }
    compareLines(indices, text, string, what);
  }
}

/** The position of a byte, and the bytes of positions near it, by a kind of line and an encoding. */
function comparePlace(plain, known, string, by, byte, what) {
  const position = plain.positionOf(string, ...by, byte);
  const past = { line: position.line, character: position.character + 3 };
  const range = { start: position, end: past };
  const answers = (call, ...words) => {
    const wanted = shownAnswer(plain[call](string, ...by, ...words));
    same(shownAnswer(known[call](...by, ...words)), wanted, what(`${call} by ${by} at ${byte}`));
    return wanted;
  };
  answers("positionOf", byte);
  for (const near of [position, past, { line: position.line + 1, character: 0 }]) {
    answers("byteOf", near);
    answers("exactByteOf", near);
  }
  answers("byteRange", range);
  const isPlace = plain.exactByteOf(string, ...by, position) === byte;
  same(answers("exactPositionOf", byte), isPlace ? shownAnswer(position) : null, what(`exact position by ${by} of ${byte}`));
  same(answers("rangeOf", { start: byte, end: 0 }), `${shownAnswer(position)}-0:0`, what(`range by ${by} of ${byte}`));
}

/** Each line's content, as the engine splits the text. */
function compareLines(indices, text, string, what) {
  for (const [lines, breaks] of Object.entries(LINE_TYPES)) {
    let byte = 0;
    const parts = string.split(new RegExp(`(${breaks.source})`));
    for (let line = 0; line * 2 < parts.length; line++) {
      const end = byte + sizeOf(parts[line * 2]);
      same(shownAnswer(text.line(lines, line)), `${byte}..${end}`, what(`content by ${lines} of line ${line}`));
      same(text.lineEnd(lines, line), end, what(`the end by ${lines} of line ${line}`));
      byte = end + sizeOf(parts[line * 2 + 1] ?? "");
    }
    const past = `${text.length}..${text.length}`;
    same(shownAnswer(text.line(lines, (parts.length + 1) / 2)), past, what(`content by ${lines} past the last line`));
    same(shownAnswer(indices.line(string, lines, Infinity)), past, what(`content by ${lines} past the last line`));
  }
}

/** The longest text with an index, whose marks lie at the memory's end, beside another one. */
function compareLongest(indices) {
  const bytes = new Uint8Array(LONGEST_KNOWN).fill(0x61);
  bytes.set(encoder.encode("é\n"), LONGEST_KNOWN - 3);
  const long = indices.text(bytes);
  const other = indices.text("b\n".repeat(3000));
  for (let round = 0; round < 2; round++) {
    same(long.chars.count(), LONGEST_KNOWN - 1, "chars of the longest text with an index");
    same(long.chars.toByteIdx(LONGEST_KNOWN - 3), LONGEST_KNOWN - 3, "the byte of its last but one char");
    same(long.linesLf.toByteIdx(1), LONGEST_KNOWN, "where its last line begins");
    same(shownAnswer(long.positionOf("crlf", "utf16", LONGEST_KNOWN - 1)), `0:${LONGEST_KNOWN - 2}`, "the position of its break");
    same(other.linesLf.toByteIdx(2000), 4000, "a line of another text");
  }
}

/** Each is refused by this kind of error, with a message that says what is wrong. */
async function compareRefusals(indices) {
  const missing = async () => load(new URL("missing.wasm", import.meta.url));
  const refused = [
    [TypeError, /not UTF-8/, () => indices.chars.count(new Uint8Array([0xe3, 0x81]))],
    [TypeError, /not UTF-8/, () => indices.text(new Uint8Array([0x61, 0xff]))],
    [TypeError, /a string or a Uint8Array/, () => indices.chars.count(7)],
    [TypeError, /a line and a character/, () => indices.byteOf("a", "crlf", "utf16", 3)],
    [TypeError, /a start and an end/, () => indices.byteRange("a", "crlf", "utf16", null)],
    [TypeError, /a line and a character/, () => indices.byteRange("a", "crlf", "utf16", { start: { line: 0, character: 0 } })],
    [RangeError, /^-1 is no index/, () => indices.chars.toByteIdx("a", -1)],
    [RangeError, /^-1n is no index/, () => indices.chars.toByteIdx("a", -1n)],
    [RangeError, /^0.5 is no index/, () => indices.chars.toByteIdx("a", 0.5)],
    [RangeError, /^NaN is no index/, () => indices.lines.fromByteIdx("a", NaN)],
    [RangeError, /^the string "3" is no index/, () => indices.chars.toByteIdx("a", "3")],
    [RangeError, /^undefined is no index/, () => indices.chars.toByteIdx("a")],
    [RangeError, /^the string "1" is no line/, () => indices.byteOf("a", "crlf", "utf8", { line: "1", character: 0 })],
    [RangeError, /^undefined is no character/, () => indices.byteOf("a", "crlf", "utf8", { line: 1 })],
    [RangeError, new RegExp(`does not fit the memory: at most ${LONGEST} bytes`), () => indices.chars.count(new Uint8Array(LONGEST + 1))],
    [RangeError, /does not fit the memory/, () => indices.chars.count("é".repeat(LONGEST / 2 + 1))],
    [RangeError, new RegExp(`does not fit the memory: at most ${LONGEST_KNOWN} bytes`), () => indices.text(new Uint8Array(LONGEST_KNOWN + 1))],
    [RangeError, /does not fit the memory/, () => indices.text("é".repeat(LONGEST_KNOWN / 2 + 1))],
    [TypeError, /takes no argument/, () => indices.text("a").chars.count("other")],
    [TypeError, /takes no argument/, () => indices.text("a").utf16.countSurrogates("other")],
    [TypeError, /a start and an end/, () => indices.text("a").rangeOf("crlf", "utf16", 1)],
    [RangeError, /^undefined is no end/, () => indices.text("a").rangeOf("crlf", "utf16", { start: 0 })],
    [RangeError, /^the string "linesLf" is no kind of line, which is one of lf, crlf, lines$/, () => indices.line("a", "linesLf", 0)],
    [RangeError, /^the string "utf16" is no kind of line/, () => indices.text("a").positionOf("utf16", "crlf", 0)],
    [RangeError, /^0 is no encoding, which is one of utf8, utf16, utf32$/, () => indices.positionOf("a", "crlf", 0)],
    [RangeError, /^undefined is no index/, () => indices.text("a").lineEnd("crlf")],
    [Error, /missing\.wasm cannot be read/, missing],
    [Error, /compare\.mjs is not the WebAssembly of str_indices/, () => load(new URL("compare.mjs", import.meta.url))],
    [Error, /handed over is not the WebAssembly/, () => load(new Uint8Array(8))],
  ];
  for (const [kind, message, call] of refused) {
    let thrown = null;
    try {
      await call();
    } catch (error) {
      thrown = error;
    }
    same(thrown instanceof kind && message.test(thrown.message), true, `${call} throws ${kind.name}, ${thrown}`);
  }
  same(indices.chars.count(new Uint8Array(LONGEST)), LONGEST, "the longest text");
  same(indices.chars.count("a"), 1, "after what was refused");
}

/** A text keeps its bytes, whatever else is asked meanwhile, and in whatever array they came. */
function compareKept(indices) {
  const bytes = encoder.encode("せか");
  const text = indices.text(bytes);
  bytes.fill(0x61);
  same(text.chars.count(), 2, "a text keeps its own bytes");
  same(indices.chars.count(bytes), 6, "bytes that changed are read anew");
  const texts = ["せか", "abcdef", "ab\ncd\n"].map((string, i) => indices.text(i % 2 ? string : encoder.encode(string)));
  const long = ["せ\n", "abc\n"].map((string) => indices.text(string.repeat(1000)));
  for (let round = 0; round < 3; round++) {
    same(texts.map((one) => one.chars.count()).join(), "2,6,6", "texts of one length in turn");
    same(texts.map((one) => one.linesLf.countBreaks()).join(), "0,0,2", "lines of these");
    same(indices.utf16.count("🐸"), 2, "a string between them");
    same(long.map((one) => one.chars.toByteIdx(1999)).join(), "3999,1999", "chars of texts with marks in turn");
    same(long.map((one) => one.linesLf.fromByteIdx(2048)).join(), "512,512", "lines of these, with marks");
  }
  same(new TextDecoder().decode(texts[0].bytes()), "せか", "the bytes of a text");
  texts[0].bytes().fill(0);
  same(texts[0].chars.count(), 2, "these are the caller's own");
  if (typeof SharedArrayBuffer === "function") {
    const shared = new Uint8Array(new SharedArrayBuffer(4));
    shared.set(encoder.encode("🐸"));
    same(indices.utf16.count(shared), 2, "bytes over shared memory");
    const kept = indices.text(shared);
    shared.fill(0xff);
    same(kept.chars.count(), 1, "a text of these");
  }
}

/** A text in blocks answers as a text in one, after any edits. */
function compareLongText(indices) {
  const next = numbersFrom(7);
  const long = new LongText(indices);
  let string = "";
  for (let round = 0; round < 120; round++) {
    const start = next(string.length + 1);
    const end = round % 40 === 39 ? string.length : Math.min(string.length, start + next(round % 7 ? 40 : 20000));
    const before = string;
    string = (string.slice(0, start) + randomText(next, round % 5 ? 20 : 30000) + string.slice(end)).toWellFormed();
    const change = long.change(string);
    if (change !== null) {
      const { at, removed, inserted } = change;
      same(before.slice(0, at) + inserted + before.slice(at + removed.length) === string, true, `the change of round ${round}`);
    }
    const text = indices.text(string);
    same(long.length, text.length, `the length after round ${round}`);
    for (const module of MODULES) {
      const total = text[module][countOf(module)]();
      same(long.count(module), total, `${module} in blocks after round ${round}`);
      for (const index of [0, next(total + 2), total, Infinity]) {
        same(long.toByteIdx(module, index), text[module].toByteIdx(index), `${module} to ${index} in blocks, round ${round}`);
      }
      const byte = next(text.length + 2);
      same(long.fromByteIdx(module, byte), text[module].fromByteIdx(byte), `${module} from ${byte} in blocks, round ${round}`);
    }
    for (const encoding of Object.keys(ENCODINGS)) {
      const byte = next(text.length + 2);
      const [ours, theirs] = [long.positionOf(encoding, byte), text.positionOf("crlf", encoding, byte)];
      same(`${ours.line}:${ours.character}`, `${theirs.line}:${theirs.character}`, `${encoding} position of ${byte}, round ${round}`);
    }
  }
}

/** What a field shows of a text stands for that text. */
function compareShown() {
  for (const text of ["a\rb", "a\r\nb\n", "↵", "\r↵\r", "🏿", "\u{103ff}\r", "\ufffd↵"]) {
    same(ofField(inField(text)), text, `${JSON.stringify(text)} in the field`);
    same(inField(text).length, text.length, `the units of ${JSON.stringify(text)} in the field`);
    same(inField(text).includes("\r"), false, `no CR in the field for ${JSON.stringify(text)}`);
  }
  same(ofField(inField("a\udfff\ud83d")), "a\ufffd\ufffd", "surrogates that stand alone");
}

/** How many of the worked answers fail. */
export function failuresOfWorked(indices) {
  [passed, failed, told] = [0, 0, []];
  compareWorked(indices);
  return failed;
}

export async function compareAll() {
  [passed, failed, told] = [0, 0, []];
  const indices = await load();
  compareWorked(indices);
  compareTexts(indices);
  compareIndex(indices);
  compareKept(indices);
  compareLongest(indices);
  compareLongText(indices);
  compareShown();
  await compareRefusals(indices);
  return { passed, failed, told: told.slice(0, 20) };
}
