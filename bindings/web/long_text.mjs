// A text that changes and is asked at many places: it is cut into blocks, each of which the functions count once, and the
// whole answers by the sums of the blocks before a place and by the functions over the block that it is in.
//
// No block begins between CR and LF or inside a char, so a count of the whole is the sum of the blocks' counts.
import { SCHEMES } from "./str_indices.mjs";

const BLOCK_UNITS = 8192;

// what is counted of each block
const NOTHING = { bytes: 0, pairs: 0, ...Object.fromEntries(SCHEMES.map(({ module }) => [module, 0])) };

const CR = 0x0d;
const LF = 0x0a;
const isLowSurrogate = (unit) => unit >= 0xdc00 && unit <= 0xdfff;

/** Whether the string may be cut before this unit: not inside a char, nor between CR and LF. */
function mayCut(string, unit) {
  const code = string.charCodeAt(unit);
  return !isLowSurrogate(code) && !(code === LF && string.charCodeAt(unit - 1) === CR);
}

/** The unit where a string differs from another, and how many units at their ends are the same after that. */
function difference(before, after) {
  const shorter = Math.min(before.length, after.length);
  let at = 0;
  while (at < shorter && before.charCodeAt(at) === after.charCodeAt(at)) at += 1;
  let same = 0;
  while (same < shorter - at && before.charCodeAt(before.length - 1 - same) === after.charCodeAt(after.length - 1 - same)) same += 1;
  return { at, removed: before.slice(at, before.length - same), inserted: after.slice(at, after.length - same) };
}

export class LongText {
  #indices;
  // each block's text, with what it counts, and the sums of these over the blocks before it
  #blocks = [];
  #whole = NOTHING;
  #string = "";

  constructor(indices) {
    this.#indices = indices;
  }

  /** The text as a string. */
  get string() {
    return this.#string;
  }

  /** How many bytes the text takes in UTF-8. */
  get length() {
    return this.#whole.bytes;
  }

  /** How many chars, units or breaks the text has, by the module's name; its surrogate pairs are `pairs`. */
  count(module) {
    return this.#whole[module];
  }

  /** Takes the place of the text; answers what was removed where, and what was inserted there, or `null`. */
  change(string) {
    if (string === this.#string) {
      return null;
    }
    const [first, last, kept] = this.#changedBlocks(string);
    const before = this.#blocks[first]?.before.utf16 ?? this.#whole.utf16;
    const changed = difference(this.#string.slice(before, this.#string.length - kept), string.slice(before, string.length - kept));
    this.#blocks.splice(first, last - first, ...this.#cut(string.slice(before, string.length - kept)));
    this.#sumUp(first);
    this.#string = string;
    return { ...changed, at: changed.at + before };
  }

  /** The answer of the module's `fromByteIdx` for the whole text. */
  fromByteIdx(module, byte) {
    const block = this.#blockOf("bytes", byte);
    return byte >= this.length || !block
      ? this.#whole[module]
      : block.before[module] + block.text[module].fromByteIdx(byte - block.before.bytes);
  }

  /** The answer of the module's `toByteIdx` for the whole text. */
  toByteIdx(module, index) {
    const isLine = module.startsWith("lines");
    if (index > this.#whole[module] || !this.#blocks.length) {
      return this.length;
    }
    // a line begins where the break before it ends, which may be the end of a block
    const block = isLine ? this.#blockOf(module, Math.max(0, index - 1)) : this.#blockOf(module, index);
    return block.before.bytes + block.text[module].toByteIdx(index - block.before[module]);
  }

  /** The position of a byte in an encoding, from the text of its line. */
  positionOf(encoding, byte) {
    const line = this.fromByteIdx("linesCrlf", byte);
    const begins = this.toByteIdx("linesCrlf", line);
    const within = Math.min(byte, this.length);
    const end = this.#blockOf("bytes", within);
    const text = this.#indices.text(this.bytes(begins, end ? end.before.bytes + end.own.bytes : 0));
    const found = text.positionOf("crlf", encoding, within - begins);
    return { line: line + found.line, character: found.character };
  }

  /** The bytes of a part of the text. */
  bytes(start, end) {
    const parts = new Uint8Array(end - start);
    for (const block of this.#blocks) {
      const from = block.before.bytes;
      if (from < end && from + block.own.bytes > start) {
        const part = block.text.bytes().subarray(Math.max(0, start - from), end - from);
        parts.set(part, Math.max(0, from - start));
      }
    }
    return parts;
  }

  /** The last block with at most `index` bytes, chars, units or breaks before it. */
  #blockOf(counted, index) {
    let [low, high] = [0, this.#blocks.length];
    while (high - low > 1) {
      const middle = (low + high) >> 1;
      if (this.#blocks[middle].before[counted] <= index) low = middle;
      else high = middle;
    }
    return this.#blocks[low];
  }

  /** The blocks that another string changes, as the first of them and the one after the last, and the units after these. */
  #changedBlocks(string) {
    const blocks = this.#blocks;
    const same = (block, by) => {
      const begins = block.before.utf16;
      const ends = begins + block.own.utf16;
      return this.#string.slice(begins, ends) === string.slice(begins + by, ends + by);
    };
    let first = 0;
    while (first < blocks.length && same(blocks[first], 0)) first += 1;
    const by = string.length - this.#string.length;
    const room = (last) => blocks[last - 1].before.utf16 + by >= (blocks[first]?.before.utf16 ?? this.#whole.utf16);
    let last = blocks.length;
    while (last > first && room(last) && same(blocks[last - 1], by)) last -= 1;
    // a neighbour on each side, so that no block becomes small and none begins after a CR with LF
    first = Math.max(0, first - 1);
    last = Math.min(blocks.length, last + 1);
    return [first, last, this.#whole.utf16 - (blocks[last]?.before.utf16 ?? this.#whole.utf16)];
  }

  /** The string as blocks. */
  #cut(string) {
    const blocks = [];
    let begins = 0;
    while (begins < string.length) {
      let ends = Math.min(string.length, begins + BLOCK_UNITS);
      while (ends < string.length && !mayCut(string, ends)) ends += 1;
      blocks.push(this.#block(string.slice(begins, ends)));
      begins = ends;
    }
    return blocks;
  }

  #block(string) {
    const text = this.#indices.text(string);
    const counts = SCHEMES.map(({ module, count }) => [module, text[module][count]()]);
    return { text, own: { bytes: text.length, pairs: text.utf16.countSurrogates(), ...Object.fromEntries(counts) } };
  }

  /** The sums over the blocks before each, from this one on. */
  #sumUp(first) {
    let before = first === 0 ? NOTHING : added(this.#blocks[first - 1]);
    for (const block of this.#blocks.slice(first)) {
      block.before = before;
      before = added(block);
    }
    this.#whole = before;
  }
}

function added({ before, own }) {
  const sums = {};
  for (const counted in NOTHING) sums[counted] = before[counted] + own[counted];
  return sums;
}
