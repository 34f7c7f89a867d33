/** A string, or the bytes of its UTF-8 form; bytes that are not UTF-8 are a `TypeError`. */
export type Source = string | Uint8Array;

/** A whole number from 0 on, or `Infinity`; anything else is a `RangeError`. */
export type Index = number | bigint;

/** What ends a line: LF; LF, CR or CR LF, as a language server has it; or any line break of Unicode. */
export type LineType = "lf" | "crlf" | "lines";

/** What an offset on a line counts: bytes; UTF-16 code units, as a language server has them by default; or chars. */
export type Encoding = "utf8" | "utf16" | "utf32";

/** A position of a language server: a line, and the units on it before the place. */
export interface Position {
  readonly line: number;
  readonly character: number;
}

/** A part of a text as a language server names it, from its start up to its end. */
export interface Range {
  readonly start: Position;
  readonly end: Position;
}

/** A position as an argument, where each number may be any index. */
export interface Place {
  readonly line: Index;
  readonly character: Index;
}

/** A range as an argument, where each number may be any index. */
export interface Places {
  readonly start: Place;
  readonly end: Place;
}

/** A part of a text by byte indices, from `start` up to `end`. */
export interface Bytes {
  readonly start: number;
  readonly end: number;
}

/** The same as an argument, where each number may be any index. */
export interface Span {
  readonly start: Index;
  readonly end: Index;
}

/** What each function takes first: the text, or nothing on a text that is known. */
type First = [text: Source] | [];

export interface Conversions<Text extends First> {
  /** The index that a byte belongs to; past the end, that of the end. */
  readonly fromByteIdx: (...args: [...text: Text, byteIndex: Index]) => number;
  /** The byte where what has this index begins; past the last one, the length of the text in bytes. */
  readonly toByteIdx: (...args: [...text: Text, index: Index]) => number;
}

export interface Chars<Text extends First> extends Conversions<Text> {
  /** How many chars the text has. */
  readonly count: (...args: Text) => number;
}

export interface Utf16<Text extends First> extends Conversions<Text> {
  /** How many UTF-16 code units the text takes. */
  readonly count: (...args: Text) => number;
  /** How many surrogate pairs these have. */
  readonly countSurrogates: (...args: Text) => number;
}

export interface Lines<Text extends First> extends Conversions<Text> {
  /** How many line breaks the text has; it has one line more. */
  readonly countBreaks: (...args: Text) => number;
}

export interface Questions<Text extends First> {
  /** The bytes of a line without its break; past the last line none, at the end of the text. */
  readonly line: (...args: [...text: Text, lines: LineType, line: Index]) => Bytes;
  /** The byte where the content of a line ends, before its break. */
  readonly lineEnd: (...args: [...text: Text, lines: LineType, line: Index]) => number;
  /** The position of a byte; past the end, that of the end. */
  readonly positionOf: (...args: [...text: Text, lines: LineType, encoding: Encoding, byteIndex: Index]) => Position;
  /** The position of a byte that is a place on a line; `null` inside a char or a break, and past the end. */
  readonly exactPositionOf: (...args: [...text: Text, lines: LineType, encoding: Encoding, byteIndex: Index]) => Position | null;
  /** The positions of both ends of a span of bytes, each as `positionOf` answers it. */
  readonly rangeOf: (...args: [...text: Text, lines: LineType, encoding: Encoding, bytes: Span]) => Range;
  /** The byte of a position; past the end of its line, the line's end, before its break. */
  readonly byteOf: (...args: [...text: Text, lines: LineType, encoding: Encoding, position: Place]) => number;
  /** The byte of a position that names a place; `null` where there is no such line, past the line's end or inside a char. */
  readonly exactByteOf: (...args: [...text: Text, lines: LineType, encoding: Encoding, position: Place]) => number | null;
  /** The bytes of a range, each as `byteOf` answers it; `null` where the end is before the start. */
  readonly byteRange: (...args: [...text: Text, lines: LineType, encoding: Encoding, range: Places]) => Bytes | null;
}

export interface Functions<Text extends First> extends Questions<Text> {
  readonly chars: Chars<Text>;
  readonly utf16: Utf16<Text>;
  /** Lines that end in LF. */
  readonly linesLf: Lines<Text>;
  /** Lines that end in LF, CR or CR LF. */
  readonly linesCrlf: Lines<Text>;
  /** Lines that end in any line break of Unicode. */
  readonly lines: Lines<Text>;
}

/** A scheme: the name of its functions, that of the one among them which counts, and the kind of line whose breaks these are. */
export interface Scheme {
  readonly module: Exclude<keyof Functions<[]>, keyof Questions<[]>>;
  readonly count: "count" | "countBreaks";
  readonly lineType?: LineType;
}

/** Every scheme. */
export const SCHEMES: readonly Scheme[];

/** A text with its index, for many questions, none of which goes over the text. */
export interface KnownText extends Functions<[]> {
  /** How many bytes the text takes in UTF-8. */
  readonly length: number;
  /** These bytes, as an array of the caller's own. */
  bytes(): Uint8Array;
}

export interface Indices extends Functions<[text: Source]> {
  /** Keeps a text and makes its index, for many questions. */
  text(source: Source): KnownText;
}

/** Whether this engine has WebAssembly with 64-bit memory, which the functions want. */
export function isSupported(): boolean;

/** Loads the functions, by default from `str_indices_web.wasm` beside the module; in Node a path is taken too. */
export function load(source?: URL | string | ArrayBuffer | Uint8Array): Promise<Indices>;
