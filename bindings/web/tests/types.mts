// What the types of the module say of each call: the compiler must take this file, and must refuse each line that is
// marked. It is not run.
import { load, isSupported, SCHEMES } from "./str_indices.mjs";
import type { Bytes, Encoding, Functions, Index, Indices, KnownText, LineType, Position, Range, Scheme, Source } from "./str_indices.mjs";
import { load as loadInline } from "./str_indices_inline.mjs";

const supported: boolean = isSupported();
const indices: Indices = supported ? await load("str_indices_web.wasm") : await loadInline();
const sources: Source[] = ["a", new Uint8Array(1)];
const places: Index[] = [0, 1n, Infinity];

const counts: number[] = sources.map((source) => indices.utf16.count(source) + indices.utf16.countSurrogates(source));
const breaks: number = indices.linesCrlf.countBreaks("a") + indices.linesCrlf.toByteIdx("a", 1);
const bySchemes: number[] = SCHEMES.map(({ module }) => indices[module].toByteIdx(sources[0], places[0]));
const text: KnownText = indices.text("one\r\ntwo");
const knownBySchemes: number[] = SCHEMES.map(({ module }) => text[module].fromByteIdx(6n));
const known: number = text.utf16.count() + text.linesCrlf.countBreaks() + text.length + text.bytes().length;
const first: Scheme = SCHEMES[0];
const breaksOf: LineType | undefined = first.lineType;
const kind: LineType = "crlf";
const units: Encoding = "utf16";
const position: Position = text.positionOf(kind, units, 6);
const byte: number = indices.byteOf("a", "crlf", "utf8", { line: 0n, character: Infinity });
const exact: number | null = text.exactByteOf("crlf", "utf32", position);
const bytes: Bytes | null = text.byteRange("crlf", "utf16", { start: { line: 0, character: 0 }, end: position });
const content: Bytes = text.line("lines", text.line("lf", 1n).start);
const ofSource: Bytes = indices.line(sources[1], "lf", indices.lineEnd("a", "lines", 0));
const range: Range = text.rangeOf("crlf", "utf16", { start: content.start, end: Infinity });
const there: Position | null = text.exactPositionOf("lf", "utf8", content.end);
const again: Bytes | null = text.byteRange("crlf", "utf32", range);
const ofKnown: Functions<[]> = text;
const ofAny: Functions<[text: Source]> = indices;

// @ts-expect-error a text comes first
indices.utf16.count();
// @ts-expect-error a text that is known takes none
text.utf16.count("a");
// @ts-expect-error an index is a number
indices.utf16.toByteIdx("a", "1");
// @ts-expect-error no scheme is put in
SCHEMES.push(first);
// @ts-expect-error a kind of line is no scheme
indices["crlf"].toByteIdx("a", 1);
// @ts-expect-error there may be no such byte
const surely: number = text.exactByteOf("crlf", "utf16", position);
// @ts-expect-error a position has a line and a character
text.byteOf("crlf", "utf16", { line: 1 });
// @ts-expect-error a kind of line has one of three names
indices.line("a", "linesCrlf", 0);
// @ts-expect-error what ends a line comes before the encoding
text.positionOf("utf16", "crlf", 0);
// @ts-expect-error there may be no such position
const place: Position = text.exactPositionOf("crlf", "utf16", 0);
// @ts-expect-error a range of positions is none of bytes
text.rangeOf("crlf", "utf16", range);
// @ts-expect-error an answer is not written to
position.line = 1;
// @ts-expect-error the entry with the functions inside takes no place
loadInline("str_indices_web.wasm");

export { counts, breaks, bySchemes, knownBySchemes, known, breaksOf, byte, exact, bytes, content, ofSource, range, there, again, ofKnown, ofAny, surely, place };
