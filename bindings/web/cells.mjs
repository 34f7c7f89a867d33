// The text as cells round the cursor: for each char its bytes, itself, its UTF-16 code units, and which lines end after it.

// of a longer text `MOST_CHARS` chars are drawn, and others once the cursor comes within `NEAR` chars of the end of these
const MOST_CHARS = 192;
const NEAR = 24;

export const LINE_SETS = [
  ["linesLf", "LF", "lf"],
  ["linesCrlf", "LF, CR, CR LF", "crlf"],
  ["lines", "every break", "lines"],
];

const CONTROLS = "NUL SOH STX ETX EOT ENQ ACK BEL BS TAB LF VT FF CR SO SI DLE DC1 DC2 DC3 DC4 NAK SYN ETB CAN EM SUB ESC FS GS RS US SP";
const NAMES = new Map(CONTROLS.split(" ").map((name, code) => [code, name]));
for (const [code, name] of [[0x7f, "DEL"], [0x85, "NEL"], [0xa0, "NBSP"], [0x200b, "ZWSP"], [0x200d, "ZWJ"], [0x2028, "LS"], [0x2029, "PS"], [0xfeff, "BOM"]]) {
  NAMES.set(code, name);
}

export const hex = (number, width) => number.toString(16).toUpperCase().padStart(width, "0");
const ESCAPES = { "&": "&amp;", "<": "&lt;", ">": "&gt;", '"': "&quot;" };
const escaped = (char) => ESCAPES[char] ?? char;
const range = (first, size, one, many) => (size === 1 ? `${one} ${first}` : `${many} ${first} to ${first + size - 1}`);

/** How a char is written in its cell: by its name where it has no shape of its own. */
function glyph(char, code) {
  if (code > 0x20 && code < 0x7f) {
    return { name: false, written: escaped(char) };
  }
  const name = NAMES.get(code) ?? (/\p{C}|\p{Zl}|\p{Zp}/u.test(char) ? hex(code, 4) : null);
  if (name !== null) {
    return { name: true, written: name };
  }
  return { name: false, written: /\p{M}/u.test(char) ? `◌${char}` : char };
}

/** A char in its row, with its code point where its UTF-16 units do not say that. */
function written(char, code) {
  const shape = glyph(char, code);
  const point = char.length > 1 ? `<small>U+${hex(code, 4)}</small>` : "";
  const own = shape.name && point ? "" : shape.written;
  return `<span class="${shape.name ? "glyph name" : "glyph"}">${own}${own && point ? " " : ""}${point}</span>`;
}

// the headings of the rows of cells; a screen reader says the same of each cell
const HEADINGS =
  '<div class="headings" aria-hidden="true"><span>bytes</span><span>char</span><span>UTF-16 units</span></div>';

/** A char in words, with its places. */
function said({ char, code, byte, bytes, place, unit, ends }) {
  const shape = NAMES.get(code) ?? escaped(char);
  const lines = ends.length ? `; a line ends after it by ${ends.map(([, heading]) => heading).join("; by ")}` : "";
  const parts = [
    `${shape} U+${hex(code, 4)}`,
    range(byte, bytes.length, "byte", "bytes"),
    `char ${place}`,
    range(unit, char.length, "unit", "units"),
  ];
  return parts.join(", ") + lines;
}

const HEX = Array.from({ length: 256 }, (_, byte) => hex(byte, 2));

function drawn(cell) {
  const { char, code, bytes, ends } = cell;
  const units = char.length === 1 ? hex(code, 4) : `${hex(char.charCodeAt(0), 4)} ${hex(char.charCodeAt(1), 4)}`;
  const marks = ends.map(([, , kind]) => `<i class="mark ${kind}"></i>`).join("");
  return (
    `<div class="char of${bytes.length}" role="option" tabindex="-1" aria-selected="false" aria-label="${said(cell)}">` +
    `<span class="bytes">${Array.from(bytes, (byte) => HEX[byte]).join(" ")}</span>` +
    written(char, code) +
    `<span class="units">${units}</span>${marks && `<span class="marks">${marks}</span>`}</div>`
  );
}

export class Cells {
  #indices;
  #text;
  #place;
  #note;
  #choose;
  // the cells that are drawn, with their elements, and which chars of the text they are
  #cells = [];
  #first = 0;
  #marked = [];
  // the cell that the Tab key reaches
  #stop = null;

  /** `choose` is called with the units of a cell that is clicked, or where Enter is pressed. */
  constructor(indices, text, place, note, choose) {
    this.#indices = indices;
    this.#text = text;
    this.#place = place;
    this.#note = note;
    this.#choose = choose;
    place.addEventListener("click", (event) => this.#click(event));
    place.addEventListener("keydown", (event) => this.#key(event));
  }

  /** Shows the cells round the first of these bytes, and which of them are selected. */
  show(start, end, changed) {
    const char = this.#text.fromByteIdx("chars", start);
    if (changed || !this.#isInside(char)) {
      const stays = changed && this.#isInside(char);
      this.#draw(stays ? this.#first : char - MOST_CHARS / 2);
    }
    this.#mark(start, end);
  }

  /** Whether this char is drawn, with some on each side of it. */
  #isInside(char) {
    const last = this.#first + this.#cells.length;
    const total = this.#text.count("chars");
    return (char - NEAR >= this.#first || this.#first === 0) && (char + NEAR < last || (last >= total && char <= last)) && char >= this.#first;
  }

  #draw(wanted) {
    const total = this.#text.count("chars");
    const focused = this.#first + this.#cellOf(document.activeElement);
    const hadFocus = focused >= this.#first;
    this.#first = Math.max(0, Math.min(wanted, total - MOST_CHARS));
    this.#cells = this.#cellsFrom(this.#first);
    const blocks = this.#blocks().map((cells) => this.#block(cells));
    this.#place.innerHTML = blocks.length ? HEADINGS + blocks.join("") : "";
    const elements = this.#place.querySelectorAll(".char");
    this.#cells.forEach((cell, i) => (cell.element = elements[i]));
    this.#marked = [];
    const leftOut = total - this.#cells.length;
    const chars = (number) => `${number.toLocaleString("en")} ${number === 1 ? "char" : "chars"}`;
    this.#note.textContent = leftOut > 0 ? `Shown are ${chars(this.#cells.length)} round the cursor; ${chars(leftOut)} further off are not.` : "";
    if (hadFocus) this.#cells[focused - this.#first]?.element.focus({ preventScroll: true });
  }

  /** The cells from a char on: one conversion gives the place of the first, and from there each gives that of the next. */
  #cellsFrom(first) {
    let byte = this.#text.toByteIdx("chars", first);
    const bytes = this.#text.bytes(byte, this.#text.toByteIdx("chars", first + MOST_CHARS));
    let unit = this.#text.fromByteIdx("utf16", byte);
    const ends = this.#lineEnds(byte, bytes);
    let at = 0;
    return Array.from(new TextDecoder("utf-8", { ignoreBOM: true }).decode(bytes), (char, i) => {
      const code = char.codePointAt(0);
      const size = code < 0x80 ? 1 : code < 0x800 ? 2 : code < 0x10000 ? 3 : 4;
      const own = bytes.subarray(at, at + size);
      const cell = { char, code, byte, bytes: own, place: first + i, unit, ends: ends.get(at + size) ?? [] };
      at += size;
      byte += size;
      unit += char.length;
      return cell;
    });
  }

  /** The sets of breaks by which a line ends at each of the bytes. */
  #lineEnds(byte, bytes) {
    // a CR is the end of a line only where no LF follows it, so the byte after is looked at too
    const behind = byte + bytes.length;
    const [next] = this.#text.bytes(behind, Math.min(this.#text.length, behind + 1));
    const part = this.#indices.text(next === 0x0a ? Uint8Array.from([...bytes, next]) : bytes);
    const ends = new Map();
    for (const set of LINE_SETS) {
      const breaks = part[set[0]].countBreaks();
      for (let line = 1; line <= breaks; line++) {
        const end = part[set[0]].toByteIdx(line);
        ends.set(end, [...(ends.get(end) ?? []), set]);
      }
    }
    return ends;
  }

  /** One block a char, or two chars that are one break. */
  #blocks() {
    const blocks = [];
    let before = null;
    for (const cell of this.#cells) {
      if (cell.char === "\n" && before === "\r") blocks.at(-1).push(cell);
      else blocks.push([cell]);
      before = cell.char;
    }
    return blocks;
  }

  #block(cells) {
    const all = cells.map(drawn).join("");
    return cells.length > 1 ? `<div class="joined" role="none">${all}</div>` : all;
  }

  #mark(start, end) {
    for (const element of this.#marked) {
      element.classList.remove("selected", "cursor");
      element.ariaSelected = "false";
    }
    const last = this.#cells.at(-1);
    const cursor = this.#cells.find((cell) => cell.byte >= start) ?? last;
    this.#marked = this.#cells.filter((cell) => cell.byte >= start && cell.byte < end).map((cell) => cell.element);
    for (const element of this.#marked) {
      element.classList.add("selected");
      element.ariaSelected = "true";
    }
    if (cursor) {
      cursor.element.classList.toggle("cursor", cursor.byte === start);
      this.#marked.push(cursor.element);
      this.#reach(cursor.element);
    }
  }

  /** Lets the Tab key come to the cell, and shows it. */
  #reach(element) {
    if (this.#stop) this.#stop.tabIndex = -1;
    this.#stop = element;
    element.tabIndex = 0;
    this.#bringIntoView(element);
  }

  /** Scrolls the cells, and not the page, so that one is seen. */
  #bringIntoView(element) {
    const top = element.offsetTop;
    const { scrollTop, clientHeight } = this.#place;
    if (top < scrollTop || top + element.offsetHeight > scrollTop + clientHeight) {
      this.#place.scrollTop = top - (clientHeight - element.offsetHeight) / 2;
    }
  }

  #cellOf(element) {
    return this.#cells.findIndex((cell) => cell.element === element?.closest(".char"));
  }

  #click(event) {
    const cell = this.#cells[this.#cellOf(event.target)];
    if (cell) this.#choose(cell.unit, cell.unit + cell.char.length);
  }

  #key(event) {
    const at = this.#cellOf(document.activeElement);
    if (at < 0 || event.ctrlKey || event.metaKey || event.altKey) {
      return;
    }
    const to = { ArrowRight: at + 1, ArrowLeft: at - 1, Home: 0, End: this.#cells.length - 1, ArrowDown: this.#below(at, 1), ArrowUp: this.#below(at, -1) }[event.key];
    if (event.key === "Enter" || event.key === " ") {
      this.#choose(this.#cells[at].unit, this.#cells[at].unit + this.#cells[at].char.length);
    } else if (to === undefined) {
      return;
    }
    event.preventDefault();
    if (to !== undefined) this.#focus(this.#first + to);
  }

  /** The cell below this one, or above it. */
  #below(at, by) {
    const { left, top } = this.#cells[at].element.getBoundingClientRect();
    const tops = (i) => this.#cells[i].element.getBoundingClientRect().top;
    let row = at + by;
    while (this.#cells[row] && tops(row) === top) row += by;
    const rowTop = this.#cells[row] && tops(row);
    const distance = (i) => Math.abs(this.#cells[i].element.getBoundingClientRect().left - left);
    while (this.#cells[row + by] && tops(row + by) === rowTop && distance(row + by) < distance(row)) row += by;
    return row;
  }

  /** Takes the focus to a char, which is drawn where it is not. */
  #focus(char) {
    const total = this.#text.count("chars");
    const wanted = Math.max(0, Math.min(char, total - 1));
    if (!this.#cells[wanted - this.#first]) {
      this.#draw(wanted - MOST_CHARS / 2);
    }
    const { element } = this.#cells[wanted - this.#first];
    this.#reach(element);
    element.focus({ preventScroll: true });
  }
}
