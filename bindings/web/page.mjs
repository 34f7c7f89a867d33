// The page: what the text's indices are at the cursor, the text as cells, and a field for each conversion.
import { load } from "./str_indices.mjs";
import { LongText } from "./long_text.mjs";
import { Field } from "./field.mjs";
import { Cells, LINE_SETS } from "./cells.mjs";

const EXAMPLES = [
  ["Lines of a hover request", "Zeile eins\r\n🐸 zwei\u2028drei\nせかい"],
  ["A pair between letters", "aaaaaaa🐸b"],
  ["Hello, frogs", "Hel🐸lo world! こん🐸にち🐸🐸は!"],
  ["Every line break", "\nHello\r\n\rせ\vか\fい\u0085. There\u2028is something.\u2029"],
  ["CR and LF", "\r\r\n\n"],
  ["Separators", "é\u0085x a\u2028b"],
  ["Nothing", ""],
];
const OWN = "your own text";

// the modules, with what is shown of each: its heading, and what its indices are of
const CONVERTED = [
  ["chars", "chars", "char"],
  ["utf16", "UTF-16 units", "unit"],
  ...LINE_SETS.map(([set, heading]) => [set, `lines by ${heading}`, "line"]),
];

const ENCODINGS = [
  ["utf8", "position, UTF-8"],
  ["utf16", "position, UTF-16"],
  ["utf32", "position, UTF-32"],
];

// a reader is told the place once the cursor rests; the cells of a text that is typed follow the hands
const REST = 300;
const FOLLOW = 60;

const byId = (id) => document.getElementById(id);
const rowOf = (module) => document.querySelector(`#conversions tr[data-module=${module}]`);

let text;
let field;
let cells;
let drawing = null;
let resting = null;
let following = null;
let shownAt = null;

function cell(row, content, kind) {
  const made = row.appendChild(document.createElement("td"));
  made.role = "cell";
  made.textContent = content;
  if (kind) made.className = kind;
  return made;
}

function headed(row, heading) {
  const name = row.appendChild(document.createElement("th"));
  name.scope = "row";
  name.role = "rowheader";
  name.textContent = heading;
  return name;
}

/** The line of a byte, and the units from where that line begins. */
function lineAndColumn(set, byte) {
  const line = text.fromByteIdx(set, byte);
  const begins = text.toByteIdx(set, line);
  return `${line} : ${text.fromByteIdx("utf16", byte) - text.fromByteIdx("utf16", begins)}`;
}

function position(encoding, byte) {
  const { line, character } = text.positionOf(encoding, byte);
  return `${line} : ${character}`;
}

function lines(set) {
  const number = text.count(set) + 1;
  return `${number} ${number === 1 ? "line" : "lines"}`;
}

// the rows of the table of places: a heading, what it says of a byte, and what of the whole text
const PLACES = [
  ["byte", (byte) => byte, () => text.length],
  ["char", (byte) => text.fromByteIdx("chars", byte), () => text.count("chars")],
  ["UTF-16 unit", (byte) => text.fromByteIdx("utf16", byte), () => text.count("utf16")],
  ...LINE_SETS.map(([set, heading]) => [`line : column, ${heading}`, (byte) => lineAndColumn(set, byte), () => lines(set)]),
  ...ENCODINGS.map(([encoding, heading]) => [
    heading,
    (byte) => position(encoding, byte),
    () => position(encoding, text.length),
  ]),
];

function showPlaces([start, end], changed) {
  const body = document.querySelector("#places tbody");
  PLACES.forEach(([heading, at, whole], i) => {
    const row = body.rows[i] ?? placeRow(body, heading);
    const first = String(at(start));
    const values = [first, end === start ? first : String(at(end))];
    if (changed) values.push(String(whole()));
    values.forEach((value, column) => {
      const place = row.cells[column + 1];
      if (place.textContent !== value) place.textContent = value;
    });
  });
}

function placeRow(body, heading) {
  const row = body.insertRow();
  row.role = "row";
  headed(row, heading);
  for (let column = 0; column < 3; column++) cell(row, "", "number");
  return row;
}

/** The index that a field holds; `null` where it is none, and one that no text reaches as `Infinity`. */
function indexIn(input) {
  const written = input.value.trim();
  const index = Number(written);
  return /^[0-9]+$/.test(written) ? (Number.isSafeInteger(index) ? index : Infinity) : null;
}

function makeConversions() {
  const body = document.querySelector("#conversions tbody");
  for (const [module, heading, unit] of CONVERTED) {
    const row = body.insertRow();
    row.role = "row";
    row.dataset.module = module;
    headed(row, heading);
    cell(row, "", "number count").dataset.label = "how many";
    for (const [conversion, from, to] of [["fromByteIdx", "byte", unit], ["toByteIdx", unit, "byte"]]) {
      const asked = cell(row, "", "asked");
      asked.dataset.label = from;
      const input = asked.appendChild(document.createElement("input"));
      input.inputMode = "numeric";
      input.autocomplete = "off";
      input.value = "0";
      input.dataset.conversion = conversion;
      input.ariaLabel = `${heading}: ${from} index, to ${to} index`;
      cell(row, "", `number ${conversion}`).dataset.label = conversion === "fromByteIdx" ? `belongs to ${unit}` : "begins at byte";
      input.addEventListener("input", () => {
        showConversions();
        tell(`${input.ariaLabel}: ${row.querySelector(`.${conversion}`).textContent}`);
      });
    }
  }
}

function showConversions() {
  for (const [module] of CONVERTED) {
    const row = rowOf(module);
    const pairs = module === "utf16" ? `, pairs: ${text.count("pairs")}` : "";
    row.querySelector(".count").textContent = `${text.count(module)}${pairs}`;
    for (const input of row.querySelectorAll("input")) {
      const index = indexIn(input);
      input.ariaInvalid = String(index === null);
      const answer = index === null ? "write a number, 0 or more" : text[input.dataset.conversion](module, index);
      row.querySelector(`.${input.dataset.conversion}`).textContent = answer;
    }
  }
}

/** Tells those who hear the page, once nothing else is to be told. */
function tell(what) {
  clearTimeout(resting);
  resting = setTimeout(() => (byId("told").textContent = what), REST);
}

function place([start, end]) {
  const of = (byte) => {
    const [line, character] = position("utf16", byte).split(" : ");
    return `line ${line}, character ${character}`;
  };
  const char = text.fromByteIdx("chars", start);
  const unit = text.fromByteIdx("utf16", start);
  return start === end
    ? `At byte ${start}, char ${char}, unit ${unit}; ${of(start)}.`
    : `Selected: bytes ${start} to ${end}, from ${of(start)}, to ${of(end)}.`;
}

function show() {
  clearTimeout(drawing);
  drawing = null;
  const changed = field.read() || shownAt === null;
  const selection = field.selection;
  if (!changed && selection.join() === shownAt) {
    return;
  }
  shownAt = selection.join();
  const bytes = selection.map((unit) => text.toByteIdx("utf16", unit));
  showPlaces(bytes, changed);
  if (changed) {
    nameExample();
    showConversions();
    byId("arrow").hidden = !field.holdsArrow;
  }
  showCells(bytes, changed);
  tell(place(bytes));
}

/** Names the example that the text is; a text that was edited is none. */
function nameExample() {
  const found = EXAMPLES.findIndex(([, example]) => example === text.string);
  byId("example").selectedIndex = found < 0 ? EXAMPLES.length : found;
}

/** Draws the cells, after a change a little later: hundreds of them take longer than a letter in the field. */
function showCells(bytes, changed) {
  if (!changed && following === null) {
    cells.show(...bytes, false);
    return;
  }
  clearTimeout(following);
  following = setTimeout(() => {
    following = null;
    show();
    cells.show(...field.selection.map((unit) => text.toByteIdx("utf16", unit)), true);
  }, FOLLOW);
}

/** Shows what changed once the browser has done its part of it, in the time that is left until the next drawing. */
function follow(now) {
  if (now) {
    shownAt = null;
    show();
  } else {
    drawing ??= setTimeout(show);
  }
}

function fail(message) {
  const trouble = byId("trouble");
  trouble.textContent = message;
  trouble.hidden = message === "";
}

/** Puts an example in the field, with this range of units selected, and its first place in the fields for indices. */
function choose(example, start, end) {
  field.replaceAll(EXAMPLES[example][1]);
  field.select(start, end);
  const byte = text.toByteIdx("utf16", start);
  for (const [module] of CONVERTED) {
    const [from, to] = rowOf(module).querySelectorAll("input");
    from.value = byte;
    to.value = module === "utf16" ? start : text.fromByteIdx(module, byte);
  }
  follow(true);
}

/** The example that an address names and the units that are selected in it, as #2:3-5; or what is wrong with it. */
function named(hash) {
  const found = /^#([0-9]+):([0-9]+)-([0-9]+)$/.exec(hash);
  if (!found) {
    return { wrong: `“${hash}” names no place: one is an example, and the units that are selected, as #2:3-5.` };
  }
  const [example, start, end] = found.slice(1).map(Number);
  if (example >= EXAMPLES.length) {
    return { wrong: `“${hash}” names no place: there is no example ${example}, the last one is ${EXAMPLES.length - 1}.` };
  }
  const units = EXAMPLES[example][1].length;
  if (start > end || end > units) {
    return { wrong: `“${hash}” names no place: example ${example} has ${units} units, from 0 on, and a range ends after it begins.` };
  }
  return { example, start, end };
}

function goToAddress() {
  if (location.hash === "") {
    choose(0, 12, 14);
    return;
  }
  const { wrong, example, start, end } = named(location.hash);
  if (wrong) choose(0, 0, 0);
  else choose(example, start, end);
  fail(wrong ?? "");
}

function listen() {
  const picker = byId("example");
  for (const [name] of [...EXAMPLES, [OWN]]) picker.add(new Option(name));
  picker.lastChild.hidden = true;
  picker.addEventListener("change", () => {
    fail("");
    choose(picker.selectedIndex, 0, 0);
    picker.focus();
  });
  for (const button of document.querySelectorAll("[data-insert]")) {
    button.addEventListener("click", () => field.insert(JSON.parse(`"${button.dataset.insert}"`)));
  }
  byId("file").addEventListener("change", async (event) => {
    fail("");
    const [file] = event.target.files;
    if (file) await field.open(file);
    event.target.value = "";
  });
  window.addEventListener("hashchange", goToAddress);
}

/** The bytes of the functions, where the page holds them itself. */
function inlineBytes() {
  const held = byId("functions");
  return held === null ? undefined : Uint8Array.from(atob(held.textContent), (char) => char.charCodeAt(0));
}

async function begin() {
  const indices = await load(inlineBytes());
  text = new LongText(indices);
  field = new Field(byId("text"), text, follow, fail);
  cells = new Cells(indices, text, byId("cells"), byId("left-out"), (start, end) => field.select(start, end));
  makeConversions();
  listen();
  goToAddress();
}

begin().catch((error) => fail(error.message));
