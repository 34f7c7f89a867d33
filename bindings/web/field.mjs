// The field for the text: what it shows of a text, what goes into it, and how that is taken back.
//
// A field turns CR into LF, so it shows a CR as ↵. A ↵ that is in the text itself is held there as a surrogate that stands
// alone, which no text has. Each is one UTF-16 code unit, so the units of the field are those of the text.

const CR_SHOWN = "↵";
const ARROW_HELD = "\udfff";
const ALONE = /\udfff/gu;

// a longer text is put into the field at once, since an editing command takes its lines one by one
const LONGEST_COMMAND = 200;
const MOST_STEPS = 500;
const PAUSE = 1000;

const CHARACTERS = new TextDecoder("utf-8", { fatal: true, ignoreBOM: true });

/** A text as the field shows it. */
export function inField(text) {
  return text.toWellFormed().replaceAll(CR_SHOWN, ARROW_HELD).replaceAll("\r", CR_SHOWN);
}

/** The text that the field's value stands for. */
export function ofField(value) {
  const text = value.includes(CR_SHOWN) ? value.replaceAll(CR_SHOWN, "\r") : value;
  return (text.includes(ARROW_HELD) ? text.replace(ALONE, CR_SHOWN) : text).toWellFormed();
}

/** Whether a field shows the text as it is. */
const isPlain = (text) => text.isWellFormed() && !/[\r↵]/.test(text);

const isHigh = (unit) => unit >= 0xd800 && unit <= 0xdbff;

/** The changes of a text, so that each is taken back and made again. */
class Steps {
  #back = [];
  #forth = [];

  /** Keeps a change, as a part of the one before where both are of one stretch of typing. */
  keep(change, kind) {
    const last = this.#back.at(-1);
    const step = { ...change, kind, when: Date.now() };
    this.#forth.length = 0;
    if (last && last.kind === kind && step.when - last.when < PAUSE && joined(last, step)) {
      return;
    }
    this.#back.push(step);
    if (this.#back.length > MOST_STEPS) this.#back.shift();
  }

  /** The change to make to take the last step back, or to make it again; `null` where there is none. */
  next(back) {
    const [from, to] = back ? [this.#back, this.#forth] : [this.#forth, this.#back];
    const step = from.pop();
    if (!step) {
      return null;
    }
    to.push({ ...step, kind: "taken" });
    const [removed, inserted] = back ? [step.inserted, step.removed] : [step.removed, step.inserted];
    return { at: step.at, removed, inserted };
  }
}

/** Makes a letter, or one that was deleted, a part of the step before it; answers whether it is one. */
function joined(last, step) {
  if (step.kind === "insertText" && step.removed === "" && last.at + last.inserted.length === step.at) {
    last.inserted += step.inserted;
    last.when = step.when;
    return true;
  }
  if (step.kind === "deleteContentBackward" && step.inserted === "" && step.at + step.removed.length === last.at) {
    Object.assign(last, { at: step.at, removed: step.removed + last.removed, when: step.when });
    return true;
  }
  return false;
}

/** The field, over the text that changes with it. */
export class Field {
  #place;
  #text;
  #steps = new Steps();
  #changedBy = null;
  #follow;
  #fail;
  #dragged = false;

  /** `follow` is called before the next drawing whenever text or selection changed, `fail` with what cannot be done. */
  constructor(place, text, follow, fail) {
    this.#place = place;
    this.#text = text;
    this.#follow = follow;
    this.#fail = fail;
    this.#listen();
  }

  get selection() {
    return [this.#place.selectionStart, this.#place.selectionEnd];
  }

  select(start, end) {
    this.#place.setSelectionRange(start, end);
  }

  /** Whether the field holds a ↵ that is no CR. */
  get holdsArrow() {
    return this.#text.string.includes(CR_SHOWN);
  }

  /** Takes what the field holds now for the text; answers whether that changed. */
  read() {
    const kind = this.#changedBy;
    this.#changedBy = null;
    const change = kind === null ? null : this.#text.change(ofField(this.#place.value));
    if (change !== null && kind !== "taken") this.#steps.keep(change, kind);
    return change !== null;
  }

  /** Another text, from its first char on; it can be taken back like all that is put in. */
  replaceAll(text) {
    this.#put(text, 0, this.#place.value.length);
    this.select(0, 0);
  }

  /** Puts a text in the place of what is selected. */
  insert(text) {
    this.#put(text, ...this.selection);
    this.#place.focus();
  }

  /** Takes the last change back, or makes it again. */
  step(back) {
    this.read();
    const change = this.#steps.next(back);
    if (change) this.#put(change.inserted, change.at, change.at + change.removed.length, "taken");
  }

  /** Puts the text of a file in the place of all. */
  async open(file) {
    try {
      this.replaceAll(CHARACTERS.decode(await file.arrayBuffer()));
      this.#place.focus();
    } catch (error) {
      this.#fail(`${file.name} cannot be shown: ${error instanceof TypeError ? "it is not UTF-8" : error.message}`);
    }
  }

  #put(text, start, end, kind = "put") {
    this.read();
    const [from, to] = this.#whole(start, end);
    const value = inField(text);
    this.#changedBy = kind;
    if (value.length > LONGEST_COMMAND || !this.#command(value, from, to)) {
      this.#place.setRangeText(value, from, to, "end");
    }
    this.#changedBy = kind;
    this.read();
    this.#follow(true);
  }

  /** Edits as a hand does, which in a long text takes less than a new value; answers whether the browser does so. */
  #command(value, from, to) {
    this.#place.focus();
    this.select(from, to);
    if (value === "" && from === to) {
      return true;
    }
    return document.execCommand(value === "" ? "delete" : "insertText", false, value);
  }

  /** The range with whole pairs; where nothing is selected, the place before a pair that it is in. */
  #whole(start, end) {
    const value = this.#place.value;
    const splits = (unit) => isHigh(value.charCodeAt(unit - 1)) && /[\udc00-\udfff]/.test(value[unit] ?? "");
    const from = start - splits(start);
    return [from, start === end ? from : end + splits(end)];
  }

  #listen() {
    const place = this.#place;
    place.addEventListener("input", (event) => {
      this.#changedBy ??= event.inputType || "input";
      this.#follow();
    });
    document.addEventListener("selectionchange", () => this.#follow());
    place.addEventListener("beforeinput", (event) => this.#beforeInput(event));
    place.addEventListener("keydown", (event) => this.#keyDown(event));
    place.addEventListener("paste", (event) => this.#taken(event, event.clipboardData));
    for (const kind of ["copy", "cut"]) place.addEventListener(kind, (event) => this.#handOut(event));
    place.addEventListener("dragstart", () => (this.#dragged = true));
    place.addEventListener("dragend", () => (this.#dragged = false));
    place.addEventListener("dragover", (event) => event.dataTransfer.types.includes("Files") && event.preventDefault());
    place.addEventListener("drop", (event) => this.#drop(event));
  }

  #beforeInput(event) {
    if (event.inputType === "historyUndo" || event.inputType === "historyRedo") {
      event.preventDefault();
      this.step(event.inputType === "historyUndo");
    } else if (this.#changedBy === null && event.inputType.startsWith("insert") && event.cancelable && /[\r↵]/.test(event.data ?? "")) {
      event.preventDefault();
      this.insert(event.data);
    }
  }

  #keyDown(event) {
    // the effect of the key is drawn together with what the browser does by itself
    this.#follow();
    const key = event.key.toLowerCase();
    if ((event.ctrlKey || event.metaKey) && !event.altKey && (key === "z" || key === "y")) {
      event.preventDefault();
      this.step(key === "z" && !event.shiftKey);
    }
  }

  /** Puts in what is handed over, where the field would show it otherwise. */
  #taken(event, data) {
    const text = data.getData("text/plain");
    const [file] = data.files;
    if (file && text === "") {
      event.preventDefault();
      this.open(file);
    } else if (!isPlain(text)) {
      event.preventDefault();
      this.insert(text);
    }
  }

  #drop(event) {
    if (this.#dragged) {
      return;
    }
    const caret = document.caretPositionFromPoint?.(event.clientX, event.clientY);
    if (caret?.offsetNode === this.#place) this.select(caret.offset, caret.offset);
    this.#taken(event, event.dataTransfer);
  }

  /** Copies the text and not what the field shows of it. */
  #handOut(event) {
    const [start, end] = this.selection;
    const value = this.#place.value.slice(start, end);
    if (start === end || ofField(value) === value) {
      return;
    }
    event.clipboardData.setData("text/plain", ofField(value));
    event.preventDefault();
    if (event.type === "cut") this.#put("", start, end);
  }
}
