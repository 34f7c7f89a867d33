"""What the page shows and takes, tried in a browser that is driven by its own protocol."""
import json
import time

# where the page is opened: an example and the units that are selected, and what the rows of its table then say
PLACES = {
    "0:12-14": [
        "byte 12 16 38", "char 12 13 27", "UTF-16 unit 12 14 28", "line : column, LF 1 : 0 1 : 2 3 lines",
        "line : column, LF, CR, CR LF 1 : 0 1 : 2 3 lines", "line : column, every break 1 : 0 1 : 2 4 lines",
        "position, UTF-8 1 : 0 1 : 4 2 : 9", "position, UTF-16 1 : 0 1 : 2 2 : 3", "position, UTF-32 1 : 0 1 : 1 2 : 3",
    ],
    "1:8-9": [
        "byte 7 11 12", "char 7 8 9", "UTF-16 unit 7 9 10", "line : column, LF 0 : 7 0 : 9 1 line",
        "line : column, LF, CR, CR LF 0 : 7 0 : 9 1 line", "line : column, every break 0 : 7 0 : 9 1 line",
        "position, UTF-8 0 : 7 0 : 11 0 : 12", "position, UTF-16 0 : 7 0 : 9 0 : 10", "position, UTF-32 0 : 7 0 : 8 0 : 9",
    ],
    "4:1-3": [
        "byte 1 3 4", "char 1 3 4", "UTF-16 unit 1 3 4", "line : column, LF 0 : 1 1 : 0 3 lines",
        "line : column, LF, CR, CR LF 1 : 0 2 : 0 4 lines", "line : column, every break 1 : 0 2 : 0 4 lines",
        "position, UTF-8 1 : 0 2 : 0 3 : 0", "position, UTF-16 1 : 0 2 : 0 3 : 0", "position, UTF-32 1 : 0 2 : 0 3 : 0",
    ],
}
# the conversions at one of them: count, an index and its answer, another and its
CONVERSIONS = {
    "chars": "9 7:7 7:7", "utf16": "10, pairs: 1 7:7 8:7", "linesLf": "0 7:0 0:0", "linesCrlf": "0 7:0 0:0", "lines": "0 7:0 0:0",
}
# addresses that name no place, and what is said of each
NOWHERE = {
    "9:0-0": "there is no example 9", "1:50-60": "has 10 units", "1:5-3": "a range ends after it begins",
    "frog": "names no place",
}
NO_INDEX = "write a number, 0 or more"
BUTTONS = {"CR": "0D", "CR LF": "0D 0A", "NEL": "C2 85", "LS": "E2 80 A8", "frog": "F0 9F 90 B8"}

BYTES = "Array.from(document.querySelectorAll('#cells .bytes'), (one) => one.textContent).join(' ')"
CELLS = (
    "Array.from(document.querySelectorAll('#cells .char'), (cell) => [...cell.querySelectorAll('.bytes, .glyph, .units')]"
    ".map((part) => part.textContent).join('/') + '/' + [...cell.querySelectorAll('.mark')].map((mark) => mark.classList[1])"
    ".join('+') + ['selected', 'cursor'].map((kind) => cell.classList.contains(kind) ? '/' + kind : '').join(''))"
)
ROWS = (
    "Array.from(document.querySelectorAll('#places tbody tr'),"
    " (row) => [...row.cells].map((cell) => cell.textContent).join(' '))"
)
HEADINGS = (
    "(() => { const [rows, cell] = ['.headings', '.char'].map((one) => document.querySelector(`#cells ${one}`));"
    " const tops = (one) => Array.from(one.querySelectorAll(':scope > span:not(.marks)'),"
    " (row) => row.getBoundingClientRect().top);"
    " return [Array.from(rows.children, (row) => row.textContent).join(' '), tops(rows).join() === tops(cell).join()]; })()"
)
NAMED = "document.getElementById('example').selectedOptions[0].textContent"
FIELD = "document.getElementById('text')"
CONTROL, SHIFT = 2, 8
# what is put into a memory of the functions is counted, from before the page's scripts run
COUNTED = """
  window.put = 0;
  const set = Uint8Array.prototype.set;
  Uint8Array.prototype.set = function (bytes, at) { window.put += bytes.length; return set.call(this, bytes, at); };
  const encodeInto = TextEncoder.prototype.encodeInto;
  TextEncoder.prototype.encodeInto = function (string, room) {
    const done = encodeInto.call(this, string, room);
    window.put += done.written;
    return done;
  };
"""


def opened(browser, address, width=1280, height=900):
    """The page at the address, once its cells are drawn."""
    page = browser.open(address, width, height)
    page.wait("document.querySelector('#cells .char') || !document.getElementById('trouble').hidden")
    return page


def hexed(text):
    return text.encode().hex(" ").upper()


class Trial:
    def __init__(self, browser, page_file, tally, folder):
        self.browser = browser
        self.address = page_file.as_uri()
        self.tally = tally
        self.folder = folder

    def same(self, found, expected, what):
        self.tally.result(found == expected, what, f"  found {found!r}\n  not {expected!r}")

    def becomes(self, page, expression, expected, what):
        """Waits until the expression has the value; how long is not judged, but for the browser's hanging."""
        wanted = json.dumps(expected, ensure_ascii=False, separators=(",", ":"))
        try:
            page.wait(f"JSON.stringify({expression}) === {json.dumps(wanted)}")
        except TimeoutError:
            pass
        self.same(page.value(expression), expected, what)

    def empty(self):
        """The page with nothing in its field, which has the focus."""
        page = opened(self.browser, self.address)
        self.clear(page)
        return page

    def clear(self, page):
        page.value(f"{FIELD}.focus()")
        page.key("a", ["selectAll"], CONTROL)
        page.key("Delete", ["deleteForward"])
        page.wait(f"{FIELD}.value === '' && !document.querySelector('#cells .char')")

    def places(self):
        for place, expected in PLACES.items():
            page = opened(self.browser, f"{self.address}#{place}")
            self.becomes(page, ROWS, expected, f"the page at {place}")
        page.value("(location.hash = '#1:8-9', 1)")
        self.becomes(page, ROWS, PLACES["1:8-9"], "an address that changes")
        for place, said in NOWHERE.items():
            page.value(f"(location.hash = '#{place}', 1)")
            page.wait(f"document.getElementById('trouble').textContent.includes('#{place}')")
            self.same(said in page.value("document.getElementById('trouble').innerText"), True, f"no place: #{place}")
        page.value("(location.hash = '#1:8-9', 1)")
        self.becomes(page, "document.getElementById('trouble').hidden", True, "a place again")

    def cells(self):
        page = opened(self.browser, f"{self.address}#4:1-3")
        all_three = "lf+crlf+lines"
        expected = [
            "0D/CR/000D/crlf+lines", "0D/CR/000D//selected/cursor", f"0A/LF/000A/{all_three}/selected", f"0A/LF/000A/{all_three}",
        ]
        self.becomes(page, CELLS, expected, "cells, marks, what is selected, and the cursor")
        self.same(page.value("document.querySelector('.joined').textContent"), "0DCR000D0ALF000A", "CR LF are one block")
        page = opened(self.browser, f"{self.address}#0:12-14")
        pair = ["0D/CR/000D/", f"0A/LF/000A/{all_three}", "F0 9F 90 B8/🐸 U+1F438/D83D DC38//selected/cursor"]
        self.same(page.value(CELLS)[10:13], pair, "a pair")
        self.same(page.value(CELLS)[18], "E2 80 A8/LS/2028/lines", "a line that ends by Unicode alone")
        self.same(page.value(HEADINGS), ["bytes char UTF-16 units", True], "the rows of cells have headings, beside them")

    def example(self):
        """The example that is named, and what it is where the text is another."""
        page = opened(self.browser, f"{self.address}#1:8-9")
        self.becomes(page, NAMED, "A pair between letters", "an example is named")
        page.value(f"{FIELD}.focus()")
        page.key("x")
        self.becomes(page, NAMED, "your own text", "a text that was edited is none")
        page.key("z", ["undo"], CONTROL)
        self.becomes(page, NAMED, "A pair between letters", "until that is taken back")

    def conversions(self):
        page = opened(self.browser, f"{self.address}#1:8-9")
        for module, expected in CONVERSIONS.items():
            row = f"document.querySelector('tr[data-module={module}]')"
            found = page.value(
                f"[{row}.querySelector('.count').textContent, ...[...{row}.querySelectorAll('input')].map((input) =>"
                f" input.value + ':' + {row}.querySelector('.' + input.dataset.conversion).textContent)].join(' ')"
            )
            self.same(found, expected, f"conversions of {module}")
        asked = "document.querySelector('tr[data-module=utf16] input[data-conversion=toByteIdx]')"
        answer = "document.querySelector('tr[data-module=utf16] .toByteIdx').textContent"
        for written, expected in [("9", "11"), ("18446744073709551616", "12"), ("x", NO_INDEX), ("", NO_INDEX), ("-1", NO_INDEX)]:
            page.value(f"({asked}.value = '{written}', {asked}.dispatchEvent(new Event('input')))")
            self.same(page.value(answer), expected, f"UTF-16 unit {written or 'of nothing'} to a byte")
        self.same(page.value(f"{asked}.ariaInvalid"), "true", "what is no index is said to be none")

    def buttons(self):
        page = self.empty()
        for name, expected in BUTTONS.items():
            page.value("[...document.querySelectorAll('[data-insert]')]"
                       f".find((one) => (one.ariaLabel ?? one.textContent) === '{name}').click()")
            self.becomes(page, BYTES, expected, f"the button {name}")
            page.key("z", ["undo"], CONTROL)
            self.becomes(page, f"[{FIELD}.value, {BYTES}]", ["", ""], f"{name} is taken back")
        page.key("z", ["redo"], CONTROL | SHIFT)
        self.becomes(page, BYTES, "F0 9F 90 B8", "and made again")
        page.key("a")
        page.key("b")
        self.becomes(page, BYTES, "F0 9F 90 B8 61 62", "letters behind it")
        page.key("z", ["undo"], CONTROL)
        self.becomes(page, BYTES, "F0 9F 90 B8", "are taken back, and it stays")
        page.value(f"{FIELD}.setSelectionRange(1, 1)")
        page.value("document.querySelector('[data-insert]').click()")
        self.becomes(page, BYTES, "0D F0 9F 90 B8", "a cursor inside a pair puts nothing between its halves")

    def pastes(self):
        page = self.empty()
        for text in ["a\rb", "a\r\nb\nc\r", "↵\r↵", "\r🏿\r\n", "é\n🐸"]:
            page.copy(text)
            page.value(f"{FIELD}.focus()")
            page.paste()
            self.becomes(page, BYTES, hexed(text), f"{text!r} is pasted")
            page.value(
                f"(window.handed = null, {FIELD}.select(), document.addEventListener('copy', (event) =>"
                " window.handed = event.clipboardData.getData('text/plain') || String(getSelection()), { once: true }))"
            )
            page.key("c", ["copy"], CONTROL)
            self.becomes(page, "window.handed", text, f"{text!r} is copied")
            page.key("z", ["undo"], CONTROL)
            self.becomes(page, BYTES, "", f"{text!r} is taken back")
        page.ask("Input.insertText", text="↵")
        self.becomes(page, BYTES, hexed("↵"), "a real U+21B5 that is typed")
        self.same(page.value("document.getElementById('arrow').hidden"), False, "its sign is explained")

    def drops(self):
        page = self.empty()
        where = page.value(f"(() => {{ const box = {FIELD}.getBoundingClientRect(); return [box.x + 20, box.y + 20]; }})()")
        file = self.folder / "windows.txt"
        file.write_bytes("é\r\nb\rc\n↵".encode())
        for what, data in [
            ("a text", {"items": [{"mimeType": "text/plain", "data": "a\r\nb\rc"}], "dragOperationsMask": 1}),
            ("a file", {"items": [], "files": [str(file)], "dragOperationsMask": 1}),
        ]:
            for kind in ["dragEnter", "dragOver", "drop"]:
                page.ask("Input.dispatchDragEvent", type=kind, x=where[0], y=where[1], data=data)
            self.becomes(page, BYTES, hexed("é\r\nb\rc\n↵" if what == "a file" else "a\r\nb\rc"), f"{what} is dropped")
            self.clear(page)
        page.ask("DOM.enable")
        root = page.ask("DOM.getDocument")["root"]["nodeId"]
        node = page.ask("DOM.querySelector", nodeId=root, selector="#file")["nodeId"]
        page.ask("DOM.setFileInputFiles", nodeId=node, files=[str(file)])
        self.becomes(page, BYTES, hexed("é\r\nb\rc\n↵"), "a file is opened")
        file.write_bytes(b"a\xff")
        page.ask("DOM.setFileInputFiles", nodeId=node, files=[str(file)])
        trouble = "document.getElementById('trouble').textContent"
        self.becomes(page, trouble, "windows.txt cannot be shown: it is not UTF-8", "a file that is not UTF-8")
        self.same(page.value(BYTES), hexed("é\r\nb\rc\n↵"), "leaves the text")

    def readers(self):
        page = opened(self.browser, f"{self.address}#0:12-14")
        nodes = page.accessible()
        named = {}
        for node in nodes:
            named.setdefault(node["role"]["value"], []).append(node.get("name", {}).get("value", ""))
        for role in ["button", "textbox", "combobox", "listbox", "option", "table", "row", "rowheader", "columnheader",
                     "heading", "region"]:
            names = named.get(role, [])
            right = bool(names) and (role == "row" or all(name.strip() for name in names))
            self.tally.result(right, f"every {role} has a name: {len(names)} of them")
        boxes = named["textbox"]
        self.same(boxes[0], "Text", "the field's name")
        self.same("UTF-16 units: unit index, to byte index" in boxes, True, "a field's name tells what it converts")
        self.same(named["table"], ["At the cursor", "Conversions"], "the tables' names")
        self.same(len(named["row"]), 16, "the rows of both tables")
        self.same("🐸 U+1F438, bytes 12 to 15, char 12, units 12 to 13" in named["option"], True, "a cell says what it is")
        ends = "LF U+000A, byte 11, char 11, unit 11; a line ends after it by LF; by LF, CR, CR LF; by every break"
        self.same(ends in named["option"], True, "a cell says which lines end after it")
        told = "Selected: bytes 12 to 16, from line 1, character 0, to line 1, character 2."
        self.becomes(page, "document.getElementById('told').textContent", told, "the place is told")
        self.same("status" in named, True, "as a status, which is read out")

    def keyboard(self):
        page = opened(self.browser, f"{self.address}#0:12-14")
        page.value(f"{FIELD}.focus()")
        focused = "document.activeElement.ariaLabel?.split(',')[0]"
        for _ in range(6):
            page.key("Tab")
        self.becomes(page, focused, "🐸 U+1F438", "the Tab key comes to the cursor's cell")
        page.key("ArrowRight")
        self.becomes(page, focused, "SP U+0020", "an arrow key goes to the next")
        page.key("ArrowUp")
        page.key("Home")
        page.key("Enter")
        self.becomes(page, f"[{FIELD}.selectionStart, {FIELD}.selectionEnd]", [0, 1], "Enter selects a char in the text")
        self.becomes(page, f"{ROWS}[0]", "byte 0 1 38", "and the table tells its place")
        self.same(page.value(focused), "Z U+005A", "the focus stays")
        page.value(f"{FIELD}.setSelectionRange(3, 3)")
        told = "At byte 3, char 3, unit 3; line 0, character 3."
        self.becomes(page, "document.getElementById('told').textContent", told, "a cursor's place is told")

    def widths(self):
        page = opened(self.browser, f"{self.address}#3:0-0")
        for width in [320, 390, 700, 1280]:
            page.resize(width, 700)
            page.settle()
            fits = page.value(f"document.documentElement.scrollWidth <= {width}")
            self.same(fits, True, f"{width} pixels have no sideways scrolling")
        grounds = []
        for dark in [False, True]:
            page.dark(dark)
            page.settle()
            grounds.append(page.value("getComputedStyle(document.body).backgroundColor"))
        self.same(len(set(grounds)), 2, f"light and dark: {grounds}")
        shapes = page.value("['lf', 'crlf', 'lines'].map((kind) => getComputedStyle(document.querySelector(`.legend .${kind}`)))"
                            ".map((style) => [style.borderRadius, style.borderBottomWidth].join())")
        self.same(len(set(shapes)), 3, "the marks differ in shape, and not in colour alone")

    def without(self):
        """What the page says where something that it needs is not there."""
        page = self.browser.open("about:blank")
        page.ask("Page.addScriptToEvaluateOnNewDocument", source="WebAssembly.validate = () => false")
        page.go(self.address)
        page.wait("!document.getElementById('trouble').hidden")
        said = page.value("document.getElementById('trouble').textContent")
        self.same("no 64-bit WebAssembly memory; Chromium has it from 133 on" in said, True, "without 64-bit memory")

    def no_script(self):
        page = self.browser.open("about:blank")
        page.ask("Emulation.setScriptExecutionDisabled", value=True)
        page.ask("Page.navigate", url=self.address)
        names = []
        for _ in range(100):
            names = [node.get("name", {}).get("value", "") for node in page.accessible()]
            if any("Conversions" in name for name in names):
                break
            time.sleep(0.05)
        self.same(any("needs JavaScript" in name for name in names), True, "without JavaScript")

    def long_texts(self):
        """A long text: what is put into the memory for a key is counted, and not how long it takes."""
        page = self.browser.open("about:blank")
        page.ask("Page.addScriptToEvaluateOnNewDocument", source=COUNTED)
        page.go(self.address)
        page.wait("document.querySelector('#cells .char')")
        self.clear(page)
        line = 'let greeting = "Grüße, 世界 🐸"; // the frog is a pair\r\n'
        text = line * (1048576 // len(line.encode()))
        page.copy(text)
        page.value(f"{FIELD}.focus()")
        page.paste()
        size = len(text.encode())
        self.becomes(page, f"{ROWS}[0]", f"byte {size} {size} {size}", "a megabyte is pasted, with each CR LF")
        middle = len(text.encode("utf-16-le")) // 4
        page.value(f"{FIELD}.setSelectionRange({middle}, {middle})")
        before = len(text.encode("utf-16-le")[:middle * 2].decode("utf-16-le").encode())
        self.becomes(page, f"{ROWS}[0].split(' ')[1]", str(before), "a cursor in its middle")
        for what, key in [("an arrow key", ("ArrowRight", ["moveRight"])), ("a letter", ("x",))]:
            page.settle()
            page.wait("document.querySelector('.char.cursor')")
            page.value("window.put = 0")
            row = page.value(f"{ROWS}[0]")
            page.key(*key)
            page.wait(f"{ROWS}[0] !== {json.dumps(row)}")
            put = page.value("window.put")
            self.tally.result(0 < put < 262144, f"{what} in a megabyte puts {put} bytes into the memory")
        seen = (
            "(() => { const cell = document.querySelector('.char.cursor').getBoundingClientRect();"
            " const all = document.getElementById('cells').getBoundingClientRect();"
            " return cell.top >= all.top && cell.bottom <= all.bottom; })()"
        )
        page.resize(390, 700)
        page.value(f"{FIELD}.setSelectionRange(100, 100)")
        page.wait(f"{ROWS}[2].startsWith('UTF-16 unit 100 ') && document.querySelector('.char.cursor')")
        self.becomes(page, seen, True, "the cursor's cell is in view")
        told = page.value("document.getElementById('left-out').textContent")
        self.same(told.startswith("Shown are 192 chars"), True, "what is left out is told")


def try_all(browser, page_file, tally, folder):
    trial = Trial(browser, page_file, tally, folder)
    parts = [
        trial.places, trial.cells, trial.example, trial.conversions, trial.buttons, trial.pastes, trial.drops, trial.readers,
        trial.keyboard, trial.widths, trial.without, trial.no_script, trial.long_texts,
    ]
    for part in parts:
        try:
            part()
        except (RuntimeError, TimeoutError) as error:
            tally.result(False, f"{part.__name__}: {error}")
