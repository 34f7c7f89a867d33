"""A client of a language server that speaks wrongly, by random numbers, between right messages.

Beside each document stands the client's text, by the model of positions in Python. Every right request must be answered
from it, or by the error that the document is out of step: never from another text, whatever stands before it: frames that
are cut, tails of frames, lengths that are wrong, junk, changes in bodies that are refused, changes that no client in step
sends, saves of a part of a text, old versions, thousands of changes in a message. The server must not end, nor be silent for
a minute, and its memory must stay below a bound. The command `pytest` runs this.
"""
import collections
import json
import random
import re

import pytest
from language_client import Client, body, changed, event, frame, item, place, places_of, uri_of, write_file
from position_model import Lines
from tally import least

# drawn anew for each run
SEEDS = random.SystemRandom().sample(range(2**32), 3)
# how many messages are sent by each
MESSAGES = 100_000
# the most memory that the server has at any time
MOST_MEMORY = 32 << 20
URIS = [uri_of(name) for name in "abcde"]
LONGEST = 1000
OUT_OF_STEP, NO_DOCUMENT, NO_METHOD = -32803, -32602, -32601
PIECES = ["a", "word", " ", "  ", "\t", "é", "せ", "🐸", "\n", "\r\n", "\r", "\u2028", "\"", "\\", "\0"]
BLANKS = re.compile("[ \t]+$")
LONE_RETURN = re.compile("\r(?!\n)")
# the greatest number of the protocol
GREATEST = 2**31 - 1
JUNK = [
    b"\r\n", b"\n", b"x: y\r\n", b"Content-Length: ", b"Content-Length: 7\r\n", b"Content-Length: 30\r\n\r\n",
    b"Content-Length: -1\r\n\r\n", b"Content-Length: 99999999999999999999\r\n\r\n", b"Content-Length: 100000000\r\n\r\n",
    b"\xff\xfe", b"\0", b"{}", b"[", b"]", b"\"", b"{\"jsonrpc\": \"2.0\", \"id\": 1", b"junk", b":", b"Content-Len",
    b"Content-Length: 2\r\n\r\n{}", b"\x1b[31m", b"[[[[[[[[[[[[",
]
WRONG_JSON = [
    b"", b"{", b"nil", b"\xff", b"[" * 5000, b"{}", b"[]", b"7", b"null", b"\"x\"", b"[1, [2]]", b'{"jsonrpc": "2.0"}',
    b'{"jsonrpc": "2.0", "id": [], "method": "x"}', b'{"jsonrpc": "2.0", "method": 7}', b'[{"jsonrpc": "2.0", "method": "x"}]',
    b'{"jsonrpc": "2.0", "id": 1e400}', b'{"jsonrpc": "2.0", "method": "textDocument/didChange"}',
    b'{"jsonrpc": "2.0", "method": "textDocument/didOpen", "params": []}',
]
IN_STEP, DOUBTFUL, LOST = range(3)
# more bytes than the server takes in a body
TOO_LONG = 257 << 20


def with_member(content, member):
    return content[:-1] + b", " + member + b"}"


# by name, what makes a frame that is refused of a change's body
REFUSED = {
    "a byte that is not UTF-8": lambda content: frame(with_member(content, b"\"x\": \"\xff\"")),
    "a TAB in a string": lambda content: frame(with_member(content, b"\"x\": \"\t\"")),
    "no jsonrpc": lambda content: frame(content.replace(b"\"jsonrpc\": \"2.0\", ", b"", 1)),
    "two methods": lambda content: frame(with_member(content, b"\"method\": \"textDocument/didChange\"")),
    "a length that is one too small": lambda content: frame(content).replace(b"%d" % len(content), b"%d" % (len(content) - 1), 1),
    "a body that is said to be Latin 1": lambda content: frame(content, b"Content-Type: a; charset=latin1\r\n"),
    "a body that is too long": lambda content: b"Content-Length: %d\r\n\r\n" % TOO_LONG + content,
    "half of a surrogate pair": lambda content: frame(content.replace(b"\"text\": \"", b"\"text\": \"\\ud83d", 1)),
    "a batch": lambda content: frame(b"[%s]" % content),
}
# those whose bytes do not say which document they change
ABOUT_ANY = ["a body that is too long", "a length that is one too small", "two methods"]
# and what makes a frame that is taken, with what the server does not look at
ODD = {
    "a member nested 200 deep": lambda content: frame(with_member(content, b"\"x\": " + b"[" * 200 + b"]" * 200)),
    "a number out of range": lambda content: frame(with_member(content, b"\"x\": 1e999")),
    "half of a surrogate pair in a member": lambda content: frame(with_member(content, b"\"x\": \"\\ud83d\"")),
    "a member twice": lambda content: frame(with_member(content, b"\"x\": 1, \"x\": 2")),
    "a type": lambda content: frame(content, b"Content-Type: application/vscode-jsonrpc; charset=utf8\r\n"),
}


class Document:
    """The client's text of a document, its last version, and whether the server may be in step with it.

    It is doubtful after what may have been a change of any document: then the answer is the text or the error.
    """

    def __init__(self, uri):
        self.uri = uri
        self.named = {"textDocument": {"uri": uri}}
        self.is_open = False
        self.text = ""
        self.version = 0
        # the last version that the server took, where that is known
        self.taken = None
        self.state = IN_STEP

    def expected(self, of_text=lambda text: text):
        """What a request may be answered with: something of the text, or the code of an error."""
        if not self.is_open:
            return [NO_DOCUMENT]
        right = of_text(self.text)
        return [[right], [right, OUT_OF_STEP], [OUT_OF_STEP]][self.state]

    def warnings(self):
        """What the server may have told of it last."""
        return [[] if isinstance(one, int) else one for one in self.expected(warnings_of)]


def units(text):
    return len(text.encode("utf-16-le")) // 2


def warnings_of(text):
    """The places of blanks at the end of lines."""
    found = []
    for line, content in enumerate(re.split("\r\n|\r|\n", text)):
        blanks = BLANKS.search(content)
        if blanks:
            found.append((line, units(content[: blanks.start()]), units(content)))
    return found


def is_whole(events):
    """Whether the text after some changes is known whatever it was before."""
    return any("range" not in one for one in events)


class WrongClient(Client):
    def __init__(self, seed):
        super().__init__()
        self.random = random.Random(seed)
        self.documents = [Document(uri) for uri in URIS]
        # by the number of each request that is not answered yet, what it must be answered with
        self.wanted = {}
        self.counts = collections.Counter()
        self.initialize()

    def write(self, data):
        self.counts["messages"] += 1
        super().write(data)

    def ask_for(self, method, params, expected):
        """A request, whose answer must be one of those expected."""
        self.number += 1
        self.wanted[self.number] = expected
        self.send({"id": self.number, "method": method, "params": params})

    # right messages

    def ask_for_text(self, document):
        self.ask_for("pauskern/text", document.named, document.expected())

    def ask_for_hover(self, document):
        at = self.random.randrange(30), self.random.randrange(30)
        expected = document.expected(lambda text: f"byte {Lines(text).byte(at, 16)}")
        self.ask_for("textDocument/hover", {**document.named, "position": place(*at)}, expected)

    def ask_for_edits(self, document):
        self.ask_for("textDocument/formatting", document.named, document.expected(warnings_of))

    def ask_for_nothing(self, _=None):
        self.ask_for(self.random.choice(["$/x", "textDocument/rename", "é", ""]), {}, [NO_METHOD])

    def random_text(self, most):
        """Some pieces; three of four texts have no CR that stands alone."""
        text = "".join(self.random.choice(PIECES) for _ in range(self.random.randrange(most)))
        return text if self.random.randrange(4) == 0 else LONE_RETURN.sub("", text)

    def open(self, document):
        document.is_open, document.text, document.state = True, self.random_text(200), IN_STEP
        document.version = document.taken = 1
        self.send({"method": "textDocument/didOpen", "params": item(document.uri, document.text)})

    def close(self, document):
        document.is_open = False
        self.send({"method": "textDocument/didClose", "params": document.named})

    def byte(self, data):
        """A place of a text: a byte where a char begins, and not between CR and LF."""
        byte = self.random.randrange(len(data) + 1)
        while byte < len(data) and data[byte] & 0xC0 == 0x80:
            byte += 1
        return byte - (byte > 0 and data[byte - 1:byte + 1] == b"\r\n")

    def right_change(self, text):
        """A random change that names places, and the text after it."""
        if self.random.randrange(12) == 0 or len(text) > LONGEST:
            return event(None, None, whole := self.random_text(200)), whole
        lines, has_return = Lines(text), LONE_RETURN.search(text) is not None
        data = lines.data
        start, end = sorted([self.byte(data), self.byte(data)])
        if self.random.randrange(2) == 0:
            end = start
        said = self.random.choice(self.ways(lines, end, has_return))
        # where both are one place they are said alike, so that the end is not said before the start
        start_said = said if start == end else self.ways(lines, start, has_return)[0]
        put = self.random_text(20)
        return event(start_said, said, put), (data[:start] + put.encode() + data[end:]).decode()

    def ways(self, lines, byte, has_return):
        """How a client may say a place: an end of a line, or of the text, also by a position past it."""
        line, character = place = lines.position(byte, 16)
        ways = [place, place]
        if byte == len(lines.data):
            ways += [(len(lines.lines), 0), (GREATEST, GREATEST)]
        if byte == lines.end(line) and not has_return:
            ways += [(line, character + self.random.randrange(1, LONGEST))]
        return ways

    def changed(self, document, events, version):
        self.counts["changes"] += len(events)
        content = body(changed(document.uri, events, version))
        self.write(self.random.choice(list(ODD.values()))(content) if self.random.randrange(8) == 0 else frame(content))

    def right_changes(self, document):
        """Some right changes of a document. Where the server is out of step, it refuses ranges, and takes a whole text."""
        document.version += self.random.choice([1, 1, 1, 5])
        events = []
        for _ in range(self.random.choice([1, 1, 1, 2, 5, 20])):
            one, document.text = self.right_change(document.text)
            events.append(one)
        return events

    def change(self, document):
        events = self.right_changes(document)
        version = self.random.choice([document.version, document.version, None])
        if is_whole(events):
            document.state = IN_STEP
        if document.state == IN_STEP and (version or is_whole(events)):
            document.taken = version
        self.changed(document, events, version)

    def heal(self, _):
        """A save for each document that may be out of step, or a whole text, of any version."""
        for document in self.documents:
            if document.is_open and document.state != IN_STEP:
                document.state = IN_STEP
                if self.random.randrange(2) == 0:
                    self.save(document)
                else:
                    document.version = document.taken = self.random.randrange(20)
                    self.changed(document, [event(None, None, document.text)], document.version)

    def save(self, document):
        document.state, document.taken = IN_STEP, None
        self.send_save(document, document.text)

    def save_part(self, document):
        """The file has the whole text, and the message a part of it, which heals nothing."""
        self.counts["parts"] += 1
        start, end = sorted(self.random.randrange(len(document.text) + 1) for _ in range(2))
        part = document.text[start:end]
        if part == document.text:
            document.state, document.taken = IN_STEP, None
        self.send_save(document, part)

    def send_save(self, document, text):
        write_file(document.uri, document.text)
        self.send({"method": "textDocument/didSave", "params": {**document.named, "text": text}})
        # the file must not be another before the server has read it
        self.settle()

    def many_changes(self, document):
        """Thousands of changes that leave the text as it was."""
        document.version += 1
        self.changed(document, [event((0, 0), (0, 0), "xy"), event((0, 0), (0, 2), "")] * 1000, document.version)

    # wrong messages

    def wrong_change(self, document):
        """A change that no client in step sends: the document is out of step."""
        document.version += 1
        self.counts["refused changes"] += 1
        events, version = self.refused_events(document), document.version
        if self.random.randrange(4) == 0:
            old = [document.taken - 1, -5] if document.state == IN_STEP and document.taken is not None else []
            events, version = [event((0, 0), (0, 0), "x")], self.random.choice([*old, "7", 1.5])
            document.version -= 1
        document.state = LOST
        self.changed(document, events, version)

    def refused_events(self, document):
        one = self.random.choice([
            event((0, 1), (0, 0), "x"), event((9, 0), (2, 7), "x"), event((0, 0), (LONGEST * 9, GREATEST), "x"),
            event((LONGEST * 9, 0), (LONGEST * 9, 0), "x"), event((0, 0), (GREATEST, 0), "x"),
            {"range": 7, "text": "x"}, {"range": {"start": {"line": -1, "character": 0}}, "text": "x"}, {"text": 7}, {}, 7, None,
            {"range": {"start": {"line": 0, "character": 0}, "end": {"line": 2**70, "character": 0}}, "text": "x"},
        ])
        right = self.right_change(document.text)[0]
        return self.random.choice([[one], [right, one], [right, one, event((0, 0), (0, 0), "y")]])

    def doubt(self):
        """What is sent may be a change of any document."""
        for document in self.documents:
            document.state = max(document.state, DOUBTFUL)

    def refused_body(self, document):
        """A right change in a body that is refused, and a change and a question after it."""
        name, refused = self.random.choice(list(REFUSED.items()))
        if name in ABOUT_ANY:
            self.doubt()
        self.counts["refused changes"] += 1
        # after what is refused, the server finds a frame by its length, and reads no other line before that one
        self.ask_for_nothing()
        events = self.right_changes(document)
        document.state = LOST
        self.write(refused(body(changed(document.uri, events, document.version))))
        if self.random.randrange(4) == 0:
            self.cut_frame(self.random.choice([other for other in self.documents if other.is_open]))
        self.change(document)
        self.ask_for_text(document)

    def cut_frame(self, document):
        """A right change's frame with a part of it cut out, its head or tail, or a length that is wrong."""
        self.doubt()
        events = self.right_changes(document)
        # a cut in the header may leave the frame as right as it was
        document.state = DOUBTFUL if is_whole(events) else document.state
        whole = frame(body(changed(document.uri, events, document.version)))
        at = self.random.randrange(1, len(whole))
        cut = self.random.randrange(1, 30)
        self.write(self.random.choice([
            whole[:at], whole[at:], whole[:at] + whole[at + cut:], whole.replace(b": ", b": 1", 1), whole[:at] + whole[at + 1:],
        ]))
        self.change(document)
        self.ask_for_text(document)

    def junk(self, document):
        pieces = [self.random.choice(JUNK) for _ in range(self.random.randrange(1, 12))]
        if self.random.randrange(8) == 0:
            pieces.append(bytes(self.random.randrange(256) for _ in range(self.random.randrange(6000))))
        self.doubt()
        self.write(b"".join(pieces))
        self.change(document)
        self.ask_for_text(document)

    def wrong_json(self, _):
        self.doubt()
        self.write(frame(self.random.choice(WRONG_JSON)))

    # what each is done to a document that is open, or closed too
    OPEN = [change, change, change, change, save, save_part, ask_for_hover, ask_for_edits]
    ANY = [ask_for_text, ask_for_text, ask_for_hover, ask_for_nothing, ask_for_edits, open, open, close, heal, heal]
    WRONG = [wrong_change, refused_body, refused_body, cut_frame, cut_frame, junk, junk, wrong_json]

    def step(self):
        document = self.random.choice(self.documents)
        kind = self.random.choices([[WrongClient.many_changes], self.WRONG, self.OPEN, self.ANY], [1, 33, 33, 33])[0]
        if not document.is_open and kind is not self.ANY:
            self.open(document)
        self.random.choice(kind)(self, document)

    # what comes back

    def compare(self, message):
        """Looks whether an answer is one of those that it may be."""
        expected = self.wanted.pop(message["id"])
        result = message.get("result")
        if "error" in message:
            answer = message["error"]["code"]
        elif isinstance(result, list):
            answer = places_of(result)
        else:
            answer = result["text"] if "text" in result else result["contents"]["value"].partition("\n")[0]
        self.counts["answers"] += 1
        self.counts["texts"] += isinstance(answer, str)
        assert answer in expected

    def settle(self):
        """Waits for the answers to all right requests, before which warnings are sent."""
        self.ask_for_nothing()
        while self.wanted:
            message = self.next_message()
            if message.get("id") in self.wanted:
                self.compare(message)
        for document in self.documents:
            assert self.warned(document.uri) in document.warnings()


@pytest.mark.parametrize("seed", SEEDS)
def test_a_client_that_speaks_wrongly(seed, capsys):
    with WrongClient(seed) as client:
        while client.counts["messages"] < MESSAGES:
            for _ in range(50):
                client.step()
            client.settle()
        assert client.memory("VmHWM") <= MOST_MEMORY
        assert client.request("shutdown", None)["result"] is None and client.end("exit") == 0
    with capsys.disabled():
        print(f"seed {seed}: {json.dumps(client.counts)}")
    for what in ["answers", "texts", "changes", "refused changes", "parts"]:
        assert client.counts[what] >= least(f"{what} of wrong_client.py")
