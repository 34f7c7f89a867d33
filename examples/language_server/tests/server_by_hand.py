"""What the language server does with messages that are written by hand: right ones, wrong ones, and what is no message.

The codes of errors are those of JSON-RPC 2.0 and of the Language Server Protocol 3.17. The command `pytest` runs these tests.
"""
import json
import os
import random
import resource
import subprocess

import pytest
from language_client import Client, body, changed, event, frame, item, place, places_of, uri_of
from wrong_client import ABOUT_ANY, ODD, REFUSED, TOO_LONG

URI, OTHER = uri_of("a"), uri_of("b")
PARSE_ERROR, INVALID_REQUEST, NO_METHOD, INVALID_PARAMS = -32700, -32600, -32601, -32602
NOT_INITIALIZED, OUT_OF_STEP = -32002, -32803
SHOWN, LOGGED = "window/showMessage", "window/logMessage"
GREATEST = 2**31 - 1
MB = 1_000_000
# the memory by which a server may grow over a hundred thousand changes, where each text that comes goes again
GROWTH = 1 << 20
# the most memory that it has while it serves a body of 8 MB
MOST_MEMORY = 100 << 20
# the most processor time of a key, and of a thousand changes in a message: five times what is wanted, for a slow machine
A_KEY, A_THOUSAND = 5 * 0.0002, 5 * 0.2


@pytest.fixture
def client():
    with Client() as one:
        one.initialize()
        yield one


@pytest.mark.parametrize("offered, expected", [
    (None, "utf-16"), ([], "utf-16"), (["utf-32", "utf-8"], "utf-32"), (["utf-7", "utf-8"], "utf-8"), (["utf-7"], "utf-16"),
])
def test_encoding(offered, expected):
    with Client() as client:
        capabilities = client.initialize({} if offered is None else {"general": {"positionEncodings": offered}})
    assert capabilities["positionEncoding"] == expected


# Changes, each meant in the text that the one before it left.

def test_changes_and_warnings(client):
    client.open(URI, "one \r\n🐸two\r\n")
    assert client.warned(URI) == [(0, 3, 4)]
    client.change(URI, ((1, 2), (1, 3), "x\n"), ((2, 0), (2, 2), "y "))
    assert client.text(URI) == "one \r\n🐸x\ny \r\n"
    assert client.warned(URI) == [(0, 3, 4), (2, 1, 2)]
    client.change(URI, ((0, 0), (0, 1), "O"), (None, None, "a\tb "), ((0, 1), (0, 2), "-"), version=client.version)
    assert client.text(URI) == "a-b "
    assert client.warned(URI) == [(0, 3, 4)]
    client.notify("textDocument/didClose", textDocument={"uri": URI})
    assert client.warned(URI) == []


def test_warnings_are_sent_where_they_changed(client):
    """Also where only their bytes did, by which a client may keep them."""
    client.open(URI, "c\n" + "a \n" * 201 + "b" * 2000 + " " * 2000)
    assert client.warned(URI) == [(line, 1, 2) for line in range(1, 201)]
    client.warnings.clear()
    client.change(URI, ((0, 0), (0, 1), "cc"))
    assert client.warnings == {}
    client.change(URI, ((1, 0), (1, 1), "é"))
    assert client.warned(URI) == [(line, 1, 2) for line in range(1, 201)]
    client.change(URI, ((0, 0), (200, 0), ""))
    assert client.warned(URI) == [(0, 1, 2), (1, 1, 2), (2, 3000, 4000)]


def of_range(start, end):
    return {"range": {"start": place(*start), "end": place(*end)}}


BLANKS = "a \r\nb\n🐸\t \n\r  "


@pytest.mark.parametrize("method, params, places", [
    ("formatting", {"options": {}}, [(0, 1, 2), (2, 2, 4), (4, 0, 2)]),
    ("rangeFormatting", of_range((1, 0), (2, 1)), [(2, 2, 4)]),
    ("rangeFormatting", of_range((0, 1), (2, 0)), [(0, 1, 2)]),
    ("rangeFormatting", of_range((3, 0), (GREATEST, 0)), [(4, 0, 2)]),
    ("rangeFormatting", of_range((7, 0), (9, 0)), []),
])
def test_edits_take_blanks_out(client, method, params, places):
    client.open(URI, BLANKS)
    edits = client.ask(f"textDocument/{method}", URI, **params)
    assert places_of(edits) == places and all(edit["newText"] == "" for edit in edits)
    client.tell(changed(URI, [{**edit, "text": edit["newText"]} for edit in reversed(edits)], 2))
    assert client.ask(f"textDocument/{method}", URI, **params) == []


def test_code_action(client):
    client.open(URI, BLANKS)
    context = {"context": {"diagnostics": []}}
    [action] = client.ask("textDocument/codeAction", URI, **of_range((2, 0), (2, 0)), **context)
    assert action["kind"] == "quickfix" and places_of(action["edit"]["changes"][URI]) == [(2, 2, 4)]
    assert client.ask("textDocument/codeAction", URI, **of_range((1, 0), (1, 0)), **context) == []
    only = {"context": {"diagnostics": [], "only": ["refactor"]}}
    assert client.ask("textDocument/codeAction", URI, **of_range((2, 0), (2, 0)), **only) == []


@pytest.mark.parametrize("text, folds", [
    ("", []), ("a\nb", [(0, 1)]), ("a\n\nb\n", []), ("\n a\r\nb\rc\n \t\n\nd\ne\n", [(1, 3), (6, 7)]),
    ("a\r\n\r\nb\r\nc", [(2, 3)]),
])
def test_folding_ranges(client, text, folds):
    client.open(URI, text)
    assert [(one["startLine"], one["endLine"]) for one in client.ask("textDocument/foldingRange", URI)] == folds


@pytest.mark.parametrize("at, value, end", [
    ((1, 0), "byte 3\nchar 3\nUTF-16 code unit 3\nline 1", (1, 2)),
    ((1, 2), "byte 7\nchar 4\nUTF-16 code unit 5\nline 1", (1, 3)),
    ((1, 9), "byte 8\nchar 5\nUTF-16 code unit 6\nline 1", (1, 3)),
])
def test_hover(client, at, value, end):
    client.open(URI, "a\r\n🐸b")
    hover = client.ask("textDocument/hover", URI, position=place(*at))
    assert hover["contents"]["value"] == value and hover["range"]["end"] == place(*end)


# changes of "one\n🐸 two" that no client in step sends, with their version, which follows 1
OUT = {
    "the second of three ends before it starts": ([((0, 0), (0, 0), "x"), ((1, 1), (0, 0), "z"), ((0, 0), (0, 0), "y")], 2),
    "past the last line": ([((2, 1), (2, 1), "x")], 2),
    "two lines past the last one": ([((0, 0), (3, 0), "x")], 2),
    "past its line's end, and ends before it starts": ([((0, 5), (0, 4), "x")], 2),
    "inside a char": ([((1, 1), (1, 2), "x")], 2),
    "an older version": ([((0, 0), (0, 1), "x")], 0),
    "a version that is none": ([((0, 0), (0, 1), "x")], "2"),
    "a change without a text": ([((0, 0), (0, 1), "x"), ((0, 0), (0, 1), None)], 2),
    "half of a surrogate pair": ([((0, 0), (0, 1), "\\\ud83d")], 2),
}
HEALED = {
    "a whole text": lambda client: client.change(URI, (None, None, "whole"), ((0, 0), (0, 1), "W"), version=4),
    "a whole text of an older version": lambda client: client.change(URI, (None, None, "Whole"), version=-7),
    "a save": lambda client: client.save(URI, "Whole"),
    "opening": lambda client: client.open(URI, "Whole"),
}


@pytest.mark.parametrize("healed", HEALED)
@pytest.mark.parametrize("what", OUT)
def test_out_of_step(client, what, healed):
    """The client hears once that a document is out of step, and nothing is answered from it until it is healed."""
    client.open(URI, "one\n🐸 two ")
    changes, version = OUT[what]
    assert client.warned(URI) == [(1, 6, 7)]
    assert client.change(URI, *changes, version=version).count(SHOWN) == 1 and client.text(URI) == OUT_OF_STEP
    assert client.warned(URI) == []
    assert client.change(URI, ((0, 0), (0, 1), "x"), version=3) == [] and client.text(URI) == OUT_OF_STEP
    assert client.save(URI) == [] and client.text(URI) == OUT_OF_STEP
    assert HEALED[healed](client) == [] and client.text(URI) == "Whole"
    assert client.change(URI, ((0, 0), (0, 1), "w"), version=9) == [] and client.text(URI) == "whole"


@pytest.mark.parametrize("text, start, end, put, expected", [
    ("one\ntwo", (1, 0), (2, 0), "2", "one\n2"), ("one\ntwo", (2, 0), (2, 0), "!", "one\ntwo!"), ("", (0, 0), (1, 0), "x", "x"),
    ("one\n", (0, 0), (2, 0), "x", "x"), ("one\ntwo", (0, 1), (GREATEST, GREATEST), "", "o"),
    ("one\ntwo", (GREATEST, GREATEST), (GREATEST, GREATEST), "!", "one\ntwo!"), ("a\rb", (0, 0), (2, 0), "x", "x"),
    ("one\r\ntwo", (0, 9), (1, 0), "-", "one-two"), ("one\ntwo \n", (1, 1), (1, GREATEST), "", "one\nt\n"),
    ("🐸\n\n", (0, 3), (1, 5), " ", "🐸 \n"), ("one", (0, GREATEST), (0, GREATEST), "!", "one!"),
    ("a\rb", (0, 2), (0, 2), "x", OUT_OF_STEP), ("a\r\nb\r", (0, 3), (0, 3), "x", OUT_OF_STEP),
    ("one", (0, 0), (1, 1), "x", OUT_OF_STEP), ("one", (0, 0), (GREATEST, 0), "x", OUT_OF_STEP),
    ("🐸", (0, 1), (0, 9), "x", OUT_OF_STEP), ("ab\r\ncd", (0, 0), (0, 3), "", "\r\ncd"), ("a\r\nb", (0, 2), (1, 0), "", "ab"),
    ("a\r\nb", (0, 2), (0, 2), "x", "ax\r\nb"), ("a\r\nb", (0, 3), (0, 3), "x", "ax\r\nb"),
    ("a\nb", (0, 2), (0, 2), "x", "ax\nb"),
])
def test_ends(client, text, start, end, put, expected):
    """What is past the end of a text or of a line."""
    client.open(URI, text)
    client.change(URI, (start, end, put))
    assert client.text(URI) == expected


@pytest.mark.parametrize("events", [
    [{"range": {"start": {"line": 0}, "end": place(0, 1)}, "text": ""}], [{"range": 7, "text": "a"}], [{}], {}, None, 7,
    # serde takes a list for a structure
    [{"range": [[0, 0], [0, 1]], "text": ""}], [[None, "whole"]], [{"range": {"start": [0, 0], "end": [0, 1]}, "text": ""}],
])
def test_parameters_that_are_not_the_protocols(client, events):
    client.open(URI, "kept")
    assert client.tell(changed(URI, events, 2)).count(SHOWN) == 1 and client.text(URI) == OUT_OF_STEP


@pytest.mark.parametrize("version", [-7, None, "x"])
def test_a_whole_text_of_any_version(client, version):
    client.open(URI, "one")
    client.tell(changed(URI, [event((9, 0), (9, 0), "x")], 5))
    client.tell(changed(URI, [event(None, None, "whole")], version))
    client.tell(changed(URI, [event((0, 0), (0, 1), "W")], None))
    assert client.text(URI) == "Whole"


@pytest.mark.parametrize("saved, of, text, heard", [
    ("one\ntwo", None, "one\ntwo", []), (None, None, "one\ntwo", []), ("Two", None, "Two", [SHOWN]),
    # a text that the file has with other breaks, and one that has but a break more at its end
    ("2\n\n", "2\r\n\r\n", "2\n\n", [SHOWN]), ("one\ntwo\n", "else", "one\ntwo\n", [SHOWN]),
    # the part to which Emacs narrowed a buffer, also one that looks whole; and one of another text
    ("two", "one\ntwo", "one\ntwo", []), ("", "one\ntwo", "one\ntwo", []), ("\ntwo", "\r\ntwo", "one\ntwo", []),
    ("Two", "one\nTwo", OUT_OF_STEP, [SHOWN]), ("2\n3", "2\r\n3\n", OUT_OF_STEP, [SHOWN]),
    ("2\n3\n", "2\r\n3\n", OUT_OF_STEP, [SHOWN]),
])
def test_save(client, saved, of, text, heard):
    client.open(URI, "one\ntwo")
    assert client.save(URI, saved, of) == heard and client.text(URI) == text


def test_a_part_that_is_saved_heals_nothing(client):
    client.open(URI, "one\ntwo")
    client.change(URI, ((9, 0), (9, 0), "x"))
    for part in ["one", "two", "one\n", ""]:
        assert client.save(URI, part, of="one\ntwo") == [] and client.text(URI) == OUT_OF_STEP
    assert client.save(URI, "one\ntwo") == [] and client.text(URI) == "one\ntwo"


def test_a_save_under_a_new_name(client):
    """It opens the document, where the file has the text."""
    client.save(OTHER, "part", of="a part")
    assert client.text(OTHER) == INVALID_PARAMS
    client.save(OTHER, "a part")
    assert client.text(OTHER) == "a part"


def test_a_file_that_is_a_pipe_is_not_waited_for(client):
    client.open(uri_of("pipe"), "one")
    os.mkfifo(uri_of("pipe").partition("file://")[2])
    client.notify("textDocument/didSave", textDocument={"uri": uri_of("pipe")}, text="two")
    assert client.text(uri_of("pipe")) == OUT_OF_STEP


def test_a_return_alone(client):
    """The limit: an editor that takes a CR alone for no line break means other lines, and its client is told so once."""
    assert client.open(URI, "a\rb\nc ") == [LOGGED] and client.warned(URI) == [(2, 1, 2)]
    assert client.change(URI, ((1, 0), (1, 1), " ")) == [] and client.text(URI) == "a\r \nc "
    assert client.warned(URI) == [(1, 0, 1), (2, 1, 2)]
    assert client.change(URI, ((3, 1), (3, 1), "y")) == [SHOWN] and client.text(URI) == OUT_OF_STEP


@pytest.mark.parametrize("words, info, expected", [
    (["--lines", "lf"], None, "a\rb\nc"), (["--lines", "protocol"], "Neovim", OUT_OF_STEP), ([], "Neovim", "a\rb\nc"),
    ([], "Visual Studio Code", OUT_OF_STEP), ([], 7, OUT_OF_STEP),
])
def test_lines(words, info, expected):
    """What ends a line, by the command line or by who the client is: here the second CR goes from a line that an LF ends."""
    with Client(*words) as client:
        client.initialize(clientInfo={"name": info} if info else None)
        client.open(URI, "a\rb\r\nc")
        client.change(URI, ((0, 3), (0, 4), ""))
        assert client.text(URI) == expected


def test_a_client_that_asks_for_warnings():
    with Client() as client:
        assert client.initialize({"textDocument": {"diagnostic": {}}})["diagnosticProvider"]
        client.open(URI, "one \ntwo")
        report = client.ask("textDocument/diagnostic", URI)
        assert report["kind"] == "full" and places_of(report["items"]) == [(0, 3, 4)] and client.warnings == {}


@pytest.mark.parametrize("params", [{"capabilities": None}, {"processId": 1.5}, {"clientInfo": []}, {"capabilities": 7}])
def test_odd_words_of_a_client(params):
    with Client() as client:
        assert client.request("initialize", params)["result"]["capabilities"]["positionEncoding"] == "utf-16"


RIGHT = changed(URI, [event((0, 0), (0, 0), "X")], 2)
HALF = {"method": "textDocument/hover", "params": {"textDocument": {"uri": "\ud83d"}}}
# what is no frame, or is refused and may have been a change, and the code of its error; a notification without a uri is logged
WRONG = {
    "a body that is no JSON": (frame(b"{\"jsonrpc\": "), PARSE_ERROR),
    "an empty body": (frame(b""), PARSE_ERROR),
    "a body that is not UTF-8": (frame(body({"method": "\xff"}).replace(b"\\u00ff", b"\xff")), PARSE_ERROR),
    "an array that does not end": (frame(b"[" * 1000), PARSE_ERROR),
    "a body with more after it": (frame(body({"method": "x"}) + b"}"), PARSE_ERROR),
    "a length that is too small": (b"Content-Length: 9\r\n\r\n" + body({"method": "x"}), PARSE_ERROR),
    "a length that is too great": (b"Content-Length: 200\r\n\r\n" + body({"method": "x"}), PARSE_ERROR),
    "a length that is far too great": (b"Content-Length: %d\r\n\r\n{}" % TOO_LONG, INVALID_REQUEST),
    "a length with a sign": (b"Content-Length: +2\r\n\r\n{}", INVALID_REQUEST),
    "a length of no digits": (b"Content-Length: \r\n\r\n", INVALID_REQUEST),
    "two lengths": (frame(body({"method": "x"}), b"Content-Length: 7\r\n"), INVALID_REQUEST),
    "a header with no length": (b"Content-Type: x\r\n\r\n{}", INVALID_REQUEST),
    "a header line without a colon": (b"hello\r\nContent-Type: x\r\n\r\n", INVALID_REQUEST),
    "a header of 100 kB in one line": (b"x" * 100_000, INVALID_REQUEST),
    "a header of 100 kB in lines": (b"x: y\r\n" * 20_000, INVALID_REQUEST),
    "a header that is not UTF-8": (b"\xff: y\r\n\r\n", INVALID_REQUEST),
    "a body that is said to be UTF-16": (frame(body({"method": "x"}), b"Content-Type: a; charset=utf-16\r\n"), INVALID_REQUEST),
    "a batch": (frame(b"[%s]" % body({"method": "x"})), INVALID_REQUEST),
    "a change in a batch": (frame(json.dumps([{"jsonrpc": "1.0", **RIGHT}]).encode()), INVALID_REQUEST),
    "one with half a pair in a batch": (frame(b"[%s, %s]" % (body(HALF), body(RIGHT))), INVALID_REQUEST),
    "a change that is a request": (frame(body({"id": 1, **RIGHT})), NO_METHOD),
    "a change without a uri": (frame(body({"method": RIGHT["method"], "params": {}})), LOGGED),
    "a change whose method is none": (frame(body({**RIGHT, "method": 7})), INVALID_REQUEST),
}
# the same for what can be no change of a document
HARMLESS = {
    "a number": b"1", "an array of numbers": b"[1, 2]", "an empty batch": b"[]", "a thousand arrays": b"[" * 1000 + b"]" * 1000,
    "a message of JSON-RPC 1.0": b'{"jsonrpc": "1.0", "method": "x"}', "a message with no method": body({}),
    "a method that is a number": body({"method": 1, "params": "bar"}), "an id that is an object": body({"id": {}, "method": "x"}),
    "params that are a string": body({"method": "x", "params": "bar"}),
}


@pytest.mark.parametrize("what", [*WRONG, *HARMLESS])
def test_wrong(client, what):
    """Each wrong thing gets one error. If it may be a part of a change, the document is out of step, and told so."""
    data, code = WRONG.get(what) or (frame(HARMLESS[what]), INVALID_REQUEST)
    client.open(URI, "kept")
    client.write(data)
    said, text = ([code], "kept") if what in HARMLESS else ([code, SHOWN], OUT_OF_STEP)
    assert sorted(client.said(), key=str) == said and client.text(URI) == text


@pytest.mark.parametrize("healed", [lambda client: client.change(URI, (None, None, ">Xhello"), version=4),
                                    lambda client: client.save(URI, ">Xhello")], ids=["whole", "saved"])
@pytest.mark.parametrize("what", REFUSED)
def test_refused_change(client, what, healed):
    """A change in a body that is refused: its document is out of step, and another one where it does not say which."""
    client.open(URI, "hello")
    client.open(OTHER, "other")
    client.write(REFUSED[what](body(changed(URI, [event((0, 0), (0, 0), "X")], 2))))
    is_any = what in ABOUT_ANY
    assert client.said().count(SHOWN) == (2 if is_any else 1)
    assert client.change(URI, ((0, 0), (0, 0), ">"), version=3) == []
    assert [client.text(URI), client.text(OTHER)] == [OUT_OF_STEP, OUT_OF_STEP if is_any else "other"]
    assert healed(client) == [] and client.text(URI) == ">Xhello"


@pytest.mark.parametrize("what", ODD)
def test_odd_change(client, what):
    """A change in a body that has what the server does not look at, however odd, is taken."""
    client.open(URI, "hello")
    client.write(ODD[what](body(changed(URI, [event((0, 0), (0, 0), "X")], 2))))
    assert client.change(URI, ((0, 0), (0, 0), ">"), version=3) == [] and client.text(URI) == ">Xhello"


def test_one_file_that_is_not_utf_8(client):
    """It is out of step alone, though it is not open, until it is saved as UTF-8."""
    client.open(URI, "kept")
    client.write(frame(body({"method": "textDocument/didOpen", "params": item(OTHER, "Y")}).replace(b"Y", b"\xff")))
    assert SHOWN in client.said() and [client.text(URI), client.text(OTHER)] == ["kept", OUT_OF_STEP]
    assert client.change(OTHER, ((0, 0), (0, 1), "y")) == []
    assert client.save(OTHER, "y") == [] and client.text(OTHER) == "y"


# a right change, and what is left of it
CUT = frame(body(changed(OTHER, [event((0, 0), (0, 0), "X")], 2)))


@pytest.mark.parametrize("rest", [CUT[:1], CUT[:18], CUT[:40], CUT[-2:], CUT[-40:], b"}"], ids=range(6))
def test_the_rest_of_a_frame_after_a_refused_body(client, rest):
    """The body names one document; what else is no blank may have been a change of any."""
    for uri in [URI, OTHER]:
        client.open(uri, "kept")
    client.write(frame(body(RIGHT)[:-1]) + rest)
    assert client.said().count(SHOWN) == 2 and client.text(OTHER) == OUT_OF_STEP


def test_a_name_that_is_hidden(client):
    for uri in [URI, OTHER]:
        client.open(uri, "kept")
    hidden = b'"params": {"textDocument": {"\\u0075ri": "%s"}, ' % OTHER.encode()
    client.write(frame(body(RIGHT)[:-1].replace(b'"params": {', hidden)))
    assert client.said().count(SHOWN) == 2 and client.text(OTHER) == OUT_OF_STEP


def test_blanks_between_frames(client):
    client.open(URI, "a ")
    client.write(b"\r\n \n")
    assert client.warned(URI) == [(0, 1, 2)] and client.said() == [] and client.text(URI) == "a "


def test_half_a_pair_elsewhere(client):
    """A request hears of it by its id, and what is opened with it is out of step. A pair by two escapes is a char."""
    client.open(URI, "kept")
    client.send({"id": "half", **HALF})
    assert client.said() == [INVALID_PARAMS] and client.text(URI) == "kept"
    client.change(URI, ((0, 0), (0, 0), "\U0001f438"))
    assert client.text(URI) == "\U0001f438kept"
    assert SHOWN in client.open(OTHER, "\udc38") and client.text(OTHER) == OUT_OF_STEP


def test_what_is_passed_over(client):
    client.send({"id": 5, "result": None})
    client.send({"method": "$/cancelRequest", "params": {"id": 5}})
    client.send({"method": "$/unknown"})
    assert client.said() == []
    client.send({"id": None, "method": "$/unknown"})
    assert client.said() == [NO_METHOD]


@pytest.mark.parametrize("room", [16, 128])
def test_no_memory(client, room):
    """Memory is refused for a body of 64 MB, or for its message: the document is out of step."""
    client.open(URI, "hello")
    size = client.memory("VmSize") + (room << 20)
    resource.prlimit(client.server.pid, resource.RLIMIT_AS, (size, resource.RLIM_INFINITY))
    assert client.change(URI, ((0, 0), (0, 0), "x" * (64 << 20))).count(SHOWN) == 1 and client.text(URI) == OUT_OF_STEP
    client.change(URI, (None, None, "again"))
    assert client.text(URI) == "again"


# The life of a server.

def test_life():
    with Client() as client:
        hover = {"textDocument": {"uri": URI}, "position": place(0, 0)}
        error = lambda method, params=None: client.request(method, params)["error"]["code"]  # noqa: E731
        assert error("textDocument/hover", hover) == NOT_INITIALIZED
        client.open(URI, "too early")
        client.initialize()
        assert error("textDocument/rename", {}) == NO_METHOD and error("textDocument/hover", hover) == INVALID_PARAMS
        assert error("initialize", {"capabilities": {}}) == INVALID_REQUEST
        assert client.request("shutdown", None)["result"] is None
        assert error("textDocument/hover", hover) == INVALID_REQUEST
        assert client.end("exit") == 0


@pytest.mark.parametrize("method", ["exit", None])
def test_an_end_without_a_shutdown(method):
    with Client() as client:
        assert client.end(method) == 1


def test_a_last_body_that_is_cut_off(client):
    client.request("shutdown", None)
    client.write(frame(body({"method": "exit"}) + b" ")[:-1])
    assert client.end() == 1


def test_the_end_of_the_process_that_started_it():
    with subprocess.Popen(["cat"], stdin=subprocess.PIPE) as process, Client() as client:
        client.initialize(process=process.pid)
        process.stdin.close()
        process.wait()
        assert client.server.wait(timeout=60) == 1


@pytest.mark.parametrize("words, status, said", [
    (["--version"], 0, "language_server "), (["--help"], 0, "usage: "), (["--nothing"], 2, ""), (["--stdio", "x"], 2, ""),
])
def test_words(words, status, said):
    done = subprocess.run([os.environ["LANGUAGE_SERVER"], *words], capture_output=True, text=True, stdin=subprocess.DEVNULL)
    assert (done.returncode, done.stdout[:len(said)]) == (status, said)
    assert ("usage: " in done.stderr) == (status == 2)


# The small server.

SMALL = f"{os.environ['LANGUAGE_SERVER'].rpartition('/')[0]}/small_server"


def test_a_day_of_the_small_server():
    with Client(program=SMALL) as client:
        assert client.initialize()["hoverProvider"]
        client.open(URI, "a\r\n🐸b")
        client.change(URI, ((0, 1), (1, 0), "-"), ((0, 4), (0, 4), "!"))
        hover = client.ask("textDocument/hover", URI, position=place(0, 4))
        assert hover["contents"] == "byte 6, char 3, line 0"
        assert client.save(URI, "a-🐸!b") == [] and client.save(URI, "a-") == [SHOWN]
        assert client.change(URI, ((0, 0), (0, 1), ""), ((7, 0), (7, 0), "x")) == [SHOWN]
        assert client.change(URI, ((0, 0), (0, 0), "x")) == [] and client.save(URI, "a") == []
        assert client.ask("textDocument/hover", URI, position=place(0, 0)) == OUT_OF_STEP
        client.change(URI, (None, None, "ab"), ((0, 0), (0, 1), ""))
        assert client.ask("textDocument/hover", URI, position=place(0, 9))["contents"] == "byte 1, char 1, line 0"
        client.notify("textDocument/didClose", textDocument={"uri": URI})
        assert client.ask("textDocument/hover", URI, position=place(0, 0)) == OUT_OF_STEP
        assert client.request("shutdown", None)["result"] is None and client.end("exit") == 0


@pytest.mark.parametrize("data", [
    b"", b"x\r\n\r\n", b"Content-Length: x\r\n\r\n", b"\r\n{}", frame(b"{"), frame(b"{}"),
    b"Content-Length: 99999999999999\r\n\r\n{}", frame(body({"method": "textDocument/didOpen"})), b"\xff\r\n",
])
def test_what_ends_the_small_server(data):
    done = subprocess.run([SMALL], input=data, capture_output=True)
    assert done.returncode == 1 and done.stderr.startswith(b"small_server: ") and done.stdout == b""


# What it takes.

def test_changes_by_which_a_text_comes_and_goes(client):
    """The memory after fifty thousand changes is that after each fifty thousand more."""
    text, numbers, sizes = "a line of some forty bytes, with a 🐸 \n" * 20_000, random.Random(59), []
    client.open(URI, text)
    for _ in range(3):
        for _ in range(50):
            lines = [numbers.randrange(20_000) for _ in range(500)]
            client.change(URI, *[
                change for line in lines for change in [((line, 3), (line, 3), "x\n🐸 "), ((line, 3), (line + 1, 3), "")]
            ])
        sizes.append(client.memory("VmRSS"))
    assert client.text(URI) == text and sizes[2] <= sizes[0] + GROWTH


def test_a_closed_document_gives_its_memory_back(client):
    before = client.memory("VmRSS")
    client.open(URI, "a line of some forty bytes, with a 🐸 \n" * 500_000)
    client.notify("textDocument/didClose", textDocument={"uri": URI})
    client.open(OTHER, " ")
    assert client.warned(OTHER) == [(0, 0, 1)]
    assert client.memory("VmRSS") < before + 8 * MB


def big(method, params, *parts):
    """A request whose parameters have parts instead of each `..`: a text, and how often, to fill 8 MB."""
    for part in parts:
        params = params.replace(b"..", part * (8 * MB // len(part)), 1)
    return b'{"jsonrpc": "2.0", "id": "big", "method": "%s", "params": %s}' % (method, params)


def no_request(data):
    return data.replace(b'"id": "big", ', b"", 1)


def about(params):
    return b'{"textDocument": {"uri": "%s"}, %s}' % (URI.encode(), params)


EMPTY_RANGE = json.dumps(of_range((0, 0), (0, 0))["range"]).encode()


BIG = {
    "a batch of numbers": b"[%s1]" % (b"1," * (4 * MB)),
    "a batch of objects": b"[%s1]" % (b'{"a":0},' * MB),
    "members": big(b"x", b'{"a": [..1]}', b"1,"),
    "arrays": b'{"a": %s%s}' % (b"[" * (4 * MB), b"]" * (4 * MB)),
    "a method": big(b"x" * (8 * MB), b"[]"),
    "an id": big(b"x", b"[]").replace(b"big", b"x" * (8 * MB)),
    "encodings": big(b"initialize", b'{"capabilities": {"general": {"positionEncodings": [..1]}}}', b"1,"),
    "changes": no_request(big(b"textDocument/didChange", about(b'"contentChanges": [..{"text":""}]'), b'{"text":""},')),
    "changes that are none": no_request(big(b"textDocument/didChange", about(b'"contentChanges": [..1]'), b'{"text":""},')),
    "kinds": big(b"textDocument/codeAction", about(b'"range": %s, "context": {"only": [..1]}' % EMPTY_RANGE), b"1,"),
    "uris": b"\xff%s" % (b'"uri":"a",' * (8 * MB // 10)),
    "a text": body({"method": "textDocument/didOpen", "params": item(OTHER, "a \n\n" * (8 * MB // 6))}),
    "blanks": body({"method": "textDocument/didOpen", "params": item(OTHER, " \n" * (8 * MB // 3))}),
}


@pytest.mark.parametrize("what", BIG)
def test_eight_megabytes(what):
    """Of whatever they are, and of all that may be asked about them."""
    with Client() as client:
        if what != "encodings":
            client.initialize()
            client.open(URI, "x ")
        client.write(frame(BIG[what]))
        for name in ["textDocument/formatting", "textDocument/codeAction", "textDocument/foldingRange", "pauskern/text"]:
            client.ask(name, OTHER, **of_range((0, 0), (GREATEST, 0)), context={})
        assert client.memory("VmHWM") <= MOST_MEMORY


def seconds(client, messages):
    """The processor time that each message takes."""
    before = client.seconds()
    for message in messages:
        client.tell(message)
    return (client.seconds() - before) / len(messages)


@pytest.mark.parametrize("word", ["word ", "x", "\t", "🐸 "])
def test_a_line_of_five_megabytes(client, word):
    client.open(URI, word * (5 * MB // len(word.encode())))
    events = [event((0, 100 * at), (0, 100 * at), "y") for at in range(1000)]
    assert seconds(client, [changed(URI, [one], None) for one in events]) <= A_KEY
    assert seconds(client, [changed(URI, events, None)]) <= A_THOUSAND


@pytest.mark.parametrize("line", [0, 199])
def test_a_key_with_a_thousand_warnings(client, line):
    client.open(URI, "word \n" * 2000)
    keys = [event((line, 0), (line, 0), text) for text in "x\n" * 500]
    assert seconds(client, [changed(URI, [one], None) for one in keys]) <= A_KEY
