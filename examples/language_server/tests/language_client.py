"""A client of the language server that the environment variable LANGUAGE_SERVER names, and what it sends."""
import json
import os
import pathlib
import queue
import re
import subprocess
import tempfile
import threading

# no answer takes so long, in seconds
PATIENCE = 60
# where the files of documents are
FILES = tempfile.TemporaryDirectory()


class Client:
    """Runs the server, sends messages, and takes what comes."""

    def __init__(self, *words, program=None):
        command = [program or os.environ["LANGUAGE_SERVER"], *words]
        self.server = subprocess.Popen(command, stdin=subprocess.PIPE, stdout=subprocess.PIPE, stderr=subprocess.DEVNULL)
        self.came = queue.Queue()
        threading.Thread(target=self.read, daemon=True).start()
        self.number = 0
        self.version = 1
        # what the server told since it was looked at last, beside responses and warnings, and by document the warnings
        self.told = []
        self.warnings = {}

    def __enter__(self):
        return self

    def __exit__(self, *_):
        self.server.kill()
        self.server.wait()
        self.server.stdin.close()

    def read(self):
        """Puts the server's messages into the queue, and None at the end."""
        with self.server.stdout as output:
            while True:
                lines = list(iter(lambda: output.readline().strip(), b""))
                if not lines:
                    return self.came.put(None)
                self.came.put(json.loads(output.read(int(lines[0].partition(b":")[2]))))

    def next_message(self):
        """The next message of the server, or an empty one for warnings, which are kept; an error where it has ended."""
        message = self.came.get(timeout=PATIENCE)
        if message is None:
            raise EOFError(f"the server ended, with {self.server.wait()}")
        if message.get("method") == "textDocument/publishDiagnostics":
            self.warnings[message["params"]["uri"]] = message["params"]["diagnostics"]
            return {}
        return message

    def write(self, data):
        """Sends bytes, whatever they are."""
        self.server.stdin.write(data)
        self.server.stdin.flush()

    def send(self, message):
        self.write(frame(body(message)))

    def request(self, method, params):
        """The response with the request's number. What the server tells before it is kept."""
        self.number += 1
        self.send({"id": self.number, "method": method, "params": params})
        while True:
            message = self.next_message()
            if message.get("id") == self.number:
                return message
            self.told.append(message)

    def ask(self, method, uri, **params):
        """The result of a request about a document, or the code of the error."""
        answer = self.request(method, {"textDocument": {"uri": uri}, **params})
        return answer["result"] if "result" in answer else answer["error"]["code"]

    def text(self, uri):
        """What the server has of a document, or the code of the error."""
        answer = self.ask("pauskern/text", uri)
        return answer["text"] if isinstance(answer, dict) else answer

    def said(self):
        """What the server told since it was asked last: of messages their methods, and of errors the codes."""
        self.request("pauskern/nothing", None)
        told, self.told = self.told, []
        return [message.get("method") or message["error"]["code"] for message in told if message]

    def warned(self, uri):
        """The places of a document's warnings, as the server told them last: before it answered a request."""
        return places_of(self.warnings.get(uri, []))

    def tell(self, message):
        """Sends a notification, and answers what the server says."""
        self.send(message)
        return self.said()

    def notify(self, method, **params):
        return self.tell({"method": method, "params": params})

    def initialize(self, capabilities=None, process=None, **more):
        params = {"processId": process, "rootUri": None, "capabilities": capabilities or {}, **more}
        return self.request("initialize", params)["result"]["capabilities"]

    def open(self, uri, text):
        return self.notify("textDocument/didOpen", **item(uri, text))

    def change(self, uri, *changes, version=None):
        """Sends changes, each a start and an end by line and offset, or None twice for the whole text, and a text."""
        self.version += 1
        return self.tell(changed(uri, [event(*change) for change in changes], self.version if version is None else version))

    def save(self, uri, text=None, of=None):
        """Tells that a document was saved, with its text or without; the text may be a part of what the file has."""
        if text is not None:
            write_file(uri, text if of is None else of)
        return self.notify("textDocument/didSave", textDocument={"uri": uri}, **({} if text is None else {"text": text}))

    def memory(self, name):
        """The server's memory, in bytes, by its name in /proc."""
        status = pathlib.Path(f"/proc/{self.server.pid}/status").read_text(encoding="utf-8")
        return int(re.search(rf"{name}:\s+(\d+) kB", status)[1]) << 10

    def seconds(self):
        """The processor time that the server took."""
        fields = pathlib.Path(f"/proc/{self.server.pid}/stat").read_text(encoding="utf-8").rpartition(")")[2].split()
        return sum(map(int, fields[11:13])) / os.sysconf("SC_CLK_TCK")

    def end(self, method=None):
        """Sends a last notification, or none, and answers the server's exit status."""
        if method:
            self.send({"method": method})
        self.server.stdin.close()
        return self.server.wait(timeout=PATIENCE)


def uri_of(name):
    return f"file://{FILES.name}/{name}"


def write_file(uri, text):
    pathlib.Path(uri.partition("file://")[2]).write_bytes(text.encode())


def body(message):
    return json.dumps({"jsonrpc": "2.0", **message}).encode()


def frame(content, header=b""):
    """A frame with a body, and more lines in its header."""
    return b"%sContent-Length: %d\r\n\r\n%s" % (header, len(content), content)


def item(uri, text):
    """The parameters that open a document."""
    return {"textDocument": {"uri": uri, "languageId": "text", "version": 1, "text": text}}


def place(line, character):
    return {"line": line, "character": character}


def event(start, end, text):
    """One change, as the protocol has it."""
    return {"text": text} if start is None else {"range": {"start": place(*start), "end": place(*end)}, "text": text}


def changed(uri, events, version):
    """The message that tells changes of a document."""
    params = {"textDocument": {"uri": uri, "version": version}, "contentChanges": events}
    return {"method": "textDocument/didChange", "params": params}


def places_of(found):
    """The lines of warnings or edits, and where their ranges begin and end there."""
    ranges = [one["range"] for one in found]
    return [(one["start"]["line"], one["start"]["character"], one["end"]["character"]) for one in ranges]
