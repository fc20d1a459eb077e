"""The wire of the Language Server Protocol: requests, notifications, and a server that is talked to."""
import os
import sys

sys.path.append(os.path.dirname(os.path.dirname(os.path.abspath(__file__))))
import frames  # noqa: E402
from frames import bodies, frame, framed  # noqa: E402, F401


def program(words):
    """The program that is tried."""
    return frames.program(words, "checks/lsp")


def message(method, params, mark=None):
    """A request, where it has a mark, or else a notification, in its frame."""
    it = {"jsonrpc": "2.0", "method": method, "params": params}
    if mark is not None:
        it["id"] = mark
    return framed(it)


def session(program, stream, seconds=60):
    """What the server writes on a stream, and its status."""
    return frames.session([program, "lsp"], stream, seconds)


class Server(frames.Server):
    """A server that is talked to, one message after another."""

    def __init__(self, program):
        super().__init__([program, "lsp"])
        self.mark = 0
        self.told = {}

    def tell(self, method, params):
        """A notification."""
        self.send({"jsonrpc": "2.0", "method": method, "params": params})

    def ask(self, method, params):
        """A request: its answer. Diagnostics that come before it are kept."""
        self.mark += 1
        self.send({"jsonrpc": "2.0", "method": method, "params": params, "id": self.mark})
        while True:
            it = self.read()
            if it.get("id") == self.mark:
                return it
            self.keep(it)

    def keep(self, it):
        """Keeps the diagnostics of a text."""
        if it.get("method") == "textDocument/publishDiagnostics":
            self.told[it["params"]["uri"]] = it["params"]["diagnostics"]

    def open(self, uri, text):
        """Opens a text: its diagnostics."""
        self.tell("textDocument/didOpen", {"textDocument": {"uri": uri, "languageId": "mmixal", "version": 1, "text": text}})
        return self.diagnostics(uri)

    def change(self, uri, text):
        """Changes a text: its diagnostics."""
        self.tell("textDocument/didChange", {"textDocument": {"uri": uri, "version": 2}, "contentChanges": [{"text": text}]})
        return self.diagnostics(uri)

    def diagnostics(self, uri):
        """The diagnostics that come next for a text."""
        self.told.pop(uri, None)
        while uri not in self.told:
            self.keep(self.read())
        return self.told[uri]

    def at(self, method, uri, line, column, **more):
        """A request about a place."""
        return self.ask("textDocument/" + method, {"textDocument": {"uri": uri}, "position": {"line": line, "character": column}, **more})

    def end(self):
        """The status after shutdown and exit."""
        self.ask("shutdown", None)
        self.tell("exit", None)
        return self.close()
