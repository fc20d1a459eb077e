"""The wire of the Debug Adapter Protocol: requests, and an adapter that is talked to."""
import os
import re
import sys

sys.path.append(os.path.dirname(os.path.dirname(os.path.abspath(__file__))))
import frames  # noqa: E402
from frames import HERE, bodies, framed, least  # noqa: E402, F401


def program(words):
    """The program that is tried."""
    return frames.program(words, "checks/dap")


def request(seq, command, arguments=None):
    """A request; one without arguments has no such member."""
    it = {"seq": seq, "type": "request", "command": command}
    if arguments is not None:
        it["arguments"] = arguments
    return it


def octa_of(text):
    """The octa that a value is shown as: by its hexadecimal digits where there are some, and else as a decimal number."""
    shown = re.search(r"#([0-9a-f]+)", text)
    return int(shown[1], 16) if shown else int(re.match(r"-?\d+", text)[0]) % 2**64


class Failed(Exception):
    """A request that was answered without success."""


class Adapter(frames.Server):
    """An adapter that is talked to, one request after another. `seen` is called with each message, and whether the adapter sent it."""

    def __init__(self, program, seen=lambda message, is_told: None, **more):
        super().__init__([program, "dap"], **more)
        self.seq = 0
        self.seen = seen
        self.events = []
        self.outputs = []

    def take(self):
        """The next message. The events with output are kept apart, too."""
        it = self.read()
        self.seen(it, True)
        if it["type"] == "event" and it["event"] == "output":
            self.outputs.append(it)
        return it

    def written(self, category="stdout"):
        """What was told of a category of output."""
        return "".join(it["body"]["output"] for it in self.outputs if it["body"].get("category") == category)

    def ask(self, command, arguments=None):
        """A request: its answer. Events that come before it are kept."""
        self.seq += 1
        it = request(self.seq, command, arguments)
        self.seen(it, False)
        self.send(it)
        while True:
            it = self.take()
            if it["type"] == "response":
                if it["request_seq"] != self.seq or it["command"] != command:
                    raise ValueError("an answer to another request: %s" % it)
                return it
            self.events.append(it)

    def want(self, command, arguments=None):
        """The body of an answer with success."""
        answer = self.ask(command, arguments)
        if not answer["success"]:
            raise Failed("%s %s: %s" % (command, arguments, answer.get("message")))
        return answer.get("body", {})

    def wait(self, *names):
        """The next event of one of some names, and what comes before it is dropped."""
        while True:
            it = self.events.pop(0) if self.events else self.take()
            if it["type"] == "event" and it["event"] in names:
                return it

    def begin(self, source, **more):
        """Launches a program up to the event after which it is set up."""
        self.want("initialize", {"adapterID": "mmix", "linesStartAt1": True, "columnsStartAt1": True, "pathFormat": "path"})
        self.want("launch", {"program": source, **more})
        self.wait("initialized")

    def start(self):
        """Ends the setting up: the first stop."""
        self.want("configurationDone")
        return self.wait("stopped")["body"]

    def go(self, command, **arguments):
        """Goes to another step: the stop."""
        self.events.clear()
        self.want(command, {"threadId": 1, **arguments})
        return self.wait("stopped", "terminated").get("body", {})

    def top(self):
        """The innermost frame."""
        return self.want("stackTrace", {"threadId": 1, "startFrame": 0, "levels": 1})["stackFrames"][0]

    def value(self, expression, **more):
        """The text of a value."""
        return self.want("evaluate", {"expression": expression, **more})["result"]

    def scopes(self):
        """The scopes of the innermost frame: the reference of each by its name."""
        return {it["name"]: it["variablesReference"] for it in self.want("scopes", {"frameId": self.top()["id"]})["scopes"]}

    def variables(self, reference):
        """The variables of a reference."""
        return self.want("variables", {"variablesReference": reference})["variables"]

    def end(self):
        """The status after `disconnect`."""
        self.want("disconnect", {})
        return self.close()
