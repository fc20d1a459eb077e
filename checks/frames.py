"""Messages in frames, as the Language Server Protocol and the Debug Adapter Protocol have them, and servers that are talked to."""
import json
import os
import subprocess
import sys
import threading
import time

HERE = os.path.dirname(os.path.dirname(os.path.abspath(__file__)))


def program(words, part):
    """The program that is tried: the first word, or the one that is kept, if it is that of these sources. Without one nothing is tried."""
    if words:
        return os.path.abspath(words[0])
    ready = "here=$PWD tool=mmixview; . packaging/kept.sh; is_ready"
    if subprocess.run(["sh", "-c", ready], cwd=HERE, stdout=subprocess.DEVNULL, stderr=subprocess.DEVNULL).returncode == 0:
        return os.path.join(HERE, ".built", "mmixview")
    print("%s: mmixview is not built; nothing is tried" % part)
    sys.exit(0)


def frame(body):
    """The frame of a body."""
    return b"Content-Length: %d\r\n\r\n" % len(body) + body


def framed(message):
    """The frame of a message."""
    return frame(json.dumps(message).encode())


def bodies(stream):
    """The bodies of the frames of a stream, and whether it ends after one."""
    found = []
    while stream:
        head, between, rest = stream.partition(b"\r\n\r\n")
        if not between:
            return found, False
        fields = dict(line.split(b": ", 1) for line in head.split(b"\r\n"))
        length = int(fields[b"Content-Length"])
        if len(rest) < length:
            return found, False
        found.append(json.loads(rest[:length]))
        stream = rest[length:]
    return found, True


def session(words, stream, seconds=60):
    """What a server writes on a stream, and its status."""
    run = subprocess.run(words, input=stream, stdout=subprocess.PIPE, stderr=subprocess.PIPE, timeout=seconds)
    return run.stdout, run.returncode


class Server:
    """A server that is talked to, one message after another. It is ended after some seconds, so that no read waits for ever."""

    def __init__(self, words, seconds=120, **more):
        self.run = subprocess.Popen(words, stdin=subprocess.PIPE, stdout=subprocess.PIPE, **more)
        self.clock = threading.Timer(seconds, self.run.kill)
        self.clock.daemon = True
        self.clock.start()

    def send(self, message):
        """Sends a message."""
        self.run.stdin.write(framed(message))
        self.run.stdin.flush()

    def read(self):
        """The next message of the server."""
        length = None
        while True:
            line = self.run.stdout.readline()
            if not line:
                raise EOFError
            if line == b"\r\n":
                break
            name, value = line.split(b":", 1)
            if name.lower() == b"content-length":
                length = int(value)
        return json.loads(self.run.stdout.read(length))

    def close(self):
        """Ends the input: the status."""
        self.run.stdin.close()
        status = self.run.wait(10)
        self.run.stdout.close()
        self.clock.cancel()
        return status


def held(server):
    """How many kilobytes a server holds."""
    with open("/proc/%d/status" % server.run.pid, encoding="ascii") as status:
        for line in status:
            if line.startswith("VmRSS:"):
                return int(line.split()[1])
    return 0


def least(count, call):
    """The least time of some calls, in milliseconds."""
    best = None
    for _ in range(count):
        begun = time.perf_counter()
        call()
        took = (time.perf_counter() - begun) * 1000
        best = took if best is None or took < best else best
    return best
