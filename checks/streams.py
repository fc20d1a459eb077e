"""Streams of messages in frames, half of them spoiled at their end: a server gives each message its answers, and ends."""
import json
import random
import subprocess

import frames


def spoil(random_, one):
    """A frame that is none, or whose body is no JSON."""
    kind = random_.randrange(6)
    if kind == 0:
        return one[: random_.randrange(len(one))]
    if kind == 1:
        body = one.partition(b"\r\n\r\n")[2]
        return frames.frame(body[: random_.randrange(len(body))])
    if kind == 2:
        return b"Content-Length: %d\r\n\r\n" % random_.randrange(2**26 + 1, 2**70) + one
    if kind == 3:
        return b"Content-Size: 10\r\n\r\n" + one
    if kind == 4:
        return frames.frame(random_.choice((b"[", b'{"":')) * random_.randrange(1, 100000))
    return bytes(random_.randrange(256) for _ in range(random_.randrange(1, 40))) + b"\r\n\r\n" + one


def make_stream(random_, good):
    """A stream: its bytes, how many answers its messages have, and whether it is spoiled. `good` gives a message with its answers."""
    parts, answers = [], 0
    for mark in range(random_.randrange(6)):
        one, count = good(random_, mark)
        parts.append(one)
        answers += count
    is_spoiled = random_.randrange(2) == 1
    if is_spoiled:
        parts.append(spoil(random_, good(random_, 99)[0]))
    return b"".join(parts), answers, is_spoiled


def try_streams(words, good, is_answer, count, seed):
    """Gives a server so many streams, from a seed: how many it does not answer as it has to. What is spoiled has one answer at most."""
    random_ = random.Random(seed)
    wrong = 0
    for number in range(count):
        given, answers, is_spoiled = make_stream(random_, good)
        try:
            out, status = frames.session(words, given, 20)
        except subprocess.TimeoutExpired as fault:
            out, status = fault.stdout or b"", None
        found, is_whole = frames.bodies(out)
        told = sum(1 for it in found if is_answer(it))
        extra = told - answers
        if not is_whole or status not in (0, 1) or extra < 0 or extra > (1 if is_spoiled else 0):
            wrong += 1
            print("stream %d: %d answers, %d wanted, status %s" % (number, told, answers, status))
            print(json.dumps(given.decode("latin-1")))
    print("%d streams, %d wrong" % (count, wrong))
    return wrong
