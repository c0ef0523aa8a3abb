#!/usr/bin/env python3
"""Runs the script that standard input holds: prints each line that is not passed over, with its answer.

A script begins on the fabric of one node without links; with --shuttle it begins on the shuttle.
"""

import re
import sys

from model import Listed, Mesh, Plan, Refused
from planfile import Fault, load, set_listed, write
from shuttle import Shuttle


class Session:
    """The plan that a script works on, and the words of its answers."""

    def __init__(self, fabric):
        self.plan = Plan(fabric)

    def begin(self, fabric):
        self.plan = Plan(fabric)
        return f"READY {fabric.nodes} {fabric.links}"

    def fabric_mesh(self, columns, rows, delay):
        return self.begin(Mesh(columns, rows, delay))

    def fabric_listed(self, data):
        return self.begin(set_listed(data))

    def offer_task(self, **task):
        self.plan.offer_task(task)
        return "TAKEN"

    def offer_message(self, **message):
        self.plan.offer_message(message)
        return "TAKEN"

    def place_task(self, **task):
        return f"PLACED {self.plan.place_task(task)}"

    def place_message(self, **message):
        return f"PLACED {self.plan.place_message(message)}"

    def drop_task(self, name):
        self.plan.drop_task(name)
        return "DROPPED"

    def drop_message(self, name):
        self.plan.drop_message(name)
        return "DROPPED"

    def load(self, data):
        tasks, messages = load(self.plan, data)
        return f"LOADED {tasks} {messages}"

    def write(self, room):
        part = write(self.plan, room)
        return f"WRITTEN {len(part)} {part.hex().upper()}"

    def slack(self, name):
        return f"SLACK {self.plan.slack(name)}"

    def holder_core(self, core, instant):
        return held_or_free(self.plan.core_holder(core, instant))

    def holder_link(self, link, instant):
        return held_or_free(self.plan.link_holder(link, instant))


def held_or_free(found):
    return "FREE" if found is None else "HELD {} {}".format(*found)


# ---- reading


class Unread(Exception):
    """A line that is no call."""


def read_number(text, bits):
    if not re.fullmatch(rb"[0-9]+", text):
        raise Unread
    digits = text.lstrip(b"0") or b"0"
    # 2 to the 64th has 20 digits
    if len(digits) > 20 or int(digits) >= 1 << bits:
        raise Unread
    return int(digits)


def numbers(**fields):
    """The reader of the named numbers, each of so many bits."""

    def read(text):
        words = text.split(b" ")
        if len(words) != len(fields):
            raise Unread
        return {field: read_number(word, bits) for word, (field, bits) in zip(words, fields.items())}

    return read


def hexadecimal(text):
    """The reader of bytes."""
    if not re.fullmatch(rb"(?:[0-9A-Fa-f]{2})*", text):
        raise Unread
    return {"data": bytes.fromhex(text.decode())}


# The words in front, the call, and the reader of what follows.
LINES = [
    (b"fabric mesh ", Session.fabric_mesh, numbers(columns=8, rows=8, delay=8)),
    (b"fabric listed ", Session.fabric_listed, hexadecimal),
    (b"offer task ", Session.offer_task, numbers(name=16, core=8, period=32, phase=32, width=32)),
    (
        b"offer message ",
        Session.offer_message,
        numbers(name=16, source=16, destination=16, kind=8, delay=32, width=32),
    ),
    (b"place task ", Session.place_task, numbers(name=16, core=8, period=32, width=32)),
    (b"place message ", Session.place_message, numbers(name=16, source=16, destination=16, kind=8, width=32)),
    (b"drop task ", Session.drop_task, numbers(name=16)),
    (b"drop message ", Session.drop_message, numbers(name=16)),
    (b"load ", Session.load, hexadecimal),
    (b"write ", Session.write, numbers(room=64)),
    (b"slack ", Session.slack, numbers(name=16)),
    (b"holder core ", Session.holder_core, numbers(core=16, instant=64)),
    (b"holder link ", Session.holder_link, numbers(link=16, instant=64)),
]


def answer(session, line):
    """Makes the call that the line states; the text of its answer."""
    try:
        for front, call, read in LINES:
            if line.startswith(front):
                return call(session, **read(line[len(front):]))
        raise Unread
    except Unread:
        return "UNREAD"
    except Refused as refused:
        return f"REFUSED {refused.text()}"
    except Fault as fault:
        return fault.text()


def lines_of(script):
    """The lines between newlines; after a last newline there is none."""
    lines = script.split(b"\n")
    return lines if lines[-1] else lines[:-1]


def replay(script, session):
    """Each line that is not passed over, with its answer."""
    for line in lines_of(script):
        if line and not line.startswith(b"#"):
            yield line + b": " + answer(session, line).encode() + b"\n"


def main():
    fabric = Shuttle() if sys.argv[1:] == ["--shuttle"] else Listed()
    sys.stdout.buffer.writelines(replay(sys.stdin.buffer.read(), Session(fabric)))


if __name__ == "__main__":
    main()
