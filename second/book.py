"""One long script in the making."""

from cases import head, message, section, task
from model import Listed
from planner import Session, answer, lines_of

LAST_INSTANT = 2**64 - 1
LARGEST_ROOM = 2**64 - 1

TASK_FIELDS = ("name", "core", "period", "phase", "width")
MESSAGE_FIELDS = ("name", "source", "destination", "kind", "delay", "width")


def fabric_part(nodes, delay, links, routes):
    """The bytes that setting a listed fabric reads."""
    return head(2, nodes, 1, delay) + section([bytes(link) for link in links]) + section(list(routes))


def job_part(tasks=(), messages=()):
    """The bytes that a load reads."""
    return section(list(tasks)) + section(list(messages))


class Book:
    """The lines so far. Every line is answered at once, so that the next ones can follow what is held."""

    def __init__(self):
        self.lines = []
        self.scripts = 0
        self.session = Session(Listed())
        self.fabric_line = None

    @property
    def plan(self):
        return self.session.plan

    def script(self, about):
        """Begins the next script."""
        self.scripts += 1
        if self.lines:
            self.lines.append(b"")
        self.lines.append(f"# script {self.scripts}: {about}".encode())

    def raw(self, line):
        """A line of any bytes; its answer."""
        self.lines.append(line)
        answered = answer(self.session, line)
        if answered.startswith("READY"):
            self.fabric_line = line
        return answered

    def ask(self, words, *values):
        """A call: its words, then its values; its answer."""
        return self.raw(" ".join([words, *map(str, values)]).encode())

    def text(self, text):
        """The lines of a text, as they stand between its first and last newline."""
        for line in lines_of(text.encode())[1:]:
            self.raw(line)

    def mesh(self, columns, rows, delay):
        return self.ask("fabric mesh", columns, rows, delay)

    def listed(self, data):
        return self.ask("fabric listed", data.hex().upper())

    def load(self, part):
        return self.ask("load", part.hex().upper())

    # what is held, written out

    def held_part(self):
        """The job part of what is held, each section in ascending names, by the generator's own records."""
        return job_part(
            [task(*(job[field] for field in TASK_FIELDS)) for _, job in sorted(self.plan.tasks.items())],
            [message(*(job[field] for field in MESSAGE_FIELDS)) for _, job in sorted(self.plan.messages.items())],
        )

    def write(self, room):
        """A write, which gives what the generator expects."""
        part = self.held_part()
        expected = f"WRITTEN {len(part)} {part.hex().upper()}" if room >= len(part) else "REFUSED 27 BUFFER"
        answered = self.ask("write", room)
        assert answered == expected, f"write {room}: {answered}, expected {expected}"

    def write_around(self):
        """Writes into a room that is one byte too short, and into one of exactly the length."""
        length = len(self.held_part())
        self.write(length - 1)
        self.write(length)

    def carry_over(self):
        """A write, then a new plan on the same fabric that loads the bytes and writes the same."""
        part = self.held_part()
        counts = len(self.plan.tasks), len(self.plan.messages)
        self.write(len(part))
        self.raw(self.fabric_line)
        loaded = self.load(part)
        assert loaded == "LOADED {} {}".format(*counts), f"{loaded}, expected {counts}"
        assert self.held_part() == part
        self.write(len(part))

    # what is held, shown by questions

    def show_task(self, name):
        """Asks who has the core in the first and last instant of the task's run 0, and just after."""
        task = self.plan.tasks[name]
        after = task["phase"] + task["width"]
        for instant in sorted({task["phase"], after - 1, after}):
            self.ask("holder core", task["core"], instant)

    def show_message(self, name):
        """Asks for the slack, and who has the first and last link of the route when packet 0 enters it."""
        self.ask("slack", name)
        holds = list(self.plan.packets[name].items())
        for link, (start, _, _) in holds[:1] + holds[1:][-1:]:
            self.ask("holder link", link, start)

    def show_plan(self, most=12):
        """Questions about some of the jobs held, spread over the names."""
        for held, show in ((self.plan.tasks, self.show_task), (self.plan.messages, self.show_message)):
            names = sorted(held)
            for name in names[:: max(1, len(names) // most)]:
                show(name)


def small_plan(book):
    """Two tasks and a message, which stay while lines of every sort are tried."""
    book.mesh(2, 1, 1)
    book.ask("offer task", 1, 0, 20, 0, 2)
    book.ask("offer task", 2, 1, 20, 10, 2)
    book.ask("offer message", 1, 1, 2, 0, 0, 2)


def two_ends(book):
    """A source and a destination with a link between them that holds many packets."""
    book.mesh(2, 1, 1)
    book.ask("offer task", 1, 0, 65536, 0, 1)
    book.ask("offer task", 2, 1, 65536, 65535, 1)
