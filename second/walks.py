"""Walks: scripts of calls by chance, each chosen with an eye on what is held."""

import random

from book import LARGEST_ROOM, LAST_INSTANT, MESSAGE_FIELDS, TASK_FIELDS, job_part
from cases import message, task


class Walk:
    """Calls by chance on one plan.

    Jobs have the given periods, and mostly widths that go into the period as many times as there are parts, or more. The weight of
    loads is against 65 of all other calls. Writes come between all of these by
    choices of their own, one to 30.
    """

    def __init__(self, book, seed, periods, parts=8, load=1):
        self.book = book
        self.rng = random.Random(seed)
        self.writes = random.Random(1000 + seed)
        self.periods = periods
        self.parts = parts
        self.again = []
        weights = {
            self.offer_task: 5, self.offer_task_beside: 4, self.place_task: 5, self.offer_message: 8,
            self.offer_message_at_edge: 5, self.offer_message_beside: 8, self.place_message: 8,
            self.drop_task: 3, self.drop_message: 6, self.ask_again: 6, self.slack: 3, self.holder: 4, self.load: load,
        }
        self.acts = [act for act, weight in weights.items() for _ in range(weight)]

    def run(self, calls):
        """So many calls, and writes between them; the first are tasks, so that messages find their ends."""
        end = len(self.book.lines) + calls
        for _ in range(8):
            self.rng.choice((self.offer_task, self.place_task))()
        while len(self.book.lines) < end:
            self.rng.choice(self.acts)()
            if self.writes.randrange(30) == 0:
                self.write()
                end += 1

    # choices

    @property
    def plan(self):
        return self.book.plan

    def seldom(self, out_of=30):
        return self.rng.randrange(out_of) == 0

    def name(self, held):
        """Mostly a free name."""
        if self.seldom():
            return self.rng.choice([0, *held])
        while True:
            name = self.rng.randrange(1, 65536) if self.seldom(10) else self.rng.randrange(1, 200)
            if name not in held:
                return name

    def held(self, jobs):
        """Mostly a held name."""
        if not jobs or self.seldom():
            return self.rng.randrange(0, 300)
        return self.surely_held(jobs)

    def surely_held(self, jobs):
        return self.rng.choice(sorted(jobs))

    def core(self):
        nodes = self.plan.fabric.nodes
        return nodes if self.seldom(60) else self.rng.randrange(nodes)

    def width(self, period):
        if self.seldom(60):
            return self.rng.choice((0, period, period + 1, 2**32 - 1))
        return self.rng.randrange(1, max(2, period // self.parts + 1))

    def task_times(self):
        """Period, phase, width."""
        period = self.rng.choice(self.periods)
        width = self.width(period)
        last = max(0, period - width)
        phase = last + 1 if self.seldom(60) else self.rng.randrange(last + 1)
        return period, phase, width

    def message_ends(self):
        """Source, destination and the source's period; mostly held tasks on different cores."""
        tasks = self.plan.tasks
        source, destination = self.held(tasks), self.held(tasks)
        for _ in range(3):
            if source in tasks and destination in tasks and tasks[source]["core"] == tasks[destination]["core"]:
                destination = self.held(tasks)
        return source, destination, tasks[source]["period"] if source in tasks else self.rng.choice(self.periods)

    def kind(self):
        return self.rng.choice((2, 255)) if self.seldom(80) else self.rng.choice((0, 1, 1, 1))

    def packet_width(self, period):
        return min(self.width(period), self.width(period))

    def offer(self, kind, *values):
        """Makes an offer and keeps it, to make it again some time."""
        self.book.ask(f"offer {kind}", *values)
        self.again.append((f"offer {kind}", *values))

    # offers and placings

    def offer_task(self):
        self.offer("task", self.name(self.plan.tasks), self.core(), *self.task_times())

    def offer_task_beside(self):
        """A task right after a held one, right before it, or one instant into it."""
        if not self.plan.tasks:
            return self.offer_task()
        beside = self.plan.tasks[self.surely_held(self.plan.tasks)]
        period = self.rng.choice((beside["period"], beside["period"], self.rng.choice(self.periods)))
        width = max(1, self.width(period))
        start = self.rng.choice(
            (beside["phase"] + beside["width"], beside["phase"] + beside["width"] - 1, beside["phase"] - width)
        )
        self.offer("task", self.name(self.plan.tasks), beside["core"], period, start % period, width)

    def place_task(self):
        period, _, width = self.task_times()
        self.book.ask("place task", self.name(self.plan.tasks), self.core(), period, width)

    def offer_message(self):
        source, destination, period = self.message_ends()
        delay = period if self.seldom(60) else self.rng.randrange(max(1, period // self.rng.choice((1, 4, 8))))
        self.offer(
            "message", self.name(self.plan.messages), source, destination, self.kind(), delay, self.packet_width(period)
        )

    def offer_message_at_edge(self):
        """The greatest delay that is in time, or one more."""
        source, destination, period = self.message_ends()
        values = {
            "source": source, "destination": destination, "kind": self.rng.choice((0, 1)), "delay": 0,
            "width": max(1, self.packet_width(period)),
        }
        tasks = self.plan.tasks
        if source not in tasks or destination not in tasks or self.plan.route(values) is None:
            return self.offer_message()
        delay = self.plan.slack_of(values) + self.rng.choice((0, 0, 1))
        if not 0 <= delay < period:
            delay = self.rng.randrange(period)
        self.offer("message", self.name(self.plan.messages), source, destination, values["kind"], delay, values["width"])

    def offer_message_beside(self):
        """The ends of a held message, right after it or one instant into it."""
        if not self.plan.messages:
            return self.offer_message()
        beside = self.plan.messages[self.surely_held(self.plan.messages)]
        period = self.plan.tasks[beside["source"]]["period"]
        delay = (beside["delay"] + beside["width"] - self.rng.choice((0, 0, 1))) % period
        self.offer(
            "message", self.name(self.plan.messages), beside["source"], beside["destination"], self.rng.choice((0, 1, 1)),
            delay, max(1, self.packet_width(period)),
        )

    def place_message(self):
        source, destination, period = self.message_ends()
        self.book.ask(
            "place message", self.name(self.plan.messages), source, destination, self.kind(), self.packet_width(period)
        )

    def ask_again(self):
        """An offer of before, most often refused then or dropped since."""
        if self.again:
            self.book.ask(*self.again.pop(self.rng.randrange(len(self.again))))

    # droppings and questions

    def drop(self, kind, jobs, fields):
        """Drops a job and keeps it, to offer it again some time."""
        name = self.held(jobs)
        job = jobs.get(name)
        if self.book.ask(f"drop {kind}", name) == "DROPPED":
            self.again.append((f"offer {kind}", *(job[field] for field in fields)))

    def drop_task(self):
        self.drop("task", self.plan.tasks, TASK_FIELDS)

    def drop_message(self):
        self.drop("message", self.plan.messages, MESSAGE_FIELDS)

    def slack(self):
        self.book.ask("slack", self.held(self.plan.messages))

    def instant(self, hold):
        """An instant at an edge of some run."""
        start, period, width = hold
        last = (LAST_INSTANT - start - width) // period
        run = self.rng.choice((0, 1, 2, self.rng.randrange(1000), self.rng.randrange(last), last))
        return max(0, start + run * period + self.rng.choice((-1, 0, 0, width - 1, width)))

    def holder(self):
        cores, links = self.plan.fabric.nodes, self.plan.fabric.links
        place = self.rng.choice(("core", "link", "link"))
        number = self.rng.randrange(cores if place == "core" else max(1, links))
        if self.seldom():
            number = self.rng.choice((cores, links, 65535))
        elif place == "link" and self.plan.packets:
            holds = self.plan.packets[self.surely_held(self.plan.packets)]
            number = self.rng.choice(sorted(holds)) if holds else number
        found = self.plan.on_core(number) if place == "core" else self.plan.on_link(number)
        instant = self.instant(self.rng.choice(found)[1]) if found else self.rng.randrange(1000)
        self.book.ask(f"holder {place}", number, instant)

    # loads

    def load(self):
        """A few tasks and messages, most of them new ones."""
        tasks = {}
        for _ in range(self.rng.randrange(0, 5)):
            period, phase, width = self.task_times()
            tasks[self.name(self.plan.tasks)] = (self.core(), period, phase, width)
        names = sorted({*tasks, *self.plan.tasks}) or [1]
        messages = {}
        for _ in range(self.rng.randrange(0, 4)):
            width = self.rng.randrange(1, 4)
            messages[self.name(self.plan.messages)] = (
                self.rng.choice(names), self.rng.choice(names), self.rng.choice((0, 1, 1)), self.rng.randrange(8), width
            )
        self.book.load(
            job_part(
                [task(name, *values) for name, values in tasks.items()],
                [message(name, *values) for name, values in messages.items()],
            )
        )

    # writes

    def write(self):
        """Into a room of about the length of the job part."""
        length = len(self.book.held_part())
        near = (length, length, length + 1, length + 16, length - 1, max(0, length - 16))
        self.book.write(self.writes.choice((*near, 2 * length, 4, LARGEST_ROOM)))
