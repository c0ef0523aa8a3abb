"""The model of time plans, decided by instants: runs and packets are walked one after the other.

Nothing here uses a greatest common divisor, a residue test of two periods or a slack formula. Two periodic holds are compared by
walking the runs of one until its place against the other repeats; the slack of a message is the smallest over its packets, walked
until the pattern of due instant and destination repeats. A placing marks the starts that a walked run of a held job rules out, and
takes the first that is left.
"""

from functools import lru_cache

WORDS = {
    1: "SHORT", 2: "VERSION", 3: "HEAD", 4: "COUNT", 5: "LINK", 6: "ROUTE", 7: "CHAIN", 8: "ORDER",
    9: "NAME", 10: "CORE", 11: "TIMES", 12: "FULL", 13: "MEETS", 14: "NAME", 15: "ENDS", 16: "TIMES",
    17: "NOROUTE", 18: "FULL", 19: "LATE", 20: "MEETS", 21: "UNKNOWN", 22: "INUSE", 23: "NOFIT",
    24: "RECORD", 25: "EXTRA", 26: "PLACE", 27: "BUFFER",
}


class Refused(Exception):
    """A refusal: its number and the values that stand after its word."""

    def __init__(self, number, *values):
        super().__init__(number, *values)
        self.number = number
        self.values = values

    def text(self):
        return " ".join([str(self.number), WORDS[self.number]] + [str(v) for v in self.values])


# ---- fabrics


class Mesh:
    """A mesh of columns x rows nodes; routes go along x first, then along y."""

    def __init__(self, columns, rows, delay):
        if not (1 <= columns <= 8 and 1 <= rows <= 8 and 0 <= delay <= 64):
            raise Refused(3)
        self.columns, self.rows, self.delay = columns, rows, delay
        self.nodes = columns * rows
        self.links = 4 * self.nodes

    def route(self, a, b):
        if a >= self.nodes or b >= self.nodes:
            return None
        x, y = a % self.columns, a // self.columns
        goal_x, goal_y = b % self.columns, b // self.columns
        route = []
        while (x, y) != (goal_x, goal_y):
            node = x + self.columns * y
            if x < goal_x:
                route.append(4 * node)
                x += 1
            elif x > goal_x:
                route.append(4 * node + 1)
                x -= 1
            elif y < goal_y:
                route.append(4 * node + 2)
                y += 1
            else:
                route.append(4 * node + 3)
                y -= 1
        return route


class Listed:
    """A fabric by its link and route records."""

    def __init__(self, nodes=1, delay=0, ends=(), routes=None):
        self.nodes, self.delay = nodes, delay
        self.ends = list(ends)
        self.links = len(self.ends)
        self.routes = dict(routes or {})

    def route(self, a, b):
        if a >= self.nodes or b >= self.nodes:
            return None
        if a == b:
            return []
        return self.routes.get((a, b))


# ---- holds: (start, period, width)


def first_instant_in(begin, end, hold):
    """The first instant of begin <= n < end that some run of the hold holds, or None."""
    start, period, width = hold
    if end <= start:
        return None
    run = max(0, (begin - start) // period)
    opens = start + run * period
    if begin < opens + width:
        n = max(begin, opens)
    else:
        n = opens + period
    return n if n < end else None


def first_meeting(one, other):
    """The first instant that lies in both holds, or None.

    The runs of the longer period are walked, until their place against the other repeats.
    """
    if one[1] < other[1]:
        one, other = other, one
    start, period, width = one
    begins, every, _ = other
    opens = start
    while opens + width <= begins:
        opens += max(1, (begins - opens - width) // period) * period
    seen = set()
    while True:
        n = first_instant_in(opens, opens + width, other)
        if n is not None:
            return n
        if opens >= begins:
            place = (opens - begins) % every
            if place in seen:
                return None
            seen.add(place)
        opens += period


def run_at(hold, n):
    """The number of the run that holds the instant, or None."""
    start, period, width = hold
    if n < start:
        return None
    run, into = divmod(n - start, period)
    return run if into < width else None


def first_met(own, held_on):
    """The earliest meeting as (instant, held name, place), or None.

    own has the hold on each place that the job would take; held_on(place) gives name and hold of each job held there.
    """
    meetings = [
        (n, name, place)
        for place, hold in own.items()
        for name, other in held_on(place)
        if (n := first_meeting(other, hold)) is not None
    ]
    return min(meetings, default=None)


def holder(held, n):
    """Name and run of the hold that has the instant, or None."""
    for name, hold in held:
        run = run_at(hold, n)
        if run is not None:
            return name, run
    return None


# ---- placings: sets of whole numbers below a size, as the bits of one number


@lru_cache(maxsize=None)
def run_places(step, size):
    """Where the starts 0, step, 2 * step, ... fall within the size, walked until they repeat."""
    places = bytearray(b"0" * size)
    place = 0
    while places[place] == ord("0"):
        places[place] = ord("1")
        place = (place + step) % size
    return int(places[::-1], 2)


def turned(bits, by, size):
    """Each member moved up by so much, around the size."""
    by %= size
    return (bits << by | bits >> (size - by)) & ((1 << size) - 1)


def spread(bits, span, size):
    """Each member and the span - 1 numbers after it, around the size."""
    reach = 1
    while reach < span:
        more = min(reach, span - reach)
        bits |= turned(bits, more, size)
        reach += more
    return bits


def meeting_shifts(hold, other):
    """The v below the hold's period for which the hold, begun v later, meets the other.

    Where a run of the other falls within the hold's period, runs of it fall again and again, also once both have begun.
    A run from n is met by the starts from n - width + 1 to its last instant.
    """
    start, period, width = hold
    opens, every, breadth = other
    runs = turned(run_places(every % period, period), opens - width + 1 - start, period)
    return spread(runs, min(width + breadth - 1, period), period)


def smallest_clear(own, held_on, count):
    """The smallest v below the count such that the own holds, begun v later, meet nothing held; or None."""
    ruled_out = 0
    for place, hold in own.items():
        for _, other in held_on(place):
            ruled_out |= meeting_shifts(hold, other)
    left = ((1 << count) - 1) & ~ruled_out
    return (left & -left).bit_length() - 1 if left else None


# ---- reading


def reading_start(reader, due):
    """The start of the earliest run of the reader that starts at or after the due instant."""
    phase, period = reader
    start = phase
    if start < due:
        start += (due - start) // period * period
        while start < due:
            start += period
    return start


def least_slack(arrival, due, period, reader):
    """The smallest slack over all packets: packet k arrives at arrival + k*period and is due at due + k*period."""
    least = None
    seen = set()
    k = 0
    while True:
        wanted = due + k * period
        start = reading_start(reader, wanted)
        slack = start - (arrival + k * period)
        if least is None or slack < least:
            least = slack
        if wanted >= reader[0]:
            place = (wanted - reader[0]) % reader[1]
            if place in seen:
                return least
            seen.add(place)
        k += 1


# ---- the plan


def task_hold(task):
    return task["phase"], task["period"], task["width"]


class Plan:
    """Tasks on cores and messages between them, over a fabric."""

    def __init__(self, fabric):
        self.fabric = fabric
        self.tasks = {}
        self.messages = {}
        # what each held message takes: its tasks and the fabric stay while it is held
        self.packets = {}

    # what a message takes

    def ends(self, message):
        return self.tasks[message["source"]], self.tasks[message["destination"]]

    def leaves(self, message):
        source, _ = self.ends(message)
        return source["phase"] + source["width"] + message["delay"]

    def route(self, message):
        source, destination = self.ends(message)
        return self.fabric.route(source["core"], destination["core"])

    def packet_holds(self, message):
        """The hold on each link of the route."""
        period = self.tasks[message["source"]]["period"]
        leaves = self.leaves(message)
        return {
            link: (leaves + i * self.fabric.delay, period, message["width"])
            for i, link in enumerate(self.route(message))
        }

    def arrival(self, message):
        links = len(self.route(message))
        leaves = self.leaves(message)
        return leaves if links == 0 else leaves + links * self.fabric.delay + message["width"]

    def slack_of(self, message):
        source, destination = self.ends(message)
        due = 0 if message["kind"] == 0 else source["period"]
        return least_slack(
            self.arrival(message), due, source["period"], (destination["phase"], destination["period"])
        )

    # what is held on a place: name and hold of each job

    def on_core(self, core):
        return [(name, task_hold(task)) for name, task in self.tasks.items() if task["core"] == core]

    def on_link(self, link):
        return [(name, holds[link]) for name, holds in self.packets.items() if link in holds]

    # the checks of an offer; those before the last are a placing's too, with phase and delay 0

    def check_task_alone(self, task):
        if task["name"] == 0 or task["name"] in self.tasks:
            raise Refused(9)
        if task["core"] >= self.fabric.nodes:
            raise Refused(10)
        period, phase, width = task["period"], task["phase"], task["width"]
        if not (1 <= period <= 65536 and 1 <= width <= period and phase + width <= period):
            raise Refused(11)
        if len(self.tasks) >= 64:
            raise Refused(12)

    def check_message_alone(self, message):
        if message["name"] == 0 or message["name"] in self.messages:
            raise Refused(14)
        if message["source"] not in self.tasks or message["destination"] not in self.tasks:
            raise Refused(15)
        period = self.tasks[message["source"]]["period"]
        if not (message["kind"] in (0, 1) and message["delay"] < period and 1 <= message["width"] <= period):
            raise Refused(16)
        if self.route(message) is None:
            raise Refused(17)
        if len(self.messages) >= 128:
            raise Refused(18)

    # calls

    def offer_task(self, task):
        self.check_task_alone(task)
        met = first_met({task["core"]: task_hold(task)}, self.on_core)
        if met is not None:
            raise Refused(13, *met)
        self.tasks[task["name"]] = task

    def offer_message(self, message):
        self.check_message_alone(message)
        slack = self.slack_of(message)
        if slack < 0:
            raise Refused(19, slack)
        own = self.packet_holds(message)
        met = first_met(own, self.on_link)
        if met is not None:
            raise Refused(20, *met)
        self.messages[message["name"]] = message
        self.packets[message["name"]] = own

    def place_task(self, task):
        """Holds the task with the smallest phase whose offer is taken; that phase."""
        task = {**task, "phase": 0}
        self.check_task_alone(task)
        own = {task["core"]: task_hold(task)}
        phase = smallest_clear(own, self.on_core, task["period"] - task["width"] + 1)
        if phase is None:
            raise Refused(23)
        self.offer_task({**task, "phase": phase})
        return phase

    def place_message(self, message):
        """Holds the message with the smallest delay whose offer is taken; that delay."""
        message = {**message, "delay": 0}
        self.check_message_alone(message)
        # no packet's reading run depends on the delay: each cycle of delay is one of slack
        in_time = max(0, self.slack_of(message) + 1)
        below = min(in_time, self.tasks[message["source"]]["period"])
        delay = smallest_clear(self.packet_holds(message), self.on_link, below)
        if delay is None:
            raise Refused(23)
        self.offer_message({**message, "delay": delay})
        return delay

    def drop_task(self, name):
        if name not in self.tasks:
            raise Refused(21)
        if any(name in (m["source"], m["destination"]) for m in self.messages.values()):
            raise Refused(22)
        del self.tasks[name]

    def drop_message(self, name):
        if name not in self.messages:
            raise Refused(21)
        del self.messages[name]
        del self.packets[name]

    # questions

    def slack(self, name):
        if name not in self.messages:
            raise Refused(21)
        return self.slack_of(self.messages[name])

    def core_holder(self, core, n):
        """Name and run of the task that has the core at the instant, or None."""
        if core >= self.fabric.nodes:
            raise Refused(26)
        return holder(self.on_core(core), n)

    def link_holder(self, link, n):
        """Name and packet of the message that has the link at the instant, or None."""
        if link >= self.fabric.links:
            raise Refused(26)
        return holder(self.on_link(link), n)
