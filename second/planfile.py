"""Plan files: the head, the sections and their checks, writing a job part, and the verdict line."""

from model import Listed, Mesh, Plan, Refused


class Fault(Exception):
    """A refusal with its section and record."""

    def __init__(self, section, record, refused):
        super().__init__(section, record, refused)
        self.section, self.record, self.refused = section, record, refused

    def text(self):
        return f"REFUSED {self.section} {self.record} {self.refused.text()}"


def number(data):
    return int.from_bytes(data, "big")


def cut(data, section, size, limit=None):
    """The records of the section at the front, and the rest."""
    if len(data) < 2:
        raise Fault(section, 0, Refused(1))
    count = number(data[:2])
    if limit is not None and count > limit:
        raise Fault(section, 0, Refused(4))
    whole = (len(data) - 2) // size
    if whole < count:
        raise Fault(section, whole, Refused(1))
    end = 2 + count * size
    return [data[2 + i * size: 2 + (i + 1) * size] for i in range(count)], data[end:]


def read_head(data):
    """kind, X, Y, H and the rest."""
    if len(data) < 6:
        raise Fault(0, 0, Refused(1))
    version, kind, x, y, delay, zero = data[:6]
    if version != 1 or kind not in (1, 2) or zero != 0:
        raise Fault(0, 0, Refused(2))
    return kind, x, y, delay, data[6:]


def read_links(records, nodes):
    ends = []
    for i, record in enumerate(records):
        a, b = record
        if a >= nodes or b >= nodes or a == b:
            raise Fault(1, i, Refused(5))
        ends.append((a, b))
    return ends


def read_route(record, nodes, ends):
    a, b, length, zero = record[:4]
    if a >= nodes or b >= nodes or a == b or not 1 <= length <= 12 or zero != 0:
        raise Refused(6)
    links, unused = list(record[4:4 + length]), record[4 + length:]
    if any(unused) or any(link >= len(ends) for link in links):
        raise Refused(6)
    at = a
    for link in links:
        if ends[link][0] != at:
            raise Refused(7)
        at = ends[link][1]
    if at != b or len(set(links)) != len(links):
        raise Refused(7)
    return a, b, links


def read_routes(records, nodes, ends):
    routes = {}
    before = None
    for i, record in enumerate(records):
        try:
            a, b, links = read_route(record, nodes, ends)
            if before is not None and (a, b) <= before:
                raise Refused(8)
        except Refused as refused:
            raise Fault(2, i, refused) from None
        before = (a, b)
        routes[(a, b)] = links
    return routes


def read_fabric(data):
    """The fabric that the head and sections 1 and 2 name, and the rest."""
    kind, x, y, delay, rest = read_head(data)
    if kind == 1:
        try:
            fabric = Mesh(x, y, delay)
        except Refused as refused:
            raise Fault(0, 0, refused) from None
        _, rest = cut(rest, 1, 2, 0)
        _, rest = cut(rest, 2, 16, 0)
        return fabric, rest
    return read_listed(x, y, delay, rest)


def set_listed(data):
    """The listed fabric that the head and sections 1 and 2 name; what follows them is not looked at."""
    kind, x, y, delay, rest = read_head(data)
    if kind != 2:
        raise Fault(0, 0, Refused(2))
    return read_listed(x, y, delay, rest)[0]


def read_listed(x, y, delay, rest):
    if not (1 <= x <= 64 and y == 1 and delay <= 64):
        raise Fault(0, 0, Refused(3))
    records, rest = cut(rest, 1, 2, 128)
    ends = read_links(records, x)
    records, rest = cut(rest, 2, 16, 256)
    return Listed(x, delay, ends, read_routes(records, x, ends)), rest


def read_task(record):
    if record[3] != 0:
        raise Refused(24)
    return {
        "name": number(record[0:2]), "core": record[2], "period": number(record[4:8]),
        "phase": number(record[8:12]), "width": number(record[12:16]),
    }


def read_message(record):
    if record[6] not in (0, 1) or record[7] != 0:
        raise Refused(24)
    return {
        "name": number(record[0:2]), "source": number(record[2:4]), "destination": number(record[4:6]),
        "kind": record[6], "delay": number(record[8:12]), "width": number(record[12:16]),
    }


def in_turn(section, records, act):
    """What the action gives for each record; its refusal names section and record."""
    out = []
    for i, record in enumerate(records):
        try:
            out.append(act(record))
        except Refused as refused:
            raise Fault(section, i, refused) from None
    return out


def load(plan, data):
    """Checks the layout of a job part, then offers each record in turn."""
    tasks, rest = cut(data, 3, 16)
    messages, rest = cut(rest, 4, 16)
    if rest:
        raise Fault(5, 0, Refused(25))
    tasks = in_turn(3, tasks, read_task)
    messages = in_turn(4, messages, read_message)
    in_turn(3, tasks, plan.offer_task)
    in_turn(4, messages, plan.offer_message)
    return len(tasks), len(messages)


def bytes_of(n, size):
    return n.to_bytes(size, "big")


def task_record(task):
    return (
        bytes_of(task["name"], 2) + bytes_of(task["core"], 1) + b"\0"
        + b"".join(bytes_of(task[time], 4) for time in ("period", "phase", "width"))
    )


def message_record(message):
    return (
        b"".join(bytes_of(message[name], 2) for name in ("name", "source", "destination")) + bytes_of(message["kind"], 1) + b"\0"
        + b"".join(bytes_of(message[time], 4) for time in ("delay", "width"))
    )


def write(plan, room):
    """The job part of what is held, each section in ascending names; refused where the room is less than its length."""
    out = b""
    for jobs, record in ((plan.tasks, task_record), (plan.messages, message_record)):
        out += bytes_of(len(jobs), 2) + b"".join(record(job) for _, job in sorted(jobs.items()))
    if room < len(out):
        raise Refused(27)
    return out


def verdict(data):
    try:
        if len(data) > 8192:
            raise Fault(5, 0, Refused(25))
        fabric, rest = read_fabric(data)
        plan = Plan(fabric)
        tasks, messages = load(plan, rest)
        return f"CLEAR {tasks} {messages}"
    except Fault as fault:
        return fault.text()


def judged(data, room):
    """The verdict line of a file, or refusal 27 where the buffer has less than 64 bytes."""
    return Refused(27).text() if room < 64 else verdict(data)
