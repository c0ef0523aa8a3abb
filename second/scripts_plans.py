"""Scripts of calls on plans: the order of the checks, full tables, many refusals, long periods, and the questions."""

import random

from book import LAST_INSTANT, fabric_part, job_part, two_ends
from cases import message, task
from scripts_fabrics import LINE, LINE_ROUTES

# ---- the order of the checks


def task_order(book):
    book.script("tasks that several checks refuse: the first of them answers, in offers and in placings")
    book.mesh(2, 1, 3)
    book.ask("offer task", 7, 0, 20, 0, 4)
    faults = [(7, 1, 20, 6), (0, 2, 0, 0), (9, 2, 0, 0), (9, 0, 0, 0), (9, 0, 20, 21), (9, 0, 65537, 1), (9, 0, 65536, 0)]
    faults += [(9, 0, 0, 1), (9, 0, 20, 17), (9, 0, 20, 20), (9, 255, 20, 4), (65535, 0, 2**32 - 1, 2**32 - 1)]
    for name, core, period, width in faults:
        book.ask("offer task", name, core, period, 0, width)
        book.ask("place task", name, core, period, width)
    for phase, width in ((16, 4), (17, 4), (16, 5), (19, 1), (20, 1), (2**32 - 1, 1), (2**32 - 1, 2**32 - 1), (4, 16)):
        if book.ask("offer task", 9, 0, 20, phase, width) == "TAKEN":
            book.ask("drop task", 9)
    for period in (1, 2, 5, 19, 20, 21, 65535, 65536):
        for width in (1, period):
            book.ask("offer task", 9, 1, period, period - width, width)
            if book.ask("place task", 10, 1, period, width).startswith("PLACED"):
                book.ask("drop task", 10)
            book.ask("drop task", 9)


def message_order(book):
    book.script("messages that several checks refuse: the first of them answers, in offers and in placings")
    book.listed(fabric_part(3, 3, LINE, LINE_ROUTES))
    for name, core, phase in ((1, 0, 0), (2, 1, 15), (3, 2, 15), (4, 1, 0)):
        book.ask("offer task", name, core, 20, phase, 4)
    book.ask("offer message", 7, 1, 2, 1, 0, 2)
    faults = [(7, 1, 2, 1, 2), (0, 9, 9, 9, 0), (8, 9, 9, 9, 0), (8, 1, 9, 9, 0), (8, 9, 2, 9, 0), (8, 3, 1, 9, 0), (8, 3, 1, 0, 0)]
    faults += [(8, 3, 1, 0, 21), (8, 3, 1, 0, 20), (8, 1, 2, 2, 2), (8, 1, 2, 255, 2), (8, 1, 2, 0, 20), (8, 1, 2, 0, 2)]
    faults += [(8, 1, 2, 0, 2**32 - 1), (65535, 1, 4, 0, 1), (65535, 1, 4, 1, 1)]
    faults += [(8, 2, 4, 0, 1), (8, 2, 4, 1, 20), (8, 2, 2, 1, 3)]
    for *front, width in faults:
        for words, values in (("offer message", (*front, 0, width)), ("place message", (*front, width))):
            if not book.ask(words, *values).startswith("REFUSED"):
                book.show_message(front[0])
                book.ask("drop message", front[0])
    for delay in (1, 2, 7, 8, 19, 20, 2**32 - 1):
        for kind in (0, 1, 2):
            if book.ask("offer message", 8, 1, 3, kind, delay, 1) == "TAKEN":
                book.ask("drop message", 8)


def dropping(book):
    book.script("droppings: unknown names, tasks in use, and names that serve again")
    book.text("""
fabric mesh 2 2 1
drop task 1
drop message 1
offer task 1 0 50 0 5
offer task 2 3 50 25 5
offer task 3 1 50 0 50
offer message 1 1 2 0 0 4
offer message 3 2 1 1 0 4
drop task 0
drop message 0
drop task 65535
drop message 2
drop task 1
drop task 2
drop task 3
drop task 3
drop message 1
drop task 1
drop task 2
slack 1
slack 3
drop message 3
drop message 3
slack 3
drop task 2
drop task 1
holder core 0 0
offer message 1 1 2 0 0 4
offer task 1 3 50 0 5
offer task 2 0 50 25 5
offer message 1 1 2 0 0 4
slack 1
place task 3 3 50 45
drop task 3
place task 3 3 50 46
offer message 2 1 1 1 0 7
drop task 1
drop message 1
drop task 1
drop task 2
drop message 2
drop task 1
offer message 2 1 1 1 0 7
""")


# ---- full tables


def tasks_too_many(book):
    book.script("64 tasks by offers; a 65th is one too many whatever it meets, and a dropped one's place serves again")
    book.mesh(8, 1, 1)
    for name in range(1, 65):
        book.ask("offer task", 700 - name, name % 8, 100, name, 1)
    for name in (800, 699, 0):
        book.ask("offer task", name, 0, 100, 0, 1)
        book.ask("offer task", name, 0, 100, 8, 1)
        book.ask("place task", name, 0, 100, 1)
        book.ask("place task", name, 0, 100, 100)
    book.ask("offer task", 800, 8, 100, 0, 1)
    book.ask("offer task", 800, 0, 100, 100, 1)
    book.load(job_part([task(800, 0, 100, 0, 1)]))
    book.ask("drop task", 692)
    book.ask("place task", 800, 0, 100, 1)
    book.ask("drop task", 684)
    book.ask("place task", 801, 0, 100, 2)
    book.ask("place task", 802, 0, 100, 1)
    book.show_plan(8)


def tasks_fill_a_core(book):
    book.script("64 tasks by placings that fill one core; then one that fits no more, and one that is too many")
    book.mesh(1, 1, 0)
    for name in range(1, 64):
        book.ask("place task", name, 0, 64, 1)
    book.ask("place task", 64, 0, 64, 2)
    book.ask("place task", 64, 0, 32, 1)
    book.ask("place task", 64, 0, 128, 2)
    book.ask("place task", 64, 0, 128, 1)
    book.ask("place task", 65, 0, 128, 1)
    book.ask("drop task", 5)
    book.ask("place task", 65, 0, 32, 1)
    book.ask("place task", 65, 0, 256, 1)
    book.ask("place task", 66, 0, 256, 1)
    book.ask("drop task", 65)
    book.ask("place task", 66, 0, 64, 1)
    book.ask("drop task", 37)
    book.ask("drop task", 36)
    book.ask("place task", 67, 0, 192, 2)
    book.ask("place task", 68, 0, 192, 2)
    book.show_plan(8)


def no_instant_left(book):
    book.script("63 tasks that leave a core no instant: no fit, although one more could be held")
    book.mesh(2, 1, 0)
    for name in range(1, 64):
        book.ask("place task", 2 * name, 0, 63, 1)
    book.ask("place task", 1, 0, 63, 1)
    book.ask("place task", 1, 0, 65535, 1)
    book.ask("place task", 1, 1, 63, 63)
    book.ask("place task", 3, 1, 63, 1)


def messages_too_many(book):
    book.script("128 messages by offers; the 129th is one too many whatever it meets")
    two_ends(book)
    for name in range(1, 129):
        book.ask("offer message", 900 - name, 1, 2, 1, 4 * name, 3)
    for name in (950, 899, 0):
        book.ask("offer message", name, 1, 2, 1, 0, 3)
        book.ask("offer message", name, 1, 2, 1, 4, 3)
        book.ask("place message", name, 1, 2, 1, 3)
        book.ask("place message", name, 1, 2, 0, 65536)
    book.ask("offer message", 950, 1, 3, 1, 0, 3)
    book.ask("offer message", 950, 1, 2, 1, 65536, 3)
    book.load(job_part([], [message(950, 1, 2, 1, 0, 3)]))
    for name in (850, 851, 895, 772):
        book.ask("drop message", name)
    for width in (8, 3, 4, 5, 6):
        book.ask("place message", 950 + width, 1, 2, 1, width)
    book.show_plan(12)


def messages_in_a_row(book):
    book.script("128 messages by placings, one behind the other; gaps are found again, the smallest first")
    two_ends(book)
    for name in range(1, 131):
        book.ask("place message", name, 1, 2, 1, 500)
    for name in (100, 50, 51, 20):
        book.ask("drop message", name)
    for width in (1001, 1000, 501, 500, 250, 250, 1):
        book.ask("place message", 200 + len(book.plan.messages), 1, 2, 0, width)
    book.show_plan(12)


def messages_without_links(book):
    book.script("128 messages on one core, which hold no link")
    book.mesh(1, 1, 64)
    book.ask("offer task", 1, 0, 1000, 0, 1)
    book.ask("offer task", 2, 0, 1000, 999, 1)
    for name in range(1, 130):
        book.ask("offer message", 130 - name, 1, 2, name % 2, 5 * name, 1000)
    book.ask("place message", 131, 2, 1, 1, 5)
    book.ask("drop message", 64)
    book.ask("place message", 131, 2, 1, 1, 5)
    book.ask("place message", 131, 2, 1, 0, 5)
    book.show_plan(12)


# ---- many refusals, then a placing


def after_refused_tasks(book):
    book.script("hundreds of tasks that meet, at once or after a while; placings then find what is left")
    book.mesh(1, 1, 0)
    for name, (period, phase, width) in enumerate(((120, 0, 31), (240, 40, 25), (240, 160, 40), (60, 31, 2), (360, 66, 7)), 1):
        book.ask("offer task", name, 0, period, phase, width)
    rng = random.Random(31)
    for name in range(10, 230):
        period = rng.choice((24, 36, 40, 60, 80, 90, 120, 180, 240, 360, 480, 720))
        width = rng.randrange(1, 7)
        if book.ask("offer task", name, 0, period, rng.randrange(period - width + 1), width) == "TAKEN":
            book.ask("drop task", name)
    for name, (period, width) in enumerate(((60, 2), (120, 3), (240, 5), (240, 8), (480, 8), (720, 13), (720, 5), (30, 1)), 300):
        book.ask("place task", name, 0, period, width)
    book.show_plan(16)


def after_refused_messages(book):
    book.script("hundreds of messages that are late or meet; placings then find what is left of the links")
    book.text("""
fabric mesh 3 1 2
offer task 1 0 400 0 10
offer task 2 2 400 390 10
offer task 3 1 400 380 5
offer task 4 0 600 210 10
offer message 1 1 2 0 0 50
offer message 2 1 2 1 120 30
offer message 3 4 3 1 100 9
""")
    rng = random.Random(32)
    for name in range(4, 214):
        source = rng.choice((1, 4))
        values = (name, source, rng.choice((2, 3)), rng.choice((0, 1, 1)), rng.randrange(400), rng.randrange(1, 40))
        if book.ask("offer message", *values) == "TAKEN":
            book.ask("drop message", name)
    wanted = ((1, 2, 0, 11), (1, 2, 0, 40), (4, 2, 1, 10), (4, 3, 1, 25), (1, 3, 1, 8), (1, 3, 1, 90), (1, 2, 1, 3))
    for name, values in enumerate(wanted, 300):
        book.ask("place message", name, *values)
    book.show_plan(16)


def again_and_again(book):
    """The same jobs, taken and dropped in several orders."""
    book.script("thirty tasks and forty messages, dropped and offered again in another order")
    book.mesh(4, 2, 2)
    rng = random.Random(33)
    for name in range(1, 31):
        book.ask("offer task", name, name % 8, 480, 12 * (name // 8), rng.randrange(4, 13))
    placed = []
    for name in range(1, 41):
        values = (name, *rng.sample(range(1, 31), 2), 1)
        width = rng.randrange(5, 20)
        answer = book.ask("place message", *values, width)
        if answer.startswith("PLACED"):
            placed.append((*values, answer.split()[1], width))
    rng.shuffle(placed)
    for values in placed:
        book.ask("drop message", values[0])
    rng.shuffle(placed)
    for values in placed:
        book.ask("offer message", *values)
    for values in placed[::2]:
        book.ask("drop message", values[0])
    for name, source, destination, kind, _, width in placed[::2]:
        book.ask("place message", name + 100, source, destination, kind, width + 1)
    for name in rng.sample(range(1, 31), 12):
        book.ask("drop task", name)
    book.show_plan(8)


# ---- long and coprime periods


def far_tasks(book):
    book.script("periods near 65,536 that first meet after billions of instants")
    book.mesh(1, 1, 0)
    for p, q in ((65536, 65535), (65535, 65534), (65521, 65519), (65519, 65521), (64000, 65535), (65536, 65000)):
        for start, later in ((0, 1), (5, 7), (3, q - 1)):
            book.ask("offer task", 1, 0, p, start, 1)
            if book.ask("offer task", 2, 0, q, later, 1) == "TAKEN":
                book.ask("drop task", 2)
            if book.ask("place task", 2, 0, q, 1).startswith("PLACED"):
                book.ask("drop task", 2)
            book.ask("drop task", 1)


def far_packets(book):
    book.script("packets of coprime periods that meet on a link after a long time")
    for p, q in ((65521, 65519), (65536, 65535), (1009, 1013), (4096, 6561)):
        book.mesh(3, 1, 5)
        book.ask("offer task", 1, 0, p, 0, 10)
        book.ask("offer task", 2, 1, q, 0, 10)
        book.ask("offer task", 3, 2, 7, 0, 1)
        book.ask("offer message", 1, 1, 3, 1, 100, 1)
        for delay in (0, 1, 2, 50, 104, 105, 106):
            book.ask("offer message", 2, 2, 3, 1, delay, 1)
        book.ask("place message", 2, 2, 3, 1, 1)
        book.ask("offer message", 2, 2, 3, 0, 0, 1)
        book.ask("slack", 1)


def crowd(book, seed, periods, widths, packet_widths):
    """Placings by chance until both tables are well filled; every message has a link to take."""
    rng = random.Random(seed)
    for name in range(1, 41):
        book.ask("place task", name, rng.randrange(book.plan.fabric.nodes), rng.choice(periods), rng.randrange(1, widths))
    core = {name: task["core"] for name, task in sorted(book.plan.tasks.items())}
    for name in range(1, 51):
        source = rng.choice(list(core))
        destination = rng.choice([other for other in core if core[other] != core[source]])
        book.ask("place message", name, source, destination, 1, rng.randrange(1, packet_widths))
    book.show_plan(8)


def long_placings(book):
    book.script("placings with periods up to 65,536 that share many factors")
    book.mesh(2, 2, 7)
    crowd(book, 34, (65536, 32768, 49152, 61440, 57344, 4096, 8192, 12288), 400, 600)
    book.script("placings with periods of many small factors")
    book.mesh(3, 1, 1)
    crowd(book, 35, (60060, 30030, 20020, 15015, 12012, 10010, 27720, 55440), 30, 40)
    book.script("placings that leave one another little room")
    book.mesh(2, 1, 3)
    crowd(book, 36, (1024, 1536, 2048, 3072), 90, 90)


# ---- questions


def slacks(book):
    book.script("slacks of both kinds, with equal, multiple, mixed and coprime periods")
    for hop in (0, 4):
        for p, q, phase in ((20, 20, 15), (20, 8, 5), (20, 30, 17), (20, 7, 3), (8, 20, 19), (36, 48, 47), (35, 64, 60), (1, 1, 0)):
            book.mesh(2, 1, hop)
            book.ask("offer task", 1, 0, p, 0, 1)
            book.ask("offer task", 2, 1, q, phase, 1)
            for kind in (0, 1):
                if book.ask("offer message", kind + 1, 1, 2, kind, 0, 1) != "TAKEN":
                    book.ask("place message", kind + 1, 1, 2, kind, 1)
                book.ask("slack", kind + 1)


def extreme_slacks(book):
    book.script("the largest slacks, and the latest packets")
    book.mesh(8, 8, 64)
    for name, core, phase, width in ((1, 0, 0, 1), (2, 63, 65535, 1), (3, 63, 0, 65535), (4, 1, 0, 65536), (5, 0, 1, 65535)):
        book.ask("offer task", name, core, 65536, phase, width)
    for source, destination in ((1, 2), (1, 3), (4, 2), (4, 3), (5, 2), (1, 5), (1, 1), (4, 4)):
        for kind in (0, 1):
            for delay, width in ((0, 1), (65535, 65536)):
                if book.ask("offer message", 1, source, destination, kind, delay, width) == "TAKEN":
                    book.ask("slack", 1)
                    book.ask("drop message", 1)


def within_a_core(book):
    book.script("tasks that send to themselves, and messages within a core")
    book.mesh(1, 2, 9)
    book.ask("offer task", 1, 0, 30, 10, 5)
    book.ask("offer task", 2, 0, 30, 20, 5)
    book.ask("offer task", 3, 0, 45, 0, 3)
    names = iter(range(1, 200))
    for ends in ((1, 1), (1, 2), (2, 1), (2, 2), (3, 3), (1, 3), (3, 1)):
        for kind in (0, 1):
            for delay in (0, 5, 6, 15, 16, 29):
                book.ask("offer message", next(names), *ends, kind, delay, 30)
        book.ask("place message", next(names), *ends, 1, 30)
        book.ask("place message", next(names), *ends, 0, 1)
    book.show_plan(16)


def holders(book):
    book.script("who has the cores and links of a small plan, instant by instant")
    book.mesh(3, 1, 2)
    book.ask("offer task", 11, 0, 12, 3, 2)
    book.ask("offer task", 12, 0, 6, 0, 1)
    book.ask("offer task", 13, 2, 12, 10, 2)
    book.ask("offer message", 21, 11, 13, 1, 0, 3)
    book.ask("offer message", 22, 12, 13, 1, 2, 1)
    for instant in range(25):
        book.ask("holder core", 0, instant)
        book.ask("holder link", 0, instant)
        book.ask("holder link", 4, instant)
    for core in (1, 2, 3, 255, 256, 65535):
        book.ask("holder core", core, 11)
    for link in (1, 11, 12, 13, 255, 256, 65535):
        book.ask("holder link", link, 11)


def holders_at_the_end(book):
    book.script("holders at the end of 64-bit time")
    book.text("""
fabric mesh 2 2 64
offer task 1 0 1 0 1
offer task 2 1 65536 65535 1
offer task 3 1 65536 0 65534
offer task 4 2 65536 0 1
offer message 1 1 1 1 0 1
place message 2 4 1 1 60000
place message 3 4 1 1 5000
offer message 4 4 2 1 65530 20
slack 4
holder core 4 18446744073709551615
holder link 16 18446744073709551615
""")
    for back in (0, 1, 2, 3, 600, 65465, 65535, 65536, 65537):
        for place, number in (("core", 0), ("core", 1), ("link", 11), ("link", 8), ("link", 15)):
            book.ask(f"holder {place}", number, LAST_INSTANT - back)
    for instant in (2**32 - 1, 2**32, 2**32 + 1, 2**63 - 1, 2**63, 10**19):
        for place, number in (("core", 0), ("core", 1), ("link", 8)):
            book.ask(f"holder {place}", number, instant)


def ties(book):
    book.script("meetings: the first instant, among equals the smallest held name, then the smallest link")
    book.text("""
fabric mesh 1 1 0
offer task 9 0 8 0 2
offer task 3 0 8 2 2
offer task 5 0 8 4 1
offer task 4 0 16 0 8
offer task 4 0 16 3 8
offer task 4 0 24 4 1
offer task 4 0 9 5 2
offer task 4 0 7 5 1
fabric mesh 4 1 0
offer task 1 0 30 0 1
offer task 2 1 30 0 1
offer task 3 2 30 0 1
offer task 4 3 30 0 1
offer message 9 1 2 1 4 3
offer message 6 2 3 1 4 3
offer message 4 3 4 1 4 3
offer message 2 3 4 1 8 3
offer message 7 1 4 1 4 3
offer message 7 1 4 1 2 9
offer message 7 1 4 1 7 2
drop message 4
offer message 7 1 4 1 4 3
drop message 6
offer message 7 1 4 1 4 3
drop message 9
offer message 7 1 4 1 4 3
drop message 7
offer message 3 1 4 1 4 3
offer message 8 1 4 1 5 3
offer message 8 2 4 1 5 3
offer message 1 3 4 1 5 3
fabric mesh 3 3 0
offer task 1 5 40 0 1
offer task 2 0 40 39 1
offer task 3 3 40 20 1
offer message 3 1 2 1 4 3
offer message 2 1 2 1 4 3
offer message 2 1 3 1 4 3
offer message 2 1 3 1 2 3
offer message 2 1 3 1 1 3
fabric mesh 3 3 2
offer task 1 5 40 0 1
offer task 2 0 40 39 1
offer task 3 4 40 39 1
offer task 4 3 40 0 1
offer message 3 1 2 1 4 3
offer message 5 1 2 1 1 3
offer message 2 1 2 1 2 3
offer message 2 4 2 1 10 4
offer message 2 4 2 1 0 39
place message 2 4 2 1 4
""")


def hop_delays(book):
    book.script("hop delays 0 and 64 on a row of eight nodes")
    for hop in (0, 64):
        book.mesh(8, 1, hop)
        for node in range(8):
            book.ask("offer task", node + 1, node, 2000, 0, 10)
        names = iter(range(1, 200))
        for ends in ((1, 8), (2, 8), (3, 6), (8, 1), (5, 7), (4, 5)):
            for delay in (0, 64):
                book.ask("offer message", next(names), *ends, 1, delay, 30)
            book.ask("place message", next(names), *ends, 1, 30)
        book.show_plan(5)


SCRIPTS = (
    task_order, message_order, dropping, tasks_too_many, tasks_fill_a_core, no_instant_left, messages_too_many, messages_in_a_row,
    messages_without_links, after_refused_tasks, after_refused_messages, again_and_again, far_tasks, far_packets, long_placings,
    slacks, extreme_slacks, within_a_core, holders, holders_at_the_end, ties, hop_delays,
)
