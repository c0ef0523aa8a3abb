"""Scripts of writes: rooms, the order of names, what each call leaves to be written, and bytes that are loaded again."""

import random

from book import LARGEST_ROOM, fabric_part, job_part, small_plan
from cases import ALL_RING, RING, WORKED, message, task


def rooms(book):
    book.script("writes into rooms of many sizes: an empty plan, a task, two tasks and a message")
    far = (3076, 65535, 65536, 2**32 - 1, 2**32, 2**63, LARGEST_ROOM)
    book.mesh(2, 1, 3)
    for room in (0, 1, 2, 3, 4, 5, 20, *far):
        book.write(room)
    book.ask("offer task", 2, 1, 20, 15, 5)
    for room in (0, 4, 19, 20, 21, *far):
        book.write(room)
    book.ask("offer task", 1, 0, 20, 0, 4)
    book.ask("offer message", 1, 1, 2, 0, 0, 2)
    for room in (0, 1, 4, 20, 36, 50, 51, 52, 53, 104, *far):
        book.write(room)
    book.show_plan()


def two_nodes_written(book):
    book.script("the job part of the file of two nodes: what is loaded is written, in either order of its tasks")
    part = job_part(WORKED, [message(1, 1, 2, 0, 0, 2)])
    for loaded in (part, job_part(WORKED[::-1], [message(1, 1, 2, 0, 0, 2)])):
        book.mesh(2, 1, 3)
        book.load(loaded)
        book.write(52)
    assert book.held_part() == part
    book.carry_over()
    book.show_plan()


# Ascending as numbers, and not by their low bytes or as text.
NAMES = (1, 2, 9, 10, 11, 99, 100, 255, 256, 257, 511, 512, 4096, 65280, 65534, 65535)


def orders(book):
    book.script("names that come in descending order, and in any, are written in ascending order")
    rng = random.Random(41)
    for names in (NAMES[::-1], NAMES, tuple(rng.sample(NAMES, len(NAMES)))):
        book.mesh(4, 4, 1)
        for name in names:
            place = NAMES.index(name)
            book.ask("offer task", name, place, 256, 256 - 16 * place - 16, place + 1)
        book.write_around()
        for name in names:
            place = NAMES.index(name)
            book.ask("offer message", name, name, NAMES[place ^ 1], 1, place, 16 - place)
        book.write_around()
    book.carry_over()
    more = [task(300, 14, 256, 100, 1), task(3, 15, 256, 100, 1)]
    book.load(job_part(more, [message(4, 3, 1, 1, 0, 1), message(3, 300, 3, 1, 0, 1)]))
    book.write(LARGEST_ROOM)
    book.show_plan(4)


def after_droppings(book):
    book.script("what droppings leave is written, down to an empty plan")
    book.listed(fabric_part(4, 3, RING, ALL_RING))
    for name in range(8, 0, -1):
        book.ask("place task", name, name % 4, 120, 9)
    for name in range(8, 0, -1):
        book.ask("place message", name, name, 9 - name, 1, 3)
    book.write_around()
    for name in (8, 1, 4, 4):
        book.ask("drop message", name)
        book.write_around()
    for name in (8, 5, 1, 2):
        book.ask("drop task", name)
        book.write_around()
    book.ask("place task", 5, 3, 60, 4)
    book.ask("place message", 4, 5, 3, 1, 6)
    book.write_around()
    book.carry_over()
    book.show_plan()
    for name in sorted(book.plan.messages):
        book.ask("drop message", name)
    book.write_around()
    for name in sorted(book.plan.tasks):
        book.ask("drop task", name)
    book.write_around()
    book.carry_over()


def after_refusals(book):
    book.script("what is written after calls that were refused: the same, but for what a refused load keeps")
    small_plan(book)
    book.write_around()
    book.text("""
offer task 1 0 20 10 2
offer task 3 0 20 1 2
place task 3 0 20 19
offer message 2 1 2 0 1 2
offer message 2 1 2 0 9 2
place message 2 1 2 0 20
drop task 1
drop task 3
drop message 2
slack 2
holder core 2 0
write 51
write
fabric mesh 9 1 1
fabric listed 0101
load 0001
""")
    book.write_around()
    more = [task(9, 0, 20, 4, 2), task(8, 1, 20, 4, 2)]
    for part in (
        job_part([*more, task(7, 0, 20, 4, 2, zero=1)]), job_part(more) + b"\0", job_part(more, [message(9, 9, 8, 2, 0, 2)]),
        job_part([more[0], task(7, 0, 20, 5, 2), more[1]]),
        job_part([more[1]], [message(9, 8, 9, 1, 0, 2), message(8, 9, 7, 1, 0, 2)]),
        job_part([], [message(7, 1, 2, 1, 6, 2), message(6, 1, 2, 1, 7, 2)]),
    ):
        book.load(part)
        book.write_around()
    book.carry_over()
    book.show_plan()
    book.mesh(2, 1, 1)
    book.write_around()


def extreme_jobs(book):
    book.script("the largest numbers of jobs, written and loaded again")
    book.mesh(8, 8, 64)
    for name, core, phase, width in (
        (65535, 63, 65535, 1), (65534, 63, 0, 65535), (256, 62, 0, 65536), (255, 1, 65535, 1), (1, 0, 0, 1),
    ):
        book.ask("offer task", name, core, 65536, phase, width)
    for values in (
        (65535, 65535, 65535, 1, 65535, 65536), (65534, 1, 65535, 1, 65535, 1), (255, 1, 256, 0, 0, 1), (256, 1, 1, 1, 65535, 65536),
        (1, 1, 65535, 0, 0, 60000), (2, 65535, 1, 1, 0, 1),
    ):
        if book.ask("offer message", *values) != "TAKEN":
            book.ask("place message", *values[:4], values[5])
    book.write_around()
    book.carry_over()
    book.show_plan()


def full_plans(book):
    book.script("a full plan, 64 tasks and 128 messages with names up to 65535, written and loaded again")
    rng = random.Random(42)
    book.mesh(8, 8, 1)
    names = rng.sample(range(2, 65535), 62) + [65535, 1]
    for core, name in enumerate(rng.sample(names, 64)):
        book.ask("offer task", name, core, rng.choice((2048, 4096)), rng.randrange(1549), rng.randrange(1, 500))
    for name in [65535, 1, *rng.sample(range(2, 65535), 126)]:
        width = rng.randrange(1, 40)
        while not book.ask("place message", name, *rng.sample(names, 2), rng.choice((0, 1, 1)), width).startswith("PLACED"):
            pass
    for room in (3075, 3076, 3077, 0, LARGEST_ROOM):
        book.write(room)
    book.carry_over()
    book.show_plan(6)
    free = next(name for name in range(2, 65535) if name not in book.plan.tasks and name not in book.plan.messages)
    book.ask("place task", free, 0, 2048, 1)
    book.ask("place message", free, 1, 65535, 1, 1)
    book.load(job_part([task(free, 0, 2048, 0, 1)]))
    book.ask("drop message", 65535)
    book.write(3059)
    book.ask("place message", free, 1, 65535, 1, 1)
    book.write(3075)
    book.write(3076)


SCRIPTS = (rooms, two_nodes_written, orders, after_droppings, after_refusals, extreme_jobs, full_plans)
