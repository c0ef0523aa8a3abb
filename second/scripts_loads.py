"""Scripts of loads: layouts, records refused in the middle, and full tables."""

from book import fabric_part, job_part, two_ends
from cases import WORKED, message, section, task
from scripts_fabrics import LINE, LINE_ROUTES


def layouts(book):
    book.script("job parts whose layout is refused: nothing of them is held")
    book.mesh(2, 1, 3)
    book.ask("offer task", 50, 0, 40, 30, 5)
    good = job_part(WORKED, [message(1, 1, 2, 0, 0, 2)])
    for end in range(0, len(good), 3):
        book.load(good[:end])
    odd_task = task(3, 0, 20, 10, 2, zero=1)
    odd_kind, odd_zero = message(2, 1, 2, 2, 0, 2), message(2, 1, 2, 0, 0, 2, zero=255)
    unnamed = task(0, 9, 0, 0, 0)
    wrong = [
        good + b"\0", good + good, job_part() + b"\0", job_part([odd_task]) + b"\0",
        job_part([odd_task]), job_part([*WORKED, odd_task]), job_part([odd_task, unnamed]), job_part([unnamed, odd_task]),
        job_part(WORKED, [odd_kind]), job_part(WORKED, [odd_zero]), job_part([unnamed], [message(1, 1, 2, 0, 0, 2), odd_kind]),
        job_part([odd_task], [odd_kind]), section([odd_task], 2), section([odd_task]) + section([odd_kind], 2),
        section([], 1), section([]) + section([], 65535), section(WORKED, 65535), section(WORKED, 0) + section([]),
        b"\xff\xff", b"\xff",
    ]
    for part in wrong:
        book.load(part)
    book.ask("holder core", 0, 0)
    book.ask("holder core", 0, 30)
    book.ask("offer message", 1, 1, 2, 0, 0, 2)
    book.load(job_part())
    book.load(good)
    book.show_plan()


def refused_tasks(book):
    book.script("job parts refused at a task: what stands before it is held")
    for name, core, period, phase, width in (
        (0, 0, 40, 0, 1), (2, 0, 40, 0, 1), (5, 2, 40, 0, 1), (5, 0, 0, 0, 1), (5, 0, 40, 40, 1), (5, 0, 40, 3, 2), (5, 0, 7, 0, 1),
    ):
        book.mesh(2, 1, 3)
        book.ask("offer task", 9, 1, 40, 0, 4)
        tasks = [task(1, 0, 40, 4, 4), task(2, 1, 40, 20, 5), task(name, core, period, phase, width), task(4, 0, 40, 20, 2)]
        book.load(job_part(tasks, [message(1, 1, 2, 0, 0, 2)]))
        for asked in (1, 2, 4, 5):
            book.ask("drop task", asked)
        book.ask("slack", 1)


def refused_messages(book):
    book.script("job parts refused at a message: all tasks and the messages before it are held")
    for values in (
        (0, 1, 2, 0, 4, 2), (1, 1, 2, 0, 4, 2), (2, 1, 7, 0, 4, 2), (2, 8, 2, 0, 4, 2), (2, 1, 2, 0, 40, 2), (2, 1, 2, 0, 4, 0),
        (2, 1, 2, 0, 4, 41), (2, 1, 2, 0, 30, 2), (2, 1, 2, 0, 1, 2), (2, 2, 1, 0, 0, 1),
    ):
        book.mesh(2, 1, 3)
        tasks = [task(1, 0, 40, 4, 4), task(2, 1, 40, 20, 5)]
        book.load(job_part(tasks, [message(1, 1, 2, 0, 0, 2), message(*values), message(3, 2, 1, 1, 0, 1)]))
        for asked in (1, 2, 3):
            book.ask("slack", asked)
        book.load(job_part([], [message(2, 1, 2, 0, 4, 2), message(3, 2, 1, 1, 0, 1)]))
        book.load(job_part([task(3, 0, 40, 0, 4)], [message(4, 2, 1, 1, 0, 1)]))
        book.ask("drop task", 3)


def without_route(book):
    book.script("a job part over a listed fabric that has no route for its second message")
    book.listed(fabric_part(3, 3, LINE, LINE_ROUTES))
    tasks = [task(n + 1, n, 60, 10 * n, 4) for n in range(3)]
    book.load(job_part(tasks, [message(1, 1, 3, 1, 0, 2), message(2, 3, 1, 1, 0, 2), message(3, 1, 2, 1, 9, 2)]))
    book.show_plan()
    book.load(job_part([], [message(3, 1, 2, 1, 9, 2)]))
    book.show_plan()


def full_tables(book):
    book.script("job parts that fill the tables: the 65th task, the 129th message")
    book.mesh(2, 1, 1)
    book.load(job_part([task(n, 0, 100, n, 1) for n in range(1, 66)]))
    book.show_plan(8)
    book.mesh(2, 1, 1)
    book.load(job_part([task(n, 0, 100, n, 1) for n in range(64, 0, -1)], [message(1, 9, 8, 1, 0, 5)]))
    book.show_plan(8)
    book.load(job_part())
    book.ask("drop task", 20)
    book.load(job_part([task(90, 0, 100, 20, 1), task(91, 1, 100, 20, 1)]))
    book.ask("holder core", 0, 120)
    two_ends(book)
    book.load(job_part([], [message(n, 1, 2, 1, 4 * n, 3) for n in range(1, 130)]))
    book.show_plan(8)
    two_ends(book)
    book.load(job_part([], [message(n, 1, 2, 1, 4 * n, 3) for n in range(128, 0, -1)]))
    book.ask("place message", 129, 1, 2, 1, 4)
    book.ask("drop message", 77)
    book.load(job_part([], [message(129, 1, 2, 1, 0, 5), message(130, 1, 2, 1, 0, 4)]))
    book.load(job_part([], [message(129, 1, 2, 1, 0, 4), message(130, 1, 2, 1, 308, 3)]))
    book.show_plan(8)


def long_part(book):
    book.script("a job part of more than 8,192 bytes")
    book.mesh(1, 1, 1)
    book.load(job_part([task(n, 0, 1024, n, 1) for n in range(1, 520)]))
    book.ask("holder core", 0, 64)
    book.ask("holder core", 0, 65)


SCRIPTS = (layouts, refused_tasks, refused_messages, without_route, full_tables, long_part)
