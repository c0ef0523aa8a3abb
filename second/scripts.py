#!/usr/bin/env python3
"""Makes the long script that the gate runs: many scripts one after the other, set pieces first and then walks by chance.

All random choices come from fixed seeds, so the script is the same every time.
"""

import random
import sys

import scripts_fabrics
import scripts_lines
import scripts_loads
import scripts_plans
import scripts_writes
from book import Book, fabric_part, job_part
from cases import WORKED, message, route
from walks import Walk


def no_fabric_yet(book):
    book.script("before any fabric line: one node, no link, no hop delay")
    book.text("""
write 4
write 3
holder core 0 0
holder core 1 0
holder link 0 0
slack 1
drop task 1
offer task 1 1 10 0 3
offer task 1 0 10 0 3
place task 2 0 10 3
offer message 1 1 2 0 0 5
slack 1
offer message 2 1 2 0 1 5
place message 2 2 1 1 5
slack 2
write 67
write 68
holder core 0 13
holder link 0 3
fabric mesh 9 1 0
fabric listed
fabric listed 01
load 000100030000000000140000000600000002
load 000100030000000000140000000600000002000100030003000300000000000000000001
slack 2
drop task 1
drop message 1
drop message 2
drop task 1
drop task 2
holder core 0 0
write 4
""")


# ---- the worked plans


def two_tasks(book):
    book.script("two tasks on one core, periods 4 and 6 or 9")
    book.text("""
fabric mesh 1 1 0
offer task 1 0 4 0 1
offer task 2 0 6 1 1
drop task 2
offer task 2 0 6 2 1
offer task 2 0 9 1 1
place task 2 0 9 1
place task 2 0 6 1
""")


def mesh_routes(book):
    book.script("routes of a mesh 3 by 3: node 0 to 5 takes links 0, 4, 10, and 5 to 0 takes 21, 17, 15")
    book.text("""
fabric mesh 3 3 1
offer task 1 0 100 0 1
offer task 2 5 100 0 1
offer message 1 1 2 1 0 1
offer message 2 2 1 1 0 1
""")
    for link in (0, 4, 10, 21, 17, 15, 2, 8, 14, 23, 20, 3):
        for instant in (1, 2, 3):
            book.ask("holder link", link, instant)


def one_core(book):
    book.script("source and destination on one core: slack 0, then late")
    book.text("""
fabric mesh 1 1 3
offer task 1 0 20 0 4
offer task 2 0 20 4 5
offer message 1 1 2 0 0 2
slack 1
drop message 1
offer message 1 1 2 0 1 2
slack 1
""")


def two_nodes(book):
    book.script("the job part of the file of two nodes, loaded, with delays 0, 6 and 7")
    for delay in (0, 6, 7):
        book.mesh(2, 1, 3)
        book.load(job_part(WORKED, [message(1, 1, 2, 0, delay, 2)]))
        book.ask("slack", 1)
    book.script("beside the message of two nodes: delay 1 meets, the smallest clear delay is 2")
    book.text("""
fabric mesh 2 1 3
offer task 1 0 20 0 4
offer task 2 1 20 15 5
offer message 1 1 2 0 0 2
slack 1
offer message 2 1 2 0 1 2
place message 2 1 2 0 2
slack 2
""")
    book.script("a destination of another period: packet 0 is not the latest")
    book.text("""
fabric mesh 2 1 3
offer task 1 0 20 0 4
offer task 2 1 8 5 1
offer message 1 1 2 0 0 2
place message 1 1 2 0 2
offer message 1 1 2 1 0 2
slack 1
offer message 2 1 2 1 13 2
offer message 2 1 2 1 12 2
slack 2
""")


def wrong_readings(book):
    book.script("a packet that first leaves after its own period, and links that are taken one hop delay later each")
    book.text("""
fabric mesh 2 1 0
offer task 1 0 10 0 4
offer task 2 0 10 6 4
offer task 3 1 10 8 1
offer message 1 1 3 1 0 2
offer message 2 2 3 1 4 2
place message 2 2 3 1 2
fabric mesh 4 1 2
offer task 1 0 20 0 4
offer task 2 2 20 0 4
offer task 3 3 20 15 5
offer message 1 1 3 1 0 2
offer message 2 2 3 1 4 2
offer message 2 2 3 1 0 2
holder link 0 4
holder link 4 6
holder link 8 4
holder link 8 8
holder link 8 6
""")


# ---- walks


def shortest_routes(nodes, links):
    """For each pair of nodes a route of fewest links, where there is one that a record can list."""
    for a in range(nodes):
        ways, frontier = {a: []}, [a]
        for node in frontier:
            for link, (start, end) in enumerate(links):
                if start == node and end not in ways:
                    ways[end] = ways[node] + [link]
                    frontier.append(end)
        for b in sorted(ways):
            if 1 <= len(ways[b]) <= 12:
                yield route(a, b, ways[b])


def chance_fabric(seed, nodes, extra, share):
    """A ring with more links by chance, and that share of its routes, out of ten."""
    rng = random.Random(seed)
    links = [(node, (node + 1) % nodes) for node in range(nodes)]
    links += [tuple(rng.sample(range(nodes), 2)) for _ in range(extra)]
    routes = [listed for listed in shortest_routes(nodes, links) if rng.randrange(10) < share]
    return fabric_part(nodes, rng.randrange(0, 6), links, routes[:256])


POWERS = (16, 32, 64, 128, 256, 512, 1024)
MIXED = (24, 36, 48, 60, 72, 120)
DECADES = (100, 200, 250, 500, 1000)
PRIMES = (7, 11, 13, 77, 91, 143, 1001)
LONG = (65536, 32768, 16384, 8192, 4096)
SMOOTH = (60060, 30030, 15015, 12012, 27720, 55440)
NEAR = (65536, 65535, 65534, 65520, 65521)
TINY = (1, 2, 3, 4, 6, 8)

# The mesh, the periods, how often a width goes into its period at least, and how many calls.
MESH_WALKS = [
    ((1, 1, 0), POWERS, 12, 80), ((2, 1, 3), POWERS, 8, 120), ((2, 2, 1), POWERS, 10, 120), ((4, 4, 2), POWERS, 6, 200),
    ((8, 8, 1), POWERS, 4, 350), ((3, 3, 0), MIXED, 12, 120), ((1, 8, 2), MIXED, 8, 100), ((4, 2, 1), DECADES, 20, 250),
    ((8, 1, 64), DECADES, 20, 100), ((2, 2, 0), PRIMES, 20, 100), ((3, 3, 4), LONG, 16, 120),
    ((4, 1, 64), LONG, 30, 100), ((6, 2, 9), SMOOTH, 300, 120), ((2, 3, 1), SMOOTH, 400, 100), ((4, 4, 3), NEAR, 5000, 120),
    ((2, 2, 0), TINY, 2, 80), ((3, 3, 2), (60,), 10, 100), ((8, 8, 2), (1000,), 10, 250),
]

# The seed, nodes, links beside the ring, routes out of ten, periods, parts, calls.
LISTED_WALKS = [
    (1, 4, 2, 7, POWERS, 8, 100), (2, 6, 6, 5, MIXED, 10, 80), (3, 9, 20, 9, DECADES, 12, 120), (4, 13, 12, 8, LONG, 20, 100),
    (5, 16, 40, 6, POWERS, 6, 120), (6, 5, 0, 10, SMOOTH, 300, 80), (7, 30, 90, 3, POWERS, 5, 100),
]


def shown_and_carried(book):
    """Questions at the end of a walk, and again in a new plan that has loaded what was written."""
    book.show_plan(2)
    book.carry_over()
    book.show_plan(2)


def mesh_walks(book):
    for seed, (numbers, periods, parts, calls) in enumerate(MESH_WALKS, 100):
        columns, rows, delay = numbers
        book.script(
            f"calls by chance on a mesh {columns} by {rows} with hop delay {delay}, periods {min(periods)} to {max(periods)}"
        )
        book.mesh(*numbers)
        Walk(book, seed, periods, parts).run(calls)
        shown_and_carried(book)


def listed_walks(book):
    for seed, nodes, extra, share, periods, parts, calls in LISTED_WALKS:
        book.script(f"calls by chance on {nodes} listed nodes, periods {min(periods)} to {max(periods)}")
        book.listed(chance_fabric(seed, nodes, extra, share))
        Walk(book, seed, periods, parts).run(calls)
        shown_and_carried(book)


def loading_walks(book):
    for seed, periods in enumerate((POWERS, MIXED, LONG), 200):
        book.script(f"loads by chance among other calls, periods {min(periods)} to {max(periods)}")
        book.mesh(4, 2, 1)
        Walk(book, seed, periods, parts=16, load=25).run(80)
        shown_and_carried(book)


def main():
    book = Book()
    for make in (
        no_fabric_yet, two_tasks, mesh_routes, one_core, two_nodes, wrong_readings,
        *scripts_lines.SCRIPTS, *scripts_fabrics.SCRIPTS, *scripts_plans.SCRIPTS, *scripts_loads.SCRIPTS,
        *scripts_writes.SCRIPTS,
        mesh_walks, listed_walks, loading_walks,
    ):
        make(book)
    sys.stdout.buffer.write(b"\n".join(book.lines) + b"\n")


if __name__ == "__main__":
    main()
