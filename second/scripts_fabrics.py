"""Scripts of fabric lines, taken and refused, and of the ways that fabrics give."""

from book import fabric_part, job_part, small_plan
from cases import ALL_RING, RING, WORKED, head, route, section

LINE = [(0, 1), (1, 2)]
LINE_ROUTES = [route(0, 1, [0]), route(0, 2, [0, 1]), route(1, 2, [1])]


def mesh_lines(book):
    book.script("refused mesh lines leave the fabric and the plan; a taken one begins a new plan")
    small_plan(book)
    for numbers in ((0, 1, 0), (1, 0, 0), (9, 1, 0), (1, 9, 0), (255, 1, 0), (8, 8, 65), (1, 1, 255), (0, 0, 255), (16, 4, 1)):
        book.mesh(*numbers)
        book.ask("slack", 1)
        book.ask("holder link", 0, 3)
        book.ask("holder core", 1, 30)
    for numbers in ((8, 8, 64), (1, 1, 0), (8, 1, 1), (1, 8, 1)):
        small_plan(book)
        book.mesh(*numbers)
        book.ask("slack", 1)
        book.ask("holder core", 0, 0)
        book.ask("place task", 1, 0, 20, 20)


def mesh_sizes(book):
    book.script("meshes of many sizes: their counts, and the way from the first node to the last and back")
    sizes = [(columns, rows) for columns in range(1, 9) for rows in range(1, 9)]
    for columns, rows in sizes[::5]:
        last = columns * rows - 1
        book.mesh(columns, rows, last % 5)
        book.ask("place task", 1, 0, 90, 3)
        book.ask("place task", 2, last, 90, 4)
        book.ask("offer message", 1, 1, 2, 1, 1, 2)
        book.ask("place message", 2, 2, 1, 1, 3)
        book.show_message(1)
        book.show_message(2)
        book.ask("holder link", 4 * last + 3, 0)
        book.ask("holder link", 4 * last + 4, 0)


def every_pair(book, nodes, period, width):
    """A task on every core, and a message for every pair, its packet 0 followed over its links."""
    for node in range(nodes):
        book.ask("offer task", node + 1, node, period, node, 2)
    pairs = [(a, b) for a in range(nodes) for b in range(nodes) if a != b]
    for name, (a, b) in enumerate(pairs, 1):
        if book.ask("place message", name, a + 1, b + 1, 1, width).startswith("PLACED"):
            for link, (start, _, _) in book.plan.packets[name].items():
                book.ask("holder link", link, start)


def mesh_ways(book):
    book.script("mesh 3 by 3: a message for every pair of nodes, followed over its links")
    book.mesh(3, 3, 2)
    every_pair(book, 9, 720, 5)


def ring_ways(book):
    book.script("a ring of four listed links: a message for every pair of nodes, followed over its links")
    book.listed(fabric_part(4, 3, RING, ALL_RING))
    every_pair(book, 4, 120, 3)


def half_a_ring(book):
    book.script("the ring with half of its routes: pairs without a route")
    book.listed(fabric_part(4, 3, RING, ALL_RING[::2]))
    every_pair(book, 4, 120, 3)
    for a in range(1, 5):
        for b in range(1, 5):
            book.ask("offer message", 20 + 4 * a + b, a, b, 1, 40, 1)


def long_routes(book):
    book.script("a listed line of 14 nodes: routes of up to 12 links, none of 13")
    links = [(i, i + 1) for i in range(13)]
    routes = [route(a, b, range(a, b)) for a in range(14) for b in range(a + 1, 14) if b - a <= 12]
    book.listed(fabric_part(14, 64, links, routes))
    for node in range(14):
        book.ask("offer task", node + 1, node, 3000, 10 * node, 10)
    for destination in range(2, 15):
        if book.ask("offer message", destination, 1, destination, 1, 0, 20) != "TAKEN":
            book.ask("place message", destination, 1, destination, 1, 20)
    book.ask("offer message", 1, 1, 14, 1, 0, 20)
    book.ask("place message", 1, 14, 1, 1, 20)
    book.show_plan(6)
    book.ask("holder link", 12, 0)
    book.ask("holder link", 13, 0)
    book.ask("drop task", 14)
    book.ask("holder core", 13, 130)


def bad_settings():
    """Bytes that setting a listed fabric refuses, in the order of the checks."""
    links = [bytes(link) for link in RING]
    ring = head(2, 4, 1, 1) + section(links)
    good = [route(0, 1, [0]), route(0, 2, [0, 1])]
    yield from (b"", bytes(5), head(2, 4, 1, 1)[:5], head(2, 4, 1, 1), head(2, 4, 1, 1) + b"\0")
    yield from (head(2, version=0), head(2, version=2), head(0), head(1), head(3), head(2, zero=1), head(1, 0, 0, 255))
    yield from (head(2, 0), head(2, 65), head(2, 255), head(2, 4, 0), head(2, 4, 2), head(2, 4, 1, 65), head(2, 4, 1, 255))
    for count in (4, 5, 128, 129, 65535):
        yield head(2, 4, 1, 1) + section(links, count)
    yield head(2, 4, 1, 1) + section(links, 4)[:-1]
    for bad in ((0, 0), (0, 4), (4, 0), (255, 255)):
        yield head(2, 4, 1, 1) + section(links[:3] + [bytes(bad)]) + section([])
    yield ring + section(good)[:-1]
    for count in (3, 256, 257, 65535):
        yield ring + section(good, count)
    for bad in (
        route(0, 4, [0]), route(4, 0, [0]), route(1, 1, [1]), route(1, 2, [], 0), route(1, 2, [1], 13), route(1, 2, [1], zero=1),
        route(1, 2, [1], unused=1), route(1, 2, [4]), route(1, 2, [0]), route(1, 3, [1]), route(1, 3, [2, 1]),
        route(1, 2, [1, 2, 3, 0, 1]), route(0, 2, [0, 1]), route(0, 1, [0]), route(0, 0, [9], 0, zero=9),
    ):
        yield ring + section(good + [bad])
    # the first record at fault decides, whatever its fault
    yield ring + section([route(1, 2, [1]), route(0, 1, [0]), route(4, 4, [9])])
    yield ring + section([route(1, 2, [2]), route(4, 4, [9])])


def listed_lines(book):
    book.script("refused listed lines leave the fabric and the plan")
    small_plan(book)
    for i, data in enumerate(bad_settings()):
        book.listed(data)
        book.ask("slack", 1)
        book.ask(*(("holder link", 0, 2) if i % 2 else ("holder core", 0, 1)))
    book.ask("place task", 3, 0, 20, 18)


def settings(book):
    book.script("setting looks at no byte after the routes, and no size is too large for it")
    part = fabric_part(3, 2, LINE, LINE_ROUTES)
    for rest in (b"", b"\0", b"\xff" * 5, job_part(WORKED), bytes(9000)):
        book.listed(part + rest)
        book.ask("place task", 1, 0, 30, 2)
        book.ask("place task", 2, 2, 30, 2)
        book.ask("place message", 1, 1, 2, 1, 2)
        book.ask("slack", 1)
        book.ask("place message", 2, 2, 1, 1, 2)


def extreme_counts(book):
    book.script("the smallest and the largest counts of a listed fabric")
    book.listed(fabric_part(1, 0, [], []))
    book.ask("holder core", 0, 0)
    book.ask("holder link", 0, 0)
    book.listed(fabric_part(64, 64, [(i % 64, (i + 1) % 64) for i in range(128)], [route(63, 0, [127])]))
    book.ask("place task", 1, 63, 1000, 10)
    book.ask("place task", 2, 0, 1000, 10)
    book.ask("place message", 1, 1, 2, 1, 10)
    book.show_message(1)
    book.ask("place message", 2, 2, 1, 1, 10)
    book.ask("holder link", 128, 0)
    book.ask("holder core", 64, 0)


SCRIPTS = (
    mesh_lines, mesh_sizes, mesh_ways, ring_ways, half_a_ring, long_routes, listed_lines, settings, extreme_counts,
)
