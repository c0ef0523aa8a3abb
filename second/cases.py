#!/usr/bin/env python3
"""Makes the table of plan files that the gate runs: each line is the size of the buffer, a space, and a file in hexadecimal.

All random choices come from fixed seeds, so the table is the same every time.
"""

import random

CASES = []


def case(data, room=64):
    CASES.append(f"{room} {bytes(data).hex().upper()}")


def big(n, size):
    return n.to_bytes(size, "big")


def head(kind=1, x=2, y=1, delay=3, version=1, zero=0):
    return bytes([version, kind, x, y, delay, zero])


def section(records, count=None):
    return big(len(records) if count is None else count, 2) + b"".join(records)


def task(name, core, period, phase, width, zero=0):
    return big(name, 2) + bytes([core, zero]) + big(period, 4) + big(phase, 4) + big(width, 4)


def message(name, source, destination, kind, delay, width, zero=0):
    return (
        big(name, 2) + big(source, 2) + big(destination, 2) + bytes([kind, zero]) + big(delay, 4) + big(width, 4)
    )


def route(a, b, links, length=None, zero=0, unused=0):
    padded = (list(links) + [unused] * 12)[:12]
    return bytes([a, b, len(links) if length is None else length, zero]) + bytes(padded)


def mesh(tasks=(), messages=(), x=2, y=1, delay=3):
    return head(1, x, y, delay) + section([]) + section([]) + section(list(tasks)) + section(list(messages))


def listed(links, routes, tasks=(), messages=(), nodes=4, delay=1):
    return (
        head(2, nodes, 1, delay) + section([bytes(l) for l in links]) + section(list(routes))
        + section(list(tasks)) + section(list(messages))
    )


# ---- the worked plans

WORKED = [task(1, 0, 20, 0, 4), task(2, 1, 20, 15, 5)]


def worked():
    for delay in range(0, 20):
        case(mesh(WORKED, [message(1, 1, 2, 0, delay, 2)]))
    for hop in range(0, 12):
        case(mesh(WORKED, [message(1, 1, 2, 0, 0, 2)], delay=hop))
    held = task(1, 0, 4, 0, 1)
    for period in (1, 2, 3, 4, 5, 6, 7, 8, 9, 12):
        for phase in range(period):
            case(mesh([held, task(2, 0, period, phase, 1)]))
    for delay in range(0, 6):
        pair = [message(1, 1, 2, 0, 0, 2), message(2, 1, 2, 0, delay, 2)]
        case(mesh(WORKED, pair))
    one_core = [task(1, 0, 20, 0, 4), task(2, 0, 20, 4, 5)]
    for kind in (0, 1):
        for delay in (0, 1, 15, 16, 19):
            case(mesh(one_core, [message(1, 1, 2, kind, delay, 2)]))
    fast = [task(1, 0, 20, 0, 4), task(2, 1, 8, 5, 1)]
    for kind in (0, 1):
        for delay in (0, 3, 12, 13):
            case(mesh(fast, [message(1, 1, 2, kind, delay, 2)]))


# ---- heads, sections and cuts


def heads():
    for n in range(0, 7):
        case((head() + bytes(4))[:n])
    for version in (0, 1, 2, 255):
        case(head(version=version) + bytes(8))
    for kind in (0, 1, 2, 3, 255):
        case(head(kind, 2, 1) + bytes(8))
    for zero in (0, 1, 255):
        case(head(zero=zero) + bytes(8))
    for x in (0, 1, 7, 8, 9, 255):
        for y in (0, 1, 8, 9, 255):
            case(head(1, x, y) + bytes(8))
    for x in (0, 1, 2, 63, 64, 65, 255):
        for y in (0, 1, 2):
            case(head(2, x, y) + bytes(8))
    for kind in (1, 2):
        for delay in (0, 64, 65, 255):
            case(head(kind, 2, 1, delay) + bytes(8))
    # the version comes before the size, the size before the sections
    case(head(1, 0, 0, 255, version=2))
    case(head(1, 0, 0, 255))
    case(head(1, 2, 1, 3) + big(1, 2))


def cuts():
    whole = mesh(WORKED, [message(1, 1, 2, 0, 0, 2)])
    for n in range(len(whole)):
        case(whole[:n])
    for extra in (1, 2, 16):
        case(whole + bytes(extra))
    ring = listed(RING, ALL_RING, [task(1, 0, 9, 0, 2), task(2, 2, 9, 6, 2)], [message(1, 1, 2, 0, 0, 1)])
    for n in list(range(6, 40)) + list(range(40, len(ring), 7)):
        case(ring[:n])
    case(ring + b"\x00")


def sizes():
    for n in (8191, 8192, 8193, 8200):
        case(mesh(WORKED, [message(1, 1, 2, 0, 0, 2)]) + bytes(n - len(mesh(WORKED, [message(1, 1, 2, 0, 0, 2)]))))
        case(bytes(n))
    # exactly 8,192 bytes with every section whole: the 65th task is one too many; and one byte after it
    tasks = [task(n, n % 2, 1000, n, 1) for n in range(1, 512)]
    full = head(2, 2, 1, 0) + section([bytes([0, 1])]) + section([]) + section(tasks) + section([])
    assert len(full) == 8192
    case(full)
    case(full + bytes(1))
    case(full[:-1])
    case(bytes([1, 1, 2, 1, 3, 0]) + bytes(8187))


# ---- listed fabrics

RING = [(0, 1), (1, 2), (2, 3), (3, 0)]
ALL_RING = [
    route(a, b, [(a + i) % 4 for i in range((b - a) % 4)]) for a in range(4) for b in range(4) if a != b
]


def listed_cases():
    case(listed([], [], nodes=1, delay=0))
    case(listed(RING, ALL_RING))
    for bad in ((0, 0), (0, 4), (4, 0), (255, 1), (3, 3)):
        for at in (0, 2, 4):
            links = RING[:at] + [bad] + RING[at:]
            case(listed(links, []))
    for count in (127, 128, 129, 255, 256, 65535):
        links = [(i % 4, (i + 1) % 4) for i in range(min(count, 300))]
        case(head(2, 4, 1, 1) + section([bytes(l) for l in links], count) + bytes(6))
    for count in (255, 256, 257, 65535):
        nodes, links = 17, [(a, (a + 1) % 17) for a in range(17)]
        pairs = [(a, b) for a in range(17) for b in range(17) if a != b and (b - a) % 17 <= 12] + [(20, 20)] * 100
        routes = [route(a, b, [(a + i) % 17 for i in range((b - a) % 17)]) for a, b in pairs if a < 17]
        more = [route(16, 16, [0])] * 400
        data = head(2, nodes, 1, 1) + section([bytes(l) for l in links]) + section((routes + more)[:min(count, 400)], count)
        case(data + bytes(4))
    good = [(0, 1, [0]), (0, 2, [0, 1]), (0, 3, [0, 1, 2])]
    bad_routes = [
        route(0, 4, [0]), route(4, 0, [0]), route(1, 1, [1]), route(1, 2, [], 0), route(1, 2, [1], 13), route(1, 2, [1], 255),
        route(1, 2, [1], zero=1), route(1, 2, [1], unused=1), route(1, 2, [4]), route(1, 2, [1, 200]), route(1, 2, [1, 0], 1),
        route(1, 2, [0]), route(1, 3, [1]), route(1, 3, [2, 1]), route(1, 2, [1, 2, 3, 0, 1]), route(0, 1, [0, 1, 2, 3, 0]),
        route(0, 3, [0, 1, 2]), route(0, 2, [0, 1]), route(0, 1, [0]), route(1, 0, [1, 2, 3]), route(1, 2, [2]),
        route(0, 2, [1, 1]), route(0, 0, [9], 0, zero=9),
    ]
    for record in bad_routes:
        case(listed(RING, [route(*r) for r in good] + [record]))
        case(listed(RING, [record] + [route(*r) for r in good]))
    # chains of the longest length
    line = [(i, i + 1) for i in range(13)]
    for length in (11, 12, 13):
        links = list(range(length))
        case(listed(line, [route(0, length, links[:12], length)], nodes=14))
    # a route must be there for a message
    tasks = [task(1, 0, 40, 0, 2), task(2, 2, 40, 30, 2), task(3, 3, 40, 30, 2)]
    some = [route(0, 2, [0, 1]), route(2, 3, [2])]
    for source, destination in ((1, 2), (2, 1), (1, 3), (2, 3), (3, 2), (1, 1), (3, 3)):
        case(listed(RING, some, tasks, [message(1, source, destination, 1, 0, 3)]))


# ---- tasks


def task_cases():
    ok = task(7, 1, 10, 2, 3)
    case(mesh([ok]))
    for name in (0, 1, 7, 65535):
        case(mesh([ok, task(name, 0, 10, 0, 1)]))
    for core in (0, 1, 2, 63, 255):
        case(mesh([task(1, core, 10, 0, 1)]))
        case(mesh([task(1, core, 10, 0, 1)], x=8, y=8))
    for period in (0, 1, 2, 65535, 65536, 65537, 2**31, 2**32 - 1):
        case(mesh([task(1, 0, period, 0, 1)]))
        case(mesh([task(1, 0, period, 0, period)]))
        case(mesh([task(1, 0, period, period - 1 if period else 0, 1)]))
        case(mesh([task(1, 0, period, min(period, 2**32 - 1), 1)]))
    for width in (0, 1, 9, 10, 11, 2**32 - 1):
        for phase in (0, 1, 2, 2**32 - 1):
            case(mesh([task(1, 0, 10, phase, width)]))
    for zero in (1, 255):
        case(mesh([ok, task(1, 0, 10, 0, 1, zero)]))
        case(mesh([task(1, 0, 10, 0, 1, zero), ok]))
    # the order of the checks
    case(mesh([task(0, 99, 0, 0, 0)]))
    case(mesh([task(1, 99, 0, 0, 0)]))
    case(mesh([task(0, 99, 0, 0, 0, zero=1)]))
    case(mesh([task(1, 0, 4, 0, 1), task(1, 0, 4, 0, 1)]))
    # full tables
    for count in (63, 64, 65, 66):
        case(mesh([task(n, n % 8, 100, n, 1) for n in range(1, count + 1)], x=8, y=1))
        case(mesh([task(count + 1 - n, 0, 100, n, 1) for n in range(1, count + 1)]))
    case(mesh([task(n, 0, 64, n - 1, 1) for n in range(1, 65)] + [task(65, 0, 0, 0, 0)]))
    # the smallest name among equals, whatever the order of the records
    case(mesh([task(9, 0, 8, 0, 2), task(3, 0, 8, 2, 2), task(5, 0, 8, 4, 1), task(4, 0, 16, 0, 8)]))
    case(mesh([task(9, 0, 8, 4, 1), task(3, 0, 12, 0, 1), task(5, 0, 24, 4, 1)]))
    # another core does not matter
    case(mesh([task(1, 0, 8, 0, 8), task(2, 1, 8, 0, 8)]))
    case(mesh([task(1, 0, 8, 0, 8), task(2, 0, 8, 0, 1)]))


def far_meetings():
    """Periods near 65,536 that first meet just below 2 to the 32nd."""
    for p, q in ((65536, 65535), (65535, 65534), (65536, 65533), (65521, 65519), (65535, 65536), (65533, 65536)):
        for a in (0, 1, 5):
            for b in (0, 1, 2, 7, q - 1, q - 2):
                if a < p and b < q:
                    case(mesh([task(1, 0, p, a, 1), task(2, 0, q, b, 1)]))
    rng = random.Random(20)
    for _ in range(12):
        p, q = rng.randrange(65000, 65537), rng.randrange(65000, 65537)
        case(mesh([task(1, 0, p, rng.randrange(p), 1), task(2, 0, q, rng.randrange(q), 1)]))


# ---- messages


def message_cases():
    case(mesh(WORKED, [message(1, 1, 2, 0, 0, 2)]))
    for name in (0, 1, 2, 65535):
        case(mesh(WORKED, [message(1, 1, 2, 0, 0, 2), message(name, 1, 2, 1, 8, 1)]))
    for source, destination in ((0, 2), (1, 0), (3, 2), (1, 3), (1, 1), (2, 2), (2, 1), (65535, 1)):
        for kind in (0, 1):
            case(mesh(WORKED, [message(1, source, destination, kind, 0, 2)]))
    for kind in (0, 1, 2, 255):
        for zero in (0, 1, 255):
            case(mesh(WORKED, [message(1, 1, 2, kind, 0, 2, zero)]))
    case(mesh([task(1, 0, 20, 0, 4, 7), WORKED[1]], [message(1, 1, 2, 9, 0, 2)]))
    for delay in (0, 19, 20, 21, 2**32 - 1):
        for width in (0, 1, 20, 21, 2**32 - 1):
            case(mesh(WORKED, [message(1, 1, 2, 1, delay, width)]))
    # the order of the checks
    case(mesh(WORKED, [message(0, 9, 9, 0, 99, 0)]))
    case(mesh(WORKED, [message(1, 9, 9, 0, 99, 0)]))
    case(mesh(WORKED, [message(1, 1, 2, 0, 99, 0)]))
    case(mesh([WORKED[0], task(1, 0, 20, 0, 4)], [message(0, 9, 9, 0, 99, 0)]))
    # the largest slack and lateness
    wide = [task(1, 0, 65536, 0, 65536), task(2, 63, 65536, 0, 65536), task(3, 63, 1, 0, 1)]
    for kind in (0, 1):
        for delay in (0, 65535):
            case(mesh(wide[:2], [message(1, 1, 2, kind, delay, 65536)], x=8, y=8, delay=64))
            case(mesh(wide[:1] + wide[2:], [message(1, 1, 3, kind, delay, 65536)], x=8, y=8, delay=64))
    # coprime periods: some packet is read in its first cycle
    for q in (3, 7, 19, 21, 23):
        for f in (0, 1, q - 1):
            case(mesh([task(1, 0, 20, 0, 1), task(2, 1, q, f, 1)], [message(1, 1, 2, 1, 0, 1)], delay=0))
    # a packet may first leave after its own period
    late = [task(1, 0, 10, 6, 4), task(2, 1, 10, 9, 1), task(3, 2, 10, 9, 1)]
    for delay in (0, 5, 9):
        case(mesh(late, [message(1, 1, 2, 1, 0, 3), message(2, 1, 3, 1, delay, 3)], x=3, delay=2))


def sharing():
    """Messages that share links: each link starts one hop delay later."""
    tasks = [task(1, 0, 12, 0, 1), task(2, 1, 12, 0, 1), task(3, 2, 12, 11, 1), task(4, 3, 12, 11, 1)]
    for hop in (0, 1, 2, 5):
        for delay in range(0, 10):
            case(mesh(tasks, [message(1, 1, 4, 1, 0, 2), message(2, 2, 3, 1, delay, 2)], x=4, delay=hop))
            case(mesh(tasks, [message(9, 1, 3, 1, 0, 2), message(4, 2, 4, 1, delay, 3)], x=4, delay=hop))
    # the same instant on several links: the smallest link; several names: the smallest name
    flat = [task(1, 0, 30, 0, 1), task(2, 3, 30, 29, 1), task(3, 0, 30, 1, 1)]
    case(mesh(flat, [message(1, 1, 2, 1, 4, 3), message(2, 1, 2, 1, 4, 3)], x=4, delay=0))
    case(mesh(flat, [message(7, 1, 2, 1, 4, 3), message(5, 1, 2, 1, 8, 3), message(6, 1, 2, 1, 2, 9)], x=4, delay=0))
    back = [task(1, 5, 40, 0, 1), task(2, 0, 40, 39, 1)]
    case(mesh(back, [message(3, 1, 2, 1, 4, 3), message(2, 1, 2, 1, 4, 3)], x=3, y=3, delay=0))
    case(mesh(back, [message(3, 1, 2, 1, 4, 3), message(2, 1, 2, 1, 1, 3)], x=3, y=3, delay=2))


def full_messages():
    tasks = [task(1, 0, 65536, 0, 1), task(2, 1, 65536, 65535, 1), task(3, 0, 65536, 5, 1)]
    for count in (127, 128, 129):
        messages = [message(n, 1, 2, 1, 4 * n, 3) for n in range(1, count + 1)]
        case(mesh(tasks, messages, delay=1))
        case(mesh(tasks, [message(count + 1 - n, 1, 3, 1, 4 * n, 3) for n in range(1, count + 1)], delay=1))


# ---- whole plans by chance


def chance():
    rng = random.Random(3)
    for _ in range(120):
        x, y = rng.randrange(1, 5), rng.randrange(1, 4)
        nodes = x * y
        periods = rng.choice([(12, 24, 48), (10, 15, 30), (7, 11, 13), (64, 128, 256), (100, 1000, 50)])
        tasks = []
        for n in range(1, rng.randrange(2, 12)):
            period = rng.choice(periods)
            width = rng.randrange(1, max(2, period // 6))
            phase = rng.randrange(0, period - width + 1)
            tasks.append(task(n, rng.randrange(nodes), period, phase, width))
        messages = []
        for n in range(1, rng.randrange(1, 10)):
            ends = rng.randrange(1, len(tasks) + 1), rng.randrange(1, len(tasks) + 1)
            messages.append(message(n, *ends, rng.choice((0, 1, 1)), rng.randrange(0, 8), rng.randrange(1, 4)))
        case(mesh(tasks, messages, x=x, y=y, delay=rng.randrange(0, 4)))


def clear_by_chance():
    """Sparse plans, most of them clear."""
    rng = random.Random(4)
    for _ in range(60):
        period = rng.choice((60, 120, 240))
        tasks = [task(n, n - 1, period, 0, 1) for n in range(1, 9)] + [
            task(n + 8, n - 1, period, period - 1, 1) for n in range(1, 9)
        ]
        messages = []
        for n in range(1, rng.randrange(2, 9)):
            messages.append(message(n, rng.randrange(1, 9), rng.randrange(9, 17), 1, rng.randrange(0, period), rng.randrange(1, 3)))
        case(mesh(tasks, messages, x=4, y=2, delay=rng.randrange(0, 3)))


def broken():
    """Files with bytes changed by chance."""
    rng = random.Random(5)
    whole = [
        mesh(WORKED, [message(1, 1, 2, 0, 0, 2)]),
        listed(RING, ALL_RING, [task(1, 0, 9, 0, 2), task(2, 2, 9, 6, 2)], [message(1, 1, 2, 0, 0, 1)]),
    ]
    for data in whole:
        for _ in range(60):
            changed = bytearray(data)
            for _ in range(rng.randrange(1, 4)):
                changed[rng.randrange(len(changed))] = rng.choice((0, 1, 2, 3, 4, 255, rng.randrange(256)))
            case(changed)


def rooms():
    whole = mesh(WORKED, [message(1, 1, 2, 0, 0, 2)])
    for room in (0, 1, 63, 64, 65, 128):
        case(whole, room)
        case(b"", room)


def main():
    for make in (
        worked, heads, cuts, sizes, listed_cases, task_cases, far_meetings, message_cases, sharing, full_messages,
        chance, clear_by_chance, broken, rooms,
    ):
        make()
    print("\n".join(CASES))


if __name__ == "__main__":
    main()
