"""Scripts of lines that are no calls, and of those that only just are."""

from book import LARGEST_ROOM, LAST_INSTANT, job_part, small_plan
from cases import task

# The words of each line of numbers, with numbers that make a call of it and the bits of each.
FORMS = {
    "fabric mesh": ((2, 8), (2, 8), (1, 8)),
    "offer task": ((9, 16), (0, 8), (20, 32), (3, 32), (2, 32)),
    "offer message": ((9, 16), (1, 16), (2, 16), (1, 8), (3, 32), (2, 32)),
    "place task": ((9, 16), (1, 8), (20, 32), (2, 32)),
    "place message": ((9, 16), (2, 16), (1, 16), (1, 8), (2, 32)),
    "drop task": ((9, 16),),
    "drop message": ((9, 16),),
    "write": ((100, 64),),
    "slack": ((1, 16),),
    "holder core": ((0, 16), (5, 64)),
    "holder link": ((0, 16), (5, 64)),
}

SPELLINGS = ("+5", "-1", "5.", "0x5", "1_0", "five", "5,", "٣", "５", "1e3", "")


def bounds(book, words, fields):
    """Each number in turn: the largest that fits, the next, and a far larger one."""
    values = [value for value, _ in fields]
    for i, (_, bits) in enumerate(fields):
        for number in (2**bits - 1, 2**bits, 10**20):
            book.ask(words, *values[:i], number, *values[i + 1:])


def spellings(book, words, values):
    """The last number in other spellings, and all numbers with zeros in front."""
    for spelling in SPELLINGS:
        book.ask(words, *values[:-1], spelling)
    book.ask(words, *(f"{value:025}" for value in values))


def spacings(book, words, values):
    """Words that lack or are left over, and other separators than one space."""
    line = " ".join([words, *map(str, values)])
    for bad in (
        words, " " + line, line + " ", line + " 1", line.rsplit(" ", 1)[0], line.replace(" ", "  ", 1), line.replace(" ", "\t", 1),
        line + "\t", line + "\r", line + "#", words + " " + line[len(words):], words + line[len(words) + 1:], line.upper(),
        line.capitalize(),
    ):
        book.raw(bad.encode())


def forms(book):
    for words, fields in FORMS.items():
        book.script(f"{words}: numbers at and past their bits, other spellings, other spacing")
        small_plan(book)
        bounds(book, words, fields)
        values = [value for value, _ in fields]
        spacings(book, words, values)
        spellings(book, words, values)
        book.show_plan()


def long_numbers(book):
    book.script("numbers of very many digits")
    small_plan(book)
    book.ask("slack", "0" * 300 + "1")
    book.ask("slack", "0" * 5000 + "1")
    book.ask("slack", "0" * 5000)
    book.ask("slack", "1" + "0" * 300)
    book.ask("holder core", "00000", "0" * 40 + str(LAST_INSTANT))
    book.ask("holder core", "00000", "0" * 40 + str(LAST_INSTANT + 1))
    book.ask("holder core", 0, 10**19)
    book.ask("holder core", 0, 2 * 10**19)
    book.ask("write", "0" * 300 + "52")
    book.ask("write", "0" * 5000 + "51")
    book.ask("write", "0" * 5000)
    book.ask("write", "52" + "0" * 300)
    book.ask("write", "0" * 40 + str(LARGEST_ROOM))
    book.ask("write", "0" * 40 + str(LARGEST_ROOM + 1))
    book.ask("write", 10**19)
    book.ask("write", 2 * 10**19)


def other_words(book):
    book.script("words that are no call, and lines of other bytes")
    small_plan(book)
    book.text("""
offer
place
drop
holder
fabric
mesh 2 2 1
task 9 0 20 3 2
offer job 9 0 20 3 2
offer tasks 9 0 20 3 2
offer task: 9 0 20 3 2
offertask 9 0 20 3 2
change task 1 0 20 0 3
holder 0 5
holder node 0 5
holder core link 5
drop 1
slack message 1
fabric ring 4 1
fabric mesh 2 by 1
writes 100
write all 100
write task 100
write 100 bytes
write FF
write
exit
:
slack 1: SLACK 6
slack 1 # the slack
 # a comment begins the line
""")
    for line in (
        b" ", b"\t", b"\r", b"\xff", b"\xc3", b"slack \xd9\xa3", b"slack 1\x00", b"\x00", b"slack\xa01", b"sl\xc3\xa4ck 1",
        b"\xef\xbb\xbfslack 1", b"slack\xe2\x80\x891", b"\xf0\x9f\x95\x92", b"load \xff\xff", b"load 00\xb2\xb3", b"x" * 3000,
    ):
        book.raw(line)
    for passed_over in (b"# \xff\xfe a comment of any bytes prints nothing", b"#", b"#slack 1", b"", b""):
        book.raw(passed_over)
    book.show_plan()


def hexadecimal(book):
    book.script("hexadecimal: an even number of digits of either case, possibly none")
    small_plan(book)
    part = job_part([task(171, 0, 220, 4, 14)]).hex()
    for text in (
        part, part.upper(), part.replace("a", "A"), part[:-1], part + "0", part + "g", part[:-2] + "0G", "0x" + part, " " + part,
        part + " ", part + "\r", part[:4] + " " + part[4:], part[:8] + "\t" + part[8:], "-" + part[1:], "", "0", "00", "G0",
        "00000000", "0000 0000", "٠٠٠٠",
    ):
        for words in ("load", "fabric listed"):
            book.ask(words, text)
        if 171 in book.plan.tasks:
            book.ask("drop task", 171)
    book.text("""
load
loads 00000000
Load 00000000
load00000000
fabric listed
fabric  listed 010201010000
fabric Listed 01020101000000000000
""")
    book.show_plan()


SCRIPTS = (forms, long_numbers, other_words, hexadecimal)
