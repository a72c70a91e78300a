"""The page of events, worked out from the request alone: no code of the library is used.
usage: report.py cases | answers [SEED]      cases for crates/report_replay, and what it has to answer"""
import random, sys, zlib

HEAD = ("seq", "sent", "delay1", "delay2", "fold1", "fold2")


def entries(texts):
    """Number right in 10, first or again left in 8, delays and folds right in 13 each, two blanks."""
    number, sent, *copies = texts
    return f"{number:>10}{sent:<8}" + "".join(f"{t:>13}" for t in copies) + "  \n"


def event(row):
    number, again, copies, *numbers = row
    delays, folds = numbers[:2][:copies], numbers[2:][:copies]
    blanks = [""] * (2 - copies)
    return entries([number, "again" if again else "first", *delays, *blanks, *folds, *blanks])


def page(rows):
    totals = (len(rows), sum(row[2] for row in rows), sum(row[1] for row in rows))
    text = entries(HEAD) + "".join(event(row) for row in rows) + "".join(f"{n:>24}" for n in totals) + "\n"
    lines = text.split("\n")
    assert lines.pop() == "" and len(lines) == len(rows) + 2 and all(len(line) == 72 for line in lines)
    return text


def refusal(rows, count, size):
    """The number of the first check that is true, in the order 9, 10, 5; None if there is none."""
    if count > len(rows):
        return 9
    rows = rows[:count]
    for number, again, copies, *numbers in rows:
        if number >= 2**32 or again > 1 or copies > 2 or any(fold > 65535 for fold in numbers[2:][:copies]):
            return 9
    if any(delay > 180000 for row in rows for delay in row[3:5][:row[2]]):
        return 10
    return 5 if size < 73 * (count + 2) else None


def row(rng):
    """Mostly an event; sometimes one number is at or past its bound, and what is past the copies can be anything."""
    copies = rng.choice((0, 1, 1, 2))
    limits = (2**32 - 1, 1, 2, 180000, 180000, 65535, 65535)
    out = [rng.choice((rng.randrange(100), rng.randrange(2**32))), rng.randrange(2), copies]
    out += [rng.choice((5, rng.randrange(180001))) for _ in range(2)] + [rng.randrange(65536) for _ in range(2)]
    for i in (3, 4, 5, 6):
        if i in (4, 6) and copies < 2 or copies < 1:
            out[i] = rng.choice((0, out[i], limits[i] + 1, 2**64 - 1))
    if rng.randrange(12) == 0:
        i = rng.randrange(7)
        out[i] = limits[i] + rng.choice((0, 0, 1, 7)) if i != 2 or copies == 2 else copies
    return out


def known():
    """None, one and two copies, first and again, the largest numbers; each bound met and passed."""
    largest = [2**32 - 1, 1, 2, 180000, 180000, 65535, 65535]
    yield [], [(0, 146), (0, 145), (0, 8192), (1, 8192)]
    yield [[0, 0, 1, 5, 0, 510, 0]], [(1, 219), (1, 218), (1, 0), (0, 300), (2, 300), (2**64 - 1, 300)]
    yield [[0, 0, 2, 5, 9, 765, 765], [1, 0, 0, 0, 0, 0, 0], [1, 1, 1, 5, 0, 510, 0]], [(3, 365), (3, 364), (2, 8192)]
    yield [largest], [(1, 219), (1, 220)]
    yield [[0, 0, 0] + [2**64 - 1] * 4, [1, 0, 1, 5, 2**64 - 1, 7, 2**64 - 1]], [(2, 292)]
    for i in range(7):
        above = [n + (k == i) for k, n in enumerate(largest)]
        yield [largest, above], [(1, 219), (2, 292), (2, 291)]
    late, wrong = [0, 0, 1, 180001, 0, 1, 0], [0, 2, 0, 0, 0, 0, 0]
    yield [late, wrong], [(2, 292), (1, 219), (1, 10), (2, 10)]
    yield [wrong, late], [(2, 292), (1, 219)]
    yield [[2**64 - 1] * 7], [(1, 219), (0, 146)]
    yield [[i, i % 2, i % 3, i, i, i, i] for i in range(64)], [(64, 4818), (64, 4817), (63, 8192), (65, 8192)]


def lists(seed):
    yield from known()
    rng = random.Random(seed)
    for _ in range(40):
        rows = [row(rng) for _ in range(rng.choice((1, 2, 3, 8)))]
        count = rng.choice((len(rows), len(rows), len(rows) - 1, len(rows) + 1))
        room = 73 * (count + 2)
        yield rows, [(count, room), (count, room + rng.randrange(-2, 40))]


def answer(rows, count, size):
    number = refusal(rows, count, size)
    text = "" if number else page(rows[:count])
    lent = text.encode() + b"#" * (size - len(text))
    said = f"refused {number}" if number else f"{len(text)}"
    return f"p {said} crc32 {zlib.crc32(lent):08x}" + ("" if number else "\n" + text)


def main(what, seed=1):
    if what == "cases":
        print("# Events for pages; made by compare/report.py.")
    for rows, pages in lists(seed):
        print("c")
        for i, numbers in enumerate(rows):
            print("e", *(numbers if what == "cases" else [i + 1]))
        for count, size in pages:
            print(f"p {count} {size}" if what == "cases" else answer(rows, count, size))


if __name__ == "__main__":
    main(*sys.argv[1:])
