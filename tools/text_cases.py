#!/usr/bin/env python3
"""The table of plan texts that the program text_cases reads, and what it must print.

An independent reader of plan texts, written from docs/FORMATS.md and docs/REFUSALS.md. It writes
crates/text_cases/data/cases.txt and crates/text_cases/stdout; with --check it only compares them.
In the table a slash stands for the end of a line.
"""
import re
import sys
from pathlib import Path

RELAYS, LINKS = 64, 256  # the places of the program's lists
NUMBER = re.compile(r"(0|[1-9][0-9]{0,9})\Z")


def numbers(line, count):
    fields = line.split(" ")
    if len(fields) != count or not all(NUMBER.match(f) for f in fields):
        return None
    return [int(f) for f in fields]


class Refused(Exception):
    def __init__(self, number, line, who):
        self.answer = f"refused {number} at line {line} by {who}"


def lines_of(text):
    """The lines that byte 10 ends, and what stands behind the last of them."""
    *whole, rest = text.split("\n")
    return whole, rest


def expect(lines, at, heading):
    if at > len(lines) or lines[at - 1] != heading:
        raise Refused(1, at, "text")


def lawful(kind, cost):
    if kind == "D":
        return 1 <= cost[0] <= 1_000_000
    return cost[0] <= 1_000 and 1 <= cost[1] <= 1_000_000


def read(text):
    lines, rest = lines_of(text)
    expect(lines, 1, "kind colours relays links")
    line = lines[1] if len(lines) > 1 else ""
    counts = numbers(line[2:], 3) if line[:2] in ("D ", "P ") else None
    if counts is None:
        raise Refused(1, 2, "text")
    kind, (k, n, m) = line[0], counts
    if not 1 <= n <= 256 or m > 1024:
        raise Refused(2, 2, "text")
    if not 1 <= k <= 16:
        raise Refused(2, 2, "draft")
    expect(lines, 3, "name colour")
    relays = []
    for i in range(n):
        at = 4 + i
        pair = numbers(lines[at - 1], 2) if at <= len(lines) else None
        if pair is None:
            raise Refused(1, at, "text")
        name, colour = pair
        if not 1 <= name <= 4_294_967_295 or not 1 <= colour <= k:
            raise Refused(2, at, "draft")
        if name in [r[0] for r in relays]:
            raise Refused(3, at, "draft")
        if len(relays) >= RELAYS:
            raise Refused(17, at, "draft")
        relays.append((name, colour))
    expect(lines, 4 + n, "from to delay" if kind == "D" else "from to paid delay")
    number = {name: i for i, (name, _) in enumerate(relays)}
    links = []
    for j in range(m):
        at = 5 + n + j
        row = numbers(lines[at - 1], 3 if kind == "D" else 4) if at <= len(lines) else None
        if row is None:
            raise Refused(1, at, "text")
        a, b, *cost = row
        if a > 4_294_967_295 or b > 4_294_967_295 or not lawful(kind, cost):
            raise Refused(2, at, "draft")
        if a not in number or b not in number or a == b or {number[a], number[b]} in links:
            raise Refused(4, at, "draft")
        if len(links) >= LINKS:
            raise Refused(17, at, "draft")
        links.append({number[a], number[b]})
    if len(lines) > 4 + n + m or rest:
        raise Refused(1, 5 + n + m, "text")
    absent = [c for c in range(1, k + 1) if c not in [r[1] for r in relays]]
    if absent:
        raise Refused(5, 0, f"closing, colour {absent[0]}")
    reached = {0}
    while True:
        more = set().union(*[pair for pair in links if pair & reached]) - reached
        if not more:
            break
        reached |= more
    if len(reached) < n:
        lowest = min(set(range(n)) - reached)
        raise Refused(6, 0, f"closing, relay {lowest}")
    return f"accepted, {n} relays, {m} links"


def answer(text):
    try:
        return read(text)
    except Refused as refused:
        return refused.answer


HEAD = "kind colours relays links/"
SIX = HEAD + "D 2 6 5/name colour/10 1/11 2/12 2/13 1/14 2/15 2/from to delay/10 11 2/11 12 3/12 13 4/13 14 1/14 15 5/"
PAID = HEAD + "P 1 3 3/name colour/30 1/31 1/32 1/from to paid delay/30 31 0 9/30 32 1 1/31 32 0 1/"
ONE = HEAD + "D 1 1 0/name colour/7 1/from to delay/"


def chain(n):
    """A plan of n relays in a row."""
    relays = "".join(f"{i + 1} 1/" for i in range(n))
    links = "".join(f"{i + 1} {i + 2} 1/" for i in range(n - 1))
    return HEAD + f"D 1 {n} {n - 1}/name colour/" + relays + "from to delay/" + links


def dense(n, m):
    """A plan of n relays with m links among the pairs."""
    relays = "".join(f"{i + 1} 1/" for i in range(n))
    pairs = [(i, j) for i in range(n) for j in range(i + 1, n)][:m]
    links = "".join(f"{i + 1} {j + 1} 1/" for i, j in pairs)
    return HEAD + f"D 1 {n} {m}/name colour/" + relays + "from to delay/" + links


CASES = [
    ("six relays", SIX),
    ("paid", PAID),
    ("one relay", ONE),
    ("empty", ""),
    ("no line end", "kind colours relays links"),
    ("wrong heading", SIX.replace("colours", "colors", 1)),
    ("heading only", HEAD),
    ("other letter", SIX.replace("D 2", "E 2")),
    ("small letter", SIX.replace("D 2", "d 2")),
    ("no letter", SIX.replace("D 2", "2")),
    ("two spaces", SIX.replace("D 2", "D  2")),
    ("space at a line's end", SIX.replace("D 2 6 5/", "D 2 6 5 /")),
    ("tab", SIX.replace("10 1/", "10\t1/", 1)),
    ("carriage return", SIX.replace("10 1/", "10 1\r/", 1)),
    ("leading zero", SIX.replace("10 1/", "010 1/", 1)),
    ("sign", SIX.replace("10 1/", "+10 1/", 1)),
    ("eleven digits", SIX.replace("10 1/", "10000000000 1/", 1)),
    ("ten digits", SIX.replace("15 2/from", "9999999999 2/from")),
    ("count of eleven digits", SIX.replace("D 2 6 5", "D 2 6 50000000000")),
    ("two counts", SIX.replace("D 2 6 5", "D 2 6")),
    ("four counts", SIX.replace("D 2 6 5", "D 2 6 5 1")),
    ("no relays", HEAD + "D 1 0 0/name colour/from to delay/"),
    ("257 relays", SIX.replace("D 2 6 5", "D 2 257 5")),
    ("1025 links", SIX.replace("D 2 6 5", "D 2 6 1025")),
    ("1024 links told", SIX.replace("D 2 6 5", "D 2 6 1024")),
    ("no colours", SIX.replace("D 2 6 5", "D 0 6 5")),
    ("17 colours", SIX.replace("D 2 6 5", "D 17 6 5")),
    ("16 colours", SIX.replace("D 2 6 5", "D 16 6 5")),
    ("counts before colours", SIX.replace("D 2 6 5", "D 17 257 5")),
    ("no relay heading", SIX.replace("name colour/", "")),
    ("wrong relay heading", SIX.replace("name colour", "name color")),
    ("ends at the relay heading", HEAD + "D 2 6 5/"),
    ("name 0", SIX.replace("10 1/", "0 1/", 1)),
    ("largest name", SIX.replace("15 2/from", "4294967295 2/from").replace("14 15 5", "14 4294967295 5")),
    ("name past the largest", SIX.replace("15 2/from", "4294967296 2/from")),
    ("colour 0", SIX.replace("10 1/", "10 0/", 1)),
    ("colour 3 of 2", SIX.replace("10 1/", "10 3/", 1)),
    ("name twice", SIX.replace("15 2/from", "10 2/from")),
    ("name twice and colour 3", SIX.replace("15 2/from", "10 3/from")),
    ("relay line of one number", SIX.replace("10 1/", "10/", 1)),
    ("relay line of three numbers", SIX.replace("10 1/", "10 1 1/", 1)),
    ("relay missing", SIX.replace("15 2/from", "from")),
    ("relay too many", SIX.replace("15 2/from", "15 2/16 1/from")),
    ("ends in a relay line", HEAD + "D 2 6 5/name colour/10 1/11"),
    ("ends behind a relay", HEAD + "D 2 6 5/name colour/10 1/"),
    ("heading of the other kind", SIX.replace("from to delay", "from to paid delay")),
    ("no link heading", SIX.replace("from to delay/", "")),
    ("no link heading and no links", ONE.replace("from to delay/", "")),
    ("paid with three fields", PAID.replace("30 31 0 9/", "30 31 9/")),
    ("end unknown", SIX.replace("14 15 5", "14 16 5")),
    ("end 0", SIX.replace("14 15 5", "14 0 5")),
    ("end past the largest name", SIX.replace("14 15 5", "14 4294967296 5")),
    ("equal ends", SIX.replace("14 15 5", "14 14 5")),
    ("pair twice", SIX.replace("14 15 5", "10 11 5")),
    ("pair twice, turned", SIX.replace("14 15 5", "11 10 5")),
    ("delay 0", SIX.replace("14 15 5", "14 15 0")),
    ("delay 1000000", SIX.replace("14 15 5", "14 15 1000000")),
    ("delay 1000001", SIX.replace("14 15 5", "14 15 1000001")),
    ("delay past 32 bits", SIX.replace("14 15 5", "14 15 4294967297")),
    ("limit before unknown end", SIX.replace("14 15 5", "14 16 0")),
    ("paid 1000", PAID.replace("30 32 1 1", "30 32 1000 1")),
    ("paid 1001", PAID.replace("30 32 1 1", "30 32 1001 1")),
    ("paid past 32 bits", PAID.replace("30 32 1 1", "30 32 4294967296 1")),
    ("paid with delay 0", PAID.replace("30 32 1 1", "30 32 1 0")),
    ("link missing", SIX.replace("14 15 5/", "")),
    ("link too many", SIX + "10 12 1/"),
    ("bytes behind", SIX + "x"),
    ("a line end behind", SIX + "/"),
    ("last line end missing", SIX[:-1]),
    ("form before the draft", SIX.replace("14 15 5", "14 14 05")),
    ("colour absent", SIX.replace("D 2 6 5", "D 3 6 5")),
    ("landmark absent", SIX.replace("10 1/", "10 2/", 1).replace("13 1/14", "13 2/14")),
    ("not connected", SIX.replace("D 2 6 5", "D 2 6 4").replace("12 13 4/", "")),
    ("colour absent and not connected", SIX.replace("D 2 6 5", "D 3 6 4").replace("12 13 4/", "")),
    ("no links and two relays", HEAD + "D 1 2 0/name colour/1 1/2 1/from to delay/"),
    ("64 relays", chain(64)),
    ("65 relays", chain(65)),
    ("256 links", dense(24, 256)),
    ("257 links", dense(24, 257)),
]


def main():
    top = Path(__file__).resolve().parent.parent / "crates" / "text_cases"
    names = [name for name, _ in CASES]
    assert len(set(names)) == len(names)
    table = "".join(f"{name}|{text}\n" for name, text in CASES)
    answers = "".join(f"{name}: {answer(text.replace('/', chr(10)))}\n" for name, text in CASES)
    if "--check" in sys.argv:
        same = (top / "data/cases.txt").read_bytes() == table.encode() and (top / "stdout").read_bytes() == answers.encode()
        print("text_cases: as made" if same else "text_cases: not as made")
        return 0 if same else 1
    (top / "data").mkdir(exist_ok=True)
    (top / "data/cases.txt").write_bytes(table.encode())
    (top / "stdout").write_bytes(answers.encode())
    print(f"{len(CASES)} cases")
    return 0


if __name__ == "__main__":
    sys.exit(main())
