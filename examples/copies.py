#!/usr/bin/env python3
# The answers to commands by plain copies: the map is kept as it is, and for each answer halved anew.
# A second opinion on what the program prints:  python3 examples/copies.py < examples/valley.txt
import sys


def words_of(line):
    return line.replace(b"\t", b" ").replace(b"\r", b" ").split(b" ")


def number(word, limit=2**64):
    if word == b"" or any(c not in b"0123456789" for c in word):
        return None
    return int(word) if int(word) < limit else None


def height(word):
    if word[:1] == b"-":
        n = number(word[1:], 2**63)
        return None if n is None else -n
    return number(word, 2**63)


def halves(rows):
    """The halved map, and the differences that lead back: down, then across."""
    across = [row[x] - row[x + 1] for row in rows for x in range(0, len(row), 2)]
    means = [[(row[x] + row[x + 1]) // 2 for x in range(0, len(row), 2)] for row in rows]
    pairs = [(means[y], means[y + 1]) for y in range(0, len(means), 2)]
    down = [a - b for upper, lower in pairs for a, b in zip(upper, lower)]
    return [[(a + b) // 2 for a, b in zip(upper, lower)] for upper, lower in pairs], down + across


def at_level(rows, level):
    for _ in range(level):
        rows, _ = halves(rows)
    return rows


def tower(rows):
    if len(rows) == 1:
        return rows[0]
    smaller, differences = halves(rows)
    return tower(smaller) + differences


class Refused(Exception):
    pass


def show(rows):
    for row in rows:
        print(*row)


def check_rows(k, rows, unreadable):
    """The first reason why these rows are no map."""
    if k > 7:
        raise Refused(1, k)
    if unreadable is not None:
        raise Refused(5, unreadable)
    side = 2**k
    for y, row in enumerate(rows):
        if y == side:
            raise Refused(2, side * side)
        for x, h in enumerate(row):
            if x == side or not 0 <= h <= 65535:
                raise Refused(2, y * side + x)
        if len(row) < side:
            raise Refused(2, y * side + len(row))
    if len(rows) < side:
        raise Refused(2, len(rows) * side)


class Run:
    def __init__(self):
        self.given = None  # k, rows, line of the first row that cannot be read
        self.map = None
        self.k = self.level = 0

    def end_rows(self):
        if self.given is None:
            return
        (k, rows, unreadable), self.given = self.given, None
        check_rows(k, rows, unreadable)
        self.map, self.k, self.level = rows, k, 0

    def obey(self, at, name, numbers):
        many = {b"map": 1, b"level": 1, b"window": 4, b"set": 3, b"tower": 0, b"coarse": 1}
        if many.get(name) != len(numbers) or None in numbers:
            raise Refused(5, at)
        if name == b"map":
            self.given = [numbers[0], [], None]
            return
        if self.map is None:
            raise Refused(5, at)
        if name in (b"level", b"coarse") and numbers[0] > self.k:
            raise Refused(4, 0)
        if name == b"level":
            self.level = numbers[0]
        elif name == b"coarse":
            show([tower(at_level(self.map, numbers[0]))])
        elif name == b"tower":
            show([tower(self.map)])
        elif name == b"window":
            x, y, wide, high = numbers
            rows = at_level(self.map, self.level)
            side = len(rows)
            if x >= side or y >= side or x + wide > side or y + high > side:
                raise Refused(4, 1)
            show([row[x : x + wide] for row in rows[y : y + high]])
        else:
            x, y, h = numbers
            if x >= 2**self.k or y >= 2**self.k:
                raise Refused(4, 1)
            if h > 65535:
                raise Refused(4, 2)
            self.map[y][x] = h

    def line(self, at, text):
        words = [w for w in words_of(text) if w != b""]
        if self.given is not None and words and words[0][:1] in (b"-", *(b"%d" % d for d in range(10))):
            row = [height(w) for w in words]
            if None not in row:
                self.given[1].append(row)
            elif self.given[2] is None:
                self.given[2] = at
            return
        self.attempt(self.end_rows)
        if words:
            self.attempt(self.obey, at, words[0], [number(w) for w in words[1:]])

    def attempt(self, step, *arguments):
        try:
            step(*arguments)
        except Refused as refused:
            print("refused", *refused.args)


run = Run()
lines = sys.stdin.buffer.read().split(b"\n")
if lines[-1] == b"":
    lines.pop()
for at, text in enumerate(lines):
    run.line(at, text)
run.attempt(run.end_rows)
