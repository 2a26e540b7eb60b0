#!/usr/bin/env python3
"""Checks what the model says about types against the rules themselves, on small random tables of rows.

- one-way: against tables of firsts, lasts and followers.
- fits: where the model says no, it has a forest that shows it, and that forest is looked up by the rules; where it says yes, all small forests of
  the left are looked up in the right.
- validate: small forests, and forests that are nearly right, put into a store that shares trees.

Not only one-way roots are tried: the model does not rely on it.

usage: tools/check_model.py [TABLES] [SEED]
"""
import functools
import pathlib
import random
import sys

sys.path.insert(0, str(pathlib.Path(__file__).resolve().parent))
from model import ANY_ELEMENT, BOOLEAN, CHOICE, ELEMENT, EMPTY_CHOICE, EMPTY_SEQUENCE, INTEGER, OTHER, REPETITION, SEQUENCE, STRING, Types

UNNAMED = 9  # a tag that no row names
SIZE, MOST = 6, 3000


def table(r):
    """Lawful rows whose contents are roots."""
    rows, free, want = [], [], r.randrange(2, 14)
    while len(rows) < want or (len(free) > 4 and r.random() < 0.8):
        kind = r.choice([1, 2, 3, 3, 4, 5, 6, 6, 6, 6, 7, 8, 8, 8, 8, 9, 9, 9, 9, 10, 10, 10])
        parts = {SEQUENCE: 2, CHOICE: 2, REPETITION: 1}.get(kind, 0)
        if len(free) < parts or (len(rows) >= want and not parts):
            continue
        chosen = [free.pop(r.randrange(len(free))) for _ in range(parts)]
        free.append(len(rows))
        rows.append([kind, *(chosen + [0, 0])[:2]])
    for row in rows:
        if row[0] in (ELEMENT, ANY_ELEMENT):
            row[1], row[2] = (r.choice([1, 1, 2]) if row[0] == ELEMENT else 0), r.choice(free)
    return [tuple(row) for row in rows], free


# The rules as they are told.


class Rules:
    """A tree is (kind, 0, ()) or (ELEMENT, tag, forest), and a forest is a tuple of trees."""

    def __init__(self, rows):
        self.rows = rows
        self.tags = sorted({a for k, a, _ in rows if k == ELEMENT}) + [UNNAMED]
        self.belongs = functools.lru_cache(None)(self.belongs)
        self.forests = functools.lru_cache(None)(self.forests)

    def belongs(self, row, forest):
        kind, a, b = self.rows[row]
        cuts = [(forest[:n], forest[n:]) for n in range(len(forest) + 1)]
        if kind == EMPTY_CHOICE:
            return False
        if kind == EMPTY_SEQUENCE:
            return forest == ()
        if kind in (INTEGER, STRING, BOOLEAN):
            return forest == ((kind, 0, ()),)
        if kind in (ELEMENT, ANY_ELEMENT):
            return len(forest) == 1 and forest[0][0] == ELEMENT and (kind == ANY_ELEMENT or forest[0][1] == a) and self.belongs(b, forest[0][2])
        if kind == SEQUENCE:
            return any(self.belongs(a, x) and self.belongs(b, y) for x, y in cuts)
        if kind == CHOICE:
            return self.belongs(a, forest) or self.belongs(b, forest)
        return forest == () or any(self.belongs(a, x) and self.belongs(row, y) for x, y in cuts if x)

    def forests(self, row, size):
        """The forests of a row that have so many items in all; not more than some."""
        kind, a, b = self.rows[row]
        if kind == EMPTY_CHOICE:
            found = []
        elif kind == EMPTY_SEQUENCE:
            found = [()] if size == 0 else []
        elif kind in (INTEGER, STRING, BOOLEAN):
            found = [((kind, 0, ()),)] if size == 1 else []
        elif kind in (ELEMENT, ANY_ELEMENT):
            found = [((ELEMENT, t, f),) for f in (self.forests(b, size - 1) if size else []) for t in ([a] if kind == ELEMENT else self.tags)]
        elif kind == SEQUENCE:
            found = [x + y for n in range(size + 1) for x in self.forests(a, n) for y in self.forests(b, size - n)]
        elif kind == CHOICE:
            found = [*self.forests(a, size), *self.forests(b, size)]
        else:
            found = [()] if size == 0 else [x + y for n in range(1, size + 1) for x in self.forests(a, n) for y in self.forests(row, size - n)]
        return tuple(dict.fromkeys(found))[:MOST]

    def overlap(self, x, y):
        (k, a, _), (l, b, _) = self.rows[x], self.rows[y]
        elements = (ELEMENT, ANY_ELEMENT)
        return (k, a) == (l, b) if ANY_ELEMENT not in (k, l) else k in elements and l in elements

    def one_way(self, root):
        follow = {}

        def follows(lasts, firsts):
            for x in lasts:
                follow.setdefault(x, set()).update(firsts)

        def look(row):
            kind, a, b = self.rows[row]
            if kind in (EMPTY_CHOICE, EMPTY_SEQUENCE):
                return kind == EMPTY_SEQUENCE, set(), set()
            if kind in (SEQUENCE, CHOICE):
                (n, f, l), (m, g, k) = look(a), look(b)
                if kind == CHOICE:
                    return n or m, f | g, l | k
                follows(l, g)
                return n and m, f | (g if n else set()), k | (l if m else set())
            if kind == REPETITION:
                _, f, l = look(a)
                follows(l, f)
                return True, f, l
            return False, {row}, {row}

        sets = [look(root)[1], *follow.values()]
        return not any(x != y and self.overlap(x, y) for s in sets for x in s for y in s)


def shown(found, pair):
    """The forest that a pair's rule tells."""
    symbol, needs = found[pair]
    if symbol is None:
        return ()
    kind, tag = symbol
    parts = [shown(found, need) for need in needs]
    if kind != ELEMENT:
        return ((kind, 0, ()), *parts[0])
    return ((ELEMENT, UNNAMED if tag == OTHER else tag, parts[0]), *parts[1])


def store(r, trees, known, forest):
    """The handles of a forest; trees that are there already are mostly used again."""
    handles = []
    for kind, tag, inner in forest:
        value = {INTEGER: 7, STRING: b"a", BOOLEAN: 1}.get(kind) or (tag, store(r, trees, known, inner))
        if (kind, str(value)) not in known or r.random() < 0.2:
            known[kind, str(value)] = len(trees)
            trees.append((kind, value))
        handles.append(known[kind, str(value)])
    return handles


def changed(r, forest):
    forest = list(forest)
    n = r.randrange(len(forest) + 1)
    if n < len(forest) and forest[n][0] == ELEMENT and r.random() < 0.6:
        kind, tag, inner = forest[n]
        forest[n] = (kind, r.choice([tag, tag, 1, 2, UNNAMED]), changed(r, inner))
    elif r.random() < 0.5:
        forest[n:n] = [r.choice([(INTEGER, 0, ()), (STRING, 0, ()), (BOOLEAN, 0, ()), (ELEMENT, 1, ()), *forest])]
    else:
        del forest[n:n + 1]
    return tuple(forest)


def check(r, count):
    rows, roots = table(r)
    types, rules = Types(rows), Rules(rows)
    assert sorted(roots) == [i for i in range(len(rows)) if types.is_root(i)], rows
    for root in roots:
        assert types.one_way(root) == rules.one_way(root), ("one-way", rows, root)
        count["one-way" if types.one_way(root) else "ambiguous"] += 1
    for row in range(len(rows)):
        small = [f for size in range(SIZE) for f in rules.forests(row, size)]
        for root in roots:
            start = ((row,), frozenset([(root,)]))
            found = types.outside(start)
            assert types.fits(row, root) == (start not in found)
            if start in found:
                forest = shown(found, start)
                assert rules.belongs(row, forest) and not rules.belongs(root, forest), ("no", rows, row, root, forest)
                count["does not fit"] += 1
                count["seen small"] += any(not rules.belongs(root, f) for f in small)
            else:
                assert all(rules.belongs(root, f) for f in small), ("fits", rows, row, root)
                count["fits"] += 1
                count["fits, by many forests"] += len(small) > 3
    trees, known = [], {}
    for root in roots:
        some = [f for size in range(SIZE) for f in rules.forests(root, size)] or [()]
        for _ in range(20):
            forest = r.choice(some)
            for _ in range(r.choice([0, 1, 1, 2])):
                forest = changed(r, forest)
            handles = store(r, trees, known, forest)
            assert types.belongs(root, trees, handles) == rules.belongs(root, forest), ("validate", rows, root, forest)
            count["belongs" if rules.belongs(root, forest) else "outside"] += 1


def main():
    tables, seed = (int(a) for a in (sys.argv[1:] + ["500", "1"][len(sys.argv) - 1:]))
    sys.setrecursionlimit(10000)
    count = dict.fromkeys(["one-way", "ambiguous", "fits", "fits, by many forests", "does not fit", "seen small", "belongs", "outside"], 0)
    for n in range(tables):
        check(random.Random(seed * 1000003 + n), count)
    print(f"{tables} tables agree: " + "; ".join(f"{key}: {n}" for key, n in count.items()))
    return 0


if __name__ == "__main__":
    sys.exit(main())
