"""Random scripts for `check`, for `tools/compare`.

A script is made of rounds. A round declares types that are mostly one-way, functions, and expressions that are mostly well typed, and then checks; then it changes something and checks
again. The maker keeps the types of what it writes as trees, so that it knows which expressions make sense; it never asks what the check will say.
"""
import model
import type_scripts
from type_scripts import EPS, NONE, Writer, lay_out

NAMES = {"int": 3, "str": 4, "bool": 5, "el": 6, "any": 7}


def items(x):
    """The items of a type."""
    if x[0] in NAMES:
        return [x]
    return [i for part in x[1:] for i in items(part)] if x[0] in ("seq", "alt", "rep") else []


class Maker:
    def __init__(self, r):
        self.r, self.lines = r, []
        self.clear()

    def clear(self):
        self.expressions, self.arms, self.types, self.tops, self.functions = 0, 0, [], [], []

    def say(self, line):
        self.lines.append(line)

    # Types

    def declare(self):
        r = self.r
        writer = Writer(r)
        names = list(range(r.choice([2, 3, 4, 6])))
        types = [writer.type(names) for _ in names]
        types[0] = ("int",) if r.random() < 0.7 else types[0]
        if r.random() < 0.3:
            types, _ = writer.capture_types()
        elif r.random() < 0.1:
            types = [x for x in writer.long_types()[0]]
        for n in range(len(types)):
            if r.random() < 0.4:
                types.append(writer.changed(types[n], list(range(len(types)))))
        rows, tops, _ = lay_out(lambda n: r.randrange(n), types)
        for kind, a, b in rows:
            if r.random() < 0.0004:
                a, b = r.choice([(b, a), (a, 511), (a, 0)])
            self.say(f"type {kind} {a} {b}")
        if r.random() < 0.03:
            for line in ("type 3 0 0", "type 3 0 0", f"type 9 {len(rows)} {len(rows) + 1}"):
                self.say(line)
        if r.random() < 0.03:
            self.say(f"type 6 9 {r.choice([500, len(rows) + 1, 0])}")
        self.types, self.tops = types, tops
        for _ in range(r.choice([0, 0, 1, 2, 3])):
            parameter, result = r.randrange(len(types)), r.randrange(len(types))
            self.functions.append((types[parameter], types[result]))
            wrong = r.random() < 0.02
            self.say(f"function {r.choice([511, 0]) if wrong else tops[parameter]} {tops[result]}")

    # Expressions: each gives its row and the tree of its type.

    def row(self, kind, a=0, b=0, c=0, d=0):
        if self.r.random() < 0.003:
            a, b = self.r.choice([(b, a), (a, 0), (0, b)])
        self.say(f"expression {kind} {a} {b} {c} {d}")
        self.expressions += 1
        return self.expressions - 1

    def leaf(self, env):
        r = self.r
        n = r.randrange(8)
        if n < 4 and env:
            i = r.randrange(len(env))
            if r.random() < 0.03:
                return self.row(4, r.choice([len(env), 511])), NONE
            return self.row(4, i), env[i]
        if n == 4:
            return self.row(1, r.choice([0, 5, -5, 10**12])), ("int",)
        if n == 5:
            return self.row(2, r.randrange(2)), ("bool",)
        if n == 6:
            return self.row(7), EPS
        return (self.row(13), NONE) if r.random() < 0.2 else (self.row(3, 0, 0), ("str",))

    def of_kind(self, wanted, env, depth):
        """An expression of a scalar kind, mostly."""
        r = self.r
        if r.random() < 0.03:
            return self.any(env, depth)
        if wanted == "int":
            n = r.randrange(3)
            if n == 0 or depth == 0:
                return self.row(1, r.randrange(9)), ("int",)
            if n == 1:
                return self.row(17, self.any(env, depth - 1)[0]), ("int",)
            a, b = self.of_kind("int", env, depth - 1)[0], self.of_kind("int", env, depth - 1)[0]
            return self.row(14, a, b), ("int",)
        if wanted == "bool":
            n = r.randrange(3)
            if n == 0 or depth == 0:
                return self.row(2, r.randrange(2)), ("bool",)
            if n == 1:
                return self.row(16, self.any(env, depth - 1)[0]), ("bool",)
            kind = r.choice(["int", "str", "bool"])
            a, b = self.of_kind(kind, env, depth - 1)[0], self.of_kind(kind, env, depth - 1)[0]
            return self.row(15, a, b), ("bool",)
        return self.row(3, 0, 0), ("str",)

    def item(self, env, depth):
        """An expression whose type is an item, mostly."""
        r = self.r
        wanted = [i for i, x in enumerate(env) if x[0] in NAMES]
        if wanted and r.random() < 0.7:
            i = r.choice(wanted)
            return self.row(4, i), env[i]
        if r.random() < 0.5:
            return self.of_kind(r.choice(["int", "bool", "str"]), env, depth)
        a, _ = self.any(env, max(0, depth - 1))
        return self.row(5, r.randrange(1, 9), a), ("el", 1, None)

    def element(self, env, depth):
        wanted = [i for i, x in enumerate(env) if x[0] in ("el", "any") and x[-1] is not None]
        if wanted and self.r.random() < 0.95:
            i = self.r.choice(wanted)
            return self.row(4, i), env[i]
        return self.item(env, depth)

    def content(self, x):
        return self.types[x[-1]] if x[0] in ("el", "any") and x[-1] is not None and x[-1] < len(self.types) else NONE

    def walked(self, x, bodies):
        """A type again, its items replaced in order."""
        if x[0] in NAMES:
            return next(bodies)
        return (x[0], *(self.walked(p, bodies) for p in x[1:])) if x[0] in ("seq", "alt", "rep") else x

    def any(self, env, depth):
        r = self.r
        if depth <= 0:
            return self.leaf(env)
        n = r.randrange(20)
        if n < 3:
            return self.leaf(env)
        if n == 3:
            a, x = self.any(env, depth - 1)
            return self.row(5, r.randrange(1, 9), a), ("el", 1, None)
        if n < 6:
            (a, x), (b, y) = self.any(env, depth - 1), self.any(env, depth - 1)
            return self.row(6, a, b), ("seq", x, y)
        if n == 6:
            a = self.of_kind("bool", env, depth - 1)[0]
            (b, y), (c, z) = self.any(env, depth - 1), self.any(env, depth - 1)
            return self.row(8, a, b, c), ("alt", y, z)
        if n == 7:
            a, x = self.any(env, depth - 1)
            b, y = self.any(env + [x], depth - 1)
            return self.row(9, a, b), y
        if n < 12:
            return self.loop(env, depth)
        if n < 15:
            return self.match(env, depth)
        if n == 15 and self.functions:
            f = r.randrange(len(self.functions))
            a, x = self.near(env, depth - 1, self.functions[f][0])
            return self.row(12, r.choice([f] * 12 + [31]), a), self.functions[f][1]
        if n == 16:
            return self.of_kind(r.choice(["int", "bool"]), env, depth)
        if n == 17 and self.tops:
            t = r.randrange(len(self.tops))
            a, x = self.near(env, depth - 1, self.types[t])
            return self.row(19, a, self.tops[t] if r.random() < 0.99 else r.choice([0, 511])), self.types[t]
        a, x = self.element(env, depth - 1)
        return self.row(18, a), self.content(x)

    def near(self, env, depth, wanted):
        """An expression that may well fit a type."""
        r = self.r
        same = [i for i, x in enumerate(env) if x == wanted]
        if same and r.random() < 0.8:
            return self.row(4, r.choice(same)), wanted
        if wanted[0] in ("int", "bool", "str"):
            return self.of_kind(wanted[0], env, depth)
        if wanted[0] == "rep" or wanted == EPS:
            if r.random() < 0.5:
                return self.row(7), EPS
            return self.near(env, depth - 1, wanted[1]) if wanted[0] == "rep" and depth > 0 else self.any(env, depth)
        if wanted[0] == "seq" and depth > 0:
            (a, x), (b, y) = self.near(env, depth - 1, wanted[1]), self.near(env, depth - 1, wanted[2])
            return self.row(6, a, b), ("seq", x, y)
        if wanted[0] == "alt" and depth > 0:
            return self.near(env, depth - 1, r.choice(wanted[1:]))
        if wanted[0] in ("el", "any") and depth > 0 and wanted[-1] is not None and wanted[-1] < len(self.types):
            a, _ = self.near(env, depth - 1, self.types[wanted[-1]])
            return self.row(5, wanted[1] if wanted[0] == "el" else r.randrange(1, 9), a), ("el", 1, None)
        return self.any(env, depth)

    def loop(self, env, depth):
        a, x = self.any(env, depth - 1)
        inside = items(x)
        if not inside:
            b, _ = self.leaf(env)
            return self.row(10, a, b), x
        chosen = self.r.choice(inside)
        b, y = self.match(env + [chosen], depth - 1) if len(inside) > 1 and self.r.random() < 0.6 else self.any(env + [chosen], depth - 1)
        return self.row(10, a, b), self.walked(x, iter([y] * len(inside)))

    def match(self, env, depth):
        r = self.r
        wanted = [i for i, x in enumerate(env) if x[0] in NAMES]
        if wanted and r.random() < 0.9:
            i = wanted[-1] if r.random() < 0.7 else r.choice(wanted)
            a, x = self.row(4, i), env[i]
        else:
            a, x = self.item(env, depth - 1)
        arms, ends = [], []
        for _ in range(r.choice([0, 1, 1, 2, 2, 3, 5])):
            kind = r.choice([3, 4, 5, 6, 6, 6, 6, 6, 7])
            if x[0] in NAMES and r.random() < 0.5:
                kind = NAMES[x[0]]
            tag = (x[1] if x[0] == "el" and r.random() < 0.5 else r.randrange(1, 6)) if kind == 6 else 0
            as_item = {3: ("int",), 4: ("str",), 5: ("bool",)}.get(kind, ("el", tag, x[-1] if x[0] in ("el", "any") else None))
            b, y = self.any(env + [as_item], depth - 2)
            arms.append((kind, tag, b))
            ends.append(y)
        c, z = self.any(env, depth - 2)
        if self.arms + len(arms) > 128:
            arms = []
        first = self.arms if arms else 0
        for arm in arms:
            self.say("arm %d %d %d" % arm)
        self.arms += len(arms)
        made = z
        for y in ends:
            made = ("alt", y, made)
        return self.row(11, a, first, c, len(arms)), made

    def wide(self, env):
        """An expression whose type takes many rows: loops in loops over what was joined before."""
        r = self.r
        a, x = self.any(env, 4)
        for _ in range(r.choice([2, 3, 4, 5])):
            b, y = self.any(env, 3)
            a, x = self.row(6, a, b), ("seq", x, y)
            if len(items(x)) < 200:
                c, z = r.choice([self.match, self.any])(env + [r.choice(items(x) or [EPS])], 3)
                a, x = self.row(10, a, c), self.walked(x, iter([z] * len(items(x))))
        return a, x

    def round(self, big):
        r = self.r
        if self.lines and r.random() < 0.9:
            self.say("clear")
            self.clear()
        if not self.types:
            self.declare()
        for f, (parameter, result) in enumerate(self.functions):
            if r.random() < 0.98:
                b, _ = self.near([parameter], r.choice([1, 2, 3]), result)
                self.say(f"body {f} {b}")
        t = r.randrange(len(self.types))
        row, _ = self.any([self.types[t]], r.choice([2, 3, 4, 5, 6])) if not big else self.wide([self.types[t]])
        if r.random() < 0.98:
            self.say(f"query {self.tops[t] if r.random() < 0.98 else r.choice([0, 511])} {row}")
        self.say("check")
        if r.random() < 0.3:
            self.say(r.choice(["check", "text 00", "type 2 0 0", "type 99 0 0", "oneway 0", f"fits 0 {r.choice(self.tops)}", "tags 640", "body 77 0"]))
            self.say("check")


def script(r, lines):
    maker = Maker(r)
    while len(maker.lines) < lines:
        maker.round(r.random() < 0.3)
    return ("\n".join(maker.lines) + "\n").encode()
