"""Random scripts about the types of a session, for `tools/compare`.

A script is made of rounds. A round adds type rows that are mostly lawful and one-way, loads stores whose trees nearly fit them, and asks `oneway`, `fits` and
`validate` about them. The maker performs each line by the model as it writes it, so it knows what rows and trees there are.
"""
import model
from model import ANY_ELEMENT, BOOLEAN, CHOICE, ELEMENT, INTEGER, REPETITION, SEQUENCE, STRING

FAR = 10**6

# A type is written as a tuple: ("none",), ("eps",), ("int",), ("str",), ("bool",), ("el", tag, name), ("any", name), ("seq", x, y), ("alt", x, y),
# ("rep", x). A name is the place of a type in a list of types.
NONE, EPS = ("none",), ("eps",)
SCALARS = ("int",), ("str",), ("bool",)
KINDS = {"none": 1, "eps": 2, "int": 3, "str": 4, "bool": 5, "el": 6, "any": 7, "seq": 8, "alt": 9, "rep": 10}


def parts(x):
    return x[1:] if x[0] in ("seq", "alt", "rep") else ()


def lay_out(order, types):
    """The rows of some types, the row of each type, and the row of each part, by the parts on the way to it. `order` picks which of the rows that may come next does."""
    nodes, waiting, ready, rows, place, paths = [], {}, [], [], {}, {}

    def enter(x, path):
        below = [enter(p, path + (n,)) for n, p in enumerate(parts(x))]
        me = paths[path] = len(nodes)
        nodes.append([x, below, None])
        for b in below:
            nodes[b][2] = me
        waiting[me] = len(below)
        if not below:
            ready.append(me)
        return me

    tops = [enter(x, (n,)) for n, x in enumerate(types)]
    while ready:
        me = ready.pop(order(len(ready)))
        place[me] = len(rows)
        rows.append(me)
        up = nodes[me][2]
        if up is not None:
            waiting[up] -= 1
            if waiting[up] == 0:
                ready.append(up)
    found = []
    for me in rows:
        x, below, _ = nodes[me]
        a, b = ([place[n] for n in below] + [0, 0])[:2]
        if x[0] == "el":
            a, b = x[1], place[tops[x[2]]] if x[2] < len(tops) else x[2]
        if x[0] == "any":
            a, b = 0, place[tops[x[1]]] if x[1] < len(tops) else x[1]
        found.append((KINDS[x[0]], a, b))
    return found, [place[t] for t in tops], {path: place[me] for path, me in paths.items()}


def one_way(x):
    rows, tops, _ = lay_out(lambda n: 0, [x])
    return model.Types(rows).one_way(tops[0])


class Writer:
    """Random types and forests."""

    def __init__(self, r):
        self.r = r

    def item(self, pool, names):
        r = self.r
        if r.random() < 0.05:
            return ("any", r.choice(names))
        if r.random() < 0.12 or not pool:
            tag = r.randrange(1, 9)
        else:
            tag = pool.pop(r.randrange(len(pool)))
        return tag if isinstance(tag, tuple) else ("el", tag, r.choice(names))

    def some(self, size, pool, names):
        r = self.r
        if size <= 1:
            return r.choice([NONE, EPS, EPS]) if r.random() < 0.1 else self.item(pool, names)
        op = r.choice(["seq", "seq", "seq", "alt", "alt", "alt", "rep", "rep"])
        if op == "rep":
            return ("rep", self.some(size - 1, pool, names))
        n = r.randrange(1, size)
        return (op, self.some(n, pool, names), self.some(size - n, pool, names))

    def type(self, names):
        for _ in range(6):
            pool = [*SCALARS, *range(1, 9)]
            x = self.some(self.r.choice([1, 2, 3, 4, 5, 6, 8, 11]), pool, names)
            if one_way(x):
                return x
        return ("rep", self.some(1, pool, names))

    def changed(self, x, names):
        """A type that is nearly the same: equal to x, or narrower, or wider, or neither."""
        r = self.r
        below = parts(x)
        if below and r.random() < 0.6:
            n = r.randrange(len(below))
            return (x[0], *below[:n], self.changed(below[n], names), *below[n + 1:])
        fresh = ("el", r.randrange(1, 12), r.choice(names))
        ways = [("alt", x, NONE), ("seq", EPS, x), ("seq", x, EPS), ("rep", x), ("alt", x, EPS), ("alt", EPS, x), ("alt", x, fresh), ("seq", x, fresh), ("alt", fresh, x),
                ("alt", x, ("seq", fresh, NONE)), EPS]
        if x[0] == "el":
            ways += [("any", x[2])] + [("el", x[1], r.choice(names))] * 4 + [("el", r.randrange(1, 9), x[2])] * 2
        if x[0] == "any":
            ways += [("any", r.choice(names)), ("el", r.randrange(1, 9), x[1])] * 3
        if x in SCALARS:
            ways += list(SCALARS)
        if x[0] in ("seq", "alt"):
            ways += [(x[0], x[2], x[1])] * 2 + [x[1], x[2]]
        if x[0] in ("seq", "alt") and x[1][0] == x[0]:
            ways += [(x[0], x[1][1], (x[0], x[1][2], x[2]))] * 3
        if x[0] == "alt" and x[2][0] == "rep":
            ways += [x[2]] * 3
        if x[0] == "rep":
            ways += [("seq", x[1], x), ("alt", EPS, ("seq", x[1], x)), ("alt", ("seq", x[1], x), EPS), ("alt", EPS, x[1]), ("rep", ("alt", x[1], NONE)), ("rep", ("alt", EPS, x[1])),
                     ("rep", ("rep", x[1])), ("alt", EPS, x), ("seq", x, EPS)]
        for _ in range(5):
            y = r.choice(ways)
            if one_way(y):
                return y
        return x

    def types(self):
        """Some types, and the pairs of them that are near each other."""
        r = self.r
        names = list(range(r.choice([2, 3, 3, 4, 5, 6])))
        types = [self.type(names) for _ in names]
        seeds = [EPS, ("int",), NONE, ("el", 5, 0), ("rep", ("el", 2, 0)), ("alt", EPS, ("el", 2, 0)), ("rep", ("any", 0)), ("alt", ("int",), ("el", 3, 0)),
                 ("alt", EPS, ("seq", ("el", 1, 0), ("el", 2, 0))), ("seq", ("el", 1, 0), ("el", 1, 1)), ("rep", ("seq", ("el", 4, 0), ("el", 4, 1)))]
        for n in names:
            if r.random() < 0.4 or n == 0:
                x = r.choice(seeds)
                types[n] = x if x[0] != "el" or r.random() < 0.5 else ("el", x[1], n)
        pairs, first = [], len(names)
        for _ in range(r.choice([1, 1, 2, 3])):
            # the same types again, which mostly name one another, and a few of which are changed
            base, share = len(types), r.choice([1.0, 1.0, 0.8, 0.3, 0.0])
            again = [self.renamed(x, lambda n: base + n if n < first and r.random() < share else n) for x in types[:first]]
            for _ in range(r.choice([0, 1, 1, 1, 2, 3])):
                n = r.randrange(first)
                y = self.changed(again[n], list(range(base + first)))
                if one_way(y) or r.random() < 0.02:
                    again[n] = y
            types += again
            pairs += [(base + n, n) for n in range(first)]
            if base > first:
                pairs += [(base + n, base - first + n) for n in range(first)]
        return types, pairs

    def parts_too(self, types, pairs):
        """Types that are near a part of a type, or near two ways of which a part has both."""
        r = self.r
        names, wanted = list(range(len(types))), []
        for _ in range(r.choice([0, 1, 2, 3, 4])):
            n = r.randrange(len(types))
            x, path = types[n], (n,)
            while parts(x) and (len(path) == 1 or r.random() < 0.6):
                k = r.randrange(len(parts(x)))
                x, path = parts(x)[k], path + (k,)
            y = x if r.random() < 0.4 else self.changed(x, names)
            if one_way(y):
                wanted.append((path, len(types)))
                types.append(y)
        for _ in range(r.choice([0, 0, 1, 1, 2])):
            # what stands behind an empty choice can never occur, and may begin in two ways
            n = r.choice(names)
            x = ("seq", NONE, ("alt", types[n] if r.random() < 0.5 else self.changed(types[n], names), self.changed(types[n], names)))
            if one_way(x):
                wanted.append(((len(types), 1), n))
                types.append(x)
        return types, pairs, wanted

    def renamed(self, x, name):
        if x[0] == "el":
            return ("el", x[1], name(x[2]))
        if x[0] == "any":
            return ("any", name(x[1]))
        return (x[0], *(self.renamed(p, name) for p in parts(x))) if parts(x) else x

    def capture_types(self):
        """What a capture looks like, and two that are near it."""
        r = self.r
        fields = [("el", t, 0) for t in (4, 5, 6, 7)]
        event = ("seq", ("seq", ("seq", fields[0], fields[1]), fields[2]), fields[3])
        events = ("rep", ("alt", ("el", 2, 1), ("el", 3, 1)))
        types = [("int",), event, events, ("el", 1, 2)]
        more = [r.choice([("alt", ("int",), ("bool",)), ("int",), ("rep", ("int",))]), self.renamed(event, lambda n: 4),
                r.choice([events, ("rep", ("any", 5)), ("rep", ("alt", ("el", 2, 5), ("el", 3, 1))), ("rep", ("seq", ("el", 3, 5), ("el", 2, 5))), ("rep", ("el", 2, 5))]), ("el", 1, 6)]
        for n in range(r.randrange(3)):
            more[n + 1] = self.changed(more[n + 1], list(range(8)))
        return types + more, [(4 + n, n) for n in range(4)]

    def long_types(self):
        """Types that take many rows."""
        r = self.r
        if r.random() < 0.4:
            return self.cycles()
        count = r.choice([40, 80, 120])

        def joined(op, xs):
            if len(xs) == 1:
                return xs[0]
            n = {"left": len(xs) - 1, "right": 1}.get(shape, len(xs) // 2)
            return (op, joined(op, xs[:n]), joined(op, xs[n:]))

        op, wrap = r.choice(["seq", "alt"]), r.choice([None, "rep", "option"])
        types = []
        for n in range(2):
            shape = r.choice(["left", "right", "half"])
            items = [("el", t, r.choice([n * 2, n * 2, 1])) for t in range(1, count)]
            if wrap == "rep" or wrap == "option":
                items = [("rep", x) if r.random() < 0.5 else x for x in items] if op == "seq" else items
            if r.random() < 0.5:
                items[r.randrange(len(items))] = r.choice([EPS, NONE, ("el", count + 1, 0), ("int",)])
            x = joined(op, items)
            types += [("rep", x) if op == "alt" else x, ("rep", ("int",)) if n == 0 else EPS]
        return types, [(0, 2), (2, 0), (1, 3), (3, 1)]


    def cycles(self):
        """Rounds of so many items against rounds of so many others, which meet in every way."""
        r = self.r
        left, right = r.choice([(7, 5), (12, 8), (97, 60), (100, 61), (120, 55), (64, 64)])
        item, stop = r.choice([(("int",), ("str",)), (("el", 1, 2), ("bool",)), (("el", 1, 0), ("el", 2, 1))])
        around = item
        for _ in range(left - 1):
            around = ("seq", around, item) if r.random() < 0.5 else ("seq", item, around)
        other, back = r.randrange(2 * right), item
        for n in range(right - 1):
            back = ("seq", item, ("alt", ("seq", stop, NONE) if n == other else ("alt", NONE, stop) if n == other + 1 else stop, back))
        return [("seq", ("rep", around), stop), ("rep", ("alt", stop, back)), EPS], [(0, 1), (0, 1), (1, 0)]


class Maker:
    def __init__(self, r, others):
        self.r, self.others, self.writer = r, others, Writer(r)
        self.session, self.lines, self.aims = model.Session(), [], []

    def say(self, line):
        """Writes a line, and gives the numbers of its answer where it is done."""
        self.lines.append(line)
        word, *args = line.encode().split(b" ")
        if word == b"" or word.startswith(b"#"):
            return None
        try:
            answer = self.session.perform(word, args)
        except (model.Malformed, model.Refused):
            return None
        return answer if isinstance(answer, list) else None

    # Rows

    def rows(self):
        return self.session.rows.types

    def roots(self):
        types = self.session.rows.judged()
        return [i for i in range(len(types.rows)) if types.is_root(i)]

    def add_types(self):
        r = self.r
        way = r.random()
        types, pairs = self.writer.long_types() if way < 0.04 else self.writer.capture_types() if way < 0.25 else self.writer.types()
        types, pairs, wanted = self.writer.parts_too(types, pairs) if way >= 0.04 else (types, pairs, [])
        mixed = r.random() < 0.5
        rows, tops, places = lay_out(lambda n: r.randrange(n) if mixed else n - 1, types)
        self.say("clear")
        for n, row in enumerate(rows[:512]):
            self.say("type %d %d %d" % row)
            if r.random() < 0.01:
                self.say(self.others(r))
            if r.random() < 0.01:
                self.ask()
        self.pairs = [(tops[a], tops[b]) for a, b in pairs]
        self.inner = [(places[path], tops[b]) for path, b in wanted]
        self.tops = tops

    def add_any_types(self):
        """Types of which many are not one-way, and the question whether they are."""
        r = self.r
        self.say("clear")
        types = []
        for _ in range(r.randrange(5, 20)):
            pool = [*SCALARS, *SCALARS, *range(1, 4), *range(1, 4), 1, 2, ("any", 0), ("any", 1)]
            x = self.writer.some(r.choice([2, 3, 4, 5, 6, 8, 12]), pool, list(range(3)))
            types.append(x)
            if r.random() < 0.3:
                types.append(self.writer.changed(x, [0, 1, 2]))
        rows, tops, _ = lay_out(lambda n: r.randrange(n), types)
        for row in rows[:512]:
            self.say("type %d %d %d" % row)
        for root in tops:
            self.say(f"oneway {root}")
        for _ in range(5):
            self.ask()

    def spoil(self):
        """Rows after which most calls are refused, some of them for a while only."""
        r, n = self.r, len(self.rows())
        way, roots = r.randrange(4), self.roots() or [0]
        if way == 0:
            self.say(f"type {r.choice(['6 5', '7 0'])} {r.choice([n, n + 1, n + 1, 511, r.randrange(n + 1)])}")
        elif way == 1:
            self.say(f"type 10 {r.choice(roots)} 0")
        elif way == 2:
            content = r.choice(roots)
            item = r.choice(["type 3 0 0", f"type 6 4 {content}", f"type 7 0 {content}"])
            self.say(item)
            self.say(r.choice([item, f"type 6 4 {content}"]))
            self.say(f"type {r.choice([8, 9, 9])} {n} {n + 1}")
            if r.random() < 0.5:
                self.say(f"type 10 {n + 2} 0")
        else:
            # two Strings follow one, before or behind an empty choice
            self.say("type 1 0 0")
            self.say("type 4 0 0")
            self.say(f"type 10 {n + 1} 0")
            self.say("type 4 0 0")
            self.say(f"type 8 {n + 2} {n + 3}")
            self.say(f"type 8 {n} {n + 4}" if r.random() < 0.5 else f"type 8 {n + 4} {n}")
        for _ in range(r.randrange(3, 14)):
            self.ask()
        if way == 0 and r.random() < 0.7:
            self.say("type 3 0 0")
            for _ in range(r.randrange(3, 9)):
                self.ask()

    # Trees

    def heights(self):
        """How many elements at least stand inside one another in a forest of each row; FAR where it has none."""
        rows = self.rows()
        height = [FAR] * len(rows)
        for _ in range(len(rows) + 1):
            before = list(height)
            for i, (kind, a, b) in enumerate(rows):
                inner = height[b] if kind in (6, 7) and b < len(rows) else FAR
                height[i] = {1: lambda: FAR, 6: lambda: min(FAR, 1 + inner), 7: lambda: min(FAR, 1 + inner), 8: lambda: max(height[a], height[b]),
                             9: lambda: min(height[a], height[b])}.get(kind, lambda: 0)()
            if height == before:
                break
        return height

    def forest(self, row, fuel, height):
        r, (kind, a, b) = self.r, self.rows()[row]
        self.budget -= 1
        if self.budget < 0:
            fuel = 0
        if kind in (INTEGER, STRING, BOOLEAN):
            return [(kind, None)]
        if kind in (ELEMENT, ANY_ELEMENT):
            if b >= len(self.rows()) or height[b] >= FAR:
                return [(ELEMENT, a or 3, [])]
            return [(ELEMENT, a or r.randrange(1, 12), self.forest(b, fuel - 1, height))]
        if kind == SEQUENCE:
            return self.forest(a, fuel, height) + self.forest(b, fuel, height)
        if kind == CHOICE:
            good = [p for p in (a, b) if height[p] <= fuel] or [min((a, b), key=lambda p: height[p])]
            return self.forest(r.choice(good), fuel, height)
        if kind == REPETITION and height[a] <= fuel:
            return [t for _ in range(r.choice([0, 1, 1, 2, 3])) for t in self.forest(a, fuel, height)]
        return []

    def nearly(self, forest):
        r, forest = self.r, list(forest)
        n = r.randrange(len(forest) + 1)
        if n < len(forest) and forest[n][0] == ELEMENT and r.random() < 0.7:
            _, tag, inner = forest[n]
            forest[n] = (ELEMENT, r.randrange(1, 9), inner) if r.random() < 0.2 else (ELEMENT, tag, self.nearly(inner))
        elif n < len(forest) and r.random() < 0.5:
            forest[n] = r.choice([(INTEGER, None), (STRING, None), (BOOLEAN, None), *forest, *forest])
        elif r.random() < 0.5:
            forest.insert(n, r.choice([(INTEGER, None), (STRING, None), (ELEMENT, r.randrange(1, 9), []), *forest]))
        else:
            del forest[n:n + 1]
        return forest

    def put(self, forest, known, add):
        """The handles of a forest; what is there already is mostly used again."""
        handles = []
        for kind, tag, *inner in forest:
            key = (kind, tag, *(self.put(inner[0], known, add) if inner else ()))
            if key not in known or self.r.random() < 0.3:
                known[key] = add(kind, tag, list(key[2:]))
                if known[key] is None:
                    del known[key]
                    return handles
            handles.append(known[key])
        return handles

    def add_trees(self):
        r, height = self.r, self.heights()
        wanted = []
        for _ in range(r.randrange(2, 8)):
            root = r.choice(self.tops) if r.random() < 0.9 else r.randrange(len(self.rows()))
            if root < len(self.rows()):
                self.budget = 150
                forest = self.forest(root, r.randrange(1, 6), height)
                for _ in range(r.choice([0, 0, 0, 1, 1, 2])):
                    forest = self.nearly(forest)
                wanted.append((root, forest))
        if r.random() < 0.5:
            self.put_in_table(wanted)
        else:
            if r.random() < 0.3 or self.session.height > 3:
                self.capture()
            if self.say("tray %d %d %d" % ((2048, 4096, 4096) if r.random() < 0.9 else (9, 9, 9))) is not None:
                known = {}
                self.aims += [(root, self.put(forest, known, self.make)) for root, forest in wanted]

    def make(self, kind, tag, inner):
        r = self.r
        line = {INTEGER: lambda: f"integer {r.choice([0, -5, 10**12])}", STRING: lambda: f"string {r.choice(['-', '6869'])}", BOOLEAN: lambda: f"boolean {r.randrange(2)}",
                ELEMENT: lambda: " ".join(map(str, ["element", tag] + inner))}[kind]()
        answer = self.say(line)
        return answer[0] if answer else None

    def put_in_table(self, wanted):
        r, rows, children = self.r, [], []

        def add(kind, tag, inner):
            rows.append(f"{kind},{tag or 0},{len(children) if kind == ELEMENT else 0},{len(inner) if kind == ELEMENT else r.randrange(3) if kind == STRING else 0},{r.randrange(2)}")
            children.extend(inner)
            return len(rows) - 1

        known = {}
        aims = [(root, self.put(forest, known, add)) for root, forest in wanted]
        self.say(f"table {';'.join(rows) or '-'} {','.join(map(str, children)) or '-'} 6f6b")
        self.aims = aims

    def chain(self):
        """Elements inside one another, about as many as may stand so; each tree has one child, or the same child twice."""
        r = self.r
        tag, long, twice = r.randrange(1, 6), r.choice([63, 64, 64, 65, 65, 66, 20]), r.random() < 0.3
        n = len(self.rows())
        if n > 505:
            return
        if r.random() < 0.5:
            self.say(f"type 6 {tag} {n + 1}")
            self.say(f"type 10 {n} 0")
            root = n + 1
        else:
            self.say("type 2 0 0")
            self.say(f"type 6 {tag} {n + 2}")
            self.say(f"type 9 {n} {n + 1}")
            root = n + 2
        leaf = r.choice([[], [], [0]])
        rows, children = ["3,0,0,0,1", f"6,{tag},0,{len(leaf)},0"], list(leaf)
        for i in range(2, long + 1):
            rows.append(f"6,{tag if r.random() < 0.998 else 9},{len(children)},{1 + twice},0")
            children += [i - 1] * (1 + twice)
        self.say(f"table {';'.join(rows)} {','.join(map(str, children)) or '-'} -")
        self.aims = [(root, [h]) for h in (long, long - 1, 1)] + [(root, [1, long]), (root, [long, 0])]
        for h in (long, long - 1, min(64, long)):
            self.say(f"validate {root} {h}")

    def twins(self):
        """One tag with two contents, and trees that stand in both places."""
        r, n, height = self.r, len(self.rows()), self.heights()
        inner = [t for t in self.roots() if height[t] < FAR]
        if n > 500 or not inner:
            return
        pair, tag = r.choice([(r.choice(inner), r.choice(inner)), r.choice(self.pairs or [(inner[0], inner[0])])]), r.randrange(1, 5)
        for content in pair:
            self.say(f"type 6 {tag} {content}")
        self.say(f"type 8 {n} {n + 1}")
        if r.random() < 0.5:
            self.say(f"type 10 {n + 2} 0")
        root = len(self.rows()) - 1
        trees = []
        for content in pair * 2:
            self.budget = 40
            inner = self.forest(content, r.randrange(1, 5), height) if content < n and height[content] < FAR else []
            trees.append((ELEMENT, tag, inner if r.random() < 0.7 else self.nearly(inner)))
        wanted = [(root, [r.choice(trees), r.choice(trees)] * (root - n - 1)) for _ in range(8)]
        self.put_in_table(wanted)
        for _, handles in self.aims:
            self.say(" ".join(map(str, ["validate", root] + handles)))
        self.pairs = self.pairs + [(n, pair[0]), (n + 1, root)]
        self.inner = self.inner + [(n, root), (n + 2, root)]

    def capture(self):
        r, time = self.r, 1000
        data = b""
        for _ in range(r.choice([0, 1, 2, 3, 5, 8, 300 if r.random() < 0.1 else 4])):
            time += r.choice([0, 1, 5])
            data += time.to_bytes(4, "big") + bytes([r.randrange(2), r.choice([0x80, 0x90, 0x91]), r.randrange(128), r.randrange(128)])
        self.say("capture " + (data.hex() or "-"))
        height = len(self.session.store.trees)
        roots = [t for t in self.tops if t < len(self.rows())] or [0]
        self.aims = [(r.choice(roots), [h]) for h in (0, 1, 2, 3, height - 1)]
        self.aims += [(t, list(range(1, height, 9))) for t in roots[:8]] + [(t, [0]) for t in roots[:8]]

    # Calls

    def row(self):
        r, n = self.r, len(self.rows())
        return r.randrange(n) if n and r.random() < 0.95 else r.choice([n, n + 1, 511, 512, 2**32 - 1])

    def root(self):
        roots = self.roots()
        return self.r.choice(roots) if roots and self.r.random() < 0.93 else self.row()

    def ask(self):
        r = self.r
        way = r.random()
        if way < 0.1:
            self.say(f"oneway {self.root()}")
        elif way < 0.55:
            self.say("fits %d %d" % self.fits())
        elif way < 0.97:
            root, handles = self.validate()
            self.say(" ".join(map(str, ["validate", root] + handles)))
        elif way < 0.98:
            self.say(self.others(r))
        else:
            self.say(r.choice(["oneway", "oneway -1", "oneway 1 2", "fits 1", "fits 1 2 3", "fits 1 4294967296", "fits  1 2", "validate", "validate -", "validate 1 -", "validate 0 0 ", "fits 00 007",
                               "oneway 4294967296", "Fits 1 2", "fit 1 2", "validate x", "validate 0 4294967296"]))

    def fits(self):
        r, n = self.r, len(self.rows())
        way = r.random()
        if way < 0.2 and self.inner:
            return r.choice(self.inner)
        if way < 0.55 and self.pairs:
            a, b = r.choice(self.pairs)
            return (a, b) if r.random() < 0.5 else (b, a)
        if way < 0.6 and r.random() < 0.5:
            root = self.root()
            return root, root
        if way < 0.75 and n:
            # a row and the root that it is in, or what is near that root
            row = up = r.randrange(n)
            owner = self.session.rows.judged().owner
            while up in owner:
                up = owner[up]
            near = [b if a == up else a for a, b in self.pairs if up in (a, b)]
            return row, r.choice([up] + near)
        return self.row(), self.root()

    def validate(self):
        r, trees = self.r, len(self.session.store.trees)
        if self.aims and r.random() < 0.8:
            root, handles = r.choice(self.aims)
            near = [b if a == root else a for a, b in self.pairs if root in (a, b)]
            if near and r.random() < 0.4:
                root = r.choice(near)
            if r.random() < 0.05:
                handles = handles + [r.choice([0, trees - 1, trees, 2**32 - 1])]
            return root, [max(h, 0) for h in handles]
        return self.root(), [max(0, r.choice([r.randrange(trees + 1), r.randrange(trees + 1), trees - 1 if r.random() < 0.9 else trees + 1])) for _ in range(r.choice([0, 1, 1, 2, 3]))]


def script(r, lines, others):
    """A script of about so many lines, or some more. `others` gives a line that is any other call."""
    maker = Maker(r, others)
    while len(maker.lines) < lines:
        maker.pairs, maker.inner, maker.aims, maker.tops = [], [], maker.aims[:3], [0]
        if r.random() < 0.25:
            maker.add_any_types()
            continue
        maker.add_types()
        for _ in range(r.randrange(1, 4)):
            way = r.random()
            if way < 0.12:
                maker.chain()
            elif way < 0.3:
                maker.capture()
            elif way < 0.45:
                maker.twins()
            else:
                maker.add_trees()
            for _ in range(r.randrange(10, 35)):
                maker.ask()
        if r.random() < 0.4:
            maker.spoil()
    return ("\n".join(maker.lines) + "\n").encode()
