#!/usr/bin/env python3
"""An independent model of the script format: reads a script on standard input and writes the answers that it should get.

It shares nothing with the proved code. `tools/compare` runs random scripts through both.
"""
import sys

U32, I64 = 2**32 - 1, 2**63
INTEGER, STRING, BOOLEAN, ELEMENT = 3, 4, 5, 6
EMPTY_CHOICE, EMPTY_SEQUENCE, ANY_ELEMENT, SEQUENCE, CHOICE, REPETITION = 1, 2, 7, 8, 9, 10
OTHER = 0  # stands for a tag that no row names; there always is one


class Malformed(Exception):
    pass


class Refused(Exception):
    """A refusal; one by the check names the function that is typed, or 255."""

    def __init__(self, number, layer, row, *function):
        self.fault = (number, layer, row, *function)


def digits(word):
    if not word or any(c not in b"0123456789" for c in word):
        raise Malformed
    return int(word)


def number(word, most=U32):
    n = digits(word)
    if n > most:
        raise Malformed
    return n


def signed(word):
    n = -digits(word[1:]) if word[:1] == b"-" else digits(word)
    if not -I64 <= n < I64:
        raise Malformed
    return n


def kind(word):
    return number(word, 255)


def hexbytes(word):
    if word == b"-":
        return b""
    if not word or len(word) % 2 or any(c not in b"0123456789abcdefABCDEF" for c in word):
        raise Malformed
    return bytes.fromhex(word.decode())


def numbers(word):
    return [] if word == b"-" else [number(w) for w in word.split(b",")]


def table_row(word):
    fields = word.split(b",")
    if len(fields) != 5:
        raise Malformed
    k, t, f, n, v = fields
    return number(k, 255), number(t), number(f), number(n), signed(v)


# A tree is (kind, value): an int, bytes, a bool, or (tag, list of handles).
class Store:
    def __init__(self, layer, trees, space=(0, 0, 0)):
        self.layer, self.trees, self.space = layer, trees, list(space)

    def make(self, kind, value):
        out = {
            INTEGER: lambda: not -10**12 <= value <= 10**12,
            BOOLEAN: lambda: value > 1,
            STRING: lambda: False,
            ELEMENT: lambda: not 1 <= value[0] <= 65535 or any(h >= len(self.trees) for h in value[1]),
        }[kind]()
        if out:
            raise Refused(52, self.layer, 0)
        cost = (1, len(value[1]) if kind == ELEMENT else 0, len(value) if kind == STRING else 0)
        if any(c > s for c, s in zip(cost, self.space)):
            raise Refused(51, self.layer, 0)
        self.space = [s - c for c, s in zip(cost, self.space)]
        self.trees.append((kind, value))
        return len(self.trees) - 1


def load_capture(data):
    events, last = [], 0
    for k in range((len(data) + 7) // 8):
        r = data[8 * k:8 * k + 8]
        if k >= 1000 or len(r) < 8:
            raise Refused(54, 5, k)
        time = int.from_bytes(r[:4], "big")
        queue, status, note, velocity = r[4:]
        if time < last or queue > 1 or not 0x80 <= status <= 0x9F or note > 127 or velocity > 127:
            raise Refused(54, 5, k)
        last = time
        events.append((3 if status < 0x90 else 2, time, queue, note, velocity))
    trees = [(ELEMENT, (1, [1 + 9 * k for k in range(len(events))]))]
    for e in events:
        base = len(trees)
        trees.append((ELEMENT, (e[0], [base + 1, base + 3, base + 5, base + 7])))
        for i in range(4):
            trees.append((ELEMENT, (4 + i, [len(trees) + 1])))
            trees.append((INTEGER, e[1 + i]))
    return Store(5, trees)


def load_table(rows, children, text):
    if max(len(rows), len(children), len(text)) > 65535:
        raise Refused(53, 4, 0)
    trees = []
    for i, (kind, tag, start, length, value) in enumerate(rows):
        part = children[start:start + length]
        ok = {
            INTEGER: -10**12 <= value <= 10**12,
            STRING: start + length <= len(text),
            BOOLEAN: value in (0, 1),
            ELEMENT: 1 <= tag <= 65535 and start + length <= len(children) and all(h < i for h in part),
        }.get(kind, False)
        if not ok:
            raise Refused(53, 4, i)
        trees.append((kind, {INTEGER: value, STRING: text[start:start + length], BOOLEAN: value, ELEMENT: (tag, part)}[kind]))
    return Store(4, trees)


def open_tray(below, asked):
    cut = [min(a, m) for a, m in zip(asked, (2048, 4096, 4096))]
    cut[0] = min(cut[0], 1000000 - len(below.trees))
    return Store(6, list(below.trees), cut)


def depth(store, handles):
    """Level by level; stops past 64."""
    level = {h for h in handles if store.trees[h][0] == ELEMENT}
    deep = 0
    while level and deep <= 64:
        deep += 1
        level = {c for h in level for c in store.trees[h][1][1] if store.trees[c][0] == ELEMENT}
    return deep


class Full(Exception):
    pass


def render(store, handles, places):
    out = bytearray()

    def put(data):
        out.extend(data)
        if len(out) > places:
            raise Full

    def walk(hs):
        for n, h in enumerate(hs):
            if n:
                put(b",")
            kind, value = store.trees[h]
            if kind == INTEGER:
                put(str(value).encode())
            elif kind == BOOLEAN:
                put(b"true" if value else b"false")
            elif kind == STRING:
                put(b'"')
                for b in value:
                    put(bytes([b]) if 0x20 <= b <= 0x7E and b not in b'"\\' else b"\\%02x" % b)
                put(b'"')
            else:
                put(str(value[0]).encode() + b"[")
                walk(value[1])
                put(b"]")

    walk(handles)
    return bytes(out)


class Rows:
    """The tables of a session: type rows, expressions, arms, functions, text, and the query."""

    def __init__(self):
        self.types, self.expressions, self.arms, self.functions, self.text, self.query = [], [], [], [], b"", None
        self.owned = set()
        self.judge = None

    def judged(self):
        if self.judge is None or len(self.judge.rows) != len(self.types):
            self.judge = Types(self.types)
        return self.judge

    def add_text(self, data):
        place = len(self.text)
        if place + len(data) > 4096:
            raise Refused(11, 1, place)
        self.text += data
        return [place]

    def add_type(self, kind, a, b):
        place = len(self.types)
        if place >= 512:
            raise Refused(11, 1, place)
        parts = {8: [a, b], 9: [a, b], 10: [a]}.get(kind, [])
        lawful = {6: 1 <= a <= 65535 and b < 512, 7: a == 0 and b < 512, 8: True, 9: True, 10: b == 0}.get(kind, 1 <= kind <= 5 and a == b == 0)
        if not lawful or any(p >= place for p in parts):
            raise Refused(12, 1, place)
        if len(set(parts)) < len(parts) or any(p in self.owned for p in parts):
            raise Refused(13, 1, place)
        self.owned.update(parts)
        self.types.append((kind, a, b))
        return [place]

    def add_function(self, parameter, result):
        place = len(self.functions)
        if place >= 32:
            raise Refused(11, 1, place)
        if max(parameter, result) >= 512:
            raise Refused(12, 1, place)
        self.functions.append([parameter, result, None])
        return [place]

    def add_arm(self, kind, tag, body):
        place = len(self.arms)
        if place >= 128:
            raise Refused(11, 1, place)
        lawful = 1 <= tag <= 65535 if kind == 6 else 3 <= kind <= 7 and tag == 0
        if not lawful or body >= len(self.expressions):
            raise Refused(12, 1, place)
        self.arms.append((kind, tag, body))
        return [place]

    def add_expression(self, kind, a, b, c, d):
        place = len(self.expressions)
        if place >= 512:
            raise Refused(11, 1, place)

        def row(n):
            return 0 <= n < place

        def zero(*fields):
            return not any(fields)

        lawful = {
            1: lambda: -10**12 <= a <= 10**12 and zero(b, c, d),
            2: lambda: a in (0, 1) and zero(b, c, d),
            3: lambda: a >= 0 and a + b <= len(self.text) and zero(c, d),
            4: lambda: 0 <= a < 512 and zero(b, c, d),
            5: lambda: 1 <= a <= 65535 and row(b) and zero(c, d),
            6: lambda: row(a) and row(b) and zero(c, d),
            7: lambda: zero(a, b, c, d),
            8: lambda: row(a) and row(b) and row(c) and d == 0,
            9: lambda: row(a) and row(b) and zero(c, d),
            10: lambda: row(a) and row(b) and zero(c, d),
            11: lambda: row(a) and row(c) and (b == 0 if d == 0 else b + d <= len(self.arms)),
            12: lambda: 0 <= a < 32 and row(b) and zero(c, d),
            13: lambda: zero(a, b, c, d),
            14: lambda: row(a) and row(b) and zero(c, d),
            15: lambda: row(a) and row(b) and zero(c, d),
            16: lambda: row(a) and zero(b, c, d),
            17: lambda: row(a) and zero(b, c, d),
            18: lambda: row(a) and zero(b, c, d),
            19: lambda: row(a) and b < 512 and zero(c, d),
        }.get(kind, lambda: False)()
        if not lawful:
            raise Refused(12, 1, place)
        self.expressions.append((kind, a, b, c, d))
        return [place]

    def set_body(self, function, row):
        if function >= len(self.functions) or row >= len(self.expressions):
            raise Refused(12, 1, 0)
        self.functions[function][2] = row
        return []

    def set_query(self, kind, row):
        if kind >= 512 or row >= len(self.expressions):
            raise Refused(12, 1, 0)
        self.query = (kind, row)
        return []

    def tags(self, places):
        named = {a for kind, a, *_ in self.expressions if kind == 5} | {tag for kind, tag, _ in self.arms if kind == 6}
        if places < len(named):
            raise Refused(36, 1, 0)
        return [len(named)] + sorted(named)


class Types:
    """What is decided about type rows, by what is still to come of a type after some items.

    A state is a tuple of rows: forests of these, one after the other, are still to come. `steps` gives the items that a state can begin with,
    each with the state after it. Nothing here relies on a root being one-way.
    """

    def __init__(self, rows):
        self.rows = tuple(rows)
        self.owner = {p: i for i, (k, a, b) in enumerate(self.rows) for p in {SEQUENCE: (a, b), CHOICE: (a, b), REPETITION: (a,)}.get(k, ())}
        self.known_nothing, self.known_steps, self.known_fits = {}, {}, {}

    def is_root(self, row):
        return row < len(self.rows) and row not in self.owner

    def is_item(self, row):
        return INTEGER <= self.rows[row][0] <= ANY_ELEMENT

    def nothing(self, state):
        """Whether the empty forest is one of the state's."""
        return all(self.row_nothing(row) for row in state)

    def row_nothing(self, row):
        if row not in self.known_nothing:
            kind, a, b = self.rows[row]
            self.known_nothing[row] = (
                self.row_nothing(a) and self.row_nothing(b) if kind == SEQUENCE
                else self.row_nothing(a) or self.row_nothing(b) if kind == CHOICE
                else kind in (EMPTY_SEQUENCE, REPETITION))
        return self.known_nothing[row]

    def steps(self, state):
        """The items that may come first, and what is to come after each: a dict that is used as an ordered set."""
        if state not in self.known_steps:
            found = {}
            for n, row in enumerate(state):
                found.update(((item, later + state[n + 1:]), None) for item, later in self.row_steps(row))
                if not self.row_nothing(row):
                    break
            self.known_steps[state] = found
        return self.known_steps[state]

    def row_steps(self, row):
        kind, a, b = self.rows[row]
        if self.is_item(row):
            return {(row, ()): None}
        if kind == SEQUENCE:
            return self.steps((a, b))
        if kind == CHOICE:
            return {**self.steps((a,)), **self.steps((b,))}
        if kind == REPETITION:
            return {(item, later + (row,)): None for item, later in self.steps((a,))}
        return {}

    # One-way: by the rows alone, so that items which can never occur count too.

    def items(self, row):
        kind, a, b = self.rows[row]
        if self.is_item(row):
            yield row
        for part in {SEQUENCE: (a, b), CHOICE: (a, b), REPETITION: (a,)}.get(kind, ()):
            yield from self.items(part)

    def opening(self, row):
        return {item for item, _ in self.steps((row,))}

    def following(self, item):
        """The items that may come right after an item: seen on the way up from it, as long as it stands at the end of the row."""
        found, row = set(), item
        while row in self.owner:
            up = self.owner[row]
            kind, a, b = self.rows[up]
            if kind == REPETITION:
                found |= self.opening(a)
            if kind == SEQUENCE and row == a:
                found |= self.opening(b)
                if not self.row_nothing(b):
                    break
            row = up
        return found

    def clash(self, items):
        """Whether two of some different items overlap."""
        kinds = [self.rows[i][0] for i in items]
        tags = [self.rows[i][1] for i in items if self.rows[i][0] == ELEMENT]
        return (any(kinds.count(k) > 1 for k in (INTEGER, STRING, BOOLEAN, ANY_ELEMENT))
                or len(set(tags)) < len(tags) or (ANY_ELEMENT in kinds and ELEMENT in kinds))

    def one_way(self, root):
        return not self.clash(self.opening(root)) and not any(self.clash(self.following(i)) for i in self.items(root))

    # Fits: every rule says how a forest of the left that is no forest of the right can begin, so what follows from the rules is just what has one.

    def matching(self, states, kind, tag):
        """The steps of some states by which an item of that kind, and that tag, may come first."""
        wanted = ((kind, 0),) if kind != ELEMENT else ((ELEMENT, tag), (ANY_ELEMENT, 0))
        return list(dict.fromkeys((item, later) for s in sorted(states) for item, later in self.steps(s) if self.rows[item][:2] in wanted))

    def symbols(self, item, states):
        """The kinds and tags that an item stands for, as far as the states tell them apart."""
        kind, tag, _ = self.rows[item]
        if kind != ANY_ELEMENT:
            return [(kind, tag)]
        named = {self.rows[i][1] for s in states for i, _ in self.steps(s) if self.rows[i][0] == ELEMENT}
        return [(ELEMENT, t) for t in [OTHER] + sorted(named)]

    def ways_out(self, pair):
        """Some forest of `left` is outside all of `right` if it is so for all the pairs of one of these rules."""
        left, right = pair
        if self.nothing(left) and not any(self.nothing(s) for s in right):
            yield None, []
        for item, later in self.steps(left):
            for kind, tag in self.symbols(item, right):
                found = self.matching(right, kind, tag)
                if kind != ELEMENT:
                    yield (kind, tag), [(later, frozenset(q for _, q in found))]
                    continue
                # Each way of the right is left by what is inside the element, or else by what comes after it.
                for chosen in range(1 << len(found)):
                    inside = frozenset((self.rows[i][2],) for n, (i, _) in enumerate(found) if chosen >> n & 1)
                    after = frozenset(q for n, (_, q) in enumerate(found) if not chosen >> n & 1)
                    yield (kind, tag), [((self.rows[item][2],), inside), (later, after)]

    def outside(self, start):
        """All pairs found from a pair on whose left has a forest outside the right, each with the rule that showed it."""
        seen, todo, waiting, ready = {start}, [start], {}, []
        while todo:
            pair = todo.pop()
            for symbol, needs in self.ways_out(pair):
                rule = [pair, symbol, needs, len(set(needs))]
                for need in set(needs):
                    waiting.setdefault(need, []).append(rule)
                    if need not in seen:
                        seen.add(need)
                        todo.append(need)
                if not needs:
                    ready.append(rule)
        shown = {}
        for pair, symbol, needs, _ in ready:
            if pair in shown:
                continue
            shown[pair] = (symbol, needs)
            for rule in waiting.get(pair, ()):
                rule[3] -= 1
                if rule[3] == 0:
                    ready.append(rule)
        return shown

    def fits(self, row, root):
        start = ((row,), frozenset([(root,)]))
        if start not in self.known_fits:
            self.known_fits[start] = start not in self.outside(start)
        return self.known_fits[start]

    def belongs(self, root, trees, handles):
        known = {}

        def inside(row, handle):
            if (row, handle) not in known:
                known[row, handle] = walk(row, trees[handle][1][1])
            return known[row, handle]

        def walk(row, handles):
            states = {(row,)}
            for h in handles:
                kind, value = trees[h]
                found = self.matching(states, kind, value[0] if kind == ELEMENT else 0)
                states = {later for item, later in found if kind != ELEMENT or inside(self.rows[item][2], h)}
                if not states:
                    return False
            return any(self.nothing(s) for s in states)

        return walk(root, handles)

    # The calls.

    def check_contents(self):
        for i, (kind, _, b) in enumerate(self.rows):
            if kind in (ELEMENT, ANY_ELEMENT) and not self.is_root(b):
                raise Refused(22, 2, i)

    def check_roots(self):
        if not hasattr(self, "ambiguous"):
            self.ambiguous = next((i for i in range(len(self.rows)) if self.is_root(i) and not self.one_way(i)), None)
        if self.ambiguous is not None:
            raise Refused(23, 2, self.ambiguous)

    def answer_one_way(self, row):
        if not self.is_root(row):
            raise Refused(22, 2, 0)
        return [int(self.one_way(row))]

    def answer_fits(self, row, root):
        self.check_contents()
        if row >= len(self.rows) or not self.is_root(root):
            raise Refused(22, 2, 0)
        self.check_roots()
        return [int(self.fits(row, root))]

    def answer_validate(self, store, root, handles):
        self.check_contents()
        if not self.is_root(root):
            raise Refused(22, 2, 0)
        self.check_roots()
        if any(h >= len(store.trees) for h in handles):
            raise Refused(33, 3, 0)
        if depth(store, handles) > 64:
            raise Refused(34, 3, 0)
        if not self.belongs(root, store.trees, handles):
            raise Refused(35, 3, 0)
        return []


class Typing:
    """The types of expressions, in a table that grows behind the declared rows."""

    def __init__(self, rows):
        self.rows, self.types, self.function = rows, list(rows.types), 255

    def stop(self, number, row):
        raise Refused(number, 2, row, self.function)

    def make(self, row, kind, a=0, b=0):
        if len(self.types) >= 512:
            self.stop(28, row)
        self.types.append((kind, a, b))
        return len(self.types) - 1

    def fits(self, x, root):
        return Types(self.types).fits(x, root)

    def walk(self, row, x, item):
        """The type of row x again, each item giving way to what `item` gives."""
        kind, a, b = self.types[x] if x < len(self.types) else (EMPTY_CHOICE, 0, 0)
        if INTEGER <= kind <= ANY_ELEMENT:
            return item(x)
        parts = {SEQUENCE: (a, b), CHOICE: (a, b), REPETITION: (a,)}.get(kind, ())
        return self.make(row, kind, *[self.walk(row, part, item) for part in parts])

    def copy(self, row, x):
        return self.walk(row, x, lambda i: self.make(row, *self.types[i]))

    def typed(self, row, variables):
        kind, a, b, c, d = self.rows.expressions[row]

        def part(n, *bound):
            return self.typed(n, variables + list(bound))

        def top(x):
            return self.types[x][0]

        def require(holds, number=26):
            if not holds:
                self.stop(number, row)

        if kind in (1, 2, 3):
            return self.make(row, {1: INTEGER, 2: BOOLEAN, 3: STRING}[kind])
        if kind == 4:
            require(a < len(variables), 24)
            return self.copy(row, variables[a])
        if kind == 5:
            return self.make(row, ELEMENT, a, part(b))
        if kind == 6:
            return self.make(row, SEQUENCE, part(a), part(b))
        if kind == 7:
            return self.make(row, EMPTY_SEQUENCE)
        if kind == 8:
            require(top(part(a)) == BOOLEAN)
            return self.make(row, CHOICE, part(b), part(c))
        if kind == 9:
            return part(b, part(a))
        if kind == 10:
            return self.walk(row, part(a), lambda i: part(b, i))
        if kind == 11:
            return self.match(row, part, part(a), b, c, d)
        if kind == 12:
            require(a < len(self.rows.functions), 25)
            x = part(b)
            parameter, result, _ = self.rows.functions[a]
            require(self.fits(x, parameter), 27)
            return self.copy(row, result)
        if kind == 13:
            return self.make(row, EMPTY_CHOICE)
        if kind == 14:
            for n in (a, b):
                require(top(part(n)) == INTEGER)
            return self.make(row, INTEGER)
        if kind == 15:
            x = part(a)
            require(INTEGER <= top(x) <= BOOLEAN)
            require(top(part(b)) == top(x))
            return self.make(row, BOOLEAN)
        if kind in (16, 17):
            part(a)
            return self.make(row, BOOLEAN if kind == 16 else INTEGER)
        if kind == 18:
            x = part(a)
            require(top(x) in (ELEMENT, ANY_ELEMENT))
            return self.copy(row, self.types[x][2])
        x = part(a)
        require(self.fits(x, b), 27)
        return self.copy(row, b)

    def match(self, row, part, subject, first, otherwise, count):
        kind, tag, content = self.types[subject]
        if not INTEGER <= kind <= ANY_ELEMENT:
            self.stop(26, row)
        reached, named, open_still = [], set(), True
        for wanted, wanted_tag, body in self.rows.arms[first:first + count]:
            if kind == ANY_ELEMENT and wanted == ELEMENT:
                if wanted_tag not in named:
                    named.add(wanted_tag)
                    reached.append(part(body, self.make(row, ELEMENT, wanted_tag, content)))
            elif (wanted == ANY_ELEMENT and kind in (ELEMENT, ANY_ELEMENT)) or (wanted == kind and (kind != ELEMENT or wanted_tag == tag)):
                reached.append(part(body, subject))
                open_still = False
                break
        if open_still:
            reached.append(part(otherwise))
        x = reached[0]
        for y in reached[1:]:
            x = self.make(row, CHOICE, x, y)
        return x


def check(rows):
    """The row of the query's type and the number of rows made, or the first refusal."""
    if rows.query is None:
        raise Refused(21, 2, 0, 255)
    for i, (_, _, body) in enumerate(rows.functions):
        if body is None:
            raise Refused(21, 2, i, 255)
    types = rows.judged()
    try:
        types.check_contents()
        for i, (parameter, result, _) in enumerate(rows.functions):
            if not (types.is_root(parameter) and types.is_root(result)):
                raise Refused(22, 2, i)
        if not types.is_root(rows.query[0]):
            raise Refused(22, 2, 0)
        for i, (kind, _, target, _, _) in enumerate(rows.expressions):
            if kind == 19 and not types.is_root(target):
                raise Refused(22, 2, i)
        types.check_roots()
    except Refused as early:
        raise Refused(*early.fault, 255)
    typing = Typing(rows)
    for typing.function, (parameter, result, body) in enumerate(rows.functions):
        if not typing.fits(typing.typed(body, [parameter]), result):
            typing.stop(27, body)
    typing.function = 255
    row = typing.typed(rows.query[1], [rows.query[0]])
    return [row, len(typing.types) - len(rows.types)]


class Session:
    def __init__(self):
        self.store, self.height, self.rows = Store(4, []), 0, Rows()

    def on_rows(self, word, args):
        """A call on the tables of the session, or None where the word is another's."""
        readers = {
            b"text": [hexbytes], b"type": [kind, number, number], b"function": [number, number], b"arm": [kind, number, number],
            b"expression": [kind, signed, number, number, number], b"body": [number, number], b"query": [number, number],
            b"tags": [number], b"clear": [], b"check": [],
        }.get(word)
        if readers is None:
            return None
        if len(args) != len(readers):
            raise Malformed
        values = [reader(arg) for reader, arg in zip(readers, args)]
        if word == b"clear":
            self.rows = Rows()
            return []
        if word == b"check":
            return check(self.rows)
        calls = {b"text": self.rows.add_text, b"type": self.rows.add_type, b"function": self.rows.add_function, b"arm": self.rows.add_arm,
                 b"expression": self.rows.add_expression, b"body": self.rows.set_body, b"query": self.rows.set_query, b"tags": self.rows.tags}
        return calls[word](*values)

    def on_types(self, word, args):
        """A call on the types of the session, or None where the word is another's."""
        if word not in (b"oneway", b"fits", b"validate"):
            return None
        if len(args) < 1 or (word == b"oneway" and len(args) != 1) or (word == b"fits" and len(args) != 2):
            raise Malformed
        values, types = [number(a) for a in args], self.rows.judged()
        if word == b"oneway":
            return types.answer_one_way(*values)
        if word == b"fits":
            return types.answer_fits(*values)
        return types.answer_validate(self.store, values[0], values[1:])

    def perform(self, word, args):
        answer = self.on_rows(word, args)
        if answer is None:
            answer = self.on_types(word, args)
        if answer is not None:
            return answer
        if word in (b"capture", b"string", b"integer", b"boolean"):
            if len(args) != 1:
                raise Malformed
        if word == b"capture":
            self.store, self.height = load_capture(hexbytes(args[0])), 0
            return [len(self.store.trees)]
        if word == b"table":
            if len(args) != 3:
                raise Malformed
            rows = [] if args[0] == b"-" else [table_row(w) for w in args[0].split(b";")]
            self.store, self.height = load_table(rows, numbers(args[1]), hexbytes(args[2])), 0
            return [len(self.store.trees)]
        if word == b"tray":
            if len(args) != 3:
                raise Malformed
            asked = [number(a) for a in args]
            if self.height == 4:
                return None
            self.store, self.height = open_tray(self.store, asked), self.height + 1
            return [len(self.store.trees)] + self.store.space
        if word == b"space":
            if args:
                raise Malformed
            return [len(self.store.trees)] + self.store.space
        if word == b"integer":
            return [self.store.make(INTEGER, signed(args[0]))]
        if word == b"boolean":
            return [self.store.make(BOOLEAN, number(args[0]))]
        if word == b"string":
            return [self.store.make(STRING, hexbytes(args[0]))]
        if word in (b"element", b"print"):
            if not args:
                raise Malformed
            first, rest = number(args[0]), [number(a) for a in args[1:]]
            if word == b"element":
                return [self.store.make(ELEMENT, (first, rest))]
            if any(h >= len(self.store.trees) for h in rest):
                raise Refused(33, 3, 0)
            if depth(self.store, rest) > 64:
                raise Refused(34, 3, 0)
            try:
                return render(self.store, rest, first)
            except Full:
                raise Refused(36, 3, 0)
        raise Malformed


def answers(script):
    session = Session()
    lines = script.split(b"\n")
    if lines and lines[-1] == b"":
        lines.pop()
    for n, line in enumerate(lines, 1):
        if line == b"" or line.startswith(b"#"):
            continue
        word, *args = line.split(b" ")
        try:
            result = session.perform(word, args)
            if result is None:
                text = "unsupported"
            elif isinstance(result, bytes):
                text = f"ok {len(result)}" + (" " + result.decode() if result else "")
            else:
                text = " ".join(["ok"] + [str(x) for x in result])
        except Malformed:
            yield f"{n} ? malformed"
            continue
        except Refused as r:
            text = " ".join(["refused"] + [str(x) for x in r.fault])
        yield f"{n} {word.decode()} {text}"


if __name__ == "__main__":
    sys.setrecursionlimit(10000)
    for text in answers(sys.stdin.buffer.read()):
        print(text)
