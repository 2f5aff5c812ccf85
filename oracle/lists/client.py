"""A client of the oracle's protocol, and SPEC's records for it.

The crate's Rust knows no feature numbers: it is asked with the four bytes of each event's number as zeros, and what it answers gets the
number put in.
"""
import collections, struct, subprocess

UNKNOWN = 255
LISTS = ("xy", "ends", "z", "m", "t", "tm")
MODES = ("Normal", "GeometryCollection", "ForceMulti")
FINISH = ("finish",)


def bits(double):
    return struct.unpack("<Q", struct.pack("<d", double))[0]


def ev(kind, tagged=0, size=0, idx=0, present=0, x=0, y=0, z=0, m=0, t=0, tm=0, feature=0):
    return struct.pack("<BBBBIII6Q", kind, tagged, present, 0, size, idx, feature, x, y, z, m, t, tm)


def feature_of(event):
    """The number of the feature that an event is of. What is too short to have one has 0."""
    return struct.unpack_from("<I", event, 12)[0] if len(event) >= 16 else 0


def under(feature, event):
    """The event as one of that feature; what is too short to have a number stays as it is."""
    return event[:12] + struct.pack("<I", feature) + event[16:] if len(event) >= 16 else event


def xy(x, y, idx=0):
    return ev(64, idx=idx, x=bits(x), y=bits(y))


def begin(kind, size=0, idx=0, tagged=0):
    return ev(kind, tagged=tagged, size=size, idx=idx)


def end(kind, idx=0, tagged=0):
    return ev(kind + 32, tagged=tagged, idx=idx)


def prop(column, kind, value_bits=0, text=b""):
    return ("property", column, kind, value_bits, text)


class Store:
    """A table's bytes, and the words of the six pools."""

    def __init__(self, table=b"", pools=None):
        self.table, self.pools = table, pools or [[] for _ in LISTS]

    def packed(self):
        return packed(self.table) + b"".join(
            struct.pack(f"<I{len(pool)}{'I' if i == 1 else 'Q'}", len(pool), *pool) for i, pool in enumerate(self.pools))

    def n(self):
        return len(self.table) // 64


def store(tree):
    """The records of a tree of dicts (type, lists, parts), breadth first."""
    made, nodes, table = Store(), [tree], []
    for node in nodes:
        present, pairs = 0, []
        for i, name in enumerate(LISTS):
            words = node.get(name)
            if words is None:
                pairs += [0, 0]
                continue
            present |= 1 << i
            pairs += [len(made.pools[i]), len(words)]
            made.pools[i] += words
        parts = node.get("parts")
        present |= 0 if parts is None else 64
        pairs += [0, 0] if parts is None else [len(nodes), len(parts)]
        nodes += parts or []
        table.append(struct.pack("<BBH14II", node.get("type", 0), present, 0, *pairs, 0))
    made.table = b"".join(table)
    return made


def packed(data):
    return struct.pack("<I", len(data)) + data


class Answer:
    def __init__(self, data):
        self.data, self.at = data, 0

    def take(self, count):
        self.at += count
        return self.data[self.at - count:self.at]

    def byte(self):
        return self.take(1)[0]

    def number(self):
        return struct.unpack("<I", self.take(4))[0]

    def bytes(self):
        return self.take(self.number())

    def records(self, size):
        data = self.bytes()
        return [data[at:at + size] for at in range(0, len(data), size)]

    def store(self):
        found = Store(self.bytes())
        for i in range(6):
            count = self.number()
            found.pools[i] = list(struct.unpack(f"<{count}{'I' if i == 1 else 'Q'}", self.take(count * (4 if i == 1 else 8))))
        return found

    def state(self):
        declared, current, mode, _ = self.take(4)
        state = dict(declared=declared, current=current, mode=MODES[mode])
        state.update((name, self.number()) for name in ("parts", *LISTS, "properties"))
        state["box"] = list(struct.unpack("<4Q", self.take(32)))
        return state


Written = collections.namedtuple("Written", "numbers places states features state pending")
Feature = collections.namedtuple("Feature", "tree properties raw")
Read = collections.namedtuple("Read", "number events words")
Values = collections.namedtuple("Values", "number stopped place records words")


class Oracle:
    def __init__(self, program):
        self.process = subprocess.Popen([program], stdin=subprocess.PIPE, stdout=subprocess.PIPE)

    def ask(self, request):
        self.process.stdin.write(packed(request))
        self.process.stdin.flush()
        length = struct.unpack("<I", self.process.stdout.read(4))[0]
        answer = Answer(self.process.stdout.read(length))
        if answer.byte() == UNKNOWN:
            raise ValueError(answer.bytes().decode())
        return answer

    def write(self, items, declared=0, detect=0, promote=0):
        """Items are events, FINISH and prop(..). Each has a number and a place, which is 0 of all but properties."""
        request = [b"W", bytes([declared, detect, promote]), struct.pack("<I", len(items))]
        for item in items:
            if isinstance(item, bytes):
                request.append(b"\0" + packed(under(0, item)))
            elif item == FINISH:
                request.append(b"\1")
            else:
                _, column, kind, value_bits, text = item
                request.append(b"\2" + struct.pack("<IBQ", column, kind, value_bits) + packed(text))
        answer = self.ask(b"".join(request))
        numbers, places, states, features = [], [], [], []
        for item in items:
            numbers.append(answer.byte())
            places.append(0 if isinstance(item, bytes) or item == FINISH else answer.number())
            if item == FINISH:
                features.append(Feature(answer.store(), answer.bytes(), answer.bytes()))
            states.append(answer.state())
        return Written(numbers, places, states, features, answer.state(), answer.store())

    def read(self, tree, declared=0, flags=0, feature=0):
        answer = self.ask(b"R" + bytes([declared, flags]) + tree.packed())
        return Read(answer.byte(), [under(feature, event) for event in answer.records(64)], answer.bytes().decode())

    def read_flatbuffer(self, raw, declared=0, flags=0, verified=1):
        """The reading, the tree's records, the property bytes."""
        answer = self.ask(b"F" + bytes([declared, flags, verified]) + packed(raw))
        return Read(answer.byte(), answer.records(64), answer.bytes().decode()), answer.store(), answer.bytes()

    def read_properties(self, data, columns, stop=65536):
        request = b"P" + struct.pack("<BI", columns is not None, stop) + packed(bytes(columns or b"")) + packed(data)
        answer = self.ask(request)
        return Values(answer.byte(), answer.byte(), answer.number(), answer.records(16), answer.bytes().decode())

    def header(self, raw):
        answer = self.ask(b"H" + packed(raw))
        kind, has_z, has_m, features = struct.unpack("<BBBQ", answer.take(11))
        node_size, has_columns, columns = answer.number(), answer.byte(), list(answer.bytes())
        return dict(type=kind, z=has_z, m=has_m, features=features, node_size=node_size, columns=columns if has_columns else None)
