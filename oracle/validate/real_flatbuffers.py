"""The stand-in's builder and tables against real FlatBuffers: the Python runtime, and the C++ verifier.

    real_flatbuffers.py ORACLE VERIFIER
"""
import random, struct, subprocess, sys

import flatbuffers
from client import FINISH, LISTS, Oracle, begin, end, ev, packed, prop
from Feature import Feature

COUNT = 3000
TYPES = sorted(set(range(1, 18)) - {13, 14})
SLOTS = dict(ends=0, xy=1, z=2, m=3, t=4, tm=5)
oracle = Oracle(sys.argv[1])
verifier = subprocess.Popen([sys.argv[2]], stdin=subprocess.PIPE, stdout=subprocess.PIPE)
pick = random.Random(1)


def is_verified(raw):
    verifier.stdin.write(packed(raw))
    verifier.stdin.flush()
    return verifier.stdout.read(1) == b"\1"


def width(name):
    return 4 if name == "ends" else 8


def tree_by_python(geometry):
    table, tree = geometry._tab, dict(type=geometry.Type())
    for name, slot in SLOTS.items():
        offset = table.Offset(4 + 2 * slot)
        if offset:
            start, count = table.Vector(offset), table.VectorLen(offset)
            words = bytes(table.Bytes[start:start + count * width(name)])
            tree[name] = list(struct.unpack(f"<{count}{'I' if name == 'ends' else 'Q'}", words))
    if table.Offset(18):
        tree["parts"] = [tree_by_python(geometry.Parts(i)) for i in range(geometry.PartsLength())]
    return tree


def tree_of(store, n=0):
    kind, present, _, *pairs, _ = struct.unpack_from("<BBH14II", store.table, 64 * n)
    tree = dict(type=kind)
    for i, name in enumerate(LISTS):
        if present >> i & 1:
            tree[name] = store.pools[i][pairs[2 * i]:pairs[2 * i] + pairs[2 * i + 1]]
    if present >> 6:
        tree["parts"] = [tree_of(store, part) for part in range(pairs[12], pairs[12] + pairs[13])]
    return tree


def some_word():
    return pick.choice([pick.getrandbits(64), 0, 0x7FF8000000000001, 0x7FF0000000000001, 0xFFF << 52])


def some_event():
    chance = pick.random()
    if chance < 0.35:
        return ev(64, x=some_word(), y=some_word())
    if chance < 0.5:
        present = pick.randrange(16)
        values = {name: some_word() for i, name in enumerate(LISTS[2:]) if present >> i & 1}
        return ev(65, present=present, x=some_word(), y=some_word(), **values)
    kind = pick.choice(TYPES + [2, 3, 2, 3, 7, 7])
    tagged = pick.randrange(2) if kind in (2, 3, 17) else 0
    return begin(kind, tagged=tagged) if pick.random() < 0.45 else end(kind, tagged=tagged)


def written_features():
    """What the crate's writer lays down over the stand-in's builder, read by the Python runtime."""
    features = 0
    for _ in range(COUNT):
        items = []
        for _ in range(pick.randint(1, 3)):
            items += [some_event() for _ in range(pick.randrange(26))]
            items += [prop(pick.randrange(65536), 14, 0, pick.randbytes(pick.randrange(10))) for _ in range(pick.randrange(3))]
            items.append(FINISH)
        answer = oracle.write(items, pick.choice([0, 0, 1, 2, 3, 4, 5, 6, 7, 12, 17, 200]), pick.randrange(2), pick.randrange(2))
        for feature in answer.features:
            found = Feature.GetRootAs(feature.raw, 4)
            assert tree_by_python(found.Geometry()) == tree_of(feature.tree)
            assert bytes(found.Properties(i) for i in range(found.PropertiesLength())) == feature.properties
            assert is_verified(feature.raw)
            features += 1
    return features


def some_tree(levels):
    tree = dict(type=pick.randrange(21))
    for name in LISTS:
        if pick.random() < 0.5:
            tree[name] = [pick.getrandbits(8 * width(name)) for _ in range(pick.randrange(7))]
    if levels and pick.random() < 0.6:
        tree["parts"] = [some_tree(levels - 1) for _ in range(pick.randrange(4))]
    return tree


def built_by_python(to, tree):
    offsets = {}
    if "parts" in tree:
        parts = [built_by_python(to, part) for part in tree["parts"]]
        to.StartVector(4, len(parts), 4)
        for part in reversed(parts):
            to.PrependUOffsetTRelative(part)
        offsets[7] = to.EndVector()
    for name, slot in SLOTS.items():
        if name in tree:
            to.StartVector(width(name), len(tree[name]), width(name))
            for word in reversed(tree[name]):
                (to.PrependUint32 if name == "ends" else to.PrependUint64)(word)
            offsets[slot] = to.EndVector()
    to.StartObject(8)
    for slot, offset in offsets.items():
        to.PrependUOffsetTRelativeSlot(slot, offset, 0)
    to.PrependUint8Slot(6, tree["type"], 0)
    return to.EndObject()


def read_features():
    """What the Python runtime builds, read by the crate over the stand-in's tables."""
    for _ in range(COUNT):
        tree, to = some_tree(3), flatbuffers.Builder(64)
        geometry = built_by_python(to, tree)
        to.StartObject(3)
        to.PrependUOffsetTRelativeSlot(0, geometry, 0)
        to.FinishSizePrefixed(to.EndObject())
        raw = bytes(to.Output())
        assert is_verified(raw)
        _, store, _ = oracle.read_flatbuffer(raw, 0, 15)
        assert tree_of(store) == tree
    return COUNT


print("features written, equal in the Python runtime and taken by the C++ verifier:", written_features())
print("features built by the Python runtime, read with equal bits:", read_features())
