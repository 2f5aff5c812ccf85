"""The library's writing of WKB beside a model of it, beside GEOS, and beside its own reading."""
import collections, itertools, time

import inputs, shapes
import writing_inputs as lists
from events import NAMES, events_of, records
from faults import Faults, where
from library import BEHIND
from model import DONE, Reading, TOO_DEEP
from peer import ALIKE, STRICTER, as_geos_tells, fault
from writing import BADLY_NESTED, NUMBERS, RECORD_BYTES, Writing
from writing_slips import SLIPS

# As many bytes as one record comes to at most: a pair of a MultiPoint, with a head.
MOST_OF_A_RECORD = 21
# What GEOS makes of what we write: refused by it, or held with less.
PARTED = STRICTER + ALIKE
LITTLE = 1


class WritingRun(Faults):
    def __init__(self, library, geos, chance):
        super().__init__()
        self.library, self.geos, self.random = library, geos, chance
        self.numbers, self.whole, self.parted = collections.Counter(), collections.Counter(), collections.Counter()
        self.shortest = {}
        self.unnoticed = list(SLIPS)
        self.read_back = self.by_geos = self.of_geos = self.too_deep = self.again = 0
        self.parts = (self.a_few, self.geometries, self.rooms, self.records, self.fields, self.bytes, self.malformed, self.levels, self.deep,
                      self.large, self.geos_made, self.written_again)

    # ---- the library beside the model

    def roomy(self, data):
        return MOST_OF_A_RECORD * (len(data) // RECORD_BYTES + 1)

    def compare(self, data, room=None):
        """The library's number, and what it wrote. Room that is not given is enough for any such list."""
        room = self.roomy(data) if room is None else room
        call = data, room, room + BEHIND
        given, expected = self.library.wrote(*call), Writing.called(*call)
        if given != expected:
            self.fault(f"number, length {given[:2]}, by the model {expected[:2]}, room for {room} bytes{where(given, expected)}", data)
        self.unnoticed = [slip for slip in self.unnoticed if slip.called(*call) == given]
        number, length, memory = given
        self.numbers[number] += 1
        if number == DONE:
            self.whole[data[0]] += 1
        return number, memory[:length]

    def anywhere(self, data):
        """With room enough, or with a room that may be too little: whether it is changes no other refusal."""
        return self.compare(data, self.random.choice((None, None, None, None, 0, 1, 5, 9, 21, 64)))

    def written(self, data):
        """A list that must be written: it is read back, and GEOS is given the bytes."""
        number, written = self.compare(data)
        if number != DONE:
            self.fault(f"a geometry's events, and we answer {number}", data)
            return None
        self.reads_back(data, written)
        self.geos_reads(data, written)
        return written

    def reads_back(self, data, written):
        """Reading what was written, under the list's own number, gives the list."""
        self.read_back += 1
        feature = int.from_bytes(data[12:16], "little")
        read = self.library.called(written, feature, len(data), len(data))
        if read != (DONE, len(data) // RECORD_BYTES, data):
            self.fault(f"what was written reads back as number, count {read[:2]}", data)

    # ---- beside GEOS

    def geos_reads(self, data, written):
        """GEOS reads the events that we wrote and writes these bytes again, but for what it is known to refuse or to keep less of."""
        self.by_geos += 1
        events = events_of(data)
        refused, geometry = fault(events), self.geos.read(written)
        if not geometry or refused:
            if geometry or not refused:
                self.fault(f"GEOS reads {bool(geometry)}, by its rules {refused}: {self.geos.words}", written)
            else:
                self.meet([refused], written)
            return
        told, lost = as_geos_tells(events)
        walked, again = list(self.geos.events(geometry)), self.geos.written(geometry, self.geos.writers[LITTLE])
        self.geos.drop(geometry)
        if walked != told:
            self.fault(f"GEOS reads {walked[:4]} .., of {told[:4]} ..", written)
        if (DONE, again) != Writing(records(told, 0)).answer(len(written)):
            self.fault(f"GEOS writes {again.hex()[:400]}", written)
        if again != written:
            self.meet(lost, written)

    def meet(self, names, written):
        for name in names:
            self.parted[name] += 1
            if len(written) < len(self.shortest.get(name, written + b"\0")):
                self.shortest[name] = written

    def geos_has(self, shape):
        """GEOS holds the shape, is walked, and writes it. What the walk tells is written alike, and so is what the shape itself tells, where
        GEOS keeps all of it.
        """
        geometry, feature = self.geos.geometry(shape), self.random.choice(lists.FEATURES)
        walked = list(self.geos.events(geometry))
        of_geos = self.geos.written(geometry, self.geos.writers[LITTLE])
        self.geos.drop(geometry)
        self.of_geos += 1
        self.writes_as(shape, records(walked, feature), of_geos)
        if not lists.has_points_without_pair(shape):
            own = lists.packed(lists.told(shape, feature))
            told, lost = as_geos_tells(events_of(own))
            if told != walked:
                self.fault(f"GEOS holds {walked[:4]} .., made of {told[:4]} ..", own)
            if not lost:
                self.writes_as(shape, own, of_geos)

    def writes_as(self, shape, data, of_geos):
        """These events of a shape are written as GEOS writes it. At level 17 GEOS goes on, and we refuse it."""
        if shapes.levels(shape) > Reading.deepest:
            number, _ = self.compare(data)
            self.too_deep += 1
            if number != TOO_DEEP:
                self.fault(f"a geometry of {shapes.levels(shape)} levels, and we answer {number}", data)
            return
        written = self.written(data)
        if written is not None and written != of_geos:
            self.fault(f"GEOS writes {of_geos.hex()[:400]}, we {written.hex()[:400]}", data)

    # ---- what is written

    def a_few(self):
        """Of everything that follows: a wrong model that one of these tells need not be asked of all the rest."""
        for shape in lists.SAMPLES:
            events = lists.told(shape, 5)
            data = lists.packed(events)
            needed = len(self.compare(data)[1])
            for room in {0, max(needed - 1, 0), needed}:
                self.compare(data, room)
            for way in (lists.moved, lists.begins_with_ends, lists.with_pairs, lists.from_one, lists.with_tags, lists.with_features):
                for bad in lists.spread(map(lists.packed, way(events)), 40):
                    self.anywhere(bad)
            for bad in (*lists.spread(lists.with_malformed(events), 40), *lists.spread(map(lists.packed, lists.with_each_field(events)), 40)):
                self.anywhere(bad)
        for shape in (*inputs.ODD_ONES, *lists.spread(lists.about_the_last_level(), 40)):
            self.compare(lists.packed(lists.told(shape)))
        for events in lists.spread(lists.deep_lists(), 20):
            self.compare(lists.packed(events))

    def geometries(self):
        """Of every type, nested, empty and odd, under each feature's number; and those that have no events."""
        for feature in lists.FEATURES:
            for shape in (*lists.SHAPES, lists.FOREST):
                data = lists.packed(lists.told(shape, feature))
                if shapes.levels(shape) <= Reading.deepest:
                    self.written(data)
                else:
                    self.anywhere(data)
        for shape in lists.OF_NO_EVENTS:
            data = lists.packed(lists.told(shape))
            number, _ = self.anywhere(data)
            if number != BADLY_NESTED:
                self.fault(f"a Point without a pair, and we answer {number}", data)

    def rooms(self):
        """Of every length about what is needed, none, and far more: what lies behind the written bytes, or in a refused room, stays."""
        for shape in (*lists.SAMPLES, lists.FOREST):
            data = lists.packed(lists.told(shape, 1))
            needed = len(self.compare(data)[1])
            for room in {*range(needed + 30)} | {2 * needed, needed + 4096}:
                self.compare(data, room)
            for bad in (data + b"\0", data + data[:RECORD_BYTES], data[:-RECORD_BYTES], data[RECORD_BYTES:]):
                for room in {0, 1, needed - 1, needed, needed + 1, needed + 4096} - {-1}:
                    self.compare(bad, room)
        self.compare(b"", 0)
        self.compare(b"", 4096)

    def records(self):
        """Records dropped, doubled, swapped; indices, tags, sizes, features, kinds that may not be there."""
        for shape in lists.SAMPLES:
            for events in lists.badly_nested(lists.told(shape, 5)):
                self.anywhere(lists.packed(events))

    def fields(self):
        for shape in lists.SAMPLES:
            for events in lists.with_each_field(lists.told(shape, 5)):
                self.anywhere(lists.packed(events))

    def bytes(self):
        for shape in lists.SAMPLES:
            for data in lists.with_each_byte(lists.told(shape, 5)):
                self.compare(data)

    def malformed(self):
        """Malformed records before, behind and between good ones, and other faults."""
        for shape in lists.SAMPLES:
            events = lists.told(shape, 5)
            for data in lists.with_malformed(events):
                self.anywhere(data)
            for bad in lists.with_one_fault_each(events):
                for data in lists.with_malformed_about(bad):
                    self.anywhere(data)

    def levels(self):
        """Of 14 to 18 levels, good in any room and with one fault each."""
        for shape in lists.about_the_last_level():
            events = lists.told(shape, 2)
            for room in (None, 0, 64):
                self.compare(lists.packed(events), room)
            for bad in lists.with_one_fault_each(events):
                self.anywhere(lists.packed(bad))

    def deep(self):
        """Of hundreds of levels and of thousands: well nested 13, with one fault at any level 21, with a malformed record 11."""
        for events in itertools.chain(lists.twenty(), lists.deep_lists(), lists.deep_forests(), lists.very_deep()):
            self.anywhere(lists.packed(events))
        for events in lists.deep_lists_for_malformed():
            for data in lists.with_malformed_about(events):
                self.anywhere(data)

    def large(self):
        """Large shapes, and a list of more records than a log has usable ones: a list may have any length."""
        for shape in inputs.LARGE_ONES:
            data = lists.packed(lists.told(shape, 1))
            needed = len(self.written(data))
            for room in (needed - 1, needed, needed + 1):
                self.compare(data, room)
            self.compare(data[:-RECORD_BYTES], needed)
            self.compare(data + data[:RECORD_BYTES], 0)
            self.compare(data + b"\0")
        self.compare(lists.longer_than_a_log())

    def geos_made(self):
        fixed = [*inputs.OF_EACH_TYPE, *inputs.EMPTY_ONES, *inputs.ODD_ONES, *lists.NAN_POINTS, *lists.EMPTY_SHELLS, *inputs.DEEP_ONES,
                 *inputs.LARGE_ONES, inputs.FOREST]
        maker = shapes.Maker(self.random, True)
        for shape in fixed + [maker.any_shape() for _ in range(2000)]:
            self.geos_has(shape)

    def written_again(self):
        """What was read is written: the bytes themselves, where they are little-endian throughout, else the same geometry in that order."""
        maker = shapes.Maker(self.random, False)
        fixed = inputs.OF_EACH_TYPE + inputs.EMPTY_ONES + inputs.ODD_ONES + inputs.LOOSE_ONES + inputs.DEEP_ONES + [inputs.FOREST]
        for shape in fixed + [maker.any_shape() for _ in range(1000)]:
            if shapes.levels(shape) <= Reading.deepest:
                for marks in inputs.MARKS:
                    self.reads_and_writes(shapes.wkb(shape, marks), shapes.wkb(shape, shapes.LITTLE))

    def reads_and_writes(self, data, little):
        self.again += 1
        log_length = RECORD_BYTES * (len(data) // 2 + 3)
        _, count, log = self.library.called(data, self.random.choice(lists.FEATURES), log_length, log_length)
        number, written = self.compare(log[:RECORD_BYTES * count], len(little))
        if (number, written) != (DONE, little):
            self.fault(f"read, then written with {number} as {written.hex()[:400]}", data)

    def random_until(self, end):
        """Shapes, whole and with changes, under any feature's number, with rooms of any length."""
        maker = shapes.Maker(self.random, False)
        while time.monotonic() < end:
            events = lists.told(maker.any_shape(), self.random.choice(lists.FEATURES))
            for each in (events, *(lists.at_random(self.random, events) for _ in range(3))):
                data = lists.packed(each)
                number, written = self.compare(data)
                if number == DONE:
                    self.reads_back(data, written)
                self.compare(data, self.random.randrange(len(written) + 30))

    # ---- what came of it

    def missing(self):
        yield from (f"no answer was {number}" for number in NUMBERS if not self.numbers[number])
        yield from (f"no {name} was written" for kind, name in NAMES.items() if not self.whole[kind])
        yield from (f"GEOS was not seen to part from what we write: {name}" for name in PARTED if not self.parted[name])
        yield from ["GEOS was not seen to write a geometry of more than 16 levels"] * (not self.too_deep)
        yield from (f"a wrong model went unnoticed: {slip.__name__}" for slip in self.unnoticed)

    def report(self):
        """Whether all is well."""
        print(f"{sum(self.numbers.values()):,} answers beside the model: number, length, every byte of the room and behind it")
        for number, count in sorted(self.numbers.items()):
            print(f"    {number:3} {count:10,}")
        print(f"{self.read_back:,} lists written and read back, {self.again:,} read and written again")
        print(f"{self.by_geos:,} written ones given to GEOS; {self.of_geos:,} of its own geometries, which it writes alike")
        print(f"{self.too_deep:,} lists of more than 16 levels, which GEOS writes and we refuse")
        print("GEOS refuses or keeps less of what we write, with the shortest:")
        for name, count in self.parted.items():
            print(f"    {count:8,}  {name}")
            print(f"              {self.shortest[name].hex()}")
        print(f"{len(SLIPS) - len(self.unnoticed)} of {len(SLIPS)} wrong models noticed")
        return self.is_well()
