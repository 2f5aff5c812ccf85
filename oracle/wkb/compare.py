"""The library's reading and writing of WKB beside models of them, and beside GEOS.

    compare.py SHARED_OBJECT [--seed N] [--minutes M]

First reading, then writing (writing_run.py), each for half of the time: the fixed inputs, then random ones until it is up. The answer is 1
where any answer differs, where something that the run is for was not met, or where a wrong model went unnoticed.
"""
import argparse, collections, random, sys, time

import inputs, shapes
from events import NAMES, events_of, records
from faults import Faults, where
from geos import Geos
from library import BEHIND, Library
from model import BAD_MARK_OR_TYPE, DONE, NUMBERS, Reading, TOO_DEEP
from peer import ALIKE, LAXER, STRICTER, as_geos_tells, peer_answer
from slips import SLIPS
from writing_run import WritingRun

FEATURES = (0, 1, 7, 0xA5A5A5A5, (1 << 32) - 1)

Answer = collections.namedtuple("Answer", "number count log feature")


class Difference:
    """What GEOS is known to do otherwise: how often it was met, and the shortest input."""

    def __init__(self):
        self.count, self.data, self.number, self.words = 0, None, None, ""

    def meet(self, data, number, words):
        self.count += 1
        if self.data is None or len(data) < len(self.data):
            self.data, self.number, self.words = data, number, words


class Run(Faults):
    def __init__(self, library, geos, chance):
        super().__init__()
        self.library, self.geos, self.random = library, geos, chance
        self.numbers, self.whole = collections.Counter(), collections.Counter()
        self.differences = {name: Difference() for name in LAXER + STRICTER + ALIKE}
        self.unnoticed = list(SLIPS)
        self.beside_geos = self.of_geos = 0
        self.parts = self.odd, self.cuts, self.logs, self.dialects, self.damages, self.large, self.geos_wrote

    # ---- the library beside the model

    def compare(self, data, log_length=None):
        """The library's answer. A log of no given length has room for all that so many bytes can say."""
        feature = self.random.choice(FEATURES)
        log_length = 64 * (len(data) // 2 + 3) + 5 if log_length is None else log_length
        call = data, feature, log_length, log_length + BEHIND
        given, expected = self.library.called(*call), Reading.called(*call)
        if given != expected:
            self.fault(f"number, count {given[:2]}, by the model {expected[:2]}, log of {log_length} bytes{where(given, expected)}", data)
        self.unnoticed = [slip for slip in self.unnoticed if slip.called(*call) == given]
        number, count, memory = given
        self.numbers[number] += 1
        if number == DONE:
            self.whole[data[:1], memory[:1]] += 1
        return Answer(number, count, memory[:64 * min(count, log_length // 64)], feature)

    # ---- beside GEOS

    def beside(self, data):
        """GEOS is given the same bytes, and is to part from us where it is known to."""
        answer = self.compare(data)
        refused, events, noted = peer_answer(data)
        geometry = self.geos.read(data)
        self.beside_geos += 1
        if not geometry:
            self.refused_by_geos(data, answer, refused)
            return answer
        walked = list(self.geos.events(geometry))
        self.geos.drop(geometry)
        told, lost = as_geos_tells(events_of(answer.log) if answer.number == DONE else events)
        if refused or walked != told:
            self.fault(f"GEOS reads {walked[:4]} .., which is not known of it; we answer {answer.number}", data)
        elif answer.number == DONE:
            self.meet(lost, data, answer)
        elif noted:
            self.meet(noted[:1], data, answer)
        else:
            self.fault(f"GEOS reads it, we answer {answer.number}", data)
        return answer

    def refused_by_geos(self, data, answer, refused):
        if not refused:
            self.fault(f"GEOS refuses it, which is not known of it: {self.geos.words}; we answer {answer.number}", data)
        elif answer.number == DONE:
            self.meet([refused], data, answer, self.geos.words)

    def meet(self, names, data, answer, words=""):
        for name in names:
            if name not in self.differences:
                self.fault(f"we answer {answer.number}, GEOS refuses it by {name}: {words}", data)
                return
            self.differences[name].meet(data, answer.number, words)

    def written_by_geos(self, shape):
        """GEOS holds the shape, is walked, and writes it in either order: we read what was walked, to level 16."""
        geometry = self.geos.geometry(shape)
        walked = list(self.geos.events(geometry))
        expected = TOO_DEEP if shapes.levels(shape) > Reading.deepest else DONE
        for writer in self.geos.writers:
            data = self.geos.written(geometry, writer)
            answer = self.beside(data)
            is_whole = answer.count == len(walked) or expected == TOO_DEEP
            if answer.number != expected or not is_whole or answer.log != records(walked[:answer.count], answer.feature):
                self.fault(f"number, count {answer[:2]}, of GEOS's geometry {expected, len(walked)}", data)
            self.of_geos += 1
        self.geos.drop(geometry)

    def in_dialect(self, data):
        """Refused with 19, and so is what GEOS writes with z and SRID after reading it."""
        self.is_dialect(data)
        geometry = self.geos.read(data)
        if geometry:
            for writer in self.geos.dialect_writers:
                written = self.geos.written(geometry, writer)
                if written != self.geos.written(geometry, self.geos.writers[written[0]]):
                    self.is_dialect(written)
            self.geos.drop(geometry)

    def is_dialect(self, data):
        number = self.beside(data).number
        if number != BAD_MARK_OR_TYPE:
            self.fault(f"a dialect, and we answer {number}", data)

    # ---- what is read

    def odd(self):
        """Levels, order marks, types, bytes left over, loose shapes."""
        for shape in inputs.DEEP_ONES + inputs.EMPTY_ONES + inputs.ODD_ONES + inputs.LOOSE_ONES + [inputs.FOREST]:
            for marks in inputs.MARKS:
                self.beside(shapes.wkb(shape, marks))
        for data in (*inputs.with_marks(), *inputs.with_types()):
            self.beside(data)
        for data in inputs.written_samples(*inputs.MARKS):
            for longer in inputs.with_bytes_left(data):
                self.beside(longer)

    def dialects(self):
        for data in inputs.in_dialects():
            self.in_dialect(data)

    def cuts(self):
        for data in inputs.written_samples(*inputs.MARKS):
            for shorter in inputs.cut(data):
                self.beside(shorter)

    def damages(self):
        for data in inputs.written_samples(shapes.BIG_FIRST, shapes.LITTLE_FIRST):
            for changed in inputs.damaged(data):
                self.beside(changed)

    def logs(self):
        """Of every length, from none to one record and a byte more than the whole answer takes."""
        for data in (*inputs.refused_samples(), *inputs.written_samples(shapes.BIG_FIRST)):
            count = self.compare(data).count
            for length in range(64 * count + 66):
                self.compare(data, length)

    def large(self):
        """Large shapes, and a log that is lent with more records than are usable."""
        for shape in inputs.LARGE_ONES:
            self.beside(shapes.wkb(shape, shapes.BIG_FIRST))
        for data in inputs.filling_lines():
            self.compare(data, 64 * (Reading.usable + 1) + 5)

    def geos_wrote(self):
        fixed = inputs.OF_EACH_TYPE + inputs.EMPTY_ONES + inputs.ODD_ONES + inputs.DEEP_ONES + inputs.LARGE_ONES + [inputs.FOREST]
        maker = shapes.Maker(self.random, True)
        for shape in fixed + [maker.any_shape() for _ in range(4000)]:
            self.written_by_geos(shape)

    def random_until(self, end):
        """Shapes with an order for each geometry, then with changes, and with others in a log of any length."""
        maker = shapes.Maker(self.random, False)
        while time.monotonic() < end:
            data = shapes.wkb(maker.any_shape(), self.random.choices((0, 1), k=99))
            self.beside(data)
            self.beside(inputs.at_random(self.random, data))
            changed = inputs.at_random(self.random, data)
            count = self.beside(changed).count
            self.compare(changed, self.random.randrange(64 * count + 130))

    # ---- what came of it

    def missing(self):
        """What the run is for and did not meet."""
        yield from (f"no answer was {number}" for number in NUMBERS if not self.numbers[number])
        yield from (f"no {name} was read whole in order {order}" for kind, name in NAMES.items() for order in (0, 1)
                    if not self.whole[bytes([order]), bytes([kind])])
        yield from (f"GEOS was not seen to part from us: {name}" for name, difference in self.differences.items() if not difference.count)
        yield from (f"a wrong model went unnoticed: {slip.__name__}" for slip in self.unnoticed)

    def report(self):
        """Whether all is well."""
        print(f"{sum(self.numbers.values()):,} answers beside the model: number, count, every byte of the log and behind it")
        for number, count in sorted(self.numbers.items()):
            print(f"    {number:3} {count:10,}")
        print(f"{self.beside_geos:,} of these inputs given to GEOS too, {self.of_geos:,} of them of its own writing")
        print("GEOS parted from us, with the shortest input:")
        for name, difference in self.differences.items():
            print(f"    {difference.count:8,}  {name}; we answer {difference.number}{': ' * bool(difference.words)}{difference.words}")
            print(f"              {difference.data.hex() if difference.data else 'none'}")
        print(f"{len(SLIPS) - len(self.unnoticed)} of {len(SLIPS)} wrong models noticed")
        return self.is_well()


def main():
    options = argparse.ArgumentParser()
    options.add_argument("library")
    options.add_argument("--seed", type=int, default=int(time.time()))
    options.add_argument("--minutes", type=float, default=4)
    asked = options.parse_args()
    library, geos, chance = Library(asked.library), Geos(), random.Random(asked.seed)
    print(f"seed {asked.seed}, GEOS {geos.version}")
    is_well = True
    for name, kind in (("reading", Run), ("writing", WritingRun)):
        print(f"---- {name}")
        started, run = time.monotonic(), kind(library, geos, chance)
        for part in run.parts:
            before = sum(run.numbers.values())
            part()
            print(f"{sum(run.numbers.values()) - before:10,} {part.__name__}, {time.monotonic() - started:.0f} s", flush=True)
        run.random_until(started + 30 * asked.minutes)
        is_well = run.report() and is_well
    return int(not is_well)


if __name__ == "__main__":
    sys.exit(main())
