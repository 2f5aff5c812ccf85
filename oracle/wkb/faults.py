"""What differs in a run, and what it did not meet."""

MOST_SHOWN = 20
MOST_HEX = 400


class Faults:
    def __init__(self):
        self.faults = 0

    def fault(self, words, data):
        self.faults += 1
        if self.faults <= MOST_SHOWN:
            shown = data.hex()
            print(f"DIFFERS: {words}\n    {shown[:MOST_HEX]}{'..' if len(shown) > MOST_HEX else ''} ({len(data)} bytes)", flush=True)

    def missing(self):
        """What the run is for and did not meet."""
        raise NotImplementedError

    def is_well(self):
        missing = list(self.missing())
        for words in missing:
            print(f"MISSING: {words}")
        print(f"{self.faults} differ, {len(missing)} missing")
        return not self.faults and not missing


def where(given, expected):
    """The first byte of the memory that differs, as words."""
    ours, theirs = given[2], expected[2]
    if ours == theirs:
        return ""
    place = next(i for i, (one, other) in enumerate(zip(ours, theirs)) if one != other)
    return f", byte {place} is {ours[place]}, by the model {theirs[place]}"
