"""Texts that go bad at some place, for the lists of properties and of rows, and where they do."""

# Characters of one byte, two, three and four, and one of each.
WHOLE = [text.encode() for text in
         ("plough and seed", "äöüßéèç", "€‰…„₂", "\U0001f33e\U0001f69c\U0001f331\U0001f404", "aé€\U0001f33ez")]
# No character has it.
ODD = b"\xff"


def bad_place(text):
    """The place of the first byte that begins no well-formed character, by Python, or None."""
    try:
        text.decode()
    except UnicodeDecodeError as error:
        return error.start


def spoilt():
    """Texts with the odd byte at every place, and those that are cut within a character."""
    for whole in WHOLE:
        for at in range(len(whole)):
            yield whole[:at] + ODD + whole[at + 1:]
            if bad_place(whole[:at]) is not None:
                yield whole[:at]


def long(length, places):
    """Zeros, which are characters too and take little of a list, with the odd byte at each place, and with a cut character at the end."""
    for place in places:
        yield bytes(place) + ODD + bytes(length - place - 1)
    yield bytes(length - 2) + b"\xe2\x82"
