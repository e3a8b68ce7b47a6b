"""What outside decoders have in common: they say which rules a frame met."""
from document import Document
from rules import RULES


class Shown:
    """What a decoder is expected to give: which frame of ours it answers, if any, and picture, palette and delay."""

    def __init__(self, decoder, number, shown=True):
        self.number, self.shown = number, shown
        self.picture, self.palette, self.delay = bytes(decoder.picture), bytes(decoder.palette), decoder.delay()
        self.touched = set(decoder.touched)
        decoder.touched.clear()


class Outside(Document):
    """Each has a method `delay`, which gives what it takes from the header of its reel, in its own unit."""

    def __init__(self, reel):
        super().__init__(reel)
        self.reel = reel

    def is_refused(self, kind):
        """None of them minds kinds 7 and 18 in an FLI."""
        return False

    def touch(self, rule):
        assert rule in RULES[self.name], rule
        self.touched.add(rule)
