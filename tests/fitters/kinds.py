"""Counts the kinds of sub-chunks that the reels of each format hold, also with a spare byte; none may be missing."""
from collections import Counter

from document import NOT_IN_FLI, PSTAMP, Document, Unforeseen
from reel import CHUNK_HEADER, ENDINGS, FLC, FLI, FRAME, FRAME_HEADER, kind, word

READ = (4, 7, 11, 12, 13, 15, 16)
WANTED = {FLC: (*READ, PSTAMP), FLI: tuple(which for which in READ if which not in NOT_IN_FLI)}
# What house form is made of.
HOUSE = {FLC: {4, 7, 13, 15, 16}, FLI: {4, 12, 13, 15, 16}}


class Kinds:
    def __init__(self):
        self.met, self.padded, self.built = ({form: Counter() for form in WANTED} for _ in range(3))

    def count(self, reel, built):
        reader = Document(reel)
        for data in (c for c in reel.chunks if kind(c) == FRAME):
            at = FRAME_HEADER
            for _ in range(word(data, 6, 2)):
                size, which = word(data, at, 4), word(data, at + 4, 2)
                body = data[at + CHUNK_HEADER:at + size]
                self.met[reel.format][which] += 1
                self.built[reel.format][which] += built
                self.count_spare(reel.format, which, len(body) - reader.sub_chunk(which, body))
                at += size

    def count_spare(self, form, which, spare):
        if which in READ and spare > 1:
            raise Unforeseen(f"{spare} spare bytes behind the data of a sub-chunk of kind {which}, which we refuse")
        self.padded[form][which] += spare == 1

    def lines(self):
        for form, wanted in WANTED.items():
            others = sum(times for which, times in self.met[form].items() if which not in wanted)
            padded = ", ".join(f"kind {which}: {self.padded[form][which]}" for which in wanted if which in READ)
            kinds = ", ".join(f"kind {which}: {self.met[form][which]}" for which in wanted)
            yield f"sub-chunks of {ENDINGS[form]}: {kinds}, others: {others}; with a spare byte {padded}"

    def missing(self):
        for form, wanted in WANTED.items():
            for which in wanted:
                if not self.met[form][which]:
                    yield f"no sub-chunk of kind {which} in any {ENDINGS[form]}"
                elif which in READ and not self.padded[form][which]:
                    yield f"no sub-chunk of kind {which} with a spare byte in any {ENDINGS[form]}"
            built = {which for which, times in self.built[form].items() if times}
            if built != HOUSE[form]:
                yield f"an {ENDINGS[form]} in house form has kinds {sorted(built)}, not {sorted(HOUSE[form])}"
