"""Reads and plays as Pillow does; every `touch` is a rule under its condition."""
from document import BLACK, BRUN, COLOR, COLOR256, COPY, LC, PSTAMP, SS2
from outside import Outside, Shown
from reel import CHUNK_HEADER, FILE_HEADER, FLI, FRAME, FRAME_HEADER, PALETTE_BYTES, PREFIX, kind, word

KNOWN = (COLOR256, SS2, COLOR, LC, BLACK, BRUN, COPY, PSTAMP)


class Pillow(Outside):
    name, levels = "pillow", 256

    def __init__(self, reel):
        super().__init__(reel)
        self.true_palette = bytearray(PALETTE_BYTES)
        self.first_palette = bytearray(i // 3 for i in range(PALETTE_BYTES))
        self.find_palette(reel.data)

    def find_palette(self, data):
        at = FILE_HEADER
        if kind(data[at:]) == PREFIX:
            at += FRAME_HEADER
        if kind(data[at:]) != FRAME:
            return
        count, at = word(data, at + 6, 2), at + FRAME_HEADER
        for _ in range(count):
            size, which = word(data, at, 4), word(data, at + 4, 2)
            if which in (COLOR256, COLOR):
                self.palette = self.first_palette
                self.sub_chunk(which, data[at + CHUNK_HEADER:at + size])
                return
            at += size

    def delay(self):
        """Milliseconds."""
        speed = word(self.reel.data, 16, 4)
        if speed != self.reel.speed:
            self.touch("speed-4-bytes")
        return speed * 1000 // 70 if self.format == FLI else speed

    @staticmethod
    def delay_of(milliseconds, _jiffies):
        return milliseconds

    def level64(self, component):
        if component > 15:
            self.touch("levels-64")
        return 4 * component

    def frame(self, data):
        self.palette = self.true_palette
        shown = self.sub_chunks(data)
        if self.palette != self.first_palette:
            self.touch("first-palette")
        self.palette = self.first_palette
        return shown

    def sub_chunks(self, data):
        at, left, refused = FRAME_HEADER, len(data) - FRAME_HEADER, False
        for _ in range(word(data, 6, 2)):
            size, which = word(data, at, 4), word(data, at + 4, 2)
            if not refused and left < 10:
                self.touch("ten-bytes")
                refused = True
            if not refused and which not in KNOWN:
                self.touch("unknown-kind")
                refused = True
            if not refused or which in (COLOR256, COLOR):
                self.sub_chunk(which, data[at + CHUNK_HEADER:at + size])
            at, left = at + size, left - size
        return not refused

    def play(self, reel, how_many):
        """Seeks round and round; every top-level chunk counts as a frame, and frame 1 is drawn on what shows."""
        number, lap, first_picture = 0, 0, None
        for step in range(how_many):
            place = step % reel.frames
            if place == 0:
                number, lap = lap * reel.frames, lap + 1
            if kind(reel.chunks[place]) != FRAME:
                self.touch("top-level-frame")
                self.palette = self.first_palette
                yield Shown(self, None, False)
                continue
            drawn = lap > 1 and reel.frames == 1
            shown = drawn or self.frame(reel.chunks[place])
            if number == (lap - 1) * reel.frames:
                first_picture = first_picture or bytes(self.picture)
                if bytes(self.picture) != first_picture:
                    self.touch("no-ring")
            yield Shown(self, number, shown)
            number += 1
