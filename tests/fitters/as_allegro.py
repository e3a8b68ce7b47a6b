"""Reads and plays as Allegro does; every `touch` is a rule under its condition."""
from document import signed
from outside import Outside, Shown
from reel import CHUNK_HEADER, FLI, FRAME, FRAME_HEADER, PREFIX, kind, word

SKIPPED_AS_FRAME = (PREFIX, 0x00A1)
# What its timer counts in a second, in a millisecond and in a jiffy.
TIMER = 1193181
MILLISECOND, JIFFY = TIMER // 1000, TIMER // 70


class Allegro(Outside):
    name, levels = "allegro", 64

    def delay(self):
        """Counts of its timer."""
        speed = word(self.reel.data, 16, 2)
        if speed != self.reel.speed:
            self.touch("speed-2-bytes")
        if speed == 0:
            self.touch("speed-0")
        return speed * (JIFFY if self.format == FLI else MILLISECOND) or JIFFY

    @staticmethod
    def delay_of(milliseconds, jiffies):
        return MILLISECOND * milliseconds if jiffies is None else JIFFY * jiffies

    def level256(self, component):
        return component // 4

    def level64(self, component):
        return component

    def frame(self, data):
        left, at = len(data) - FRAME_HEADER, FRAME_HEADER
        count = word(data, 6, 2)
        for c in range(count):
            size = word(data, at, 4)
            if left < CHUNK_HEADER or not CHUNK_HEADER <= size <= left:
                break
            left -= size
            end = at + size + (left if c == count - 1 else 0)
            self.sub_chunk(word(data, at + 4, 2), data[at + CHUNK_HEADER:end])
            at = end
            if size % 2 == 1 and c < count - 1:
                self.touch("odd-chunk")
                at, left = at + 1, left - 1
        return True

    def brun(self, body):
        if not self.brun_by_counts(body):
            self.touch("brun-count")

    def brun_by_counts(self, body):
        """Takes as many packets as a row's first byte says, or fills the row if it is 0; gives whether all rows fit."""
        at, all_fit = 0, True
        for row in range(self.height):
            if at >= len(body):
                return False
            count, at, x = body[at], at + 1, row * self.width
            row_end, packets = x + self.width, 0
            while x < row_end if count == 0 else packets < count:
                if at >= len(body):
                    return False
                n, at = signed(body[at]), at + 1
                size = -n if n < 0 else min(n, 1)
                if x + abs(n) > len(self.picture):
                    return False
                pixels = body[at:at + size].ljust(size, b"\0") * max(n, 1)
                self.picture[x:x + len(pixels)] = pixels
                at, x, packets = at + size, x + len(pixels), packets + 1
            all_fit = all_fit and x == row_end
        return all_fit

    def play(self, reel, how_many):
        """So many steps of its own loop, which clears the picture, keeps the palette and leaves the ring out."""
        at, number, counted, lap, first_palette = 0, 0, 0, 0, None
        for step in range(how_many):
            if counted >= reel.frames:
                at, counted, lap = 0, 0, lap + 1
            if counted == 0:
                number = lap * reel.frames
                self.picture[:] = bytes(len(self.picture))
            while kind(reel.chunks[at]) in SKIPPED_AS_FRAME and counted < reel.frames:
                self.touch("prefix-frame")
                at, counted = at + 1, counted + 1
            if counted >= reel.frames:
                yield Shown(self, None)
                continue
            if kind(reel.chunks[at]) != FRAME:
                for _ in range(step, how_many):
                    self.touch("unknown-top")
                    yield Shown(self, None, False)
                return
            self.frame(reel.chunks[at])
            if number == lap * reel.frames:
                first_palette = first_palette or bytes(self.palette)
                if bytes(self.palette) != first_palette:
                    self.touch("loop-palette")
            yield Shown(self, number)
            at, number, counted = at + 1, number + 1, counted + 1
