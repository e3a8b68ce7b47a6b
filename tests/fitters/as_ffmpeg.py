"""Reads and plays as FFmpeg does; every `touch` is a rule under its condition."""
from fractions import Fraction

from outside import Outside, Shown
from reel import FLI, FRAME, kind, word

F5FA = 0xF5FA
MOST_SPEED, SPEED_FOR_0 = 2000, 5


def speed_of(reel):
    """What it takes for the speed: four bytes in an FLI too."""
    return word(reel.data, 16, 4)


class NoFrame(Exception):
    """The decoder gives up the frame."""


class FFmpeg(Outside):
    name, levels = "ffmpeg", 256

    def __init__(self, reel, row_bytes):
        super().__init__(reel)
        self.row_bytes = row_bytes

    def delay(self):
        """Seconds, as a fraction."""
        speed = speed_of(self.reel)
        if speed != self.reel.speed:
            self.touch("speed-4-bytes")
        if speed == 0:
            self.touch("speed-0")
        return Fraction(speed or SPEED_FOR_0, 70 if self.format == FLI else 1000)

    @staticmethod
    def delay_of(milliseconds, jiffies):
        return Fraction(milliseconds, 1000) if jiffies is None else Fraction(jiffies, 70)

    def last_pixel(self, row, pixel):
        if self.row_bytes == self.width:
            super().last_pixel(row, pixel)
        else:
            self.touch("last-pixel")

    def copy(self, body):
        padded = (self.width + 3) // 4 * 4
        if padded == self.width and len(body) == len(self.picture):
            super().copy(body)
            return
        self.touch("copy-size")
        if len(body) == padded * self.height:
            for row in range(self.height):
                self.put(row, 0, body[row * padded:row * padded + self.width])

    def lc(self, body):
        if word(body, 0, 2) >= self.height:
            self.touch("lc-below")
            raise NoFrame
        super().lc(body)

    def frame(self, data):
        try:
            return super().frame(data)
        except NoFrame:
            return False

    def play(self, reel, own_loop):
        """Every frame chunk once, the ring and what follows it too."""
        number = 0
        for c in reel.chunks:
            if speed_of(reel) > MOST_SPEED:
                self.touch("speed-over-2000")
            if kind(c) == FRAME:
                shown = self.frame(c)
                past_frames = own_loop and number >= reel.frames
                if past_frames:
                    self.touch("no-loop")
                yield Shown(self, None if past_frames and number > reel.frames else number, shown)
                number += 1
            elif kind(c) == F5FA:
                self.touch("f5fa-frame")
                yield Shown(self, None, self.frame(c))
