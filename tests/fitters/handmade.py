"""Frames that the papers allow and house form never writes: every kind, with all the freedoms that a reader grants."""
import reel
from document import BLACK, BRUN, COLOR, COLOR256, COPY, LC, PSTAMP, SS2
from reel import FLC, FLI

UNKNOWN = (0, 1, 5, 14, 17, 19, 25, 0x0107, 0x800F)
# An FLI's 200 rows would make large files.
MOST_LC_ROWS = {FLC: 200, FLI: 24}


class Maker:
    def __init__(self, rng, form, width, height):
        self.rng, self.format, self.width, self.height = rng, form, width, height

    def colour(self, kind, at_most=256):
        rng, index, packets = self.rng, 0, []
        while index < 256 and len(packets) < rng.choice([0, 1, 2, 5]):
            skip = min(rng.choice([0, 1, rng.randrange(256)]), 255 - index)
            count = rng.randrange(1, min(at_most, 256 - index - skip) + 1)
            levels = bytes(rng.randrange(64 if kind == COLOR else 256) for _ in range(3 * count))
            packets.append(bytes([skip, count % 256]) + levels)
            index += skip + count
        return reel.chunk(kind, len(packets).to_bytes(2, "little") + b"".join(packets))

    def all_colours(self):
        return reel.chunk(COLOR256, b"\1\0\0\0" + self.rng.randbytes(reel.PALETTE_BYTES))

    def brun(self, true_counts, picture=None):
        rng, body = self.rng, b""
        for y in range(self.height):
            packets, x = [], 0
            while x < self.width:
                n = min(rng.choice([1, 2, 127, 128, rng.randrange(1, 30)]), self.width - x)
                row = picture and picture[y * self.width + x:y * self.width + x + n]
                if picture is None and n < 128 and rng.randrange(2):
                    packets.append(bytes([n, rng.randrange(256)]))
                else:
                    packets.append(bytes([256 - n]) + (row or rng.randbytes(n)))
                x += n
            count = len(packets) if true_counts and len(packets) < 256 else 0 if true_counts else rng.randrange(256)
            body += bytes([count]) + b"".join(packets)
        return reel.chunk(BRUN, body)

    def delta_packets(self, unit):
        """Packets from column 0 on, and how many they are."""
        rng, data, x = self.rng, b"", 0
        count = rng.choice([0, 1, 1, 2, 3])
        for _ in range(count):
            skip = min(rng.choice([0, 0, 1, rng.randrange(256)]), max(0, self.width - x), 255)
            room = min((self.width - x - skip) // unit, 128)
            n = rng.randrange(room + 1) if room > 0 else 0
            if n > 0 and rng.randrange(2):
                data += bytes([skip, 256 - n]) + rng.randbytes(unit)
            else:
                n = min(n, 127)
                data += bytes([skip, n]) + rng.randbytes(unit * n)
            x += skip + unit * n
        return data, count

    def ss2(self, last_pixels=True):
        rng, lines, row, body = self.rng, 0, 0, b""
        while row < self.height and lines < rng.choice([1, 3, self.height]):
            while row + 1 < self.height and rng.randrange(3) == 0:
                skip = rng.randrange(1, min(self.height - row, 16384))
                body, row = body + (65536 - skip).to_bytes(2, "little"), row + skip
            if last_pixels and rng.randrange(2):
                body += (0x8000 | rng.randrange(0x4000)).to_bytes(2, "little")
            packets, count = self.delta_packets(2)
            body, row, lines = body + count.to_bytes(2, "little") + packets, row + 1, lines + 1
        return reel.chunk(SS2, lines.to_bytes(2, "little") + body)

    def lc(self):
        rng = self.rng
        first = rng.randrange(self.height)
        rows = rng.randrange(min(self.height - first, MOST_LC_ROWS[self.format]) + 1)
        body = first.to_bytes(2, "little") + rows.to_bytes(2, "little")
        for _ in range(rows):
            packets, count = self.delta_packets(1)
            body += bytes([count]) + packets
        return reel.chunk(LC, body)

    def delta(self):
        """What the format stores changes in, without last-pixel words."""
        return self.lc() if self.format == FLI else self.ss2(False)

    def animator_delta(self, before, after):
        """Kind 12 as the original Animator wrote it: from the first changed row to the last, gaps by skips alone."""
        rows = [animator_row(before[at:at + self.width], after[at:at + self.width])
                for at in range(0, len(before), self.width)]
        changed = [y for y, row in enumerate(rows) if row != b"\0"]
        first, last = (changed[0], changed[-1]) if changed else (0, -1)
        head = first.to_bytes(2, "little") + (last + 1 - first).to_bytes(2, "little")
        return reel.chunk(LC, head + b"".join(rows[first:last + 1]))

    def stamp(self):
        inner = reel.chunk(COPY, self.rng.randbytes(8))
        return reel.chunk(PSTAMP, b"\2\0\4\0\1\0" + inner)

    def stepped_over(self):
        return self.unknown() if self.format == FLI else self.stamp()

    def unknown(self):
        return reel.chunk(self.rng.choice(UNKNOWN), self.rng.randbytes(self.rng.choice([4, 6, 20])))

    def copy(self, spare=b""):
        return reel.chunk(COPY, self.rng.randbytes(self.width * self.height) + spare)

    def black(self):
        return reel.chunk(BLACK, b"")

    def any_picture(self):
        """The sub-chunks that show some picture whatever was there."""
        return [self.black(), self.lc()] if self.format == FLI else [self.brun(True)]

    def whole(self, picture, palette):
        """The sub-chunks that show this picture and palette whatever was there."""
        colours = reel.chunk(COLOR256, b"\1\0\0\0" + palette)
        if self.format == FLI:
            return [colours, self.black(), self.animator_delta(bytes(len(picture)), picture)]
        return [colours, self.brun(True, picture)]


def animator_row(before, after):
    """A row of kind 12: the packet count, then for each stretch of changed pixels its skip and its repeats and copies."""
    packets, x, at = [], 0, 0
    while at < len(after):
        if before[at] == after[at]:
            at += 1
            continue
        end, run = at, 1
        while end < len(after) and before[end] != after[end] and end - at < 127:
            end += 1
        while at + run < end and after[at + run] == after[at]:
            run += 1
        while at - x > 255:
            packets, x = packets + [b"\xff\0"], x + 255
        if run > 2:
            packets, end = packets + [bytes([at - x, 256 - run, after[at]])], at + run
        else:
            packets.append(bytes([at - x, end - at]) + after[at:end])
        x = at = end
    return bytes([len(packets)]) + b"".join(packets)
