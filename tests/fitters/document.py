"""Reads frames as the Animator Pro document and documents 01 and 02 say; each step can be taken otherwise by a decoder."""
from reel import CHUNK_HEADER, FLI, FRAME_HEADER, LAPS, PALETTE_BYTES, word

COLOR256, SS2, COLOR, LC, BLACK, BRUN, COPY, PSTAMP = 4, 7, 11, 12, 13, 15, 16, 18
NOT_IN_FLI = (SS2, PSTAMP)


class Unforeseen(Exception):
    """A decoder would leave the picture or the chunk: no reel of the test may ask for that."""


def signed(byte):
    return byte - 256 if byte > 127 else byte


class Document:
    def __init__(self, of):
        """A blank state of the format and size of a reel or a maker."""
        self.format, self.width, self.height = of.format, of.width, of.height
        self.picture, self.palette = bytearray(self.width * self.height), bytearray(PALETTE_BYTES)
        self.touched = set()

    def frame(self, data):
        """Changes picture and palette by one frame chunk; gives whether the decoder shows it."""
        at = FRAME_HEADER
        for _ in range(word(data, 6, 2)):
            size, kind = word(data, at, 4), word(data, at + 4, 2)
            self.sub_chunk(kind, data[at + CHUNK_HEADER:at + size])
            at += size
        return True

    def is_refused(self, kind):
        return self.format == FLI and kind in NOT_IN_FLI

    def sub_chunk(self, kind, body):
        """Gives where the data ends."""
        if self.is_refused(kind):
            raise Unforeseen(f"a sub-chunk of kind {kind} in an FLI, which we refuse")
        if kind in (COLOR256, COLOR):
            return self.colour(body, self.level64 if kind == COLOR else self.level256)
        if kind == BLACK:
            self.picture[:] = bytes(len(self.picture))
            return 0
        if kind in (SS2, LC, BRUN, COPY):
            return {SS2: self.ss2, LC: self.lc, BRUN: self.brun, COPY: self.copy}[kind](body)
        return len(body)

    def level256(self, component):
        return component

    def level64(self, component):
        return 4 * component + component // 16

    def colour(self, body, level):
        at, index = 2, 0
        for _ in range(word(body, 0, 2)):
            index += body[at]
            count = body[at + 1] or 256
            levels = bytes(level(c) for c in body[at + 2:at + 2 + 3 * count])
            self.palette[3 * index:3 * (index + count)] = levels
            at += 2 + 3 * count
            index += count
        return at

    def copy(self, body):
        self.picture[:] = body[:len(self.picture)]
        return len(self.picture)

    def put(self, row, x, pixels):
        if x + len(pixels) > self.width or row >= self.height:
            raise Unforeseen(f"{len(pixels)} pixels at column {x} of row {row}")
        at = row * self.width + x
        self.picture[at:at + len(pixels)] = pixels

    def brun(self, body):
        at = 0
        for row in range(self.height):
            at, x = at + 1, 0
            while x < self.width:
                n = signed(body[at])
                size = 1 if n > 0 else -n
                pixels = body[at + 1:at + 1 + size] * max(1, n)
                self.put(row, x, pixels)
                at, x = at + 1 + size, x + len(pixels)
        return at

    def packets(self, body, at, row, x, count, unit):
        """Packets of a delta's row; gives where they end."""
        for _ in range(count):
            if at + 2 > len(body):
                raise Unforeseen("a packet behind the chunk")
            x += body[at]
            n = signed(body[at + 1])
            size = unit * n if n > 0 else unit if n < 0 else 0
            pixels = body[at + 2:at + 2 + size]
            if len(pixels) < size:
                raise Unforeseen("pixels behind the chunk")
            pixels *= max(1, -n)
            self.put(row, x, pixels)
            at, x = at + 2 + size, x + len(pixels)
        return at

    def lc(self, body):
        row, at = word(body, 0, 2), 4
        for row in range(row, row + word(body, 2, 2)):
            if at >= len(body):
                raise Unforeseen("a row behind the chunk")
            at = self.packets(body, at + 1, row, 0, body[at], 1)
        return at

    def last_pixel(self, row, pixel):
        self.put(row, self.width - 1, bytes([pixel]))

    def ss2(self, body):
        lines, at, row = word(body, 0, 2), 2, 0
        while lines > 0:
            w, at = word(body, at, 2), at + 2
            if w >> 14 == 3:
                row += 65536 - w
            elif w >> 14 == 2:
                self.last_pixel(row, w & 255)
            else:
                at = self.packets(body, at, row, 0, w, 2)
                row, lines = row + 1, lines - 1
        return at


def played(reel, laps=LAPS):
    """Picture and palette after each frame from frame 1 to the ring, and after those of further laps."""
    places, reader, frames = reel.frame_places(), Document(reel), []
    for place in places + places[1:] * (laps - 1):
        reader.frame(reel.chunks[place])
        frames.append((bytes(reader.picture), bytes(reader.palette)))
    return frames
