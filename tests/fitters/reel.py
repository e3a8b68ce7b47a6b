"""Takes reels apart into chunks and puts chunks together as reels."""
import struct

FILE_HEADER, FRAME_HEADER, CHUNK_HEADER = 128, 16, 6
FRAME, PREFIX = 0xF1FA, 0xF100
PALETTE_BYTES = 768
LAPS = 3

# The two formats, each by its magic: its flags, the bytes of its speed, and the ending of a file's name.
FLC, FLI = 0xAF12, 0xAF11
FLAGS, SPEED_BYTES, ENDINGS = {FLC: 3, FLI: 0}, {FLC: 4, FLI: 2}, {FLC: "flc", FLI: "fli"}


def word(data, at, size):
    return int.from_bytes(data[at:at + size], "little")


def chunk(kind, body):
    return struct.pack("<IH", CHUNK_HEADER + len(body), kind) + body


def frame(chunks, spare=b"", reserved=bytes(8)):
    inside = b"".join(chunks) + spare
    return struct.pack("<IHH", FRAME_HEADER + len(inside), FRAME, len(chunks)) + reserved + inside


class Reel:
    """A reel's header fields and its top-level chunks, up to the end of the bytes."""

    def __init__(self, data):
        self.data = data
        self.format, self.frames, self.width, self.height = (word(data, at, 2) for at in (4, 6, 8, 10))
        self.speed = word(data, 16, SPEED_BYTES[self.format])
        self.chunks = []
        at, end = FILE_HEADER, word(data, 0, 4)
        while at + CHUNK_HEADER <= end:
            size = word(data, at, 4)
            self.chunks.append(data[at:at + size])
            at += size

    def delay(self):
        """The milliseconds that a frame shows, and an FLI's jiffies of 1/70 second."""
        return (self.speed, None) if self.format == FLC else (1000 * self.speed // 70, self.speed)

    def frame_places(self):
        """Where the frame chunks stand among the top-level chunks; the ring is the last of them."""
        places = [i for i, c in enumerate(self.chunks) if kind(c) == FRAME]
        return places[:self.frames + 1]

    def unrolled(self):
        """A reel that needs no loop: the chunks up to the ring, then twice those behind frame 1 up to the ring."""
        places = self.frame_places()
        lap = self.chunks[places[0] + 1:places[-1] + 1]
        chunks = self.chunks[:places[-1] + 1] + lap + lap
        header = header_like(self.data, LAPS * self.frames + 1, sum(map(len, chunks)))
        return header + b"".join(chunks)


def kind(top_level_chunk):
    return word(top_level_chunk, 4, 2)


def file_name(name, data):
    return f"{name}.{ENDINGS[word(data, 4, 2)]}"


def header_like(data, frames, size_of_chunks):
    return struct.pack("<IHH", FILE_HEADER + size_of_chunks, word(data, 4, 2), frames) + data[8:FILE_HEADER]


def file(form, width, height, speed, frames, chunks, behind=b"", flags=None, unread=b""):
    """A reel of these top-level chunks, the ring among them; `behind` stands after the size, `unread` behind an FLI's
    speed."""
    size = FILE_HEADER + sum(map(len, chunks))
    flags = FLAGS[form] if flags is None else flags
    header = struct.pack("<IHHHHHH", size, form, frames, width, height, 8, flags)
    header += speed.to_bytes(SPEED_BYTES[form], "little")
    if form == FLC:
        offsets, at = [], FILE_HEADER
        for c in chunks:
            if kind(c) == FRAME:
                offsets.append(at)
            at += len(c)
        header = header.ljust(80, b"\0") + struct.pack("<II", *offsets[:2])
    return (header + unread).ljust(FILE_HEADER, b"\0") + b"".join(chunks) + behind
