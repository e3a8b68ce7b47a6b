"""Makes the seeded reels: what boards show in house form, built by the library, and reels of hand-made frames."""
import random
import struct
import subprocess

import pictures
import reel
from document import BLACK, COLOR, COLOR256, LC, NOT_IN_FLI, Document, played
from handmade import Maker
from reel import FLC, FLI, Reel, chunk, frame

# The formats' numbers at the C boundary, and a speed for each: milliseconds, jiffies.
NUMBERS, SPEED = {FLC: 0, FLI: 1}, {FLC: 100, FLI: 6}
JIFFIES = (1, 2, 5, 6, 7, 70, 71, 333, 1999, 2000)
WIDE, ODD = (320, 200), [(1, 1), (3, 2), (5, 9), (17, 4), (63, 11), (79, 25), (151, 40), (255, 3), (257, 6), (319, 30)]
EVEN = [(2, 1), (4, 2), (6, 5), (16, 16), (30, 20), (64, 48), (130, 33), (160, 100), (256, 5), (318, 12)]


def house_reel(build, rng, kind, size, count, speed=None, form=FLC):
    width, height = size
    states = list(pictures.KINDS[kind](rng, width, height, count))
    head = struct.pack("<IIIII", NUMBERS[form], width, height, count, SPEED[form] if speed is None else speed)
    data = head + b"".join(picture + palette for picture, palette in states)
    built = subprocess.run([build], input=data, stdout=subprocess.PIPE, check=True).stdout
    if played(Reel(built), 1) != states + states[:1]:
        raise SystemExit(f"make: a reel of {kind} doesn't show what it was built from")
    return built


def house_reels(build):
    """Each kind of picture at even and odd sizes, on a whole board, as a single frame."""
    for place, kind in enumerate(pictures.KINDS):
        for i in range(5):
            for parity, sizes in (("even", EVEN), ("odd", ODD)):
                name = f"{kind}-{i}-{parity}"
                rng = random.Random(name)
                size = sizes[(3 * place + 2 * i) % len(sizes)]
                yield name, house_reel(build, rng, kind, size, rng.randrange(3, 9))
        yield f"{kind}-board", house_reel(build, random.Random(kind), kind, WIDE, 4)
        yield f"{kind}-single", house_reel(build, random.Random(f"{kind} 1"), kind, (33, 7), 1)
    yield "text-slow", house_reel(build, random.Random("slow"), "text", (48, 20), 3, speed=5000)
    yield "text-slowest", house_reel(build, random.Random("slow"), "text", (48, 20), 3, speed=70000)
    yield "text-speed-0", house_reel(build, random.Random("slow"), "text", (48, 20), 3, speed=0)
    yield "text-long", house_reel(build, random.Random("long"), "text", (40, 24), 60)


def house_flis(build):
    """Each kind of picture on boards, the first of which is an FLC too, and as a single frame; delays of all sizes."""
    for kind in pictures.KINDS:
        yield f"fli-{kind}-board", house_reel(build, random.Random(kind), kind, WIDE, 4, form=FLI)
        for i in range(3):
            rng = random.Random(f"fli {kind} {i}")
            yield f"fli-{kind}-{i}", house_reel(build, rng, kind, WIDE, rng.randrange(3, 7), rng.choice(JIFFIES), FLI)
        yield f"fli-{kind}-single", house_reel(build, random.Random(f"fli {kind}"), kind, WIDE, 1, form=FLI)
    for name, jiffies in (("speed-0", 0), ("slow", 2001), ("slowest", 65535)):
        yield f"fli-text-{name}", house_reel(build, random.Random("slow"), "text", WIDE, 3, jiffies, FLI)


def closed(maker, frames, before=(), between=(), after=(), **header):
    """A reel of these frames with a ring that shows frame 1's picture and palette."""
    first = Document(maker)
    first.frame(frames[0])
    ring = frame(maker.whole(bytes(first.picture), bytes(first.palette)))
    chunks = [*before, frames[0], *between, *frames[1:], ring, *after]
    return reel.file(maker.format, maker.width, maker.height, SPEED[maker.format], len(frames), chunks, **header)


def even(c):
    """The chunk with a spare byte behind its data where its size is odd."""
    return chunk(reel.word(c, 4, 2), c[6:] + b"\0") if len(c) % 2 else c


def colours_frame(m):
    return frame([even(m.colour(m.rng.choice([COLOR256, COLOR]))), m.delta()])


def levels_frame(m):
    return frame([even(m.colour(COLOR))])


def dark_levels_frame(m):
    low = bytes(m.rng.randrange(16) for _ in range(30))
    return frame([chunk(COLOR, b"\1\0\5\12" + low), m.brun(True)])


def brun_frame(m):
    return frame([m.brun(m.rng.randrange(2) == 0)])


def copy_frame(m):
    return frame([m.copy(m.rng.choice([b"", b"", b"\0"]))])


def ss2_frame(m):
    return frame([m.ss2()])


def lc_frame(m):
    return frame([even(m.colour(COLOR256, 8)), m.lc()])


def lc_below_frame(m):
    below = chunk(LC, m.height.to_bytes(2, "little") + b"\0\0")
    return frame([m.delta(), below, chunk(COLOR256, b"\1\0\7\1\1\2\3")] if m.rng.randrange(2) else [m.brun(True)])


def stamp_frame(m):
    return frame([m.stamp(), m.brun(True)])


def unknown_frame(m):
    return frame([m.brun(True), m.unknown(), m.delta()] if m.rng.randrange(2) else [m.delta()])


def spare_frame(m):
    return frame([m.delta()], spare=m.rng.randbytes(m.rng.randrange(12)), reserved=m.rng.randbytes(8))


def black_frame(m):
    return frame([m.black()] if m.rng.randrange(2) else [m.black(), m.delta()])


def odd_frame(m):
    odd = chunk(COLOR256, b"\1\0\11\1\1\2\3")
    return frame([odd, m.delta()] if m.rng.randrange(2) else [m.brun(True)])


def mixed_frame(m):
    makers = [lambda: m.colour(COLOR256), m.delta, m.delta, m.stepped_over, lambda: m.brun(True)]
    return frame([even(m.rng.choice(makers)()) for _ in range(m.rng.randrange(5))])


def lc_padded_frame(m):
    return frame([even(m.lc()), even(m.lc())])


def lc_odd_frame(m):
    return frame([m.lc(), m.delta()])


def still_frame(m):
    return frame([] if m.rng.randrange(2) else [even(m.lc())])


def padded(c, rng):
    """The chunk with a spare byte of any value behind its data."""
    return chunk(reel.word(c, 4, 2), c[6:] + rng.randbytes(1))


def padded_frame(m):
    makers = [lambda: m.colour(COLOR256), lambda: m.colour(COLOR), m.delta, m.lc, m.black, m.copy,
              lambda: m.brun(True)]
    return frame([padded(m.rng.choice(makers)(), m.rng)])


def evened_frame(m):
    makers = [lambda: m.colour(COLOR256), lambda: m.colour(COLOR), m.lc, m.lc, lambda: m.brun(True)]
    return frame([even(m.rng.choice(makers)()) for _ in range(m.rng.randrange(1, 4))])


FRAMES = {f.__name__.removesuffix("_frame"): f for f in (
    colours_frame, levels_frame, dark_levels_frame, brun_frame, copy_frame, ss2_frame, lc_frame, lc_below_frame,
    stamp_frame, unknown_frame, spare_frame, black_frame, odd_frame, mixed_frame, lc_padded_frame, lc_odd_frame,
    still_frame, padded_frame, evened_frame)}
FLC_ONLY = ("ss2", "stamp")


def first_frame(m):
    return frame([m.all_colours(), *m.any_picture()])


def levels_first_frame(m):
    """All colours by kind 11, every level among them, entry 255 white."""
    levels = bytes(i % 64 for i in range(765)) + bytes([63] * 3)
    return frame([chunk(COLOR, b"\1\0\0\0" + levels), *m.any_picture()])


def handmade_reels():
    """Each kind of hand-made frame at even and odd sizes."""
    for place, (kind, make) in enumerate(FRAMES.items()):
        for i in range(4):
            rng = random.Random(f"{kind} {i}")
            sizes = (EVEN, ODD)[i % 2][1:8]
            m = Maker(rng, FLC, *sizes[(place + 3 * i) % len(sizes)])
            yield f"{kind}-{i}", closed(m, [first_frame(m)] + [make(m) for _ in range(rng.randrange(2, 9))])
    row = Maker(random.Random("a row"), FLC, 7, 1)
    yield "copy-padded", closed(row, [first_frame(row)] + [frame([row.copy(b"\0")]) for _ in range(3)])
    yield "white", white_reel(Maker(random.Random("white"), FLC, 40, 24))
    yield "animator", animator_reel(FLC, 70)
    yield from top_level_reels("", Maker(random.Random("top level"), FLC, 24, 10))


def handmade_flis():
    """Each kind of hand-made frame that an FLI may have, and a header with anything behind the speed."""
    for kind, make in FRAMES.items():
        for i in range(0 if kind in FLC_ONLY else 2):
            rng = random.Random(f"{kind} {i}, FLI")
            m = Maker(rng, FLI, *WIDE)
            yield f"fli-{kind}-{i}", closed(m, [first_frame(m)] + [make(m) for _ in range(rng.randrange(2, 5))])
    yield "fli-white", white_reel(Maker(random.Random("fli white"), FLI, *WIDE))
    yield "fli-animator", animator_reel(FLI, 5)
    m = Maker(random.Random("fli top level"), FLI, *WIDE)
    yield from top_level_reels("fli-", m)
    unread = b"\3\0\0\0" + m.rng.randbytes(106)
    yield "fli-unread", closed(m, [first_frame(m), lc_frame(m)], unread=unread)


def white_reel(m):
    return closed(m, [levels_first_frame(m)] + [frame([m.delta()]) for _ in range(4)])


def animator_reel(form, speed):
    """A whole board as the original Animator stored it: 64 levels, then kind 12, ring included, and one still frame."""
    rng = random.Random("animator")
    m, boards = Maker(rng, form, *WIDE), list(pictures.text(rng, *WIDE, 5))
    boards.insert(2, boards[1])
    shown = [picture for picture, _ in boards + boards[:1]]
    levels = bytes(c // 4 for c in boards[0][1])
    first = frame([chunk(COLOR, b"\1\0\0\0" + levels), even(m.brun(True, shown[0]))])
    deltas = [frame([even(m.animator_delta(before, after))] if before != after else [])
              for before, after in zip(shown, shown[1:])]
    return reel.file(form, *WIDE, speed, len(boards), [first, *deltas])


def top_level_reels(begin, m):
    """Reels with chunks beside the frames: in front, between, after the ring, behind the size. Their names begin so."""
    frames = [first_frame(m)] + [mixed_frame(m) for _ in range(4)]
    unknown = chunk(0x1234, m.rng.randbytes(30))
    yield f"{begin}prefix", closed(m, frames, before=[chunk(reel.PREFIX, m.rng.randbytes(40))])
    yield f"{begin}prefix-16", closed(m, frames, before=[chunk(reel.PREFIX, bytes(10))])
    yield f"{begin}top-unknown", closed(m, frames, between=[unknown])
    yield f"{begin}top-unknown-first", closed(m, frames, before=[unknown])
    yield f"{begin}top-a1", closed(m, frames, between=[chunk(0x00A1, bytes(10))])
    deltas = frames[:1] + [spare_frame(m) for _ in range(4)]
    yield f"{begin}top-f5fa", closed(m, deltas, between=[black_chunk_of(0xF5FA)])
    yield f"{begin}after-ring", closed(m, frames, after=[mixed_frame(m), unknown])
    yield f"{begin}behind-size", closed(m, frames, behind=m.rng.randbytes(11))


def black_chunk_of(kind):
    return struct.pack("<IHH", 22, kind, 1) + bytes(8) + chunk(BLACK, b"")


def all_reels(build, stored):
    """Names of all reels, whether the library built them, and bytes; `stored`, if given, says which of them stand in a
    folder instead."""
    for built, reels in ((True, house_reels(build)), (False, handmade_reels()),
                         (True, house_flis(build)), (False, handmade_flis())):
        for name, data in reels:
            yield name, built, (stored and stored(name)) or data


def refused_reels():
    """Reels that we refuse and others play: names, bytes, and the number and place of our refusal."""
    m = Maker(random.Random("refused"), FLI, *WIDE)
    still = [first_frame(m), frame([])]
    ss2 = next(c for c in iter(lambda: m.ss2(False), None) if len(c) > 1000)
    for name, chunks in (("refused-ss2", [ss2]), ("refused-late", [even(m.lc()), m.black(), ss2]),
                         ("refused-stamp", [m.stamp(), m.lc()])):
        data = closed(m, [*still, frame(chunks), frame([m.lc()])])
        yield name, data, (20, data.index(next(c for c in chunks if reel.word(c, 4, 2) in NOT_IN_FLI)))
    spare = chunk(LC, m.lc()[reel.CHUNK_HEADER:] + bytes(2))
    data = closed(m, [*still, frame([spare])])
    yield "refused-spare", data, (19, data.index(spare))
    yield "refused-flags", closed(m, [*still, frame([m.lc()])], flags=reel.FLAGS[FLC]), (14, 0)
    small = Maker(random.Random("small"), FLI, 160, 100)
    yield "refused-size", closed(small, [first_frame(small), frame([small.lc()])]), (2, 0)
