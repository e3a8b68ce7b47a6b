"""The stored reels and the digests of the frames that outside decoders showed of them."""
import os

from reel import ENDINGS, file_name

HERE = os.path.dirname(os.path.abspath(__file__))
REELS, FILE = os.path.join(HERE, "reels"), os.path.join(HERE, "digests.txt")

STORED = (
    "text-1-even text-2-even text-2-odd text-slow text-single text-board fade-0-even fade-0-odd fade-4-odd fade-board "
    "scroll-2-even scroll-3-odd scroll-4-even scroll-4-odd noise-1-even noise-1-odd noise-2-odd "
    "blocks-1-even blocks-1-odd blocks-4-odd blocks-board "
    "edges-0-even edges-3-odd edges-4-even edges-4-odd edges-board "
    "colours-0 levels-2 white dark_levels-2 brun-2 copy-1 copy-padded ss2-1 lc-1 lc_below-0 stamp-0 unknown-2 spare-2 "
    "black-1 odd-1 mixed-1 lc_padded-1 lc_odd-1 still-3 padded-3 evened-0 animator prefix top-unknown top-a1 top-f5fa after-ring behind-size "
    "text-slowest fli-text-board fli-text-single fli-text-speed-0 fli-fade-1 fli-noise-2 fli-blocks-1 fli-edges-2 "
    "fli-colours-0 fli-levels-0 fli-white fli-lc-0 fli-lc_below-0 fli-unknown-0 fli-spare-0 fli-black-0 "
    "fli-lc_padded-1 fli-lc_odd-0 fli-still-0 fli-evened-0 fli-top-f5fa fli-unread"
).split()

HEAD = """\
# What outside decoders showed of the stored reels in three laps: reel, frame, then digest (FNV-1a, 64 bits) and
# decoders (f FFmpeg, a Allegro, p Pillow) of the picture, and the same of the palette. A palette that Allegro alone
# showed is at its 64 levels. Only frames that no deviation touched; - where no decoder showed that part.
"""


def fnv(data):
    digest = 0xCBF29CE484222325
    for byte in data:
        digest = (digest ^ byte) * 0x100000001B3 & 0xFFFFFFFFFFFFFFFF
    return f"{digest:016x}"


def stored_reel(name):
    for ending in ENDINGS.values():
        path = os.path.join(REELS, f"{name}.{ending}")
        if name in STORED and os.path.exists(path):
            with open(path, "rb") as reel:
                return reel.read()
    return None


def lines_of(name, ours, seen):
    for number, (picture, palette, _) in enumerate(ours):
        by = {part: "".join(d[0] for d in ("ffmpeg", "allegro", "pillow") if d in seen.get((number, part), ()))
              for part in ("picture", "palette")}
        if by["palette"] == "a":
            palette = bytes(c // 4 for c in palette)
        words = [word for part, data in (("picture", picture), ("palette", palette))
                 for word in ((fnv(data), by[part]) if by[part] else ("-", "-"))]
        if words != ["-"] * 4:
            yield " ".join([name, str(number + 1), *words])


def whole(lines):
    return HEAD + "\n".join(lines) + f"\nend {len(lines)}\n"


def store(reels, lines):
    os.makedirs(REELS, exist_ok=True)
    for old in os.listdir(REELS):
        os.remove(os.path.join(REELS, old))
    for name in STORED:
        with open(os.path.join(REELS, file_name(name, reels[name])), "wb") as out:
            out.write(reels[name])
    with open(FILE, "w") as out:
        out.write(whole(lines))


def unlike_stored(lines):
    with open(FILE) as stored:
        if stored.read() != whole(lines):
            yield "the digests are not those of digests.txt; see what changed, then run with --store"
