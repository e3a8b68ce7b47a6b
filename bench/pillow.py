"""Times Pillow's FLI decoder on the reels: seek and load of each frame after the first, the fastest of many rounds."""

import io
import pathlib
import sys
import time

import PIL
from PIL import Image

REEL_SECONDS = 3.0
LEAST_ROUNDS = 10
PALETTE = 768


def compare(name, image, states):
    """Pillow keeps frame 1's palette throughout, so that the later ones' can't be compared."""
    pixels = image.width * image.height
    for i in range(image.n_frames):
        image.seek(i)
        image.load()
        shown = states[i * (pixels + PALETTE) :][: pixels + PALETTE]
        if image.tobytes() != shown[:pixels]:
            sys.exit(f"bench: Pillow shows another picture than ours in frame {i + 1} of {name}")
        if i == 0 and bytes(image.getpalette()) != shown[pixels:]:
            sys.exit(f"bench: Pillow shows another palette than ours in frame 1 of {name}")


def time_round(image):
    """Seconds a frame."""
    image.seek(0)
    image.load()
    start = time.process_time()
    for i in range(1, image.n_frames):
        image.seek(i)
        image.load()
    return (time.process_time() - start) / (image.n_frames - 1)


def time_reel(file):
    image = Image.open(io.BytesIO(file.read_bytes()))
    compare(file.name, image, file.with_suffix(".states").read_bytes())
    begin, rounds = time.process_time(), []
    while len(rounds) < LEAST_ROUNDS or time.process_time() - begin < REEL_SECONDS:
        rounds.append(time_round(image))
    print(f"{file.name:<12} {1e6 * min(rounds):8.2f} {len(rounds):8}", flush=True)


if __name__ == "__main__":
    print(f"Decoding, microseconds a frame, by Pillow {PIL.__version__}; it keeps frame 1's palette.")
    print(f"{'reel':<12} {'Pillow':>8} {'rounds':>8}")
    for name in sys.argv[1:]:
        time_reel(pathlib.Path(name))
