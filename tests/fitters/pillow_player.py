"""Plays a file with Pillow, so many frames round and round: whether each was shown, its pixels, palette and delay."""
from PIL import Image


def play(path, how_many):
    with Image.open(path) as image:
        for step in range(how_many):
            image.seek(step % image.n_frames)
            try:
                image.load()
                shown = True
            except OSError:
                shown = False
            yield shown, image.tobytes(), bytes(image.getpalette()), image.info["duration"]
