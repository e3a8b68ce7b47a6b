"""Has reels played by the programs and by Pillow, and says with each play what that decoder is expected to show."""
import os
import re
import subprocess
from fractions import Fraction

import pillow_player
from as_allegro import Allegro
from as_ffmpeg import MOST_SPEED, FFmpeg, speed_of
from as_pillow import Pillow
from reel import LAPS, PALETTE_BYTES


class Players:
    """Where the programs are, and the folder where they leave their frames."""

    def __init__(self, programs, folder):
        self.programs, self.folder = programs, folder

    def program(self, name):
        return os.path.join(self.programs, name)

    def put(self, name, data):
        path = os.path.join(self.folder, name)
        with open(path, "wb") as out:
            out.write(data)
        return path

    def run(self, name, path, *words):
        out = os.path.join(self.folder, "frames")
        done = subprocess.run([self.program(name), path, *map(str, words), out], stdout=subprocess.PIPE, check=True)
        with open(out, "rb") as frames:
            return done.stdout.decode(), frames.read()


def split(data, reel, delay):
    """Frames as (whether shown, pixels, palette, delay)."""
    pixels = reel.width * reel.height
    size = 1 + pixels + PALETTE_BYTES
    assert len(data) % size == 0
    return [(data[at] == 1, data[at + 1:at + 1 + pixels], data[at + 1 + pixels:at + size], delay)
            for at in range(0, len(data), size)]


def by_us(players, reel, path):
    """Frames as (pixels, palette, delay), the delay as milliseconds and an FLI's jiffies."""
    said, data = players.run("ours", path)
    milliseconds, *jiffies = map(int, said.split())
    return [frame[1:] for frame in split(data, reel, (milliseconds, *(jiffies or [None])))]


def refused_by_us(players, path):
    """The number and the place of our refusal, none if we play it."""
    words = [players.program("ours"), path, os.devnull]
    said = subprocess.run(words, stdout=subprocess.PIPE, stderr=subprocess.PIPE, check=False).stderr.decode()
    found = re.search(r": refused (\d+) at (\d+)$", said.strip())
    return found and tuple(map(int, found.groups()))


def steps(reel, own_loop):
    return LAPS * reel.frames if own_loop else reel.frames


def by_ffmpeg(players, reel, path, own_loop):
    said, data = players.run("ffmpeg", path)
    recognised, row_bytes, seconds, parts = map(int, said.split())
    if recognised != (speed_of(reel) <= MOST_SPEED):
        raise ValueError(f"FFmpeg {'recognised' if recognised else 'did not recognise'} {path}")
    return list(FFmpeg(reel, row_bytes).play(reel, own_loop)), split(data, reel, Fraction(seconds, parts))


def by_allegro(players, reel, path, own_loop):
    how_many = steps(reel, own_loop)
    said, data = players.run("allegro", path, how_many)
    return list(Allegro(reel).play(reel, how_many)), split(data, reel, int(said))


def by_pillow(players, reel, path, own_loop):
    how_many = steps(reel, own_loop)
    return list(Pillow(reel).play(reel, how_many)), list(pillow_player.play(path, how_many))


DECODERS = {"ffmpeg": by_ffmpeg, "allegro": by_allegro, "pillow": by_pillow}
MODELS = {model.name: model for model in (FFmpeg, Allegro, Pillow)}
