"""Looks at an X screen, a file of Xvfb's, for the pictures of a reel: board_screen.py SCREEN SCALE SPEED|any PICTURE..

With a speed in milliseconds the pictures must come one after the other, the first again behind the last, each for as
long as the speed says; with 'any' each must come at some time."""

import struct
import sys
import time

PATIENCE = 60
# A change is seen late by as much as a look takes.
TOLERANCE = 0.4


def look(screen):
    """The rows of the screen, as red, green and blue bytes."""
    with open(screen, "rb") as file:
        data = file.read()
    # The format of xwd: numbers of 4 bytes, then the colours of a palette, 12 bytes each, then the rows.
    head = struct.unpack(">25I", data[:100])
    header, width, height, order, bits, line, colours = (head[i] for i in (0, 4, 5, 7, 11, 12, 19))
    if bits != 32 or order != 0:
        sys.exit(f"board_screen: a screen of {bits} bits a pixel in byte order {order} isn't looked at")
    start = header + 12 * colours
    rows = []
    for y in range(height):
        row = data[start + y * line : start + y * line + 4 * width]
        rgb = bytearray(3 * width)
        rgb[0::3], rgb[1::3], rgb[2::3] = row[2::4], row[1::4], row[0::4]
        rows.append(bytes(rgb))
    return rows


def scaled(picture, scale):
    """The rows of a PPM file (P6, as flic frames writes it), each pixel a square."""
    with open(picture, "rb") as file:
        magic, size, most, pixels = file.read().split(b"\n", 3)
    width, height = map(int, size.split())
    assert magic == b"P6" and most == b"255" and len(pixels) == 3 * width * height, picture
    rows = []
    for y in range(height):
        row = pixels[3 * width * y : 3 * width * (y + 1)]
        wide = b"".join(row[x : x + 3] * scale for x in range(0, len(row), 3))
        rows += [wide] * scale
    return rows


def is_on(rows, picture):
    """Whether the picture stands somewhere on the screen, every pixel of it."""
    for y in range(len(rows) - len(picture) + 1):
        at = rows[y].find(picture[0])
        while at >= 0:
            if at % 3 == 0 and all(rows[y + i][at : at + len(line)] == line for i, line in enumerate(picture)):
                return True
            at = rows[y].find(picture[0], at + 1)
    return False


def shown(screen, pictures):
    """The number of the picture on the screen; none while one is being drawn."""
    rows = look(screen)
    return next((i for i, picture in enumerate(pictures) if is_on(rows, picture)), None)


def wait_for(screen, picture, which):
    """The screen's rows as soon as the picture is there."""
    start = time.monotonic()
    while time.monotonic() - start < PATIENCE:
        rows = look(screen)
        if is_on(rows, picture):
            return rows
        time.sleep(0.01)
    sys.exit(f"board_screen: picture {which} didn't come in {PATIENCE} seconds")


def altered(picture, at):
    """The picture with one pixel in another colour."""
    row, column = at
    line = bytearray(picture[row])
    line[3 * column] ^= 1
    return picture[:row] + [bytes(line)] + picture[row + 1 :]


def self_check(rows, picture):
    """A picture that differs in one pixel isn't taken for this one."""
    high, wide = len(picture), len(picture[0]) // 3
    for at in [(0, 0), (0, wide - 1), (high - 1, 0), (high - 1, wide - 1), (high // 2, wide // 2)]:
        if is_on(rows, altered(picture, at)):
            sys.exit(f"board_screen: a picture with another pixel at {at} is taken for the one on the screen")


def in_order(screen, pictures, speed):
    """A lap, the ring and one frame more: when each picture came."""
    order = list(range(len(pictures))) + [0, 1]
    times, met = [], []
    start = time.monotonic()
    while len(met) < len(order):
        now, found = time.monotonic(), shown(screen, pictures)
        if found is not None and (not met or met[-1] != found):
            met.append(found)
            times.append(now)
            if met != order[: len(met)]:
                sys.exit(f"board_screen: pictures came in the order {[i + 1 for i in met]}")
        if now - start > PATIENCE:
            sys.exit(f"board_screen: only pictures {[i + 1 for i in met]} came in {PATIENCE} seconds")
    # The first picture was there before it was looked for.
    for k in range(2, len(times)):
        expected, found = (k - 1) * speed / 1000, times[k] - times[1]
        if abs(found - expected) > TOLERANCE:
            sys.exit(f"board_screen: change {k} came {found:.2f} s after the first, not {expected:.2f}")
    return times[-1] - times[1]


def main(screen, scale, speed, *names):
    pictures = [scaled(name, int(scale)) for name in names]
    self_check(wait_for(screen, pictures[0], 1), pictures[0])
    if speed == "any":
        for i, picture in enumerate(pictures):
            wait_for(screen, picture, i + 1)
        print(f"{len(pictures)} pictures came, every pixel right")
    else:
        took, count = in_order(screen, pictures, int(speed)), len(pictures)
        print(f"{count} pictures and the ring came in order, every pixel right, {count} changes in {took:.2f} s")


main(*sys.argv[1:])
