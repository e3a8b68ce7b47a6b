"""Pictures and palettes as boards show them: text, fades, scrolling, noise, and what lies between."""
from reel import PALETTE_BYTES

GLYPHS = {
    "A": "757", "B": "657", "C": "747", "D": "656", "E": "767", "F": "764", "G": "757", "H": "575", "I": "727",
    "L": "447", "N": "655", "O": "757", "P": "764", "R": "765", "S": "631", "T": "722", "U": "557", "-": "070",
}
MENU = ["SOUP", "BREAD", "TEA", "RICE", "BEANS", "STEAL", "FINISHED", "NONE", "LUNCH-", "NIGHT", "GRUEL", "DRIED-FISH"]


class Canvas:
    def __init__(self, width, height, ground=0):
        self.width, self.height = width, height
        self.pixels = bytearray([ground]) * (width * height)

    def dot(self, x, y, ink):
        if 0 <= x < self.width and 0 <= y < self.height:
            self.pixels[y * self.width + x] = ink

    def text(self, x, y, words, ink, scale):
        for letter in words:
            for row, bits in enumerate(GLYPHS.get(letter, "000")):
                for column in range(3):
                    if int(bits) >> (2 - column) & 1:
                        for i in range(scale * scale):
                            self.dot(x + scale * column + i % scale, y + scale * row + i // scale, ink)
            x += 4 * scale


def board_palette(rng, colours):
    palette = bytearray(PALETTE_BYTES)
    palette[3:3 + 3 * colours] = rng.randbytes(3 * colours)
    return bytes(palette)


def menu_scale(width, height):
    return max(1, min(width // 40, height // 24))


def menu_board(width, height, ground, rows):
    canvas, scale = Canvas(width, height, ground), menu_scale(width, height)
    for row, (words, ink) in enumerate(rows):
        canvas.text(scale, scale * (1 + 5 * row), words, ink, scale)
    return bytes(canvas.pixels)


def text(rng, width, height, count):
    """A menu of which one row changes from frame to frame."""
    rows = [(rng.choice(MENU), rng.randrange(1, 7)) for _ in range(max(1, height // (5 * menu_scale(width, height))))]
    palette, ground = board_palette(rng, 8), rng.choice([0, 0, 7])
    for _ in range(count):
        yield menu_board(width, height, ground, rows), palette
        rows[rng.randrange(len(rows))] = (rng.choice(MENU), rng.randrange(1, 7))


def fade(rng, width, height, count):
    """A still picture whose palette goes down to black and comes back."""
    picture = menu_board(width, height, rng.choice([0, 7]), [(rng.choice(MENU), i + 1) for i in range(5)])
    full = board_palette(rng, rng.choice([6, 31, 255]))
    for i in range(count):
        part = abs(count - 1 - 2 * i)
        yield picture, bytes(c * part // max(1, count - 1) for c in full)


def scroll(rng, width, height, count):
    """A ticker that moves a few pixels each frame, across or down."""
    wide = Canvas(3 * width, 3 * height)
    for y in range(0, 3 * height, 5):
        wide.text(rng.randrange(4), y, "-".join(rng.choice(MENU) for _ in range(3 * width // 24 + 1)), y % 250 + 1, 1)
    dx, dy = rng.choice([(1, 0), (2, 0), (3, 0), (0, 1), (0, 2), (1, 1)])
    palette = board_palette(rng, 255)
    for i in range(count):
        x, y = i * dx % width, i * dy % height
        yield b"".join(bytes(wide.pixels[(y + r) * 3 * width + x:][:width]) for r in range(height)), palette


def noise(rng, width, height, count):
    """Few or all pixels and colours replaced by any others."""
    pixels, colours = bytearray(width * height), bytearray(PALETTE_BYTES)
    for _ in range(count):
        for data in (pixels, colours):
            for _ in range(rng.choice([0, 1, 2, 9, len(data) // 8])):
                data[rng.randrange(len(data))] = rng.randrange(256)
            if rng.randrange(3) == 0:
                data[:] = rng.randbytes(len(data))
        yield bytes(pixels), bytes(colours)


def blocks(rng, width, height, count):
    """Filled boxes, cleared now and then, with frames that change nothing."""
    canvas, colours = Canvas(width, height), bytearray(board_palette(rng, 255))
    for _ in range(count):
        choice = rng.randrange(6)
        if choice == 0:
            canvas.pixels[:] = bytes(width * height)
        elif choice == 1:
            canvas.pixels[:] = rng.randbytes(1) * (width * height)
        elif choice > 2:
            ink, left, top = rng.randrange(256), rng.randrange(width), rng.randrange(height)
            for y in range(top, rng.randrange(top, height) + 1):
                for x in range(left, rng.randrange(left, width) + 1):
                    canvas.dot(x, y, ink)
        for _ in range(rng.choice([0, 0, 1, 2])):
            colours[rng.randrange(PALETTE_BYTES)] = rng.randrange(256)
        yield bytes(canvas.pixels), bytes(colours)


def edges(rng, width, height, count):
    """Changes at the first and last columns and rows, with wide gaps between them."""
    canvas, palette = Canvas(width, height, rng.randrange(256)), board_palette(rng, 16)
    for _ in range(count):
        for _ in range(rng.randrange(1, 6)):
            x = rng.choice([0, 1, width - 1, width - 2, width // 2])
            y = rng.choice([0, height - 1, rng.randrange(height)])
            canvas.dot(x, y, rng.randrange(256))
        yield bytes(canvas.pixels), palette


KINDS = {f.__name__: f for f in (text, fade, scroll, noise, blocks, edges)}
