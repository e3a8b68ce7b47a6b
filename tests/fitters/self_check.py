"""Tries the comparison itself: one pixel, colour, delay or frame altered on either side must be seen."""
import random

import compare
import make
from players import DECODERS, by_us, refused_by_us
from reel import ENDINGS, FLC, FLI, Reel, file_name

SIZES = {FLC: (24, 10), FLI: make.WIDE}


def altered(part):
    if isinstance(part, bytes):
        return part[:-1] + bytes([part[-1] ^ 4])
    if isinstance(part, tuple):
        return tuple(delay if delay is None else delay + 1 for delay in part)
    return part + 1


def with_part_altered(parts):
    """The parts of a frame with one of them altered, for each of them."""
    return [(*parts[:i], altered(part), *parts[i + 1:]) for i, part in enumerate(parts)]


def differences(decoder, expected, given, ours):
    tally = compare.Tally()
    compare.compare(tally, decoder, ("self-check", ""), expected, given, ours)
    return len(tally.differences)


def run(players):
    for form in ENDINGS:
        maker = make.Maker(random.Random("self-check"), form, *SIZES[form])
        run_on(players, make.closed(maker, [make.first_frame(maker)] + [make.spare_frame(maker) for _ in range(3)]))


def run_on(players, data):
    reel, path = Reel(data), players.put(file_name("self-check", data), data)
    ours = by_us(players, reel, path)
    if refused_by_us(players, path) is not None:
        raise SystemExit("self-check: a reel that we play is refused")
    for decoder, play in DECODERS.items():
        expected, given = play(players, reel, path, True)
        shown, *parts = given[-1]
        wrong = [(shown, *others) for others in with_part_altered(parts)] + [(False, *parts)]
        tries = [(given[:-1] + [last], ours) for last in wrong] + [(given[:-1], ours)]
        tries += [(given, an_ours) for an_ours in zip(*map(with_part_altered, ours))]
        if differences(decoder, expected, given, ours) != 0:
            raise SystemExit(f"self-check: {decoder} differs where nothing was altered")
        for number, (a_given, an_ours) in enumerate(tries):
            if differences(decoder, expected, a_given, an_ours) == 0:
                raise SystemExit(f"self-check: alteration {number} was not seen for {decoder}")
