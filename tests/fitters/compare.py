"""Compares what a decoder gave with what it is expected to give and with our frames, and keeps count."""
from collections import Counter

from players import MODELS
from reel import ENDINGS
from rules import RULES

PARTS = ("picture", "palette", "delay")

# Fewer compared than this means that the test has lost its reach: frames; pictures, palettes and delays as ours.
FLOORS = {
    "ffmpeg": (5550, 4900, 5400, 5400), "allegro": (7750, 6450, 7500, 7550), "pillow": (7500, 7050, 3200, 7350),
}


class Tally:
    def __init__(self):
        self.frames, self.not_shown, self.as_ours = Counter(), Counter(), Counter()
        self.met, self.unlike, self.alone, self.reels = Counter(), Counter(), Counter(), {}
        self.differences = []

    def differ(self, *words):
        self.differences.append(" ".join(map(str, words)))


class House:
    """How many frames of reels in house form come out right, each part from one decoder at least."""

    def __init__(self):
        self.frames, self.right = Counter(), Counter()

    def count(self, form, frames, seen):
        self.frames[form] += frames
        for number in range(frames):
            self.right[form] += (number, "picture") in seen and (number, "palette") in seen

    def lines(self):
        for form, ending in ENDINGS.items():
            yield (f"{ending} in house form: {self.right[form]} of {self.frames[form]} frames with picture and palette as "
                   "ours, each from one decoder at least")


def as_it_has(decoder, picture, palette, delay):
    """A frame of ours at the decoder's levels and in its unit of time."""
    model = MODELS[decoder]
    return picture, bytes(c // 4 for c in palette) if model.levels == 64 else palette, model.delay_of(*delay)


def compare(tally, decoder, play, expected, given, ours):
    """One play of one reel. Gives, for each frame of ours, the parts that no rule touched and that came out as ours."""
    if len(expected) != len(given):
        tally.differ(decoder, *play, f"{len(given)} frames instead of {len(expected)}")
    at_work = {part: set() for part in PARTS}
    attested = {}
    for step, (e, (shown, *parts)) in enumerate(zip(expected, given), 1):
        count_rules(tally, decoder, play[0], e.touched, at_work)
        if shown != e.shown:
            tally.differ(decoder, *play, f"step {step}: {'a' if shown else 'no'} frame")
            continue
        if not shown:
            tally.not_shown[decoder] += 1
            continue
        tally.frames[decoder] += 1
        for part, got, acted in zip(PARTS, parts, (e.picture, e.palette, e.delay)):
            if got != acted:
                tally.differ(decoder, *play, f"step {step}: {part}, rules {sorted(e.touched | at_work[part])}")
        if e.number is not None and e.number < len(ours):
            same = [got == part for got, part in zip(parts, as_it_has(decoder, *ours[e.number]))]
            judge(tally, decoder, (*play, f"step {step}:"), same, at_work)
            touched = set().union(*(RULES[decoder][rule][0] for rule in e.touched))
            attested[e.number] = {part for part, is_same in zip(PARTS, same) if is_same and part not in touched}
    return attested


def count_rules(tally, decoder, reel, touched, at_work):
    for rule in touched:
        tally.met[decoder, rule] += 1
        tally.reels.setdefault((decoder, rule), set()).add(reel)
        for part in RULES[decoder][rule][0]:
            at_work[part].add(rule)


def judge(tally, decoder, where, same, at_work):
    """A part unlike ours needs a rule at work on it; once it is as ours again, none is."""
    for part, is_same in zip(PARTS, same):
        if is_same:
            tally.as_ours[decoder, part] += 1
            at_work[part].clear()
        elif not at_work[part]:
            tally.differ(decoder, *where, f"{part} unlike ours, and no rule says why")
        else:
            for rule in at_work[part]:
                tally.unlike[decoder, rule] += 1
            if len(at_work[part]) == 1:
                tally.alone[(decoder, *at_work[part])] += 1


def lost_reach(tally):
    """Complaints: rules that never applied or changed nothing, reels that no longer show theirs, floors not reached."""
    for decoder, rules in RULES.items():
        for rule, (parts, reel) in rules.items():
            if not tally.met[decoder, rule]:
                yield f"{decoder} {rule}: never applied; drop it"
            elif reel not in tally.reels[decoder, rule]:
                yield f"{decoder} {rule}: not shown by {reel}, but by {sorted(tally.reels[decoder, rule])[:5]}"
            elif parts and not tally.alone[decoder, rule]:
                yield f"{decoder} {rule}: no frame is unlike ours by this rule alone; drop it"
        reached = (tally.frames[decoder], *(tally.as_ours[decoder, part] for part in PARTS))
        if any(have < floor for have, floor in zip(reached, FLOORS[decoder])):
            yield f"{decoder}: reached {reached}, the floors are {FLOORS[decoder]}"


def table(tally):
    yield "decoder   frames  pictures as ours  palettes as ours  delays as ours  no frame came"
    for decoder in RULES:
        yield (f"{decoder:8}{tally.frames[decoder]:8}{tally.as_ours[decoder, 'picture']:18}"
               f"{tally.as_ours[decoder, 'palette']:18}{tally.as_ours[decoder, 'delay']:16}"
               f"{tally.not_shown[decoder]:15}")
    yield ""
    yield "deviation acted out        frames that met it  frames unlike ours by it"
    for decoder, rules in RULES.items():
        for rule in rules:
            yield f"{decoder + ' ' + rule:27}{tally.met[decoder, rule]:18}{tally.unlike[decoder, rule]:26}"
