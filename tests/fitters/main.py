"""The fitters' test: plays every reel with us and with each outside decoder, and says how many frames differ."""
import os
import sys

import compare
import digests
import kinds
import make
import self_check
from document import played
from players import DECODERS, Players, by_us, refused_by_us
from reel import Reel, file_name
from rules import RULES

HERE = os.path.dirname(os.path.abspath(__file__))


def plays(players, name, data):
    """The reel as it is, which each decoder loops as it can, and unrolled to three laps."""
    reel = Reel(data)
    unrolled = reel.unrolled()
    yield "as it is", reel, players.put(file_name(name, data), data), True
    yield "unrolled", Reel(unrolled), players.put(file_name(f"{name}-laps", data), unrolled), False


def by_others(players, tally, name, data, ours):
    """Has the reel played by each decoder; gives for each frame of ours which of them showed which part the same."""
    seen = {}
    for way, reel, path, own_loop in plays(players, name, data):
        for decoder, play in DECODERS.items():
            expected, given = play(players, reel, path, own_loop)
            attested = compare.compare(tally, decoder, (name, way), expected, given, ours)
            for number, parts in attested.items():
                for part in parts:
                    seen.setdefault((number, part), set()).add(decoder)
        os.remove(path)
    return seen


def one_reel(players, tally, name, data):
    """Gives our frames, and for each which decoders showed which part of it the same."""
    reel = Reel(data)
    ours = by_us(players, reel, players.put("reel", data))
    if ours != [(*frame, reel.delay()) for frame in played(reel)]:
        tally.differ(name, "unlike the document's frames")
    return ours, by_others(players, tally, name, data, ours)


def one_refused(players, tally, name, data, refusal):
    """A reel that we must refuse so, and the others play."""
    found = refused_by_us(players, players.put("reel", data))
    if found != refusal:
        tally.differ(name, f"refused {found}, not {refusal}")
    by_others(players, tally, name, data, [])


def main(programs, folder, store):
    players, tally = Players(programs, folder), compare.Tally()
    self_check.run(players)
    met, house, reels, frames, lines = kinds.Kinds(), compare.House(), {}, 0, []
    for name, built, data in make.all_reels(players.program("build"), None if store else digests.stored_reel):
        reels[name] = data
        met.count(Reel(data), built)
        ours, seen = one_reel(players, tally, name, data)
        frames += len(ours)
        if built:
            house.count(Reel(data).format, len(ours), seen)
        if name in digests.STORED:
            lines += digests.lines_of(name, ours, seen)
    refused = list(make.refused_reels())
    for name, data, refusal in refused:
        one_refused(players, tally, name, data, refusal)
    if store:
        digests.store(reels, lines)
    print(f"{len(reels)} reels, {frames} frames of ours in three laps, and {len(refused)} reels that we refuse")
    print("\n".join([*met.lines(), *house.lines(), *compare.table(tally)]))
    complaints = [*met.missing(), *compare.lost_reach(tally), *digests.unlike_stored(lines),
                  *undocumented(name for name, *_ in refused)]
    for complaint in tally.differences[:20] + complaints:
        print(f"fitters: {complaint}")
    print(f"{sum(tally.frames.values())} frames compared, {len(tally.differences)} differences")
    return 1 if tally.differences or complaints else 0


def undocumented(refused):
    with open(os.path.join(HERE, "DEVIATIONS.md")) as text:
        rows = text.read().splitlines()
    for decoder, rules in RULES.items():
        for rule, (_, reel) in rules.items():
            if not any(row.startswith(f"| {decoder} {rule} |") and f"`{reel}`" in row for row in rows):
                yield f"{decoder} {rule}: no row with `{reel}` in DEVIATIONS.md"
    for reel in refused:
        if not any(row.startswith(f"| `{reel}` |") for row in rows):
            yield f"no row for `{reel}` in DEVIATIONS.md"


if __name__ == "__main__":
    sys.exit(main(sys.argv[1], sys.argv[2], "--store" in sys.argv[3:]))
