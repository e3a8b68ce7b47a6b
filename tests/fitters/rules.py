"""The rules by which outside decoders deviate; DEVIATIONS.md has the condition and the effect of each."""

PICTURE, PALETTE, BOTH, DELAY, ORDER = {"picture"}, {"palette"}, {"picture", "palette"}, {"delay"}, set()

# What a rule may change (ORDER: which frames come, and no more), and a reel that shows it.
RULES = {
    "ffmpeg": {
        "no-loop": (ORDER, "text-1-even"),
        "speed-over-2000": (ORDER, "text-slow"),
        "speed-4-bytes": (DELAY, "fli-unread"),
        "speed-0": (DELAY, "fli-text-speed-0"),
        "last-pixel": (PICTURE, "edges-4-odd"),
        "copy-size": (PICTURE, "copy-1"),
        "lc-below": (BOTH, "lc_below-0"),
        "f5fa-frame": (BOTH, "top-f5fa"),
    },
    "allegro": {
        "odd-chunk": (BOTH, "odd-1"),
        "brun-count": (PICTURE, "brun-2"),
        "prefix-frame": (ORDER, "prefix"),
        "unknown-top": (ORDER, "top-unknown"),
        "loop-palette": (PALETTE, "noise-1-even"),
        "speed-2-bytes": (DELAY, "text-slowest"),
        "speed-0": (DELAY, "fli-text-speed-0"),
    },
    "pillow": {
        "no-ring": (PICTURE, "blocks-1-even"),
        "first-palette": (PALETTE, "fade-4-odd"),
        "levels-64": (PALETTE, "white"),
        "ten-bytes": (PICTURE, "black-1"),
        "unknown-kind": (PICTURE, "unknown-2"),
        "top-level-frame": (ORDER, "prefix"),
        "speed-4-bytes": (DELAY, "fli-unread"),
    },
}
