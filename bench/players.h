/* The decoders that are compared, each behind the same three calls. */
#ifndef PLAYERS_H
#define PLAYERS_H

#include "reel.h"

/* What a decoder keeps between frames. */
struct player;

struct decoder {
    const char *name;
    /* A player that shows blank. */
    struct player *(*open)(const struct reel *reel);
    /* Plays frame i, the ring for i = frames. */
    void (*play)(struct player *player, unsigned i);
    /* Copies what shows: tightly packed rows, and the palette as red, green, blue. */
    void (*show)(struct player *player, struct state *state);
};

/* Pass 1 is ours on the same frames with one sub-chunk more in the count than there is: refused 4 at their very end. */
extern const struct decoder ours, pass_1, libavcodec, libavcodec_held, plain;

#endif
