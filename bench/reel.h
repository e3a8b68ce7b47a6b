/* Reels in memory, for the programs of the benchmark: built through the C boundary, encoded anew, or loaded. */
#ifndef REEL_H
#define REEL_H

#include <stddef.h>
#include <stdint.h>

#include "scenes.h"

#define PALETTE 768

/* A picture and its palette. */
struct state {
    uint8_t *picture, palette[PALETTE];
};

/* A file, of flic.h's FLIC_FLC or FLIC_FLI, and where its frames begin and the last one, the ring, ends: frames + 2
 * offsets. */
struct reel {
    uint32_t format;
    unsigned width, height, frames;
    uint8_t *bytes;
    size_t size, *offsets;
};

/* Says what went wrong and what to do about it, and ends the program. */
void fail(const char *what, const char *so);

void *room(size_t bytes);
struct state blank_state(unsigned width, unsigned height);
void free_state(struct state *state);

/* The states of one lap of a scene, SCENE_FRAMES of them. */
struct state *scene_states(enum scene scene, unsigned width, unsigned height);
void free_states(struct state *states);

/* Builds a reel of so many frames, lap after lap of the states, in bytes that have room for it; answers its size. */
size_t build_into(uint8_t *bytes, size_t length, uint32_t format, unsigned width, unsigned height, unsigned frames,
                  const struct state *states, const struct state *blank, struct state work[2]);

/* Checks a whole reel on two working pairs; a refusal ends the program. */
void check_bytes(const uint8_t *bytes, size_t size, size_t pixels, struct state work[2]);

struct reel built_reel(uint32_t format, unsigned width, unsigned height, unsigned frames, const struct state *states);

/* The reel with each frame after the first, and the ring, as one chunk of this kind (encode.h). The palette stays. */
struct reel encoded_reel(const struct reel *built, unsigned kind, const struct state *states);
struct reel loaded_reel(const char *name);
void free_reel(struct reel *reel);

/* The ending of the names of a format's files. */
const char *ending_of(uint32_t format);

/* Frame i's bytes, the ring's for i = frames. */
static inline const uint8_t *frame_bytes(const struct reel *reel, unsigned i)
{
    return reel->bytes + reel->offsets[i];
}

static inline size_t frame_length(const struct reel *reel, unsigned i)
{
    return reel->offsets[i + 1] - reel->offsets[i];
}

#endif
