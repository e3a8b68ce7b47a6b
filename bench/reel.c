/* Builds, loads and walks the reels of the benchmark. */
#include "reel.h"

#include <stdio.h>
#include <stdlib.h>
#include <string.h>

#include "encode.h"
#include "flic.h"

void fail(const char *what, const char *so)
{
    fprintf(stderr, "bench: %s; %s\n", what, so);
    exit(1);
}

void *room(size_t bytes)
{
    void *made = calloc(1, bytes);
    if (made == NULL)
        fail("there is not enough memory", "end other programs, or run it on a larger machine");
    return made;
}

struct state blank_state(unsigned width, unsigned height)
{
    struct state state = {.picture = room((size_t)width * height)};
    return state;
}

void free_state(struct state *state)
{
    free(state->picture);
}

struct state *scene_states(enum scene scene, unsigned width, unsigned height)
{
    struct state *states = room(SCENE_FRAMES * sizeof *states);
    for (unsigned i = 0; i < SCENE_FRAMES; i++) {
        states[i] = blank_state(width, height);
        set_scene(scene, width, height, i, states[i].picture, states[i].palette);
    }
    return states;
}

void free_states(struct state *states)
{
    for (unsigned i = 0; i < SCENE_FRAMES; i++)
        free_state(&states[i]);
    free(states);
}

static flic_reel accepted(flic_reel_answer answer)
{
    if (answer.number != 0) {
        char what[80];
        snprintf(what, sizeof what, "a reel was refused with %u", (unsigned)answer.number);
        fail(what, "see docs/REFUSALS.md");
    }
    return answer.reel;
}

const char *ending_of(uint32_t format)
{
    return format == FLIC_FLI ? "fli" : "flc";
}

/* Ten frames a second. */
static flic_reel_answer opened(uint32_t format, unsigned width, unsigned height, uint8_t *bytes, size_t length)
{
    return format == FLIC_FLI ? flic_open_fli(width, height, 7, bytes, length)
                              : flic_open_reel(width, height, 100, bytes, length);
}

size_t build_into(uint8_t *bytes, size_t length, uint32_t format, unsigned width, unsigned height, unsigned frames,
                  const struct state *states, const struct state *blank, struct state work[2])
{
    size_t n = (size_t)width * height;
    flic_reel reel = accepted(opened(format, width, height, bytes, length));
    const struct state *shown = blank;
    for (unsigned i = 0; i < frames; i++) {
        const struct state *next = &states[i % SCENE_FRAMES];
        reel = accepted(flic_add_frame(reel, bytes, length, shown->picture, n, shown->palette, PALETTE,
                                       next->picture, n, next->palette, PALETTE));
        shown = next;
    }
    reel = accepted(flic_close_reel(reel, bytes, length, work[0].picture, n, work[0].palette, PALETTE,
                                    work[1].picture, n, work[1].palette, PALETTE));
    return reel.end;
}

static size_t size_at(const uint8_t *bytes)
{
    return bytes[0] | bytes[1] << 8 | bytes[2] << 16 | (size_t)bytes[3] << 24;
}

/* The frames of a built reel stand back to back. */
static void find_offsets(struct reel *reel)
{
    size_t at = 128;
    reel->offsets = room((reel->frames + 2) * sizeof *reel->offsets);
    for (unsigned i = 0; i <= reel->frames; i++) {
        reel->offsets[i] = at;
        at += size_at(reel->bytes + at);
    }
    reel->offsets[reel->frames + 1] = at;
}

void check_bytes(const uint8_t *bytes, size_t size, size_t pixels, struct state work[2])
{
    flic_answer answer = flic_check_reel(bytes, size, work[0].picture, pixels, work[0].palette, PALETTE,
                                         work[1].picture, pixels, work[1].palette, PALETTE);
    if (answer.number != 0)
        fail("flic_check_reel refuses a reel", "make it anew with bench/run; if that doesn't help, run ./test");
}

struct reel built_reel(uint32_t format, unsigned width, unsigned height, unsigned frames, const struct state *states)
{
    struct reel reel = {.format = format, .width = width, .height = height, .frames = frames};
    struct state blank = blank_state(width, height), work[2] = {blank_state(width, height), blank_state(width, height)};
    size_t most = 128 + (frames + (size_t)1) * FLIC_FRAME_MOST;
    reel.bytes = room(most);
    reel.size = build_into(reel.bytes, most, format, width, height, frames, states, &blank, work);
    check_bytes(reel.bytes, reel.size, (size_t)width * height, work);
    find_offsets(&reel);
    free_state(&blank);
    free_state(&work[0]);
    free_state(&work[1]);
    return reel;
}

static void set_size(uint8_t *bytes, size_t size)
{
    for (unsigned k = 0; k < 4; k++)
        bytes[k] = (uint8_t)(size >> 8 * k);
}

struct reel encoded_reel(const struct reel *built, unsigned kind, const struct state *states)
{
    struct reel reel = *built;
    struct state work[2] = {blank_state(reel.width, reel.height), blank_state(reel.width, reel.height)};
    reel.size = built->offsets[1];
    reel.bytes = room(reel.size + (size_t)reel.frames * ENCODED_MOST);
    memcpy(reel.bytes, built->bytes, reel.size);
    for (unsigned i = 1; i <= reel.frames; i++)
        reel.size += encode_frame(kind, reel.width, reel.height, states[i - 1].picture, states[i % reel.frames].picture,
                                  reel.bytes + reel.size);
    set_size(reel.bytes, reel.size);
    check_bytes(reel.bytes, reel.size, (size_t)reel.width * reel.height, work);
    find_offsets(&reel);
    free_state(&work[0]);
    free_state(&work[1]);
    return reel;
}

/* The file is one that make_reels has checked. */
struct reel loaded_reel(const char *name)
{
    struct reel reel = {0};
    FILE *file = fopen(name, "rb");
    if (file == NULL || fseek(file, 0, SEEK_END) != 0 || (reel.size = (size_t)ftell(file)) < 128)
        fail("a reel's file can't be read", "make it with bench/run");
    rewind(file);
    reel.bytes = room(reel.size);
    if (fread(reel.bytes, 1, reel.size, file) != reel.size)
        fail("a reel's file can't be read whole", "make it with bench/run");
    fclose(file);
    flic_header header = flic_read_header(reel.bytes, reel.size);
    if (header.number != 0)
        fail("a reel's header is refused", "make the reel anew with bench/run");
    reel.format = header.format;
    reel.frames = (unsigned)header.frames;
    reel.width = (unsigned)header.width;
    reel.height = (unsigned)header.height;
    find_offsets(&reel);
    return reel;
}

void free_reel(struct reel *reel)
{
    free(reel->bytes);
    free(reel->offsets);
}
