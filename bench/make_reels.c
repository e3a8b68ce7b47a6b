/* Makes the reels of 320 by 200 through the C boundary in both formats, two FLCs with deltas by encode.c, with the
 * states that they show, and says what each holds.
 * Usage: make_reels DIRECTORY */
#include <stdio.h>
#include <string.h>

#include "encode.h"
#include "flic.h"
#include "reel.h"

#define KINDS 19

static unsigned word(const uint8_t *at)
{
    return at[0] | at[1] << 8;
}

static unsigned brun_packets(const uint8_t *at, unsigned width, unsigned height)
{
    unsigned packets = 0;
    for (unsigned row = 0; row < height; row++) {
        at++;
        for (unsigned x = 0; x < width; packets++) {
            x += *at < 128 ? *at : 256 - *at;
            at += *at < 128 ? 2 : 257 - *at;
        }
    }
    return packets;
}

static unsigned lc_packets(const uint8_t *at)
{
    unsigned packets = 0, rows = word(at + 2);
    for (at += 4; rows > 0; rows--) {
        unsigned count = *at++;
        packets += count;
        for (; count > 0; count--)
            at += at[1] < 128 ? 2 + at[1] : 3;
    }
    return packets;
}

/* At even widths there are no last-pixel words. */
static unsigned ss2_packets(const uint8_t *at)
{
    unsigned packets = 0, lines = word(at);
    at += 2;
    while (lines > 0) {
        unsigned count = word(at);
        at += 2;
        if (count >= 0xC000)
            continue;
        lines--;
        packets += count;
        for (; count > 0; count--)
            at += at[1] < 128 ? 2 + 2 * at[1] : 4;
    }
    return packets;
}

struct met {
    unsigned kinds[KINDS], packets;
    size_t bytes;
};

static void count_frame(struct met *met, const struct reel *reel, unsigned i)
{
    const uint8_t *at = frame_bytes(reel, i);
    unsigned chunks = word(at + 6);
    met->bytes += frame_length(reel, i);
    for (at += 16; chunks > 0; chunks--) {
        unsigned kind = word(at + 4);
        if (kind >= KINDS)
            fail("a reel has a kind that no reel here has", "run ./test");
        met->kinds[kind]++;
        if (kind == 15)
            met->packets += brun_packets(at + 6, reel->width, reel->height);
        if (kind == SS2)
            met->packets += ss2_packets(at + 6);
        if (kind == LC)
            met->packets += lc_packets(at + 6);
        at += word(at) | word(at + 2) << 16;
    }
}

static void print_met(const char *name, const struct reel *reel)
{
    static const char *const names[KINDS] = {[4] = "COLOR256", [SS2] = "SS2", [LC] = "LC", [13] = "BLACK", [15] = "BRUN",
                                              [16] = "COPY"};
    struct met met = {0};
    for (unsigned i = 1; i <= reel->frames; i++)
        count_frame(&met, reel, i);
    printf("%-12s %10zu %10zu %10u  ", name, frame_length(reel, 0), met.bytes / reel->frames,
           met.packets / reel->frames);
    for (unsigned kind = 0; kind < KINDS; kind++)
        if (met.kinds[kind] > 0)
            printf(" %s %u", names[kind], met.kinds[kind]);
    printf("\n");
}

static FILE *created(const char *directory, const char *name)
{
    char path[4096];
    snprintf(path, sizeof path, "%s/%s", directory, name);
    FILE *file = fopen(path, "wb");
    if (file == NULL)
        fail("a file can't be made", "check that target/bench can be written to");
    return file;
}

static void write_all(FILE *file, const uint8_t *bytes, size_t length)
{
    if (fwrite(bytes, 1, length, file) != length)
        fail("a file can't be written", "check that there is room in target/bench");
}

static void close_file(FILE *file)
{
    if (fclose(file) != 0)
        fail("a file can't be written", "check that there is room in target/bench");
}

/* Picture and palette after each frame as flic_read_frame gives them must be those that were asked for. */
static void check_states(const struct reel *reel, const struct state *asked)
{
    size_t n = (size_t)reel->width * reel->height;
    struct state shown = blank_state(reel->width, reel->height);
    for (unsigned i = 0; i < reel->frames; i++) {
        flic_answer answer = flic_read_frame(frame_bytes(reel, i), frame_length(reel, i), reel->format, reel->width,
                                             reel->height, shown.picture, n, shown.palette, PALETTE);
        if (answer.number != 0 || memcmp(shown.picture, asked[i].picture, n) != 0 ||
            memcmp(shown.palette, asked[i].palette, PALETTE) != 0)
            fail("a reel doesn't show what was asked for", "run ./test");
    }
    free_state(&shown);
}

static void write_states(const char *directory, const char *scene, const struct state *states)
{
    char name[64];
    snprintf(name, sizeof name, "%s.states", scene);
    FILE *file = created(directory, name);
    for (unsigned i = 0; i < SCENE_FRAMES; i++) {
        write_all(file, states[i].picture, FLIC_PIXELS_MOST);
        write_all(file, states[i].palette, PALETTE);
    }
    close_file(file);
}

/* An FLI has no kind 7, and in house form the deltas of kind 12. */
static struct reel made_reel(uint32_t format, enum scene scene, const struct state *states)
{
    struct reel built = built_reel(format, FLIC_WIDTH_MOST, FLIC_HEIGHT_MOST, SCENE_FRAMES, states);
    if (format == FLIC_FLI || (scene != SCROLL && scene != ANIMATOR))
        return built;
    struct reel encoded = encoded_reel(&built, scene == SCROLL ? SS2 : LC, states);
    free_reel(&built);
    return encoded;
}

static void make_reel(const char *directory, uint32_t format, enum scene scene, const struct state *states)
{
    char name[64];
    snprintf(name, sizeof name, "%s.%s", scene_names[scene], ending_of(format));
    struct reel reel = made_reel(format, scene, states);
    FILE *file = created(directory, name);
    print_met(name, &reel);
    check_states(&reel, states);
    write_all(file, reel.bytes, reel.size);
    close_file(file);
    free_reel(&reel);
}

int main(int count, char **words)
{
    if (count != 2) {
        fprintf(stderr, "usage: %s DIRECTORY\n", words[0]);
        return 1;
    }
    printf("Reels of 320 by 200, %d frames. A lap is frames 2 to %d and the ring, and leads from frame 1's state back to it.\n",
           SCENE_FRAMES, SCENE_FRAMES);
    printf("%-12s %10s %10s %10s   %s\n", "reel", "frame 1", "bytes", "packets", "chunks in a lap");
    for (enum scene scene = 0; scene < SCENES; scene++) {
        struct state *states = scene_states(scene, FLIC_WIDTH_MOST, FLIC_HEIGHT_MOST);
        make_reel(words[1], FLIC_FLC, scene, states);
        make_reel(words[1], FLIC_FLI, scene, states);
        write_states(words[1], scene_names[scene], states);
        free_states(states);
    }
    return 0;
}
