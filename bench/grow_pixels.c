/* How the time of reading, writing, check and build grows with pixels, and in an FLI, which has one size, with the rows
 * that change: the fastest of interleaved rounds, as tables. */
#include <stdio.h>
#include <stdlib.h>
#include <string.h>

#include "clock.h"
#include "flic.h"
#include "reel.h"

#define SIZES 6
#define ROUNDS 12

static const struct { unsigned width, height; } sizes[SIZES] = {{1, 1}, {8, 5}, {40, 25}, {80, 50}, {160, 100}, {320, 200}};
static const unsigned changing[SIZES] = {0, 25, 50, 100, 150, 200};

/* A reel of one size, what a round lends to the calls on it, and the least times of them, in seconds a frame. */
struct sized {
    struct reel reel;
    struct state *states, blank, shown, work[2];
    size_t pixels, length;
    uint8_t *bytes;
    double read, write, check, build;
};

/* From frame to frame so many rows change, from the top; the others stay as in frame 1. */
static struct sized opened(uint32_t format, enum scene scene, unsigned width, unsigned height, unsigned rows)
{
    struct sized sized = {.states = scene_states(scene, width, height), .pixels = (size_t)width * height};
    size_t changed = (size_t)width * rows;
    for (unsigned i = 1; i < SCENE_FRAMES; i++)
        memcpy(sized.states[i].picture + changed, sized.states[0].picture + changed, sized.pixels - changed);
    sized.reel = built_reel(format, width, height, SCENE_FRAMES, sized.states);
    sized.blank = blank_state(width, height);
    sized.shown = blank_state(width, height);
    sized.work[0] = blank_state(width, height);
    sized.work[1] = blank_state(width, height);
    sized.length = sized.reel.size + FLIC_FRAME_MOST;
    sized.bytes = room(sized.length);
    return sized;
}

static void close_sized(struct sized *sized)
{
    free(sized->bytes);
    free_state(&sized->work[1]);
    free_state(&sized->work[0]);
    free_state(&sized->shown);
    free_state(&sized->blank);
    free_reel(&sized->reel);
    free_states(sized->states);
}

static void read_lap(struct sized *sized)
{
    const struct reel *reel = &sized->reel;
    for (unsigned i = 1; i <= reel->frames; i++)
        flic_read_frame(frame_bytes(reel, i), frame_length(reel, i), reel->format, reel->width, reel->height,
                        sized->shown.picture, sized->pixels, sized->shown.palette, PALETTE);
}

static void write_lap(struct sized *sized)
{
    const struct reel *reel = &sized->reel;
    size_t n = sized->pixels;
    for (unsigned i = 0; i < SCENE_FRAMES; i++) {
        const struct state *from = &sized->states[i], *to = &sized->states[(i + 1) % SCENE_FRAMES];
        flic_write_frame(reel->format, reel->width, reel->height, from->picture, n, from->palette, PALETTE, to->picture,
                         n, to->palette, PALETTE, sized->bytes, sized->length);
    }
}

/* So many laps in a row that a timing is long against the clock's own time. */
static unsigned laps_of(const struct sized *sized)
{
    return sized->pixels < 1000 ? 200 : 64000 / (unsigned)sized->pixels;
}

static void time_round(struct sized *sized)
{
    const struct reel *reel = &sized->reel;
    unsigned laps = laps_of(sized), frames = laps * SCENE_FRAMES;
    double at[5] = {seconds()};
    for (unsigned lap = 0; lap < laps; lap++)
        read_lap(sized);
    at[1] = seconds();
    for (unsigned lap = 0; lap < laps; lap++)
        write_lap(sized);
    at[2] = seconds();
    for (unsigned lap = 0; lap < laps; lap++)
        check_bytes(reel->bytes, reel->size, sized->pixels, sized->work);
    at[3] = seconds();
    for (unsigned lap = 0; lap < laps; lap++)
        build_into(sized->bytes, sized->length, reel->format, reel->width, reel->height, reel->frames, sized->states,
                   &sized->blank, sized->work);
    at[4] = seconds();
    keep_least(&sized->read, (at[1] - at[0]) / frames);
    keep_least(&sized->write, (at[2] - at[1]) / frames);
    keep_least(&sized->check, (at[3] - at[2]) / (frames + laps));
    keep_least(&sized->build, (at[4] - at[3]) / frames);
}

static void time_all(struct sized sized[SIZES])
{
    for (unsigned round = 0; round < ROUNDS; round++)
        for (unsigned k = 0; k < SIZES; k++)
            time_round(&sized[k]);
}

static double bytes_a_frame(const struct reel *reel)
{
    return (double)(reel->size - reel->offsets[1]) / reel->frames;
}

static void print_sizes(enum scene scene)
{
    struct sized sized[SIZES];
    for (unsigned k = 0; k < SIZES; k++)
        sized[k] = opened(FLIC_FLC, scene, sizes[k].width, sizes[k].height, sizes[k].height);
    time_all(sized);
    for (unsigned k = 0; k < SIZES; k++) {
        double each = 1e9 / (double)sized[k].pixels;
        printf("%-8s %7zu %9.1f %9.3f %9.3f %9.3f %9.3f\n", scene_names[scene], sized[k].pixels,
               bytes_a_frame(&sized[k].reel), each * sized[k].read, each * sized[k].write, each * sized[k].check,
               each * sized[k].build);
        close_sized(&sized[k]);
    }
    fflush(stdout);
}

/* A time, and what a pixel more than in the row above adds to it. */
static void print_time(double now, double before, unsigned pixels_more)
{
    printf(" %9.3f", 1e6 * now);
    if (pixels_more == 0)
        printf(" %9s", "-");
    else
        printf(" %9.3f", 1e9 * (now - before) / pixels_more);
}

static void print_rows(enum scene scene)
{
    struct sized sized[SIZES];
    for (unsigned k = 0; k < SIZES; k++)
        sized[k] = opened(FLIC_FLI, scene, FLIC_FLI_WIDTH, FLIC_FLI_HEIGHT, changing[k]);
    time_all(sized);
    for (unsigned k = 0; k < SIZES; k++) {
        const struct sized *row = &sized[k], *before = k == 0 ? row : row - 1;
        unsigned more = k == 0 ? 0 : FLIC_FLI_WIDTH * (changing[k] - changing[k - 1]);
        printf("%-8s %7u %9.1f", scene_names[scene], changing[k], bytes_a_frame(&row->reel));
        print_time(row->read, before->read, more);
        print_time(row->write, before->write, more);
        printf("\n");
    }
    for (unsigned k = 0; k < SIZES; k++)
        close_sized(&sized[k]);
    fflush(stdout);
}

int main(void)
{
    static const enum scene scenes[3] = {DENSE, TEXTURE, NOISE};
    printf("Growth with pixels: bytes a frame, and nanoseconds a pixel.\n");
    printf("%-8s %7s %9s %9s %9s %9s %9s\n", "reel", "pixels", "bytes", "read", "write", "check", "build");
    for (unsigned i = 0; i < 3; i++)
        print_sizes(scenes[i]);
    printf("\nGrowth of an FLI with the rows that change: bytes and microseconds a frame, and nanoseconds for each pixel\n"
           "more than in the row above.\n");
    printf("%-8s %7s %9s %9s %9s %9s %9s\n", "reel", "rows", "bytes", "read", "further", "write", "further");
    for (unsigned i = 0; i < 3; i++)
        print_rows(scenes[i]);
    return 0;
}
