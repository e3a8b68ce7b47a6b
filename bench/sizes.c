/* How the time of a frame grows with the bytes of its packets, beside the time of saving the picture: the fastest of
 * interleaved rounds, as a table. Where the check of a frame takes longer than the save, reading in one pass pays. */
#include <stdio.h>
#include <string.h>

#include "clock.h"
#include "encode.h"
#include "flic.h"
#include "players.h"

#define WIDTH 320
#define HEIGHT 200
#define PIXELS (WIDTH * HEIGHT)
#define GROUND 16
#define BRUN 15
/* Of a frame and its one chunk. */
#define HEADERS 22
#define ROUNDS 12
#define SIZES 7
#define KINDS 3
/* So many frames that one lap's branches don't foresee the next one's. */
#define MOST_FRAMES 1000

static const unsigned heights[SIZES] = {2, 3, 6, 13, 25, 51, 100}, kinds[KINDS] = {SS2, LC, BRUN};
static const struct decoder *const decoders[] = {&ours, &pass_1, &plain};
enum { OURS, PASS_1, PLAIN, DECODERS };

/* Frames of one kind in which so many rows have packets, their players, and the least times, in seconds a frame. */
struct sized {
    struct reel reel;
    struct player *players[DECODERS];
    double least[DECODERS];
};

/* A plain picture with some rows of a page. */
static void set_window(uint8_t *picture, const struct state *page, unsigned from, unsigned rows)
{
    memset(picture, GROUND, PIXELS);
    memcpy(picture + from * WIDTH, page->picture + from * WIDTH, rows * WIDTH);
}

/* The frame that changes these rows from a page's to the next one's; as BRUN the one that shows the next one's. */
static size_t window_frame(unsigned kind, const struct state *page, unsigned from, unsigned rows, uint8_t *out)
{
    static uint8_t old[PIXELS], new[PIXELS];
    set_window(old, &page[0], from, rows);
    set_window(new, &page[1], from, rows);
    if (kind != BRUN)
        return encode_frame(kind, WIDTH, HEIGHT, old, new, out);
    for (unsigned at = 0; at < PIXELS; at++)
        old[at] = (uint8_t)(new[at] + 1 + at % 2);
    size_t length = flic_write_frame(FLIC_FLC, WIDTH, HEIGHT, old, PIXELS, page->palette, PALETTE, new, PIXELS,
                                     page->palette, PALETTE, out, FLIC_FRAME_MOST).length;
    if (length == 0 || out[20] != BRUN)
        fail("rows of a page aren't written as BRUN", "run ./test");
    return length;
}

static void open_sized(struct sized *sized, unsigned kind, unsigned rows, const struct state *pages)
{
    unsigned count = 0;
    struct reel *reel = &sized->reel;
    *reel = (struct reel){.format = FLIC_FLC, .width = WIDTH, .height = HEIGHT};
    reel->bytes = room(SCENE_FRAMES * ENCODED_MOST);
    reel->offsets = room((MOST_FRAMES + 1) * sizeof *reel->offsets);
    for (unsigned page = 0; page + 1 < SCENE_FRAMES; page++)
        for (unsigned from = 0; from + rows <= HEIGHT && count < MOST_FRAMES; from += rows, count++)
            reel->offsets[count + 1] = reel->offsets[count] + window_frame(kind, &pages[page], from, rows,
                                                                           reel->bytes + reel->offsets[count]);
    reel->frames = count - 1;
    for (int d = 0; d < DECODERS; d++)
        sized->players[d] = decoders[d]->open(reel);
}

/* Plays each frame with both decoders, which must show the same. */
static void compare(struct sized *sized)
{
    struct state seen[2] = {blank_state(WIDTH, HEIGHT), blank_state(WIDTH, HEIGHT)};
    for (unsigned i = 0; i <= sized->reel.frames; i++) {
        for (int k = 0; k < 2; k++) {
            int d = k == 0 ? OURS : PLAIN;
            decoders[d]->play(sized->players[d], i);
            decoders[d]->show(sized->players[d], &seen[k]);
        }
        if (memcmp(seen[0].picture, seen[1].picture, PIXELS) != 0)
            fail("the plain decoder shows another picture than ours", "look into bench/plain.c");
    }
    free_state(&seen[0]);
    free_state(&seen[1]);
}

static void time_round(struct sized *sized)
{
    for (int d = 0; d < DECODERS; d++) {
        double start = seconds();
        for (unsigned i = 0; i <= sized->reel.frames; i++)
            decoders[d]->play(sized->players[d], i);
        keep_least(&sized->least[d], (seconds() - start) / (sized->reel.frames + 1));
    }
}

/* A picture and a palette copied to an array that was set to 0 before, as the library's arrays are. */
static double save_seconds(const struct state *state)
{
    static uint8_t saved[PIXELS + PALETTE];
    double least = 0;
    for (unsigned round = 0; round < ROUNDS; round++) {
        double start = seconds();
        for (unsigned i = 0; i < MOST_FRAMES; i++) {
            memset(saved, 0, sizeof saved);
            __asm__ volatile("" : : "r"(saved) : "memory");
            memcpy(saved, state->picture, PIXELS);
            memcpy(saved + PIXELS, state->palette, PALETTE);
            __asm__ volatile("" : : "r"(saved) : "memory");
        }
        keep_least(&least, (seconds() - start) / MOST_FRAMES);
    }
    return least;
}

static void print_kind(unsigned kind, const struct state *pages, double save)
{
    static struct sized sized[SIZES];
    memset(sized, 0, sizeof sized);
    for (unsigned k = 0; k < SIZES; k++) {
        open_sized(&sized[k], kind, heights[k], pages);
        compare(&sized[k]);
    }
    for (unsigned round = 0; round < ROUNDS; round++)
        for (unsigned k = 0; k < SIZES; k++)
            time_round(&sized[k]);
    for (unsigned k = 0; k < SIZES; k++) {
        const double *least = sized[k].least;
        size_t frames = sized[k].reel.frames + 1, bytes = sized[k].reel.offsets[frames] / frames - HEADERS;
        printf("%4u %5u %7zu %8.2f %8.2f %8.2f %8.2f %8.2f\n", kind, heights[k], bytes, 1e6 * least[OURS],
               1e6 * least[PLAIN], 1e6 * least[PASS_1], 1e6 * save, least[PASS_1] / save);
    }
    fflush(stdout);
}

int main(void)
{
    struct state *pages = scene_states(SCROLL, WIDTH, HEIGHT);
    double save = save_seconds(&pages[0]);
    printf("Frames of 320 by 200 with few bytes of packets and many: rows of the scroll, bytes of the chunk's body, and\n"
           "microseconds a frame; pass 1 as above, save a copy of picture and palette, then pass 1 over the save.\n");
    printf("%4s %5s %7s %8s %8s %8s %8s %8s\n", "kind", "rows", "bytes", "ours", "plain C", "pass 1", "save", "/save");
    for (unsigned k = 0; k < KINDS; k++)
        print_kind(kinds[k], pages, save);
    return 0;
}
