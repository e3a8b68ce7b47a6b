/* Writes the frames of a reel's lap some laps, for counting instructions. Says what the fastest lap took a pixel, in
 * nanoseconds and in cycles, and in cycles what the search of every row takes alone. The reel is SCENE.flc or SCENE.fli;
 * its file isn't needed. Usage: write_lap REEL LAPS */
#include <stdio.h>
#include <stdlib.h>
#include <string.h>

#include "clock.h"
#include "flic.h"
#include "reel.h"

#define WIDTH 320
#define HEIGHT 200

static enum scene scene_of(const char *name)
{
    size_t length = strcspn(name, ".");
    for (enum scene scene = 0; scene < SCENES; scene++)
        if (strlen(scene_names[scene]) == length && memcmp(scene_names[scene], name, length) == 0)
            return scene;
    fail("there is no such scene", "choose one of bench/reels");
    return SCENES;
}

static void write_lap(uint32_t format, const struct state *states, uint8_t *out)
{
    size_t n = WIDTH * HEIGHT;
    for (unsigned i = 0; i < SCENE_FRAMES; i++) {
        const struct state *from = &states[i], *to = &states[(i + 1) % SCENE_FRAMES];
        flic_write_frame(format, WIDTH, HEIGHT, from->picture, n, from->palette, PALETTE, to->picture, n, to->palette,
                         PALETTE, out, FLIC_FRAME_MOST);
    }
}

static void search_lap(const struct state *states)
{
    for (unsigned i = 0; i < SCENE_FRAMES; i++)
        for (unsigned y = 0; y < HEIGHT; y++)
            flic_search_row(states[i].picture + y * WIDTH, WIDTH);
}

/* Each multiplication waits three cycles for the one before it, on any processor of these years. */
static double cycle_seconds(void)
{
    unsigned chains = 100000;
    double least = 0;
    for (unsigned round = 0; round < 20; round++) {
        uint64_t x = 3;
        double start = seconds();
        for (unsigned i = 0; i < chains; i++)
            __asm__ volatile("imul %0, %0\n imul %0, %0\n imul %0, %0\n imul %0, %0" : "+r"(x));
        keep_least(&least, (seconds() - start) / (3.0 * 4 * chains));
    }
    return least;
}

int main(int count, char **words)
{
    if (count != 3) {
        fprintf(stderr, "usage: %s REEL LAPS\n", words[0]);
        return 1;
    }
    uint32_t format = strstr(words[1], ".fli") != NULL ? FLIC_FLI : FLIC_FLC;
    struct state *states = scene_states(scene_of(words[1]), WIDTH, HEIGHT);
    uint8_t *out = room(FLIC_FRAME_MOST);
    double writing = 0, searching = 0, pixels = SCENE_FRAMES * WIDTH * HEIGHT;
    for (int lap = atoi(words[2]); lap > 0; lap--) {
        double start = seconds();
        write_lap(format, states, out);
        keep_least(&writing, seconds() - start);
        start = seconds();
        search_lap(states);
        keep_least(&searching, seconds() - start);
    }
    double cycle = cycle_seconds();
    printf("%.2f %.1f %.1f\n", 1e9 * writing / pixels, writing / cycle / pixels, searching / cycle / pixels);
    return 0;
}
