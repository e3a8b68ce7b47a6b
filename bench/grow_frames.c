/* How the time of check and build grows with frames: the fastest of interleaved rounds, as a table. */
#include <stdio.h>
#include <stdlib.h>

#include "clock.h"
#include "flic.h"
#include "reel.h"

#define COUNTS 4
#define MOST_BYTES_A_FRAME 4096

static const unsigned counts[COUNTS] = {10, 100, 1000, 4000};

struct grown {
    double check, build;
    size_t size;
};

static void grow(struct grown grown[COUNTS], uint32_t format, unsigned width, unsigned height, unsigned rounds)
{
    size_t length = 128 + 2 * FLIC_FRAME_MOST + (size_t)counts[COUNTS - 1] * MOST_BYTES_A_FRAME;
    struct state *states = scene_states(BOARD, width, height), blank = blank_state(width, height);
    struct state work[2] = {blank_state(width, height), blank_state(width, height)};
    uint8_t *bytes = room(length);
    for (unsigned round = 0; round < rounds; round++) {
        for (unsigned k = 0; k < COUNTS; k++) {
            double start = seconds();
            grown[k].size = build_into(bytes, length, format, width, height, counts[k], states, &blank, work);
            double built = seconds();
            check_bytes(bytes, grown[k].size, (size_t)width * height, work);
            keep_least(&grown[k].check, seconds() - built);
            keep_least(&grown[k].build, built - start);
        }
    }
    free(bytes);
    free_state(&work[1]);
    free_state(&work[0]);
    free_state(&blank);
    free_states(states);
}

/* A time for each frame and over the first row's, and for each frame more than in the row before: constant if linear. */
static void print_time(unsigned k, double now, double before, double first)
{
    printf(" %9.3f %7.2f", 1e6 * now / counts[k], now / counts[k] / (first / counts[0]));
    if (k == 0)
        printf(" %9s", "-");
    else
        printf(" %9.3f", 1e6 * (now - before) / (counts[k] - counts[k - 1]));
}

static void print_growth(uint32_t format, unsigned width, unsigned height, unsigned rounds)
{
    struct grown grown[COUNTS] = {0};
    grow(grown, format, width, height, rounds);
    for (unsigned k = 0; k < COUNTS; k++) {
        const struct grown *row = &grown[k], *before = k == 0 ? row : row - 1;
        printf("%s %3u by %-3u %7u %9zu", ending_of(format), width, height, counts[k], row->size);
        print_time(k, row->check, before->check, grown->check);
        print_time(k, row->build, before->build, grown->build);
        printf("\n");
    }
    fflush(stdout);
}

int main(void)
{
    printf("Growth with frames, the board's states lap after lap: microseconds a frame, that over the first row's, and\n"
           "microseconds for each frame more than in the row above.\n");
    printf("%-14s %7s %9s %9s %7s %9s %9s %7s %9s\n", "size", "frames", "bytes", "check", "/first", "further", "build",
           "/first", "further");
    print_growth(FLIC_FLC, 32, 20, 200);
    print_growth(FLIC_FLC, 320, 200, 6);
    print_growth(FLIC_FLI, 320, 200, 6);
    return 0;
}
