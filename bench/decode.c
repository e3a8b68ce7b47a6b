/* Times the decoders on the reels, side by side in one process: the fastest lap of many. Usage: decode REEL.. */
#include <libavcodec/avcodec.h>
#include <stdio.h>
#include <string.h>

#include "clock.h"
#include "flic.h"
#include "players.h"

#define REEL_SECONDS 5.0
#define LEAST_ROUNDS 40

/* Those that show the pictures, and pass 1. */
static const struct decoder *const decoders[] = {&ours, &libavcodec, &libavcodec_held, &plain, &pass_1};
enum { OURS, LIBAV, HELD, PLAIN, SHOWING, PASS_1 = SHOWING, DECODERS, COPYING = DECODERS, CHECKING, COLUMNS };

/* A lap leads from frame 1's state back to it. */
static void play_lap(const struct decoder *decoder, struct player *player, unsigned frames)
{
    for (unsigned i = 1; i <= frames; i++)
        decoder->play(player, i);
}

static void copy_lap(struct state *shown, const struct state *states, unsigned frames, size_t pixels)
{
    for (unsigned i = 1; i <= frames; i++) {
        memcpy(shown->picture, states[i].picture, pixels);
        memcpy(shown->palette, states[i].palette, PALETTE);
        __asm__ volatile("" : : "r"(shown) : "memory");
    }
}

/* Plays the reel once with every decoder, and keeps what ours shows; another picture or palette is an error. */
static void compare(const struct reel *reel, struct player **players, struct state *states)
{
    struct state seen = blank_state(reel->width, reel->height);
    for (unsigned i = 0; i <= reel->frames; i++) {
        states[i] = blank_state(reel->width, reel->height);
        for (int d = 0; d < SHOWING; d++) {
            decoders[d]->play(players[d], i);
            decoders[d]->show(players[d], d == 0 ? &states[i] : &seen);
            if (d > 0 && (memcmp(seen.picture, states[i].picture, (size_t)reel->width * reel->height) != 0 ||
                          memcmp(seen.palette, states[i].palette, PALETTE) != 0))
                fail(decoders[d]->name, "this decoder shows another picture or palette than ours");
        }
    }
    free_state(&seen);
}

static unsigned time_reel(const struct reel *reel, double least[COLUMNS])
{
    struct player *players[DECODERS];
    struct state *states = room((reel->frames + 1) * sizeof *states);
    struct state pairs[2] = {blank_state(reel->width, reel->height), blank_state(reel->width, reel->height)};
    for (int d = 0; d < DECODERS; d++)
        players[d] = decoders[d]->open(reel);
    compare(reel, players, states);
    size_t pixels = (size_t)reel->width * reel->height;
    unsigned rounds = 0;
    double begin = seconds();
    for (; rounds < LEAST_ROUNDS || seconds() - begin < REEL_SECONDS; rounds++) {
        for (int column = 0; column < COLUMNS; column++) {
            double start = seconds();
            if (column < DECODERS)
                play_lap(decoders[column], players[column], reel->frames);
            else if (column == COPYING)
                copy_lap(&pairs[0], states, reel->frames, pixels);
            else
                check_bytes(reel->bytes, reel->size, pixels, pairs);
            keep_least(&least[column], (seconds() - start) / (reel->frames + (column == CHECKING)));
        }
    }
    return rounds;
}

static void print_row(const char *file, const double least[COLUMNS], unsigned rounds)
{
    const char *slash = strrchr(file, '/'), *name = slash == NULL ? file : slash + 1;
    printf("%-12s", name);
    for (int column = 0; column < COLUMNS; column++)
        printf(" %8.2f", 1e6 * least[column]);
    printf(" %8.2f %8.2f %8.2f %8u\n", least[OURS] / least[LIBAV], least[OURS] / least[HELD],
           least[OURS] / least[PLAIN], rounds);
    fflush(stdout);
}

int main(int count, char **names)
{
    unsigned version = avcodec_version();
    printf("Decoding, microseconds a frame, by libavcodec %u.%u.%u with the frame that shows let go and held; pass 1 is\n"
           "ours on frames that are refused at their very end, check a frame of the whole-reel check. Then ours over others.\n",
           version >> 16, version >> 8 & 255, version & 255);
    printf("%-12s %8s %8s %8s %8s %8s %8s %8s %8s %8s %8s %8s\n", "reel", "ours", "libav", "held", "plain C", "pass 1",
           "memcpy", "check", "/libav", "/held", "/plain", "rounds");
    for (int i = 1; i < count; i++) {
        double least[COLUMNS] = {0};
        struct reel reel = loaded_reel(names[i]);
        unsigned rounds = time_reel(&reel, least);
        print_row(names[i], least, rounds);
    }
    return 0;
}
