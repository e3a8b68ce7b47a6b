/* Tile maps against a plain loop in C and against memcmp of the two pictures: the fastest of interleaved rounds, as tables. */
#include <stdio.h>
#include <stdlib.h>
#include <string.h>

#include "clock.h"
#include "flic.h"
#include "reel.h"
#include "scenes.h"

#define ROUNDS 200
#define ROWS 25

/* Pictures from one to the next, and the least times of a map between two of them, in seconds. */
struct maps {
    unsigned width, height, count, repeats;
    uint8_t *pictures;
    double ours, plain, compare;
};

static uint64_t words[ROWS], plain_words[ROWS];

/* Looked up at each call, so that no compiler knows what is compared. */
static int (*volatile compare)(const void *, const void *, size_t) = memcmp;
static volatile int differs;

static size_t pixels(const struct maps *maps) { return (size_t)maps->width * maps->height; }

static const uint8_t *picture(const struct maps *maps, unsigned i)
{
    return maps->pictures + (i % maps->count) * pixels(maps);
}

/* The map as one would write it: each pixel compared by itself, its tile found by dividing. */
static void __attribute__((noinline)) plain_map(unsigned width, unsigned height, const uint8_t *previous, const uint8_t *next)
{
    memset(plain_words, 0, sizeof plain_words);
    for (unsigned y = 0; y < height; y++)
        for (unsigned x = 0; x < width; x++)
            if (previous[y * width + x] != next[y * width + x])
                plain_words[y / 8] |= (uint64_t)1 << x / 8;
}

static void ours(const struct maps *maps, unsigned i)
{
    size_t n = pixels(maps);
    flic_tile_map(maps->width, maps->height, picture(maps, i), n, picture(maps, i + 1), n, words, ROWS);
}

/* How many tiles a lap marks; ends the program where the plain loop marks others. */
static unsigned marked(const struct maps *maps)
{
    unsigned count = 0;
    for (unsigned i = 0; i < maps->count; i++) {
        memset(words, 0, sizeof words);
        ours(maps, i);
        plain_map(maps->width, maps->height, picture(maps, i), picture(maps, i + 1));
        if (memcmp(words, plain_words, sizeof words) != 0) {
            fprintf(stderr, "tiles: the plain loop marks other tiles\n");
            exit(1);
        }
        for (unsigned j = 0; j < ROWS; j++) count += flic_marked_tiles(words[j]).count;
    }
    return count;
}

static void measure(struct maps *maps)
{
    unsigned calls = maps->count * maps->repeats;
    for (unsigned round = 0; round < ROUNDS; round++) {
        double start = seconds();
        for (unsigned i = 0; i < calls; i++) ours(maps, i);
        double mapped = seconds();
        for (unsigned i = 0; i < calls; i++)
            differs = compare(picture(maps, i), picture(maps, i + 1), pixels(maps));
        double compared = seconds();
        for (unsigned i = 0; i < calls && round < ROUNDS / 10; i++)
            plain_map(maps->width, maps->height, picture(maps, i), picture(maps, i + 1));
        keep_least(&maps->ours, (mapped - start) / calls);
        keep_least(&maps->compare, (compared - mapped) / calls);
        if (round < ROUNDS / 10) keep_least(&maps->plain, (seconds() - compared) / calls);
    }
}

/* A picture and the same with its last pixel changed: memcmp goes through all of it. */
static struct maps nearly_equal(unsigned width, unsigned height)
{
    struct maps maps = {.width = width, .height = height, .count = 2, .repeats = 1 + 2000000 / (width * height)};
    maps.pictures = room(2 * pixels(&maps));
    for (size_t i = 0; i < pixels(&maps); i++) maps.pictures[i] = (uint8_t)(i * 2654435761u >> 13);
    memcpy(maps.pictures + pixels(&maps), maps.pictures, pixels(&maps));
    maps.pictures[2 * pixels(&maps) - 1] ^= 1;
    return maps;
}

static struct maps of_scene(enum scene scene)
{
    struct maps maps = {.width = 320, .height = 200, .count = SCENE_FRAMES, .repeats = 1};
    uint8_t palette[PALETTE];
    maps.pictures = room(SCENE_FRAMES * pixels(&maps));
    for (unsigned i = 0; i < SCENE_FRAMES; i++)
        set_scene(scene, maps.width, maps.height, i, maps.pictures + i * pixels(&maps), palette);
    return maps;
}

int main(void)
{
    static const unsigned sizes[][2] = {{320, 200}, {319, 199}, {313, 193}, {160, 200}, {160, 100}, {80, 50}, {40, 25}, {8, 8}};
    printf("Tile maps of pictures equal but for the last pixel: microseconds, then ours over others and nanoseconds a pixel.\n");
    printf("%-10s %9s %9s %9s %9s %9s %9s\n", "size", "ours", "memcmp", "plain C", "/memcmp", "/plain", "ns/pixel");
    for (unsigned i = 0; i < sizeof sizes / sizeof *sizes; i++) {
        struct maps maps = nearly_equal(sizes[i][0], sizes[i][1]);
        marked(&maps);
        measure(&maps);
        printf("%3u by %-3u %9.3f %9.3f %9.3f %9.2f %9.2f %9.4f\n", maps.width, maps.height, 1e6 * maps.ours, 1e6 * maps.compare,
               1e6 * maps.plain, maps.ours / maps.compare, maps.ours / maps.plain, 1e9 * maps.ours / (double)pixels(&maps));
        free(maps.pictures);
    }
    printf("\nFrom frame to frame of the eight reels, 320 by 200: microseconds, ours over the plain loop, tiles marked of 1000.\n");
    printf("%-10s %9s %9s %9s %9s\n", "reel", "ours", "plain C", "/plain", "tiles");
    for (enum scene scene = 0; scene < SCENES; scene++) {
        struct maps maps = of_scene(scene);
        unsigned tiles = marked(&maps);
        measure(&maps);
        printf("%-10s %9.3f %9.3f %9.2f %9.1f\n", scene_names[scene], 1e6 * maps.ours, 1e6 * maps.plain, maps.ours / maps.plain,
               (double)tiles / SCENE_FRAMES);
        free(maps.pictures);
    }
    return 0;
}
