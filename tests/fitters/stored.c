/* Plays the stored reels three laps with the library and compares each frame with the digests of what outside
 * decoders showed of it. */
#include <stdio.h>
#include <stdlib.h>
#include <string.h>
#include <unistd.h>

#include "player.h"

enum { DIGEST = 17, NAME = 64, LINE = 256 };

typedef struct {
    char picture[DIGEST], palette[DIGEST], palette_of_64_levels[DIGEST];
} frame_digests;

typedef struct {
    char name[NAME];
    size_t count;
    frame_digests *frames;
} played_reel;

static void digest(char *out, const uint8_t *bytes, size_t length, int divisor)
{
    uint64_t hash = 0xCBF29CE484222325;
    for (size_t i = 0; i < length; i++)
        hash = (hash ^ bytes[i] / divisor) * 0x100000001B3;
    snprintf(out, DIGEST, "%016llx", (unsigned long long)hash);
}

static void keep_digests(void *context, size_t number, const uint8_t *picture, size_t pixels, const uint8_t *palette)
{
    played_reel *reel = context;
    frame_digests *frame = &reel->frames[number - 1];
    digest(frame->picture, picture, pixels, 1);
    digest(frame->palette, palette, PALETTE_BYTES, 1);
    digest(frame->palette_of_64_levels, palette, PALETTE_BYTES, 4);
    reel->count = number;
}

static int play(played_reel *played, const char *folder, const char *name)
{
    char path[LINE * 2];
    reel_file reel;
    snprintf(path, sizeof path, "%s/%s.fli", folder, name);
    if (access(path, F_OK) != 0)
        snprintf(path, sizeof path, "%s/%s.flc", folder, name);
    if (!open_reel_file(path, &reel))
        return 0;
    snprintf(played->name, NAME, "%s", name);
    free(played->frames);
    played->frames = calloc(3 * reel.header.frames + 1, sizeof(frame_digests));
    played->count = 0;
    int accepted = play_three_laps(path, &reel, keep_digests, played);
    free(reel.bytes);
    return accepted;
}

/* A part that no decoder showed stands as '-'. */
static int same(const char *wanted, const char *have)
{
    return strcmp(wanted, "-") == 0 || strcmp(wanted, have) == 0;
}

int main(int count, char **words)
{
    FILE *file = count == 3 ? fopen(words[1], "r") : NULL;
    if (file == NULL) {
        fprintf(stderr, "use: stored DIGESTS FOLDER\n");
        return 2;
    }
    played_reel played = {0};
    char line[LINE], name[NAME], picture[DIGEST], picture_by[4], palette[DIGEST], palette_by[4];
    size_t frames = 0, differences = 0, number, stored = 0;
    while (fgets(line, sizeof line, file) != NULL) {
        if (line[0] == '#' || sscanf(line, "end %zu", &stored) == 1)
            continue;
        if (sscanf(line, "%63s %zu %16s %3s %16s %3s", name, &number, picture, picture_by, palette, palette_by) != 6) {
            fprintf(stderr, "%s: can't be read: %s", words[1], line);
            return 1;
        }
        frames++;
        if (strcmp(name, played.name) != 0 && !play(&played, words[2], name))
            return 1;
        frame_digests none = {"no frame", "no frame", "no frame"};
        frame_digests *have = number >= 1 && number <= played.count ? &played.frames[number - 1] : &none;
        const char *our_palette = strcmp(palette_by, "a") == 0 ? have->palette_of_64_levels : have->palette;
        if (!same(picture, have->picture) || !same(palette, our_palette)) {
            differences++;
            printf("%s frame %zu: picture %s instead of %s, palette %s instead of %s\n", name, number,
                   have->picture, picture, our_palette, palette);
        }
    }
    if (frames == 0 || frames != stored) {
        fprintf(stderr, "%s: %zu frames, and its last line says %zu\n", words[1], frames, stored);
        return 1;
    }
    printf("%zu frames as the outside decoders showed them, %zu differences\n", frames, differences);
    return differences == 0 ? 0 : 1;
}
