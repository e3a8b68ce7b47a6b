/* Plays frame files of an FLC one after the other, from blank, shows each picture in the terminal, and says how long
 * the frame would be in house form. Usage: show_frames WIDTH HEIGHT FILE.. */
#include <stdio.h>
#include <stdlib.h>
#include <string.h>

#include "flic.h"

/* What to do about each refusal that reading a frame can give; the whole table is docs/REFUSALS.md. */
static const char *advice(uint32_t number)
{
    switch (number) {
    case 1: return "the picture or palette buffer is too short";
    case 2: return "width must be 1 to 320 and height 1 to 200";
    case 4: return "the file was cut short: copy it anew";
    case 5: return "this is no frame: check which file it is";
    case 9: case 10: return "the frame is for a larger picture, or damaged";
    default: return "the bytes are damaged: copy the file anew";
    }
}

static unsigned char *whole_file(const char *name, size_t *length)
{
    FILE *f = fopen(name, "rb");
    if (f == NULL) {
        perror(name);
        exit(1);
    }
    size_t room = 1 << 20, n = 0, got;
    unsigned char *bytes = malloc(room);
    while (bytes != NULL && (got = fread(bytes + n, 1, room - n, f)) > 0) {
        n += got;
        if (n == room) {
            room *= 2;
            bytes = realloc(bytes, room);
        }
    }
    if (bytes == NULL || ferror(f)) {
        fprintf(stderr, "%s: can't be read whole\n", name);
        exit(1);
    }
    fclose(f);
    *length = n;
    return bytes;
}

static void show(const uint8_t *picture, uint64_t width, uint64_t height)
{
    static const char shades[] = " #=*+%@&";
    for (uint64_t y = 0; y < height; y++) {
        for (uint64_t x = 0; x < width; x++)
            putchar(shades[picture[y * width + x] % 8]);
        putchar('\n');
    }
}

int main(int count, char **words)
{
    if (count < 4) {
        fprintf(stderr, "usage: %s WIDTH HEIGHT FILE..\n", words[0]);
        return 2;
    }
    uint64_t width = strtoull(words[1], NULL, 10), height = strtoull(words[2], NULL, 10);
    static uint8_t picture[320 * 200], palette[768], work_picture[320 * 200], work_palette[768], out[FLIC_FRAME_MOST];
    for (int i = 3; i < count; i++) {
        size_t n;
        unsigned char *bytes = whole_file(words[i], &n);
        flic_written house = flic_rewrite_frame(bytes, n, FLIC_FLC, width, height, picture, sizeof picture, palette,
                                                sizeof palette, work_picture, sizeof work_picture, work_palette,
                                                sizeof work_palette, out, sizeof out);
        flic_answer a = flic_read_frame(bytes, n, FLIC_FLC, width, height, picture, sizeof picture, palette,
                                        sizeof palette);
        free(bytes);
        if (a.number != 0) {
            printf("%s: refused %u at offset %llu: %s; the picture stays as it was\n", words[i], a.number,
                   (unsigned long long)a.place, advice(a.number));
        } else {
            printf("%s: %zu bytes, in house form %llu\n", words[i], n, (unsigned long long)house.length);
            show(picture, width, height);
        }
    }
    return 0;
}
