/* Plays a reel three laps with the library: the whole-reel check first, then each frame against what shows. */
#include "player.h"

#include <stdio.h>
#include <stdlib.h>

enum { LAPS = 3 };

/* Whether it is accepted; says what is refused and where. */
static int accepted(const char *path, uint32_t number, uint64_t place)
{
    if (number != 0)
        fprintf(stderr, "%s: refused %u at %llu\n", path, number, (unsigned long long)place);
    return number == 0;
}

int open_reel_file(const char *path, reel_file *reel)
{
    FILE *file = fopen(path, "rb");
    if (file == NULL || fseek(file, 0, SEEK_END) != 0) {
        perror(path);
        return 0;
    }
    reel->length = ftell(file);
    rewind(file);
    reel->bytes = malloc(reel->length + 1);
    size_t got = fread(reel->bytes, 1, reel->length, file);
    fclose(file);
    if (got != reel->length) {
        fprintf(stderr, "%s: can't be read whole\n", path);
        return 0;
    }
    reel->header = flic_read_header(reel->bytes, reel->length);
    return accepted(path, reel->header.number, reel->header.place);
}

static int check(const char *path, const reel_file *reel, size_t pixels)
{
    uint8_t *work = malloc(2 * (pixels + PALETTE_BYTES));
    uint8_t *second = work + pixels + PALETTE_BYTES;
    flic_answer answer = flic_check_reel(reel->bytes, reel->length, work, pixels, work + pixels, PALETTE_BYTES,
                                         second, pixels, second + pixels, PALETTE_BYTES);
    free(work);
    return accepted(path, answer.number, answer.place);
}

int play_three_laps(const char *path, const reel_file *reel, show_frame *show, void *context)
{
    const flic_header *header = &reel->header;
    size_t pixels = header->width * header->height;
    if (!check(path, reel, pixels))
        return 0;
    uint8_t *picture = calloc(pixels + PALETTE_BYTES, 1);
    uint8_t *palette = picture + pixels;
    uint64_t at = FLIC_FILE_HEADER, first_end = 0;
    int played = 1;
    for (size_t number = 1; number <= LAPS * header->frames + 1 && played; number++) {
        flic_span frame = flic_next_frame(reel->bytes, header->size, at);
        flic_answer answer = {frame.number, frame.place};
        if (frame.number == 0)
            answer = flic_read_frame(reel->bytes + frame.from, frame.end - frame.from, header->format, header->width,
                                     header->height, picture, pixels, palette, PALETTE_BYTES);
        played = accepted(path, answer.number, answer.place);
        if (number == 1)
            first_end = frame.end;
        at = (number - 1) % header->frames == 0 ? first_end : frame.end;
        if (played)
            show(context, number, picture, pixels, palette);
    }
    free(picture);
    return played;
}
