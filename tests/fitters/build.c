/* Builds a reel in house form with the library from states on standard input: format, width, height, frames and speed
 * (of an FLI in jiffies) as words of 4 bytes, then each frame's pixels and palette. */
#include <stdio.h>
#include <stdlib.h>

#include "flic.h"

enum { PALETTE_BYTES = 768, FILE_HEADER = 128 };

static uint32_t read_word(void)
{
    uint8_t b[4] = {0};
    if (fread(b, 1, 4, stdin) != 4)
        exit(2);
    return b[0] | b[1] << 8 | b[2] << 16 | (uint32_t)b[3] << 24;
}

int main(void)
{
    uint32_t format = read_word(), width = read_word(), height = read_word(), frames = read_word(), speed = read_word();
    size_t pixels = (size_t)width * height, state = pixels + PALETTE_BYTES;
    uint8_t *states = calloc(frames + 1, state);
    uint8_t *work = malloc(2 * state);
    size_t room = FILE_HEADER + (frames + 1) * (size_t)FLIC_FRAME_MOST;
    uint8_t *file = calloc(room, 1);
    if (fread(states + state, state, frames, stdin) != frames)
        return 2;
    flic_reel_answer r = (format == FLIC_FLI ? flic_open_fli : flic_open_reel)(width, height, speed, file, room);
    for (uint32_t i = 0; i < frames && r.number == 0; i++) {
        uint8_t *shown = states + i * state, *next = shown + state;
        r = flic_add_frame(r.reel, file, room, shown, pixels, shown + pixels, PALETTE_BYTES,
                           next, pixels, next + pixels, PALETTE_BYTES);
    }
    if (r.number == 0)
        r = flic_close_reel(r.reel, file, room, work, pixels, work + pixels, PALETTE_BYTES,
                            work + state, pixels, work + state + pixels, PALETTE_BYTES);
    if (r.number != 0) {
        fprintf(stderr, "build: refused %u\n", r.number);
        return 1;
    }
    return fwrite(file, 1, r.reel.end, stdout) == r.reel.end ? 0 : 2;
}
