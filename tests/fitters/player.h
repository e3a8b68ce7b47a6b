/* Plays a reel three laps through the C boundary: frames 1 to the ring, then 2 to the ring twice more. */
#ifndef PLAYER_H
#define PLAYER_H

#include "flic.h"

enum { PALETTE_BYTES = FLIC_PALETTE };

typedef struct {
    uint8_t *bytes;
    size_t length;
    flic_header header;
} reel_file;

typedef void show_frame(void *context, size_t number, const uint8_t *picture, size_t pixels, const uint8_t *palette);

/* Gives 0 if the file can't be read or the library refuses its header; says why. */
int open_reel_file(const char *path, reel_file *reel);

/* Gives 0 if the library refuses the reel or a frame of it; says where. */
int play_three_laps(const char *path, const reel_file *reel, show_frame *show, void *context);

#endif
