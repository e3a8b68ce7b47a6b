/* The pictures of the reels, at any size, for the benchmark. */
#ifndef SCENES_H
#define SCENES_H

#include <stdint.h>

enum scene { BOARD, DENSE, TEXT, TEXTURE, NOISE, SCROLL, BUSY, ANIMATOR, SCENES };

/* After so many frames the boards and the balls are back at their first state. */
#define SCENE_FRAMES 48

extern const char *const scene_names[SCENES];

/* Sets frame i's picture (width * height bytes) and palette (768 bytes). */
void set_scene(enum scene scene, unsigned width, unsigned height, unsigned i, uint8_t *picture, uint8_t *palette);

#endif
