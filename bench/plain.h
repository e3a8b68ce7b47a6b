/* A plain frame decoder for comparison: checks and writes in one pass, so that a refused frame is half drawn. */
#ifndef PLAIN_H
#define PLAIN_H

#include <stddef.h>
#include <stdint.h>

/* Reads a frame of flic.h's format against a picture of width * height bytes and a palette of 768, and changes both; 0 if
 * it is refused. */
int plain_read_frame(const uint8_t *bytes, size_t length, uint32_t format, unsigned width, unsigned height,
                     uint8_t *picture, uint8_t *palette);

#endif
