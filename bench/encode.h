/* Deltas as other tools store them in an FLC and house form never does: kind 12, and kind 7 where a full chunk is
 * shorter. */
#ifndef ENCODE_H
#define ENCODE_H

#include <stddef.h>
#include <stdint.h>

enum { SS2 = 7, LC = 12 };

/* No frame of 320 by 200 has more bytes in either kind: a packet of three bytes for every other pixel, and headers. */
#define ENCODED_MOST 100000

/* Writes the frame that leads from one picture to another by one chunk of this kind; answers its size. The width is
 * even. */
size_t encode_frame(unsigned kind, unsigned width, unsigned height, const uint8_t *from, const uint8_t *to,
                    uint8_t *out);

#endif
