/* Slices that end or begin at a page which may be neither read nor written; beside them, bytes that must stay. */
#ifndef GUARDED_H
#define GUARDED_H

#include <stddef.h>
#include <stdint.h>

typedef struct {
    uint8_t *bytes;
    size_t length;
    /* What the slice held when it was lent. */
    const uint8_t *before;
} lent;

/* Takes all slices back. */
void lend_anew(void);

/* Lends a copy of the content, or bytes of 0xEE for NULL, that begins at a guard page, or else ends at one. */
lent lend(const uint8_t *content, size_t length, int begins);

int unchanged(const lent *slice);

/* From this byte on. */
int unchanged_from(const lent *slice, size_t from);

/* No byte beside a lent slice was written. */
int neighbours_hold(void);

#endif
