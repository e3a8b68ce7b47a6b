/* The deltas of kinds 7 and 12: packets for the stretches of units that changed, runs repeated and the rest copied. */
#include "encode.h"

#include <string.h>

#include "reel.h"

#define MOST_UNITS 127

/* How many pixels a unit has, how many equal units are repeated, and the longest skip. */
struct form {
    unsigned unit, least_repeat, most_skip;
};

static const struct form pairs = {2, 2, 254}, pixels = {1, 3, 255};

static uint8_t *put_word(uint8_t *at, unsigned word)
{
    at[0] = (uint8_t)word;
    at[1] = (uint8_t)(word >> 8);
    return at + 2;
}

static uint8_t *put_size(uint8_t *at, size_t size)
{
    return put_word(put_word(at, size & 0xFFFF), (unsigned)(size >> 16));
}

/* How many units are equal to the first. */
static unsigned equal_units(const struct form *form, const uint8_t *units, unsigned count)
{
    unsigned equal = 1;
    while (equal < count && memcmp(units, units + equal * form->unit, form->unit) == 0)
        equal++;
    return equal;
}

/* How many units stand before the next repeat. */
static unsigned copied_units(const struct form *form, const uint8_t *units, unsigned count)
{
    unsigned copied = 1;
    while (copied < count &&
           equal_units(form, units + copied * form->unit, count - copied) < form->least_repeat)
        copied++;
    return copied;
}

static unsigned least(unsigned a, unsigned b)
{
    return a < b ? a : b;
}

/* The packets of a stretch of changed units that stands after so many pixels. */
static uint8_t *put_stretch(uint8_t *at, const struct form *form, unsigned skip, const uint8_t *units, unsigned count,
                            unsigned *packets)
{
    for (; skip > form->most_skip; skip -= form->most_skip, ++*packets) {
        *at++ = (uint8_t)form->most_skip;
        *at++ = 0;
    }
    while (count > 0) {
        unsigned equal = equal_units(form, units, least(count, MOST_UNITS));
        unsigned repeated = equal >= form->least_repeat;
        unsigned taken = repeated ? equal : copied_units(form, units, least(count, MOST_UNITS));
        unsigned stored = form->unit * (repeated ? 1 : taken);
        *at++ = (uint8_t)skip;
        *at++ = (uint8_t)(repeated ? 256 - taken : taken);
        memcpy(at, units, stored);
        at += stored;
        units += form->unit * taken;
        count -= taken;
        skip = 0;
        ++*packets;
    }
    return at;
}

/* The packets of a row, and how many they are. */
static uint8_t *put_row(uint8_t *at, const struct form *form, unsigned width, const uint8_t *from, const uint8_t *to,
                        unsigned *packets)
{
    unsigned unit = form->unit, shown = 0;
    *packets = 0;
    for (unsigned x = 0, end; x < width; x = end) {
        for (end = x; end < width && memcmp(from + end, to + end, unit) != 0; end += unit)
            ;
        if (end == x) {
            end += unit;
            continue;
        }
        at = put_stretch(at, form, x - shown, to + x, (end - x) / unit, packets);
        shown = end;
    }
    return at;
}

/* Kind 7: how many rows changed, and each of them, with the rows between them skipped. */
static uint8_t *put_ss2(uint8_t *at, unsigned width, unsigned height, const uint8_t *from, const uint8_t *to)
{
    uint8_t *count_at = at;
    unsigned rows = 0, skipped = 0, packets;
    at += 2;
    for (unsigned y = 0; y < height; y++, from += width, to += width) {
        if (memcmp(from, to, width) == 0) {
            skipped++;
            continue;
        }
        if (skipped > 0)
            at = put_word(at, 65536 - skipped);
        uint8_t *row_at = at;
        at = put_row(at + 2, &pairs, width, from, to, &packets);
        put_word(row_at, packets);
        skipped = 0;
        rows++;
    }
    put_word(count_at, rows);
    return at;
}

/* Kind 12: the first row that changed, how many rows there are up to the last one, and each of them. */
static uint8_t *put_lc(uint8_t *at, unsigned width, unsigned height, const uint8_t *from, const uint8_t *to)
{
    unsigned first = 0, end = height, packets;
    while (first < end && memcmp(from + first * width, to + first * width, width) == 0)
        first++;
    while (first < end && memcmp(from + (end - 1) * width, to + (end - 1) * width, width) == 0)
        end--;
    at = put_word(put_word(at, first), end - first);
    for (unsigned y = first; y < end; y++) {
        uint8_t *row_at = at;
        at = put_row(at + 1, &pixels, width, from + y * width, to + y * width, &packets);
        if (packets > 255)
            fail("a row of kind 12 has more than 255 packets", "choose another scene");
        *row_at = (uint8_t)packets;
    }
    return at;
}

size_t encode_frame(unsigned kind, unsigned width, unsigned height, const uint8_t *from, const uint8_t *to,
                    uint8_t *out)
{
    uint8_t *chunk = out + 16, *body = chunk + 6;
    uint8_t *end = (kind == SS2 ? put_ss2 : put_lc)(body, width, height, from, to);
    put_word(put_size(chunk, (size_t)(end - chunk)), kind);
    memset(out, 0, 16);
    put_word(put_word(put_size(out, (size_t)(end - out)), 0xF1FA), 1);
    return (size_t)(end - out);
}
