/* The plain decoder: every kind that the library reads, each test made once, right before what it guards. */
#include "plain.h"

#include <string.h>

#include "flic.h"

/* What is left to read. */
struct body {
    const uint8_t *at, *end;
};

static int has(const struct body *body, size_t bytes)
{
    return (size_t)(body->end - body->at) >= bytes;
}

static unsigned take_byte(struct body *body)
{
    return *body->at++;
}

static unsigned take_word(struct body *body)
{
    unsigned word = body->at[0] | body->at[1] << 8;
    body->at += 2;
    return word;
}

static size_t take_size(struct body *body)
{
    size_t low = take_word(body);
    return low | (size_t)take_word(body) << 16;
}

static const uint8_t *read_colour(struct body body, uint8_t *palette, int six)
{
    if (!has(&body, 2))
        return NULL;
    unsigned index = 0;
    for (unsigned packets = take_word(&body); packets > 0; packets--) {
        if (!has(&body, 2))
            return NULL;
        index += take_byte(&body);
        unsigned count = take_byte(&body);
        count = count == 0 ? 256 : count;
        if (index + count > 256 || !has(&body, 3 * count))
            return NULL;
        for (unsigned k = 0; k < 3 * count; k++) {
            unsigned level = take_byte(&body);
            if (six && level > 63)
                return NULL;
            palette[3 * index + k] = (uint8_t)(six ? 4 * level + level / 16 : level);
        }
        index += count;
    }
    return body.at;
}

static const uint8_t *read_brun(struct body body, uint8_t *picture, unsigned width, unsigned height)
{
    for (unsigned row = 0; row < height; row++) {
        if (!has(&body, 1))
            return NULL;
        body.at++;
        for (unsigned left = width; left > 0;) {
            if (!has(&body, 1))
                return NULL;
            int type = (int8_t)take_byte(&body);
            unsigned count = (unsigned)(type < 0 ? -type : type);
            if (count == 0 || count > left || !has(&body, type < 0 ? count : 1))
                return NULL;
            if (type < 0) {
                memcpy(picture, body.at, count);
                body.at += count;
            } else {
                memset(picture, (int)take_byte(&body), count);
            }
            picture += count;
            left -= count;
        }
    }
    return body.at;
}

static const uint8_t *read_lc(struct body body, uint8_t *picture, unsigned width, unsigned height)
{
    if (!has(&body, 4))
        return NULL;
    unsigned first = take_word(&body), rows = take_word(&body);
    if (first + rows > height)
        return NULL;
    for (uint8_t *line = picture + (size_t)first * width; rows > 0; rows--, line += width) {
        if (!has(&body, 1))
            return NULL;
        unsigned x = 0;
        for (unsigned packets = take_byte(&body); packets > 0; packets--) {
            if (!has(&body, 2))
                return NULL;
            x += take_byte(&body);
            int type = (int8_t)take_byte(&body);
            unsigned count = (unsigned)(type < 0 ? -type : type);
            if (x + count > width || !has(&body, type < 0 ? 1 : count))
                return NULL;
            if (type < 0) {
                memset(line + x, (int)take_byte(&body), count);
            } else {
                memcpy(line + x, body.at, count);
                body.at += count;
            }
            x += count;
        }
    }
    return body.at;
}

static int read_ss2_packets(struct body *body, uint8_t *line, unsigned width, unsigned packets)
{
    for (unsigned x = 0; packets > 0; packets--) {
        if (!has(body, 2))
            return 0;
        x += take_byte(body);
        int type = (int8_t)take_byte(body);
        unsigned count = 2 * (unsigned)(type < 0 ? -type : type);
        if (x + count > width || !has(body, type < 0 ? 2 : count))
            return 0;
        if (type < 0) {
            for (unsigned k = 0; k < count; k += 2)
                memcpy(line + x + k, body->at, 2);
            body->at += 2;
        } else {
            memcpy(line + x, body->at, count);
            body->at += count;
        }
        x += count;
    }
    return 1;
}

static const uint8_t *read_ss2(struct body body, uint8_t *picture, unsigned width, unsigned height)
{
    if (!has(&body, 2))
        return NULL;
    unsigned row = 0;
    for (unsigned lines = take_word(&body); lines > 0;) {
        if (!has(&body, 2))
            return NULL;
        unsigned word = take_word(&body);
        if (word >= 0xC000) {
            row += 65536 - word;
            if (row >= height)
                return NULL;
            continue;
        }
        if (row >= height)
            return NULL;
        uint8_t *line = picture + (size_t)row * width;
        if (word >= 0x8000) {
            line[width - 1] = (uint8_t)word;
            if (!has(&body, 2))
                return NULL;
            word = take_word(&body);
        }
        if (word >= 0x4000 || !read_ss2_packets(&body, line, width, word))
            return NULL;
        row++;
        lines--;
    }
    return body.at;
}

static const uint8_t *read_copy(struct body body, uint8_t *picture, size_t pixels)
{
    if (!has(&body, pixels))
        return NULL;
    memcpy(picture, body.at, pixels);
    return body.at + pixels;
}

/* The end of what a chunk's kind asks for. */
static const uint8_t *read_body(unsigned kind, struct body body, unsigned width, unsigned height, uint8_t *picture,
                                uint8_t *palette)
{
    switch (kind) {
    case 4:
        return read_colour(body, palette, 0);
    case 7:
        return read_ss2(body, picture, width, height);
    case 11:
        return read_colour(body, palette, 1);
    case 12:
        return read_lc(body, picture, width, height);
    case 13:
        memset(picture, 0, (size_t)width * height);
        return body.at;
    case 15:
        return read_brun(body, picture, width, height);
    case 16:
        return read_copy(body, picture, (size_t)width * height);
    default:
        return body.end;
    }
}

/* Behind its data a chunk has one byte at most. */
static int read_chunk(unsigned kind, struct body body, unsigned width, unsigned height, uint8_t *picture,
                      uint8_t *palette)
{
    const uint8_t *end = read_body(kind, body, width, height, picture, palette);
    return end != NULL && body.end - end <= 1;
}

int plain_read_frame(const uint8_t *bytes, size_t length, uint32_t format, unsigned width, unsigned height,
                     uint8_t *picture, uint8_t *palette)
{
    struct body frame = {bytes, bytes + length};
    if (!has(&frame, 16))
        return 0;
    size_t size = take_size(&frame);
    if (take_word(&frame) != 0xF1FA || size < 16 || size > length)
        return 0;
    unsigned chunks = take_word(&frame);
    frame = (struct body){bytes + 16, bytes + size};
    for (; chunks > 0; chunks--) {
        if (!has(&frame, 6))
            return 0;
        struct body body = {frame.at + 6, frame.end};
        size_t chunk = take_size(&frame);
        unsigned kind = take_word(&frame);
        if (chunk < 6 || !has(&body, chunk - 6) || (format == FLIC_FLI && (kind == 7 || kind == 18)))
            return 0;
        frame.at = body.end = body.at + (chunk - 6);
        if (!read_chunk(kind, body, width, height, picture, palette))
            return 0;
    }
    return 1;
}
