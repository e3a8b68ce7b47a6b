/* The pictures of the reels: each gives the chunks that it is named for, whatever the frame's number. */
#include "scenes.h"

const char *const scene_names[SCENES] = {"board", "dense", "text", "texture", "noise", "scroll", "busy", "animator"};

static uint32_t spread(uint32_t a, uint32_t b, uint32_t c)
{
    uint32_t z = a * 0x9E3779B1u ^ b * 0x85EBCA77u ^ c * 0xC2B2AE3Du;
    z = (z ^ z >> 15) * 0x2C1B3C6Du;
    z = (z ^ z >> 12) * 0x297A2D39u;
    return z ^ z >> 15;
}

/* Letters of 5 by 7 in cells of 6 by 10, times size: 1 where there is ink. Every fifth letter is a blank. */
static int ink(unsigned line, unsigned x, unsigned y, unsigned size)
{
    unsigned column = x / size % 6, row = y / size % 10, letter = spread(x / size / 6, line, 1);
    if (letter % 5 == 0 || column == 5 || row > 6)
        return 0;
    return column == letter % 4 || (row == letter / 8 % 7 && column > 0) || (row == 0 && letter & 64);
}

/* Six lines of a dish and a price, and a lamp, laid out for 320 by 200 and scaled to other sizes. In a frame one price
 * changes, on a busy board five. */
static uint8_t board_pixel(unsigned x, unsigned y, unsigned i, int busy)
{
    unsigned line = y / 30, price = busy && line > 0 ? i : (i + line) / 6 % 8;
    unsigned shown = x >= 252 && x < 300 ? 100 + line + 8 * price : line;
    if (y >= 182 && y < 198 && x / 24 == i % 12)
        return (uint8_t)(80 + (x + y) % 4);
    return (uint8_t)(line < 6 && ink(shown, x, y % 30, 2) ? 65 + line : 16 + line % 2);
}

/* Each frame prices change, the lamp of 24 by 16 moves on, and 32 colours fade. */
static void set_board(unsigned width, unsigned height, unsigned i, int busy, uint8_t *picture, uint8_t *palette)
{
    for (unsigned y = 0; y < height; y++)
        for (unsigned x = 0; x < width; x++)
            picture[y * width + x] = board_pixel(x * 320 / width, y * 200 / height, i, busy);
    unsigned step = i % 24, light = step < 12 ? step : 24 - step;
    for (unsigned k = 192; k < 288; k++)
        palette[k] = (uint8_t)(20 * light + k % 16);
}

static uint8_t dense_pixel(unsigned at, unsigned i)
{
    unsigned altered = spread(at / 2, i, 3) % 16 == 0;
    return (uint8_t)(spread(at, 0, 4) ^ (altered ? 1 + i % 255 : 0));
}

/* Letters of 10 by 14 on a ground whose colour goes up with them. */
static uint8_t text_pixel(unsigned width, unsigned at, unsigned i)
{
    unsigned x = at % width, y = at / width + i, line = y / 20;
    unsigned first = spread(line, 0, 5) % 96, after = 224 + spread(line, 0, 6) % 96;
    return x >= first && x < after && ink(line, x, y, 2) ? 1 : (uint8_t)(16 + y % 64);
}

/* Letters of 5 by 7 on a plain ground, which go up by a page a frame: no row of packets comes twice. */
static uint8_t scroll_pixel(unsigned width, unsigned at, unsigned i)
{
    unsigned x = at % width, y = at / width + 200 * i;
    return ink(y / 10, x, y, 1) ? 1 : 16;
}

/* Three shaded balls that roll to and fro over a ground of bands. */
static uint8_t animator_pixel(unsigned width, unsigned at, unsigned i)
{
    static const struct { int x, y, dx, dy; } balls[3] = {{70, 60, 3, 1}, {250, 90, -4, -1}, {130, 130, 2, -2}};
    int x = (int)(at % width), y = (int)(at / width), step = (int)(i < 24 ? i : 48 - i);
    for (unsigned k = 0; k < 3; k++) {
        int right = x - balls[k].x - balls[k].dx * step, down = y - balls[k].y - balls[k].dy * step;
        int square = right * right + down * down;
        if (square < 2500)
            return (uint8_t)(32 + 16 * k + (unsigned)square / 500);
    }
    return (uint8_t)(16 + y / 25);
}

/* Runs of one to three pixels, most of them of three, new in every frame. */
static void set_texture(unsigned width, unsigned height, unsigned i, uint8_t *picture)
{
    static const uint8_t lengths[8] = {1, 2, 2, 3, 3, 3, 3, 3};
    for (unsigned y = 0; y < height; y++) {
        unsigned left = 0, run = 0;
        uint8_t pixel = 0;
        for (unsigned x = 0; x < width; x++) {
            if (left == 0) {
                uint32_t drawn = spread(run++, y, i + 7);
                left = lengths[drawn % 8];
                pixel = (uint8_t)(drawn >> 8);
            }
            picture[y * width + x] = pixel;
            left--;
        }
    }
}

void set_scene(enum scene scene, unsigned width, unsigned height, unsigned i, uint8_t *picture, uint8_t *palette)
{
    unsigned pixels = width * height;
    for (unsigned k = 0; k < 768; k++)
        palette[k] = (uint8_t)spread(k, 0, 2);
    switch (scene) {
    case BOARD:
    case BUSY:
        set_board(width, height, i, scene == BUSY, picture, palette);
        break;
    case DENSE:
        for (unsigned at = 0; at < pixels; at++)
            picture[at] = dense_pixel(at, i);
        break;
    case TEXT:
        for (unsigned at = 0; at < pixels; at++)
            picture[at] = text_pixel(width, at, i);
        break;
    case TEXTURE:
        set_texture(width, height, i, picture);
        break;
    case SCROLL:
        for (unsigned at = 0; at < pixels; at++)
            picture[at] = scroll_pixel(width, at, i);
        break;
    case ANIMATOR:
        for (unsigned at = 0; at < pixels; at++)
            picture[at] = animator_pixel(width, at, i);
        break;
    default:
        for (unsigned at = 0; at < pixels; at++)
            picture[at] = (uint8_t)spread(at, i, 8);
    }
}
