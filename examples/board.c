/* A board in a window: plays a reel, FLC or FLI, after SDL's clock, lap after lap, until the window is closed or q is
 * pressed.
 * A frame redraws only the tiles of 8 by 8 pixels in which it changes a pixel or its colour, as slow panels do.
 * A pixel is a square of SCALE by SCALE, 3 if none is given. Usage: board FILE [SCALE]
 *
 *     gcc -O2 -Iinclude -o board examples/board.c target/staticlib/libcapi.a $(sdl2-config --cflags --libs) */
#include <SDL.h>
#include <stdio.h>
#include <stdlib.h>
#include <string.h>

#include "flic.h"

#define TILE 8

/* What each tick changes in place, and what the panel shows. */
static uint8_t picture[320 * 200], palette[768], shown_picture[320 * 200], shown_palette[768];

/* How many tiles the frames redrew, and how many they have. */
static unsigned long redrawn, met;

static int failed(const char *what)
{
    fprintf(stderr, "board: %s: %s\n", what, SDL_GetError());
    return 1;
}

/* Draws a tile of the picture in the window, through a surface that has the window's colours. */
static int draw_tile(SDL_Surface *indexed, SDL_Surface *coloured, SDL_Surface *screen, int scale, SDL_Rect tile)
{
    SDL_Rect same = tile, scaled = {tile.x * scale, tile.y * scale, tile.w * scale, tile.h * scale};
    return SDL_BlitSurface(indexed, &tile, coloured, &same) == 0 &&
           SDL_BlitScaled(coloured, &tile, screen, &scaled) == 0;
}

/* Draws the tiles that are marked in a word for each row of them. */
static int draw_marked(SDL_Surface *indexed, SDL_Surface *coloured, SDL_Surface *screen, int scale, uint64_t *words)
{
    for (int y = 0; y < indexed->h; y += TILE) {
        uint64_t word = words[y / TILE];
        flic_tile_row row = flic_marked_tiles(word);
        for (int i = (int)row.first; row.count != 0 && i <= (int)row.last; i++) {
            int x = i * TILE, wide = SDL_min(TILE, indexed->w - x), high = SDL_min(TILE, indexed->h - y);
            if ((word >> i & 1) == 0) continue;
            if (!draw_tile(indexed, coloured, screen, scale, (SDL_Rect){x, y, wide, high})) return 0;
        }
    }
    return 1;
}

/* Marks the tiles that differ from what the panel shows; a pixel whose colour changes is made to differ. */
static void mark(int width, int height, uint64_t *words)
{
    for (int i = 0; i < width * height; i++)
        if (memcmp(palette + 3 * picture[i], shown_palette + 3 * picture[i], 3) != 0)
            shown_picture[i] = (uint8_t)~picture[i];
    flic_tile_map(width, height, shown_picture, sizeof shown_picture, picture, sizeof picture, words, 25);
    for (int j = 0; j < (height + TILE - 1) / TILE; j++) redrawn += flic_marked_tiles(words[j]).count;
    met += (unsigned long)((width + TILE - 1) / TILE * ((height + TILE - 1) / TILE));
}

/* Shows the picture in the window: the tiles that a frame changed, or all of them. */
static int show(SDL_Window *window, SDL_Surface *indexed, int scale, int all)
{
    uint64_t words[25];
    if (all)
        for (int j = 0; j < 25; j++) words[j] = ((uint64_t)1 << (indexed->w + TILE - 1) / TILE) - 1;
    else
        mark(indexed->w, indexed->h, words);
    SDL_Color colours[256];
    for (int i = 0; i < 256; i++)
        colours[i] = (SDL_Color){palette[3 * i], palette[3 * i + 1], palette[3 * i + 2], 255};
    SDL_Surface *screen = SDL_GetWindowSurface(window), *coloured = NULL;
    if (screen != NULL)
        coloured = SDL_CreateRGBSurfaceWithFormat(0, indexed->w, indexed->h, 32, screen->format->format);
    int done = coloured != NULL && SDL_SetPaletteColors(indexed->format->palette, colours, 0, 256) == 0 &&
               draw_marked(indexed, coloured, screen, scale, words) && SDL_UpdateWindowSurface(window) == 0;
    SDL_FreeSurface(coloured);
    memcpy(shown_picture, picture, sizeof picture);
    memcpy(shown_palette, palette, sizeof palette);
    return done;
}

static int is_end(const SDL_Event *event)
{
    return event->type == SDL_QUIT || (event->type == SDL_KEYDOWN && event->key.keysym.sym == SDLK_q);
}

int main(int count, char **words)
{
    int scale = count == 3 ? atoi(words[2]) : 3;
    if (count < 2 || count > 3 || scale < 1 || scale > 100) {
        fprintf(stderr, "usage: %s FILE [SCALE]\n", words[0]);
        return 2;
    }
    size_t length;
    SDL_RWops *source = SDL_RWFromFile(words[1], "rb");
    uint8_t *file = source != NULL ? SDL_LoadFile_RW(source, &length, 1) : NULL;
    if (file == NULL || SDL_Init(SDL_INIT_VIDEO) != 0) return failed(words[1]);

    flic_player_answer start =
        flic_start_player(file, length, SDL_GetTicks(), picture, sizeof picture, palette, sizeof palette,
                          shown_picture, sizeof shown_picture, shown_palette, sizeof shown_palette);
    flic_player player = start.player;
    flic_ticked ticked = {start.number, start.place, 1};
    SDL_Window *window = NULL;
    SDL_Surface *indexed = NULL;
    if (start.number == 0) {
        /* The surface's pixels are the picture itself, which each tick changes in place. */
        int width = (int)player.width, height = (int)player.height;
        indexed = SDL_CreateRGBSurfaceWithFormatFrom(picture, width, height, 8, width, SDL_PIXELFORMAT_INDEX8);
        window = SDL_CreateWindow(words[1], SDL_WINDOWPOS_CENTERED, SDL_WINDOWPOS_CENTERED, width * scale,
                                  height * scale, 0);
        if (indexed == NULL || window == NULL) return failed("no window");
    }

    SDL_Event event = {.type = SDL_WINDOWEVENT};
    while (ticked.number == 0 && !is_end(&event)) {
        int all = event.type == SDL_WINDOWEVENT;
        if ((ticked.event == 1 || all) && !show(window, indexed, scale, all)) return failed("no picture");
        if (!SDL_WaitEventTimeout(&event, 5)) event.type = 0;
        ticked = flic_tick(&player, file, length, SDL_GetTicks(), picture, sizeof picture, palette, sizeof palette);
    }
    if (met != 0) printf("board: the frames redrew %lu of %lu tiles\n", redrawn, met);
    if (ticked.number != 0)
        fprintf(stderr, "board: %s: refused %u at offset %llu; flic check says what to do\n", words[1], ticked.number,
                (unsigned long long)ticked.place);
    SDL_FreeSurface(indexed);
    SDL_Quit();
    SDL_free(file);
    return ticked.number != 0;
}
