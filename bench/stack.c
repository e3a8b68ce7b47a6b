/* How many bytes of stack each call takes at most: it is made on a stack of its own that was painted before, over the
 * frames of reels in both formats, and the paint that is left is counted. The file named is listed too, for its nested
 * chunks. */
#include <stdio.h>
#include <string.h>
#include <ucontext.h>

#include "flic.h"
#include "reel.h"

#define WIDTH 320
#define HEIGHT 200
#define PIXELS (WIDTH * HEIGHT)
#define STACK (1 << 20)
#define PAINT 0xA5
#define READINGS 16

/* What the calls are handed: the reel, a frame of it, and what shows before it and after. */
static struct {
    struct reel *reel;
    const uint8_t *frame, *listed;
    size_t length, listed_length;
    struct state *previous, *next, shown, work[2];
    uint8_t *out, *file, *text;
    flic_reel record;
    flic_player player;
} handed;

static void nothing(void) {}

static void read_frame(void)
{
    flic_read_frame(handed.frame, handed.length, handed.reel->format, WIDTH, HEIGHT, handed.shown.picture, PIXELS,
                    handed.shown.palette, PALETTE);
}

static void write_frame(void)
{
    flic_write_frame(handed.reel->format, WIDTH, HEIGHT, handed.previous->picture, PIXELS, handed.previous->palette,
                     PALETTE, handed.next->picture, PIXELS, handed.next->palette, PALETTE, handed.out, FLIC_FRAME_MOST);
}

static void rewrite_frame(void)
{
    flic_rewrite_frame(handed.frame, handed.length, handed.reel->format, WIDTH, HEIGHT, handed.previous->picture,
                       PIXELS, handed.previous->palette, PALETTE, handed.work[0].picture, PIXELS,
                       handed.work[0].palette, PALETTE, handed.out, FLIC_FRAME_MOST);
}

static void check_reel(void)
{
    flic_check_reel(handed.reel->bytes, handed.reel->size, handed.work[0].picture, PIXELS, handed.work[0].palette,
                    PALETTE, handed.work[1].picture, PIXELS, handed.work[1].palette, PALETTE);
}

static void open_reel(void)
{
    if (handed.reel->format == FLIC_FLC)
        handed.record = flic_open_reel(WIDTH, HEIGHT, 200, handed.file, 3 * FLIC_FRAME_MOST).reel;
    else
        handed.record = flic_open_fli(WIDTH, HEIGHT, 14, handed.file, 3 * FLIC_FRAME_MOST).reel;
}

static void add_frame(void)
{
    open_reel();
    handed.record = flic_add_frame(handed.record, handed.file, 3 * FLIC_FRAME_MOST, handed.previous->picture, PIXELS,
                                   handed.previous->palette, PALETTE, handed.next->picture, PIXELS,
                                   handed.next->palette, PALETTE)
                        .reel;
}

static void close_reel(void)
{
    flic_close_reel(handed.record, handed.file, 3 * FLIC_FRAME_MOST, handed.work[0].picture, PIXELS,
                    handed.work[0].palette, PALETTE, handed.work[1].picture, PIXELS, handed.work[1].palette, PALETTE);
}

static void check_trailer(void)
{
    flic_check_trailer(handed.reel->bytes, handed.reel->size);
}

static void write_trailer(void)
{
    memcpy(handed.text, handed.reel->bytes, handed.reel->size);
    flic_write_trailer(handed.text, handed.reel->size + FLIC_TRAILER_MOST);
}

static void list(void)
{
    flic_list(handed.listed, handed.listed_length, handed.text, FLIC_LIST_MOST);
}

static void read_header(void)
{
    flic_read_header(handed.reel->bytes, handed.reel->size);
}

static void next_frame(void)
{
    flic_next_frame(handed.reel->bytes, handed.reel->size, FLIC_FILE_HEADER);
}

static void delays(void)
{
    flic_in_milliseconds(18);
    flic_in_jiffies(250);
}

static void start_player(void)
{
    handed.player = flic_start_player(handed.reel->bytes, handed.reel->size, 0, handed.work[0].picture, PIXELS,
                                      handed.work[0].palette, PALETTE, handed.work[1].picture, PIXELS,
                                      handed.work[1].palette, PALETTE)
                        .player;
}

static void tick(void)
{
    flic_tick(&handed.player, handed.reel->bytes, handed.reel->size, handed.player.last + handed.player.speed,
              handed.work[0].picture, PIXELS, handed.work[0].palette, PALETTE);
}

static void replay(void)
{
    static uint32_t readings[READINGS], numbers[READINGS];
    flic_replay(0, 3, 0, readings, READINGS, numbers, READINGS);
}

static void search_row(void)
{
    flic_search_row(handed.next->picture, WIDTH);
}

static void tile_map(void)
{
    static uint64_t words[HEIGHT / 8];
    flic_tile_map(WIDTH, HEIGHT, handed.previous->picture, PIXELS, handed.next->picture, PIXELS, words, HEIGHT / 8);
    flic_marked_tiles(words[0]);
}

static struct call {
    const char *name;
    void (*make)(void);
    size_t most;
} calls[] = {
    {"read_frame", read_frame, 0},       {"write_frame", write_frame, 0},     {"rewrite_frame", rewrite_frame, 0},
    {"check_reel", check_reel, 0},       {"open_reel, open_fli", open_reel, 0}, {"add_frame", add_frame, 0},
    {"close_reel", close_reel, 0},       {"check_trailer", check_trailer, 0}, {"write_trailer", write_trailer, 0},
    {"list", list, 0},                   {"read_header", read_header, 0},     {"next_frame", next_frame, 0},
    {"in_milliseconds, in_jiffies", delays, 0}, {"start_player", start_player, 0}, {"tick", tick, 0},
    {"replay", replay, 0},               {"search_row", search_row, 0},       {"tile_map, marked_tiles", tile_map, 0},
};
#define CALLS (sizeof calls / sizeof *calls)

/* How many bytes of a fresh stack the call leaves without paint. */
static size_t taken_by(void (*make)(void))
{
    static uint8_t stack[STACK];
    static ucontext_t here, there;
    memset(stack, PAINT, STACK);
    getcontext(&there);
    there.uc_stack.ss_sp = stack;
    there.uc_stack.ss_size = STACK;
    there.uc_link = &here;
    makecontext(&there, make, 0);
    swapcontext(&here, &there);
    size_t left = 0;
    while (left < STACK && stack[left] == PAINT) left++;
    return STACK - left;
}

static void measure(struct reel *reel, struct state *states, size_t own)
{
    handed.reel = reel;
    for (unsigned i = 1; i <= reel->frames; i++) {
        handed.frame = frame_bytes(reel, i);
        handed.length = frame_length(reel, i);
        handed.previous = &states[i - 1];
        handed.next = &states[i % reel->frames];
        memcpy(handed.shown.picture, handed.previous->picture, PIXELS);
        memcpy(handed.shown.palette, handed.previous->palette, PALETTE);
        for (struct call *call = calls; call < calls + CALLS; call++) {
            size_t taken = taken_by(call->make);
            taken -= taken < own ? taken : own;
            if (taken > call->most) call->most = taken;
        }
    }
}

int main(int count, char **names)
{
    static const enum scene scenes[] = {BOARD, DENSE, TEXT, TEXTURE, NOISE};
    if (count != 2) fail("the file to be listed isn't named", "give one argument, a file with nested chunks");
    static uint8_t nested[FLIC_LISTED_MOST];
    FILE *file = fopen(names[1], "rb");
    if (!file) fail(names[1], "name a file that can be read");
    handed.listed = nested;
    handed.listed_length = fread(nested, 1, sizeof nested, file);
    fclose(file);
    handed.shown = blank_state(WIDTH, HEIGHT);
    for (int i = 0; i < 2; i++) handed.work[i] = blank_state(WIDTH, HEIGHT);
    handed.out = room(FLIC_FRAME_MOST);
    handed.file = room(3 * FLIC_FRAME_MOST);
    handed.text = room(FLIC_FILE_HEADER + (SCENE_FRAMES + 2) * (size_t)FLIC_FRAME_MOST);
    size_t own = taken_by(nothing);
    for (unsigned i = 0; i < sizeof scenes / sizeof *scenes; i++) {
        struct state *states = scene_states(scenes[i], WIDTH, HEIGHT);
        for (uint32_t format = FLIC_FLC; format <= FLIC_FLI; format++) {
            struct reel reel = built_reel(format, WIDTH, HEIGHT, SCENE_FRAMES, states);
            measure(&reel, states, own);
            free_reel(&reel);
        }
        free_states(states);
    }
    printf("bytes of stack that a call takes at most, of 320 by 200 pixels\n");
    for (struct call *call = calls; call < calls + CALLS; call++) printf("%-28s %7zu\n", call->name, call->most);
    return 0;
}
