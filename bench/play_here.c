/* The decoders that change a picture and a palette in place: the library's, also on refused frames, and the plain one. */
#include <string.h>

#include "flic.h"
#include "plain.h"
#include "players.h"

struct player {
    const struct reel *reel;
    struct reel cut;
    struct state shown;
};

static struct player *open_here(const struct reel *reel)
{
    struct player *player = room(sizeof *player);
    player->reel = reel;
    player->shown = blank_state(reel->width, reel->height);
    return player;
}

static struct player *open_cut(const struct reel *reel)
{
    struct player *player = open_here(reel);
    size_t end = reel->offsets[reel->frames + 1];
    player->cut = *reel;
    player->cut.bytes = room(end);
    memcpy(player->cut.bytes, reel->bytes, end);
    for (unsigned i = 0; i <= reel->frames; i++)
        player->cut.bytes[reel->offsets[i] + 6]++;
    return player;
}

static void show_here(struct player *player, struct state *state)
{
    memcpy(state->picture, player->shown.picture, (size_t)player->reel->width * player->reel->height);
    memcpy(state->palette, player->shown.palette, PALETTE);
}

static uint32_t number_of(const struct reel *reel, unsigned i, struct state *shown)
{
    return flic_read_frame(frame_bytes(reel, i), frame_length(reel, i), reel->format, reel->width, reel->height,
                           shown->picture, (size_t)reel->width * reel->height, shown->palette, PALETTE).number;
}

static void play_ours(struct player *player, unsigned i)
{
    if (number_of(player->reel, i, &player->shown) != 0)
        fail("flic_read_frame refuses a frame", "run ./test");
}

static void play_cut(struct player *player, unsigned i)
{
    if (number_of(&player->cut, i, &player->shown) != 4)
        fail("flic_read_frame accepts a frame that ends too soon", "run ./test");
}

static void play_plain(struct player *player, unsigned i)
{
    const struct reel *reel = player->reel;
    if (!plain_read_frame(frame_bytes(reel, i), frame_length(reel, i), reel->format, reel->width, reel->height,
                          player->shown.picture, player->shown.palette))
        fail("the plain decoder refuses a frame", "look into bench/plain.c");
}

const struct decoder ours = {"ours", open_here, play_ours, show_here};
const struct decoder pass_1 = {"pass 1", open_cut, play_cut, show_here};
const struct decoder plain = {"plain C", open_here, play_plain, show_here};
