/* libavcodec's flic decoder, fed the same frame chunks; nothing of libavformat runs. */
#include <libavcodec/avcodec.h>
#include <string.h>

#include "players.h"

struct player {
    const struct reel *reel;
    AVCodecContext *codec;
    AVFrame *frame;
    AVPacket **packets;
};

/* A packet that owns its bytes, or else each call would copy them. */
static AVPacket *packet_of(const struct reel *reel, unsigned i)
{
    AVPacket *packet = av_packet_alloc();
    if (packet == NULL || av_new_packet(packet, (int)frame_length(reel, i)) != 0)
        fail("there is not enough memory", "end other programs");
    memcpy(packet->data, frame_bytes(reel, i), frame_length(reel, i));
    return packet;
}

static struct player *open_codec(const struct reel *reel)
{
    struct player *player = room(sizeof *player);
    const AVCodec *codec = avcodec_find_decoder(AV_CODEC_ID_FLIC);
    if (codec == NULL)
        fail("this libavcodec has no flic decoder", "install Debian's");
    player->reel = reel;
    player->codec = avcodec_alloc_context3(codec);
    player->codec->width = (int)reel->width;
    player->codec->height = (int)reel->height;
    player->codec->thread_count = 1;
    player->codec->extradata = av_mallocz(128 + AV_INPUT_BUFFER_PADDING_SIZE);
    player->codec->extradata_size = 128;
    memcpy(player->codec->extradata, reel->bytes, 128);
    if (avcodec_open2(player->codec, codec, NULL) != 0)
        fail("libavcodec's flic decoder can't be opened", "install Debian's");
    player->frame = av_frame_alloc();
    player->packets = room((reel->frames + 1) * sizeof *player->packets);
    for (unsigned i = 0; i <= reel->frames; i++)
        player->packets[i] = packet_of(reel, i);
    return player;
}

/* As a player does that keeps what shows until the next frame is there: the decoder copies the whole picture before it
 * draws. */
static void play_held(struct player *player, unsigned i)
{
    if (avcodec_send_packet(player->codec, player->packets[i]) != 0 ||
        avcodec_receive_frame(player->codec, player->frame) != 0)
        fail("libavcodec refuses a frame", "see which with ffprobe");
}

/* As fast as it can be: the frame that shows is let go first, and the decoder draws in place. */
static void play_let_go(struct player *player, unsigned i)
{
    av_frame_unref(player->frame);
    play_held(player, i);
}

static void show_frame(struct player *player, struct state *state)
{
    unsigned width = player->reel->width;
    for (unsigned y = 0; y < player->reel->height; y++)
        memcpy(state->picture + y * width, player->frame->data[0] + (int)y * player->frame->linesize[0], width);
    for (unsigned i = 0; i < 256; i++) {
        uint32_t colour;
        memcpy(&colour, player->frame->data[1] + 4 * i, 4);
        for (unsigned k = 0; k < 3; k++)
            state->palette[3 * i + k] = (uint8_t)(colour >> (16 - 8 * k));
    }
}

const struct decoder libavcodec = {"libavcodec", open_codec, play_let_go, show_frame};
const struct decoder libavcodec_held = {"libavcodec, frame held", open_codec, play_held, show_frame};
