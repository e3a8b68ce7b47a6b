/* Plays one reel some laps by one decoder, for counting instructions. Usage: lap ours|libavcodec|plain REEL LAPS */
#include <stdio.h>
#include <stdlib.h>
#include <string.h>

#include "players.h"

static const struct decoder *decoder_of(const char *name)
{
    if (strcmp(name, "libavcodec") == 0)
        return &libavcodec;
    return strcmp(name, "plain") == 0 ? &plain : &ours;
}

int main(int count, char **words)
{
    if (count != 4) {
        fprintf(stderr, "usage: %s ours|libavcodec|plain REEL LAPS\n", words[0]);
        return 1;
    }
    const struct decoder *decoder = decoder_of(words[1]);
    struct reel reel = loaded_reel(words[2]);
    struct player *player = decoder->open(&reel);
    decoder->play(player, 0);
    for (int lap = atoi(words[3]); lap > 0; lap--)
        for (unsigned i = 1; i <= reel.frames; i++)
            decoder->play(player, i);
    return 0;
}
