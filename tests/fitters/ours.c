/* Plays a reel three laps with the library and writes each frame: a byte 1, the pixels, the palette. Prints for how
 * many milliseconds a frame shows, and of an FLI the jiffies that the library makes of them. */
#include <stdio.h>

#include "player.h"

static void write_frame(void *out, size_t number, const uint8_t *picture, size_t pixels, const uint8_t *palette)
{
    (void)number;
    fputc(1, out);
    fwrite(picture, 1, pixels, out);
    fwrite(palette, 1, PALETTE_BYTES, out);
}

int main(int count, char **words)
{
    reel_file reel;
    if (count != 3) {
        fprintf(stderr, "use: ours REEL FRAMES\n");
        return 2;
    }
    if (!open_reel_file(words[1], &reel))
        return 1;
    printf("%u", reel.header.speed);
    if (reel.header.format == FLIC_FLI)
        printf(" %u", flic_in_jiffies(reel.header.speed).delay);
    printf("\n");
    FILE *out = fopen(words[2], "wb");
    if (out == NULL) {
        perror(words[2]);
        return 2;
    }
    int played = play_three_laps(words[1], &reel, write_frame, out);
    return fclose(out) == 0 && played ? 0 : 1;
}
