/* Plays a file with Allegro's FLI player, so many frames in its own loop, and writes each: a byte (1 shown, 0 none
 * came), the pixels, the palette of levels 0 to 63. Prints for how long a frame shows, in counts of its timer. */
#include <errno.h>
#include <stdio.h>
#include <stdlib.h>

#include <allegro.h>

static long delay;

/* Opening a file wants a timer, which nobody waits for here, and Allegro without a display has none. */
static int keep_delay(void (*tick)(void), long speed)
{
    (void)tick;
    delay = speed;
    return 0;
}

static TIMER_DRIVER no_timer = {.install_int = keep_delay};

static void write_frame(FILE *out, int shown)
{
    fputc(shown, out);
    for (int y = 0; y < fli_bitmap->h; y++)
        fwrite(fli_bitmap->line[y], 1, fli_bitmap->w, out);
    for (int i = 0; i < 256; i++) {
        fputc(fli_palette[i].r, out);
        fputc(fli_palette[i].g, out);
        fputc(fli_palette[i].b, out);
    }
}

int main(int count, char **words)
{
    FILE *out = count == 4 ? fopen(words[3], "wb") : NULL;
    if (out == NULL) {
        fprintf(stderr, "use: allegro FILE HOW_MANY FRAMES\n");
        return 2;
    }
    timer_driver = &no_timer;
    if (install_allegro(SYSTEM_NONE, &errno, NULL) != 0 || open_fli(words[1]) != FLI_OK) {
        fprintf(stderr, "%s: Allegro can't open it\n", words[1]);
        return 2;
    }
    for (int left = atoi(words[2]); left > 0; left--)
        write_frame(out, next_fli_frame(TRUE) == FLI_OK);
    printf("%ld\n", delay);
    return fclose(out) == 0 ? 0 : 2;
}
END_OF_MAIN()
