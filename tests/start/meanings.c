/* Prints what each number means and the version, and says of a file why it is refused: meanings FILE. */
#include <flic.h>
#include <stdio.h>

static uint8_t file[FLIC_LISTED_MOST];
static uint8_t pictures[2][FLIC_PIXELS_MOST], palettes[2][FLIC_PALETTE];

int main(int count, char **words) {
    FILE *in = count == 2 ? fopen(words[1], "rb") : NULL;
    if (in == NULL) return 2;
    size_t length = fread(file, 1, sizeof file, in);
    fclose(in);
    printf("version %s, %d\n", FLIC_VERSION, FLIC_VERSION_NUMBER);
    for (uint32_t number = FLIC_DONE; number <= FLIC_NOT_IN_FLI + 1; number++)
        printf("%u '%s'\n", number, flic_meaning(number));
    flic_answer answer = flic_check_reel(file, length, pictures[0], FLIC_PIXELS_MOST, palettes[0], FLIC_PALETTE,
                                         pictures[1], FLIC_PIXELS_MOST, palettes[1], FLIC_PALETTE);
    printf("refused %u: %s\n", answer.number, flic_meaning(answer.number));
    return answer.number == FLIC_BAD_RING ? 0 : 1;
}
