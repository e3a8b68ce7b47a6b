/* Crookribbon: the FLC and FLI codec for C. Link libcapi.a, which `scripts/library` makes in target/staticlib/.
 *
 * No call trusts its caller: any bytes, sizes and lengths may be handed in. A pointer may be anything but null
 * where its length is 0; otherwise it points to that many bytes, and no two lent slices of one call overlap.
 * Refusal numbers and what to do about each: docs/REFUSALS.md. */
#ifndef FLIC_H
#define FLIC_H

#include <stddef.h>
#include <stdint.h>

#ifdef __cplusplus
extern "C" {
#endif

/* The version of this header and of the library that goes with it: 10000 * 0 + 100 * 2 + 0. */
#define FLIC_VERSION "0.2.0"
#define FLIC_VERSION_NUMBER 200

/* The format of a frame or a reel: FLC (Animator Pro), or FLI (the original Animator), which the boards of 320 by 200
 * take. As a parameter any number but 0 is FLI; a call that is done gives one of these two. */
#define FLIC_FLC 0
#define FLIC_FLI 1

/* Limits: a picture is 1 to 320 by 1 to 200, a reel has 1 to 4,000 frames and then the ring. */
#define FLIC_WIDTH_MOST 320
#define FLIC_HEIGHT_MOST 200
#define FLIC_PIXELS_MOST 64000
#define FLIC_FRAMES_MOST 4000
/* A picture of an FLI is 320 by 200 and nothing else; its delay is at most 65,535 jiffies of 1/70 second. */
#define FLIC_FLI_WIDTH 320
#define FLIC_FLI_HEIGHT 200
#define FLIC_JIFFIES_MOST 65535
/* The bytes of a palette: red, green and blue of 256 entries. */
#define FLIC_PALETTE 768
/* The bytes of a file header, behind which the first chunk begins. */
#define FLIC_FILE_HEADER 128
/* No frame that is written has more bytes: an output of this length is never refused FLIC_NO_ROOM. */
#define FLIC_FRAME_MOST 65310
/* No index and trailer have more bytes. */
#define FLIC_TRAILER_MOST 16012
/* A file of more bytes isn't listed, and no listing has more bytes than FLIC_LIST_MOST. */
#define FLIC_LISTED_MOST 65536
#define FLIC_LIST_MOST 218047

/* What a number says, in every answer: done, or a refusal under its name in docs/REFUSALS.md. */
enum {
    FLIC_DONE = 0,
    FLIC_SHORT_SLICE = 1,
    FLIC_BAD_SIZE = 2,
    FLIC_NO_ROOM = 3,
    FLIC_CUT = 4,
    FLIC_WRONG_TYPE = 5,
    FLIC_SMALL_SIZE = 6,
    FLIC_BODY_ENDS = 7,
    FLIC_ZERO_COUNT = 8,
    FLIC_PAST_WIDTH = 9,
    FLIC_PAST_HEIGHT = 10,
    FLIC_BAD_WORD = 11,
    FLIC_PAST_PALETTE = 12,
    FLIC_OVER_LEVEL = 13,
    FLIC_BAD_HEADER = 14,
    FLIC_FEW_FRAMES = 15,
    FLIC_BAD_RING = 16,
    FLIC_BAD_TRAILER = 17,
    FLIC_WRONG_TIME = 18,
    FLIC_SPARE_BYTES = 19,
    FLIC_NOT_IN_FLI = 20,
};

/* What a number means, in words; an empty text for a number that no call gives. */
static inline const char *flic_meaning(uint32_t number) {
    switch (number) {
    case FLIC_DONE: return "done";
    case FLIC_SHORT_SLICE: return "a picture has fewer pixels than width times height, or a palette fewer than 768 bytes";
    case FLIC_BAD_SIZE: return "the width isn't 1 to 320, the height isn't 1 to 200, an FLI isn't 320 by 200, or two pictures differ in size";
    case FLIC_NO_ROOM: return "there is no room for what is to be written";
    case FLIC_CUT: return "the bytes end too soon, or a size runs past what encloses it";
    case FLIC_WRONG_TYPE: return "this is no FLC or FLI file, or no frame of one, or an FLI where an FLC is asked for";
    case FLIC_SMALL_SIZE: return "a size is less than its own header";
    case FLIC_BODY_ENDS: return "a chunk ends before its data";
    case FLIC_ZERO_COUNT: return "a BRUN packet has count 0";
    case FLIC_PAST_WIDTH: return "a packet runs past the right edge";
    case FLIC_PAST_HEIGHT: return "a row lies below the picture";
    case FLIC_BAD_WORD: return "a delta chunk holds a word that has no meaning there";
    case FLIC_PAST_PALETTE: return "a colour packet runs past entry 255";
    case FLIC_OVER_LEVEL: return "a colour level is over 63";
    case FLIC_BAD_HEADER: return "the depth isn't 8, the frames aren't 1 to 4,000, the flags aren't those of a closed file, or a delay is over 65,535 jiffies";
    case FLIC_FEW_FRAMES: return "frames or the ring are missing";
    case FLIC_BAD_RING: return "the ring doesn't lead back to frame 1";
    case FLIC_BAD_TRAILER: return "what stands behind the reel isn't its trailer";
    case FLIC_WRONG_TIME: return "a reel takes 1 to 4,000 frames, and is closed once";
    case FLIC_SPARE_BYTES: return "more than one spare byte stands behind a chunk's data";
    case FLIC_NOT_IN_FLI: return "an FLI holds a chunk of kind 7 or 18, which only an FLC may hold";
    default: return "";
    }
}

/* number 0: done. Otherwise a refusal's number and its place, an offset into the bytes handed in;
 * a refusal leaves all lent memory as it was, but for the working pairs of flic_check_reel (see there). */
typedef struct {
    uint32_t number;
    uint64_t place;
} flic_answer;

/* Reads one frame chunk against the picture (width * height bytes, row by row) and the palette
 * (768 bytes, red, green, blue) that show, and changes both in place. Longer slices keep their excess.
 * format: FLIC_FLC or FLIC_FLI, as the file's header says. In an FLI a size other than 320 by 200 is refused 2, and a
 * sub-chunk of kind 7 or 18 is refused 20, as its header is met.
 * Behind the data of a sub-chunk of kind 4, 7, 11, 12, 13, 15 or 16 one byte may stand, as padding; more are refused
 * 19, with the sub-chunk's header as the place. Bytes after the last sub-chunk and after the size are ignored. */
flic_answer flic_read_frame(const uint8_t *bytes, size_t bytes_len,
                            uint32_t format, uint64_t width, uint64_t height,
                            uint8_t *picture, size_t picture_len,
                            uint8_t *palette, size_t palette_len);

/* number 0: done, with how many bytes were written; the rest of the output stays as it was.
 * A refusal has length 0 and leaves all lent memory as it was, but for a rewrite's working pair (see below). */
typedef struct {
    uint32_t number;
    uint64_t place;
    uint64_t length;
} flic_written;

/* Writes, in house form, the frame chunk that leads from the previous picture and palette to the next. The delta of an
 * FLC is kind 7, that of an FLI kind 12; all else is the same in both formats. */
flic_written flic_write_frame(uint32_t format, uint64_t width, uint64_t height,
                              const uint8_t *previous_picture, size_t previous_picture_len,
                              const uint8_t *previous_palette, size_t previous_palette_len,
                              const uint8_t *next_picture, size_t next_picture_len,
                              const uint8_t *next_palette, size_t next_palette_len,
                              uint8_t *out, size_t out_len);

/* Reads a frame chunk against the previous picture and palette and writes it anew in house form.
 * The working pair holds the next picture and palette when done or refused 3, else stays as it was. */
flic_written flic_rewrite_frame(const uint8_t *bytes, size_t bytes_len,
                                uint32_t format, uint64_t width, uint64_t height,
                                const uint8_t *previous_picture, size_t previous_picture_len,
                                const uint8_t *previous_palette, size_t previous_palette_len,
                                uint8_t *work_picture, size_t work_picture_len,
                                uint8_t *work_palette, size_t work_palette_len,
                                uint8_t *out, size_t out_len);

/* A whole reel. A pair is a picture and a palette; the two working pairs of a check or a close are lent for it to
 * play on, and their contents afterwards are fixed. Refused 18, 2 or 1, or for the file header: as they were. Else,
 * done or refused, the first holds the state after the last accepted frame and the second that after frame 1, either
 * blank (all 0) for none; a longer slice keeps its excess.
 *
 * Checks the file header, whose magic says which format it is (5: neither), plays every frame and the ring, and
 * compares: refused 16, with the ring's offset as its place, if the ring doesn't lead back to frame 1's picture and
 * palette. In the first pair the ring counts too. What follows the ring is ignored. */
flic_answer flic_check_reel(const uint8_t *bytes, size_t bytes_len,
                            uint8_t *first_picture, size_t first_picture_len,
                            uint8_t *first_palette, size_t first_palette_len,
                            uint8_t *second_picture, size_t second_picture_len,
                            uint8_t *second_palette, size_t second_palette_len);

/* A reel being built, handed from call to call by value. Keep it as it came: what was altered is refused where it
 * doesn't fit the bytes. closed: 0 while frames can be added, else the file is whole and end is its size. format:
 * FLIC_FLC or FLIC_FLI, by which call it was opened. */
typedef struct {
    uint64_t width, height, frames, end;
    uint32_t closed, format;
} flic_reel;

/* number 0: done, with the reel as it is now. A refusal has the reel as it was handed in (an open: all 0), and leaves
 * the reel's bytes as they were; a close may have set its working pairs (see flic_check_reel). */
typedef struct {
    uint32_t number;
    uint64_t place;
    flic_reel reel;
} flic_reel_answer;

/* Opens an FLC at the front of the lent bytes: writes the file header, 128 bytes. speed: milliseconds a frame shows.
 * A reel of n frames never needs more than 128 + (n + 1) * FLIC_FRAME_MOST bytes.
 *
 * A reel of n pictures, with buffers shown_picture and shown_palette for what shows, all 0 at first:
 *
 *     flic_reel_answer r = flic_open_reel(width, height, 200, file, file_len);
 *     for (int i = 0; r.number == 0 && i < n; i++) {
 *         r = flic_add_frame(r.reel, file, file_len, shown_picture, size, shown_palette, 768,
 *                            pictures[i], size, palettes[i], 768);
 *         memcpy(shown_picture, pictures[i], size);
 *         memcpy(shown_palette, palettes[i], 768);
 *     }
 *     if (r.number == 0)
 *         r = flic_close_reel(r.reel, file, file_len, work1, size, colours1, 768, work2, size, colours2, 768);
 *     if (r.number == 0) fwrite(file, 1, r.reel.end, out);
 *
 * The bytes may be moved or lent anew with more room between calls, as long as the first end of them stay. */
flic_reel_answer flic_open_reel(uint64_t width, uint64_t height, uint32_t speed,
                                uint8_t *bytes, size_t bytes_len);

/* Opens an FLI, to which frames are added and which is closed as an FLC is. jiffies: for how many of 1/70 second a
 * frame shows; flic_in_jiffies makes them of milliseconds. Refused 2 unless it is 320 by 200, then 14 for more than
 * 65,535, then 3. */
flic_reel_answer flic_open_fli(uint64_t width, uint64_t height, uint32_t jiffies,
                               uint8_t *bytes, size_t bytes_len);

/* Adds the frame that leads from the picture and palette that show to the next. Hand in, as what shows, what the
 * last add asked for, and blank (all 0) at first. */
flic_reel_answer flic_add_frame(flic_reel reel, uint8_t *bytes, size_t bytes_len,
                                const uint8_t *shown_picture, size_t shown_picture_len,
                                const uint8_t *shown_palette, size_t shown_palette_len,
                                const uint8_t *next_picture, size_t next_picture_len,
                                const uint8_t *next_palette, size_t next_palette_len);

/* Closes a reel: plays its frames from the bytes, writes the ring from the state in which that ends back to frame 1's,
 * and sets size, frames, flags and both frame offsets in the header, of an FLI size and frames alone. The first end
 * bytes are then the file. */
flic_reel_answer flic_close_reel(flic_reel reel, uint8_t *bytes, size_t bytes_len,
                                 uint8_t *first_picture, size_t first_picture_len,
                                 uint8_t *first_palette, size_t first_palette_len,
                                 uint8_t *second_picture, size_t second_picture_len,
                                 uint8_t *second_palette, size_t second_palette_len);

/* Trailers and listings are of FLC files; an FLI is refused 5.
 *
 * Checks what stands behind a reel in its file: nothing, or its index of frame offsets and trailer; anything else is
 * refused 17. Walks the header and the chunks first, and opens no frame: a damaged frame is found by flic_check_reel. */
flic_answer flic_check_trailer(const uint8_t *bytes, size_t bytes_len);

/* Writes index and trailer behind the reel that stands at the front of the lent bytes, over whatever was there.
 * Done gives the file's new length: the reel's size, 4 bytes for each frame and the ring, and 8. */
flic_written flic_write_trailer(uint8_t *bytes, size_t bytes_len);

/* Lists the chunks of a reel of at most 65,536 bytes (FLIC_LISTED_MOST) as text, one line each with depth, offset, kind and size; of a
 * file that can't be listed the text is the one line `refused N PLACE`. Done gives the text's length; there is no byte
 * of 0 behind it. */
flic_written flic_list(const uint8_t *bytes, size_t bytes_len, uint8_t *out, size_t out_len);

/* number 0: done, with how many bytes the row's packets take, the ignored byte in front of them not counted, and how
 * many turns the search took. Both are 0 where refused. */
typedef struct {
    uint32_t number;
    uint64_t place, bytes, turns;
} flic_row_cost;

/* Searches for the BRUN packets of a row that take the fewest bytes, as writing a frame does for each row, and says what
 * it took: never more than 16 turns a pixel, in fact fewer than 2, each looking at no more than four pixels. Refused 2
 * for a row that no picture has: no pixel, or more than 320. */
flic_row_cost flic_search_row(const uint8_t *row, size_t row_len);

/* What the file header says, so that a caller needs no parser of its own. number 0: accepted, with the picture's width
 * and height, how many frames there are (the ring not counted), the reel's size in bytes, for how many milliseconds
 * a frame shows, in an FLI too (flic_in_jiffies gives its jiffies back), and the format, FLIC_FLC or FLIC_FLI. A refusal
 * has place 0 and all fields 0. */
typedef struct {
    uint32_t number;
    uint64_t place, width, height, frames, size;
    uint32_t speed, format;
} flic_header;

/* Reads the file header: refused as flic_check_reel refuses it, in the same order (4, 5, 6, 4, 2, 14). The bytes are
 * the file, or its front at least as far as the size reaches: a size past the bytes is 4. */
flic_header flic_read_header(const uint8_t *bytes, size_t bytes_len);

/* number 0: done, with where the frame chunk begins and ends. A refusal has both 0, and as its place the offset of the
 * chunk at fault or where the next one should begin. */
typedef struct {
    uint32_t number;
    uint64_t place, from, end;
} flic_span;

/* Finds the next frame chunk from the offset at on, where a chunk begins, and steps over other chunks. The bytes are
 * the reel up to its size. Refused 15 where fewer than 6 bytes are left, also if at is past the bytes; 4 or 6 for a
 * chunk header that isn't whole or a size that doesn't fit. No frame is opened: flic_read_frame says if it is right.
 *
 * All frames of a reel and its ring, one after the other, from blank (picture and palette all 0):
 *
 *     flic_header h = flic_read_header(file, file_len);
 *     uint64_t at = 128;
 *     for (uint64_t i = 0; h.number == 0 && i <= h.frames; i++) {
 *         flic_span frame = flic_next_frame(file, h.size, at);
 *         if (frame.number != 0) break;
 *         flic_answer a = flic_read_frame(file + frame.from, frame.end - frame.from, h.format, h.width, h.height,
 *                                         picture, h.width * h.height, palette, 768);
 *         if (a.number != 0) break;
 *         show(picture, palette, h.speed);
 *         at = frame.end;
 *     }
 *
 * Further laps begin with frame 2, since the ring, the last of them, shows frame 1 again. */
flic_span flic_next_frame(const uint8_t *bytes, size_t bytes_len, uint64_t at);

/* number 0: done, with the delay in the other unit. A refusal has place 0 and delay 0. */
typedef struct {
    uint32_t number;
    uint64_t place;
    uint32_t delay;
} flic_delay;

/* A delay in jiffies of 1/70 second as milliseconds, rounded down, and one in milliseconds as jiffies, rounded up: what
 * was in jiffies is the same after both. Refused 14 for more than 65,535 jiffies, handed in or given. */
flic_delay flic_in_milliseconds(uint32_t jiffies);
flic_delay flic_in_jiffies(uint32_t milliseconds);

/* A player that keeps time: a reel played after a clock of milliseconds, a counter of 32 bits that rolls over after 49
 * days. The record is changed in place by each tick. Keep it as it came: of what was altered, what doesn't fit the
 * bytes is refused at the next tick that draws. The speed alone may be set anew at any time.
 *
 * number: of the frame that shows, from 1; the ring is frames + 1. place: where the next frame is looked for, the end
 * of the frame that shows, or of frame 1 if that is the ring. first_end: where frame 1 ends. speed: for how many
 * milliseconds a frame shows, in an FLI too, 0 being one a tick, and half the range (2^31) or more for ever. last: the
 * last draw time. format: FLIC_FLC or FLIC_FLI. */
typedef struct {
    uint64_t width, height, frames, number, place, first_end;
    uint32_t speed, last, format;
} flic_player;

/* number 0: done, with the player. A refusal has a player that is all 0. */
typedef struct {
    uint32_t number;
    uint64_t place;
    flic_player player;
} flic_player_answer;

/* Starts a player on a whole reel: checks it as flic_check_reel does in the two working pairs, with the same refusals,
 * and what these leave in the pairs. Done: both pairs show frame 1, drawn at the reading now. Ticks go on with one
 * pair; the other isn't needed any more. */
flic_player_answer flic_start_player(const uint8_t *bytes, size_t bytes_len, uint32_t now,
                                     uint8_t *first_picture, size_t first_picture_len,
                                     uint8_t *first_palette, size_t first_palette_len,
                                     uint8_t *second_picture, size_t second_picture_len,
                                     uint8_t *second_palette, size_t second_palette_len);

/* number 0: done. event 0: nothing was due, 1: a frame was drawn, 2: the clock was set back. A refusal has event 0,
 * and leaves the record, the picture and the palette as they were. */
typedef struct {
    uint32_t number;
    uint64_t place;
    uint32_t event;
} flic_ticked;

/* One tick, at the clock's reading now: the bytes that the player was started on, the picture and palette that show.
 *
 * What counts is now - last, taken round the roll-over (modulo 2^32). Half the range (2^31) or more: the clock was set
 * back; nothing is drawn, and last becomes now. Less than the speed: nothing is due. Else one frame is drawn, and last
 * moves on by the speed, so that a late tick shifts no later frame: the next ticks catch up, a frame each. After the
 * last frame comes the ring, which shows frame 1 again, and after the ring frame 2 (the ring again in a reel of one
 * frame).
 *
 * Only a tick that draws can be refused: 2 for the record's size, 1, 4 with place 0 if the record's place lies past
 * the bytes or its number isn't 1 to frames + 1, then what flic_check_reel gives from that place on through the frame
 * drawn, the end of the bytes standing for the file's size. No ring is compared. A player whose record, bytes, picture
 * and palette are handed on as they came is never refused.
 *
 * A board, where milliseconds() reads its clock, and show() puts a picture on its panel:
 *
 *     flic_player_answer a = flic_start_player(file, file_len, milliseconds(), picture, sizeof picture, palette, 768,
 *                                              second, sizeof second, second_palette, 768);
 *     flic_player player = a.player;
 *     flic_ticked t = {a.number, a.place, 1};
 *     while (t.number == 0) {
 *         if (t.event == 1) show(picture, palette, player.width, player.height);
 *         t = flic_tick(&player, file, file_len, milliseconds(), picture, sizeof picture, palette, 768);
 *     }
 *     printf("refused %u at offset %llu\n", t.number, (unsigned long long)t.place);
 *
 * examples/board.c is such a board, in a window. */
flic_ticked flic_tick(flic_player *player, const uint8_t *bytes, size_t bytes_len, uint32_t now,
                      uint8_t *picture, size_t picture_len,
                      uint8_t *palette, size_t palette_len);

/* Replays recorded readings: of each, in its order, the number of the frame that shows after it, as a player would
 * have it that has this speed and so many frames, was started at the reading start, and met no refusal. Lengths count
 * words. Done gives as many numbers as there are readings; words behind them stay as they were. Refused, with place 0:
 * 14 for frames not 1 to 4,000, then 3 for fewer words than readings. */
flic_written flic_replay(uint32_t speed, uint64_t frames, uint32_t start,
                         const uint32_t *readings, size_t readings_len,
                         uint32_t *numbers, size_t numbers_len);

/* Maps the tiles to redraw, of 8 by 8 pixels, those at the right and at the bottom cut short: from a previous and a next
 * picture a word for each row of tiles, from the top; bit i of it is set exactly if tile i from the left has a changed
 * pixel. There are (height + 7) / 8 rows, of (width + 7) / 8 tiles each, which done gives as the length; bits past the
 * last tile are 0, and words past the last row stay as they were. 25 words hold any map. Refused, with place 0: 2, 1,
 * then 3 for fewer words than rows of tiles.
 *
 * Redrawing the marked tiles of the previous picture from the next gives the next: colours are not looked at, and a
 * panel that shows them redraws all tiles where the palette changed. */
flic_written flic_tile_map(uint64_t width, uint64_t height,
                           const uint8_t *previous_picture, size_t previous_picture_len,
                           const uint8_t *next_picture, size_t next_picture_len,
                           uint64_t *words, size_t words_len);

/* How many tiles are marked in a word, the first of them and the last; 64 for both where none is. */
typedef struct {
    uint32_t count, first, last;
} flic_tile_row;

flic_tile_row flic_marked_tiles(uint64_t word);

#ifdef __cplusplus
}
#endif

#endif
