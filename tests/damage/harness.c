/* The damage test for fuzzers: one input chooses an entry point, sizes and sides of guard pages, and is handed in.
 * What holds without a model is checked; what doesn't hold aborts. Built for libFuzzer or AFL++ by tests/damage/run. */
#include <flic.h>
#include <stdio.h>
#include <stdlib.h>
#include <string.h>

#include "guarded.h"

enum { PALETTE = 768, HEADER = 128, PIXELS = 320 * 200, RING_STATES = 64, CHOICES = 13, MOST = 16384 };

/* The bytes before those that are handed in. */
enum { ENTRY, WIDTH, HEIGHT, SIDES, LENGTHS, ROOM, STATES, FRAMES, CLOSED, END, END_HIGH, SPEED, FORMAT };

/* What the fuzzer is to look for, as the library has no counters of its own: answers, and how far into the bytes they
 * came. libFuzzer reads this section; AFL++ sees how often the loops of meet are run in each function. */
__attribute__((section("__libfuzzer_extra_counters"))) static uint8_t met[2048];

__attribute__((always_inline)) static inline void meet(unsigned entry, uint32_t number, uint64_t place)
{
    volatile unsigned log = 0, times = 0;
    while (place >> log && log < 31)
        log++;
    while (times < number)
        times++;
    met[entry * 32 + (number & 31)] = 1;
    met[1024 + ((entry * 19 + (number & 31)) * 31 + log) % 1024] = 1;
}

static void must(int holds, const char *what)
{
    if (!holds) {
        fprintf(stderr, "harness: %s\n", what);
        abort();
    }
}

static unsigned word(const uint8_t *bytes) { return bytes[0] | (unsigned)bytes[1] << 8; }
static size_t size_of(const uint8_t *bytes) { return word(bytes) | (size_t)word(bytes + 2) << 16; }

typedef struct {
    const uint8_t *choices, *bytes;
    size_t length;
    uint32_t format;
    uint64_t width, height;
    /* The frame that is read and rewritten. */
    const uint8_t *frame;
    size_t frame_length;
} input;

/* A picture and a palette, lent, and what they held before. */
typedef struct {
    lent picture, palette;
} pair;

static uint8_t sides;

static lent lend_next(const uint8_t *content, size_t length)
{
    lent slice = lend(content, length, sides & 1);
    sides = (uint8_t)(sides >> 1 | sides << 7);
    return slice;
}

/* The length of a picture or palette: as needed, longer, or seldom too short. */
static size_t some_length(const input *in, size_t needed, unsigned bit)
{
    unsigned choice = in->choices[LENGTHS] >> bit & 3;
    return choice == 3 && needed ? needed - 1 : needed + 5 * (choice == 2);
}

static size_t pixels_of(const input *in)
{
    return in->width <= 320 && in->height <= 200 ? (size_t)(in->width * in->height) : 64;
}

static pair lend_pair(const input *in, unsigned bit, unsigned step)
{
    static uint8_t content[PIXELS + PALETTE + 16];
    uint8_t seed = (uint8_t)(in->choices[STATES] * step);
    size_t picture = some_length(in, pixels_of(in), bit), palette = some_length(in, PALETTE, bit + 1);
    for (size_t i = 0; i < (picture > palette ? picture : palette); i++)
        content[i] = (uint8_t)(seed & 0x40 ? (i >> 3) * seed : seed);
    return (pair){lend_next(content, picture), lend_next(content, palette)};
}

static int pair_unchanged(const pair *p) { return unchanged(&p->picture) && unchanged(&p->palette); }

static int same_slice(const lent *a, const lent *b)
{
    return a->length == b->length && !memcmp(a->bytes, b->bytes, a->length);
}

static int same(const pair *a, const pair *b)
{
    return same_slice(&a->picture, &b->picture) && same_slice(&a->palette, &b->palette);
}

static int same_player(const flic_player *a, const flic_player *b)
{
    return a->width == b->width && a->height == b->height && a->frames == b->frames && a->number == b->number &&
           a->place == b->place && a->first_end == b->first_end && a->speed == b->speed && a->last == b->last &&
           a->format == b->format;
}

static int same_state(const input *in, const uint8_t *picture, const uint8_t *palette, const pair *wanted)
{
    return !memcmp(picture, wanted->picture.bytes, pixels_of(in)) && !memcmp(palette, wanted->palette.bytes, PALETTE);
}

/* Reads a frame against a pair's first contents; the state that it gives must be the wanted one's present contents. */
static void reads_to(const input *in, const uint8_t *frame, size_t length, const pair *from, const pair *wanted)
{
    static uint8_t picture[PIXELS], palette[PALETTE];
    memcpy(picture, from->picture.before, pixels_of(in));
    memcpy(palette, from->palette.before, PALETTE);
    flic_answer answer =
        flic_read_frame(frame, length, in->format, in->width, in->height, picture, pixels_of(in), palette, PALETTE);
    must(answer.number == 0, "a frame that was written is refused");
    must(same_state(in, picture, palette, wanted), "a frame that was written gives another state");
}

/* Refusals of a frame's sub-chunks that come after those of its bodies in document 01's table. */
static int is_of_frame(uint32_t format, uint32_t number) { return number == 19 || (format && number == 20); }

static void read_frame(const input *in)
{
    lent frame = lend_next(in->frame, in->frame_length);
    pair shown = lend_pair(in, 0, 1);
    flic_answer answer =
        flic_read_frame(frame.bytes, frame.length, in->format, in->width, in->height, shown.picture.bytes,
                        shown.picture.length, shown.palette.bytes, shown.palette.length);
    meet(0, answer.number, answer.place);
    must(answer.place <= frame.length && (answer.number <= 13 || is_of_frame(in->format, answer.number)),
         "an answer out of range");
    must(unchanged(&frame), "a frame was changed by its reading");
    must(answer.number == 0 || pair_unchanged(&shown), "a refused reading changed the state");
    must(unchanged_from(&shown.picture, pixels_of(in)) && unchanged_from(&shown.palette, PALETTE),
         "excess was changed");
}

/* Ample room, or up to 127 bytes. */
static size_t some_room(const input *in, size_t most)
{
    return in->choices[ROOM] < 128 ? most : in->choices[ROOM] - 128u;
}

static void check_written(flic_written written, const lent *out)
{
    must(written.length <= out->length, "more was written than there is room for");
    must(written.number == 0 || (written.length == 0 && unchanged(out)), "a refused writing changed the output");
    must(unchanged_from(out, (size_t)written.length), "a byte past what was written was changed");
}

static void write_frame(const input *in)
{
    pair previous = lend_pair(in, 0, 1), next = lend_pair(in, 2, 3);
    lent out = lend_next(NULL, some_room(in, FLIC_FRAME_MOST));
    flic_written written = flic_write_frame(
        in->format, in->width, in->height, previous.picture.bytes, previous.picture.length, previous.palette.bytes,
        previous.palette.length, next.picture.bytes, next.picture.length, next.palette.bytes, next.palette.length,
        out.bytes, out.length);
    meet(1, written.number, written.length);
    check_written(written, &out);
    must(pair_unchanged(&previous) && pair_unchanged(&next), "a writing changed what it reads");
    must(written.number != 3 || out.length < FLIC_FRAME_MOST, "FLIC_FRAME_MOST bytes are refused 3");
    if (written.number == 0)
        reads_to(in, out.bytes, (size_t)written.length, &previous, &next);
}

static void rewrite_frame(const input *in)
{
    lent frame = lend_next(in->frame, in->frame_length);
    pair previous = lend_pair(in, 0, 1), work = lend_pair(in, 2, 3), again = lend_pair(in, 2, 5);
    lent out = lend_next(NULL, some_room(in, FLIC_FRAME_MOST));
    flic_written written = flic_rewrite_frame(
        frame.bytes, frame.length, in->format, in->width, in->height, previous.picture.bytes, previous.picture.length,
        previous.palette.bytes, previous.palette.length, work.picture.bytes, work.picture.length, work.palette.bytes,
        work.palette.length, out.bytes, out.length);
    meet(2, written.number, written.place);
    check_written(written, &out);
    must(unchanged(&frame) && pair_unchanged(&previous), "a rewriting changed what it reads");
    must(written.number == 0 || written.number == 3 || pair_unchanged(&work), "a refused rewriting changed its pair");
    if (written.number)
        return;
    reads_to(in, out.bytes, (size_t)written.length, &previous, &work);
    lent first = lend_next(out.bytes, (size_t)written.length), second = lend_next(NULL, (size_t)written.length);
    flic_written rewritten = flic_rewrite_frame(
        first.bytes, first.length, in->format, in->width, in->height, previous.picture.bytes, previous.picture.length,
        previous.palette.bytes, previous.palette.length, again.picture.bytes, again.picture.length,
        again.palette.bytes, again.palette.length, second.bytes, second.length);
    must(rewritten.number == 0 && rewritten.length == written.length,
         "a frame in house form is rewritten to another length");
    must(!memcmp(first.bytes, second.bytes, first.length), "a frame in house form is rewritten to other bytes");
}

/* Plays a reel that was accepted three laps: each frame shows in each lap what it showed in the first. */
static void play(const input *in)
{
    static uint8_t picture[PIXELS], palette[PALETTE], pictures[RING_STATES][PIXELS], palettes[RING_STATES][PALETTE];
    flic_header header = flic_read_header(in->bytes, in->length);
    must(header.number == 0 && header.width == in->width && header.height == in->height && header.format == in->format,
         "the header of an accepted reel is refused, or has another size or format");
    size_t frames = header.frames, pixels = pixels_of(in);
    flic_span spans[RING_STATES + 1];
    if (frames >= RING_STATES)
        return;
    for (size_t frame = 0; frame <= frames; frame++) {
        spans[frame] = flic_next_frame(in->bytes, header.size, frame ? spans[frame - 1].end : HEADER);
        must(spans[frame].number == 0, "a frame of an accepted reel isn't found");
    }
    memset(picture, 0, sizeof picture);
    memset(palette, 0, sizeof palette);
    for (unsigned lap = 0; lap < 3; lap++)
        for (size_t frame = lap ? 1 : 0; frame <= frames; frame++) {
            const uint8_t *bytes = in->bytes + spans[frame].from;
            size_t length = spans[frame].end - spans[frame].from;
            flic_answer answer =
                flic_read_frame(bytes, length, in->format, in->width, in->height, picture, pixels, palette, PALETTE);
            must(answer.number == 0, "a frame of an accepted reel is refused");
            uint8_t *its_picture = pictures[frame % frames], *its_palette = palettes[frame % frames];
            if (lap || frame == frames)
                must(!memcmp(its_picture, picture, pixels) && !memcmp(its_palette, palette, PALETTE),
                     "a lap shows another state");
            memcpy(its_picture, picture, pixels);
            memcpy(its_palette, palette, PALETTE);
        }
}

static void check_reel(const input *in)
{
    lent reel = lend_next(in->bytes, in->length);
    pair first = lend_pair(in, 0, 1), second = lend_pair(in, 2, 3);
    flic_answer answer = flic_check_reel(reel.bytes, reel.length, first.picture.bytes, first.picture.length,
                                         first.palette.bytes, first.palette.length, second.picture.bytes,
                                         second.picture.length, second.palette.bytes, second.palette.length);
    meet(3, answer.number, answer.place);
    must(answer.place <= reel.length &&
             ((answer.number <= 16 && answer.number != 3) || is_of_frame(in->format, answer.number)),
         "an answer out of range");
    must(unchanged(&reel), "a reel was changed by its check");
    must(answer.number != 1 || (pair_unchanged(&first) && pair_unchanged(&second)), "refusal 1 changed a pair");
    if (answer.number == 0) {
        must(same_state(in, first.picture.bytes, first.palette.bytes, &second), "an accepted reel's pairs differ");
        play(in);
    }
}

static void open_reel(const input *in)
{
    lent bytes = lend_next(in->bytes, in->length);
    uint32_t speed = in->choices[SPEED] * 16843009u;
    flic_reel_answer answer = flic_open_reel(in->width, in->height, speed, bytes.bytes, bytes.length);
    meet(4, answer.number, 0);
    must(unchanged_from(&bytes, answer.number ? 0 : HEADER), "an open changed a byte that isn't its own");
    must(answer.number ? answer.reel.end == 0 && answer.reel.width == 0
                       : answer.reel.end == HEADER && answer.reel.frames == 0 && answer.reel.closed == 0,
         "an open gives another record");
}

static void open_fli(const input *in)
{
    lent bytes = lend_next(in->bytes, in->length);
    uint32_t jiffies = in->choices[SPEED] * 257u + in->choices[CLOSED];
    flic_reel_answer answer = flic_open_fli(in->width, in->height, jiffies, bytes.bytes, bytes.length);
    meet(16, answer.number, 0);
    int is_size = in->width == 320 && in->height == 200;
    must(answer.number == (!is_size ? 2 : jiffies > 65535 ? 14 : bytes.length < HEADER ? 3 : 0) && answer.place == 0,
         "an open of an FLI gives another refusal");
    must(unchanged_from(&bytes, answer.number ? 0 : HEADER), "an open of an FLI changed a byte that isn't its own");
    must(answer.number ? answer.reel.end == 0 && answer.reel.format == 0
                       : answer.reel.end == HEADER && answer.reel.frames == 0 && answer.reel.format == FLIC_FLI,
         "an open of an FLI gives another record");
    for (size_t at = 18; answer.number == 0 && at < HEADER; at++)
        must(bytes.bytes[at] == 0, "an open of an FLI wrote past its 18 bytes");
}

/* What was in jiffies is the same after both calls, and no delay is refused that a header holds. */
static void delays(const input *in)
{
    uint32_t delay = word(in->choices + END) * (in->choices[STATES] & 1 ? 1u : in->choices[SPEED]);
    flic_delay milliseconds = flic_in_milliseconds(delay), jiffies = flic_in_jiffies(delay);
    meet(17, milliseconds.number + jiffies.number, delay);
    must(milliseconds.number == (delay > 65535 ? 14 : 0) && (milliseconds.number == 0 || milliseconds.delay == 0),
         "a delay in jiffies gives another refusal");
    must(jiffies.number ? jiffies.number == 14 && jiffies.delay == 0 && delay > 936214
                        : (uint64_t)jiffies.delay * 1000 >= (uint64_t)delay * 70,
         "a delay in milliseconds gives another refusal, or a shorter delay");
    flic_delay back = flic_in_jiffies(milliseconds.delay);
    must(milliseconds.number || (back.number == 0 && back.delay == delay), "a delay in jiffies comes back as another");
}

static flic_reel record(const input *in)
{
    uint64_t end = word(in->choices + END);
    if (end == 65535)
        end = in->length;
    return (flic_reel){in->width, in->height, in->choices[FRAMES], end, in->choices[CLOSED] > 250, in->format};
}

static int same_record(flic_reel a, flic_reel b)
{
    return a.width == b.width && a.height == b.height && a.frames == b.frames && a.end == b.end && a.closed == b.closed &&
           a.format == b.format;
}

static void add_frame(const input *in)
{
    static uint8_t room[MOST + FLIC_FRAME_MOST];
    flic_reel reel = record(in);
    memcpy(room, in->bytes, in->length);
    lent bytes = lend_next(room, in->length + some_room(in, FLIC_FRAME_MOST));
    pair shown = lend_pair(in, 0, 1), next = lend_pair(in, 2, 3);
    flic_reel_answer answer = flic_add_frame(reel, bytes.bytes, bytes.length, shown.picture.bytes, shown.picture.length,
                                             shown.palette.bytes, shown.palette.length, next.picture.bytes,
                                             next.picture.length, next.palette.bytes, next.palette.length);
    meet(5, answer.number, answer.reel.end - reel.end);
    must(pair_unchanged(&shown) && pair_unchanged(&next), "an add changed what it reads");
    if (answer.number) {
        must(unchanged(&bytes) && same_record(answer.reel, reel), "a refused add changed bytes or record");
        return;
    }
    must(answer.reel.frames == reel.frames + 1 && answer.reel.end <= bytes.length, "an add gives another record");
    must(!memcmp(bytes.bytes, bytes.before, (size_t)reel.end), "an add changed bytes before its frame");
    must(unchanged_from(&bytes, (size_t)answer.reel.end), "an add changed bytes past its frame");
    reads_to(in, bytes.bytes + reel.end, (size_t)(answer.reel.end - reel.end), &shown, &next);
}

static void close_reel(const input *in)
{
    static uint8_t room[MOST + FLIC_FRAME_MOST];
    flic_reel reel = record(in);
    memcpy(room, in->bytes, in->length);
    lent bytes = lend_next(room, in->length + some_room(in, FLIC_FRAME_MOST));
    pair first = lend_pair(in, 0, 1), second = lend_pair(in, 2, 3);
    flic_reel_answer answer = flic_close_reel(
        reel, bytes.bytes, bytes.length, first.picture.bytes, first.picture.length, first.palette.bytes,
        first.palette.length, second.picture.bytes, second.picture.length, second.palette.bytes, second.palette.length);
    meet(6, answer.number, answer.place);
    if (answer.number) {
        must(unchanged(&bytes) && same_record(answer.reel, reel), "a refused close changed bytes or record");
        return;
    }
    must(answer.reel.closed && answer.reel.end <= bytes.length, "a close gives another record");
    must(unchanged_from(&bytes, (size_t)answer.reel.end), "a close changed bytes past the ring");
    must(answer.reel.format == (reel.format != 0), "a close gives another format");
    const uint8_t *header = bytes.bytes;
    if (word(header + 4) != (reel.format ? 0xAF11 : 0xAF12) || word(header + 8) != reel.width ||
        word(header + 10) != reel.height || word(header + 12) != 8 || (reel.format && word(header + 14)))
        return; /* The header isn't that of an open of this size and format. */
    flic_answer checked = flic_check_reel(
        bytes.bytes, (size_t)answer.reel.end, first.picture.bytes, first.picture.length, first.palette.bytes,
        first.palette.length, second.picture.bytes, second.picture.length, second.palette.bytes, second.palette.length);
    must(checked.number == 0, "a closed reel is refused");
}

static void check_trailer(const input *in)
{
    lent bytes = lend_next(in->bytes, in->length);
    flic_answer answer = flic_check_trailer(bytes.bytes, bytes.length);
    meet(7, answer.number, answer.place);
    must(answer.place <= bytes.length && answer.number <= 17, "an answer out of range");
    must(unchanged(&bytes), "a check changed the trailer");
}

static void write_trailer(const input *in)
{
    static uint8_t room[MOST + 65536];
    memcpy(room, in->bytes, in->length);
    lent bytes = lend_next(room, in->length + some_room(in, 16100));
    flic_written written = flic_write_trailer(bytes.bytes, bytes.length);
    meet(8, written.number, written.place);
    must(written.length <= bytes.length, "more was written than there is room for");
    must(unchanged_from(&bytes, (size_t)written.length), "a byte past the trailer, or of a refused call, was changed");
    if (written.number)
        return;
    must(!memcmp(bytes.bytes, bytes.before, size_of(bytes.before)), "a trailer changed the reel");
    must(flic_check_trailer(bytes.bytes, (size_t)written.length).number == 0, "a trailer that was written is refused");
}

static void list(const input *in)
{
    lent bytes = lend_next(in->bytes, in->length), out = lend_next(NULL, some_room(in, FLIC_LIST_MOST));
    flic_written written = flic_list(bytes.bytes, bytes.length, out.bytes, out.length);
    meet(9, written.number, written.length);
    must(written.number == 0 || written.number == 3, "a listing gives another refusal than 3");
    must(written.number == 0 || out.length < FLIC_LIST_MOST, "FLIC_LIST_MOST bytes are refused 3");
    check_written(written, &out);
    must(unchanged(&bytes), "a listing changed the file");
    must(written.number || (written.length && out.bytes[written.length - 1] == '\n'), "a listing doesn't end its line");
}

static void read_header(const input *in)
{
    lent bytes = lend_next(in->bytes, in->length);
    flic_header header = flic_read_header(bytes.bytes, bytes.length);
    meet(10, header.number, header.size);
    must(unchanged(&bytes), "a reading of a header changed the file");
    must(header.place == 0, "a header is refused elsewhere than at place 0");
    if (header.number)
        must(!(header.width | header.height | header.frames | header.size | header.speed | header.format),
             "a refused header tells something");
    else
        must(header.size >= HEADER && header.size <= bytes.length && header.width >= 1 && header.width <= 320 &&
                 header.height >= 1 && header.height <= 200 && header.frames >= 1 && header.frames <= 4000,
             "a header tells something out of range");
    must(header.format == FLIC_FLC ||
             (header.format == FLIC_FLI && header.width == 320 && header.height == 200 && header.speed <= 936214),
         "a header tells another format, or of an FLI another size or a delay that it can't hold");
}

static void next_frame(const input *in)
{
    lent bytes = lend_next(in->bytes, in->length);
    uint64_t at = word(in->choices + END);
    if (at == 65535)
        at = HEADER;
    flic_span span = flic_next_frame(bytes.bytes, bytes.length, at);
    meet(11, span.number, span.from);
    must(unchanged(&bytes), "a step changed the reel");
    if (span.number) {
        must(span.number == 4 || span.number == 6 || span.number == 15, "an answer out of range");
        must(span.place >= at && !span.from && !span.end, "a refused step gives a span, or a place before it began");
        return;
    }
    must(span.place == 0 && at <= span.from && span.from + 16 <= span.end && span.end <= bytes.length,
         "a step gives a span out of range");
    must(word(bytes.bytes + span.from + 4) == 0xF1FA && size_of(bytes.bytes + span.from) == span.end - span.from,
         "a step gives a span that isn't a frame");
}

/* The number of the frame that comes after this one. */
static uint64_t follows(uint64_t number, uint64_t frames) { return number <= frames ? number + 1 : 2; }

/* Ticks a player of an accepted reel three laps, a frame each tick: each frame shows in each lap what it showed in the
 * first, and a replay tells the same numbers. */
static void tick_laps(const input *in, flic_player player, const pair *shown)
{
    static uint8_t pictures[RING_STATES][PIXELS], palettes[RING_STATES][PALETTE];
    static uint32_t readings[3 * RING_STATES], numbers[3 * RING_STATES];
    size_t frames = player.frames, pixels = pixels_of(in), ticks = 3 * frames;
    uint32_t start = player.last;
    if (frames >= RING_STATES || player.speed >> 31)
        return;
    for (size_t tick = 0; tick <= ticks; tick++) {
        uint8_t *picture = pictures[(player.number - 1) % frames], *palette = palettes[(player.number - 1) % frames];
        if (tick >= frames)
            must(same_state(in, picture, palette, shown), "a lap of ticks shows another state");
        memcpy(picture, shown->picture.bytes, pixels);
        memcpy(palette, shown->palette.bytes, PALETTE);
        if (tick == ticks)
            break;
        uint64_t next = follows(player.number, frames);
        readings[tick] = player.last + player.speed;
        flic_ticked ticked =
            flic_tick(&player, in->bytes, in->length, readings[tick], shown->picture.bytes, shown->picture.length,
                      shown->palette.bytes, shown->palette.length);
        must(ticked.number == 0 && ticked.event == 1, "a frame that is due isn't drawn");
        must(player.number == next && player.last == readings[tick], "a drawn frame has another number or draw time");
        numbers[tick] = (uint32_t)next;
    }
    lent told = lend_next(NULL, sizeof *numbers * ticks);
    flic_written replayed =
        flic_replay(player.speed, frames, start, readings, ticks, (uint32_t *)(void *)told.bytes, ticks);
    must(replayed.number == 0 && replayed.length == ticks, "a replay of ticks is refused");
    must(!memcmp(told.bytes, numbers, told.length), "a replay tells other numbers than the ticks");
}

static void start_player(const input *in)
{
    lent reel = lend_next(in->bytes, in->length);
    pair first = lend_pair(in, 0, 1), second = lend_pair(in, 2, 3);
    pair checked_first = lend_pair(in, 0, 1), checked_second = lend_pair(in, 2, 3);
    uint32_t now = in->choices[SPEED] * 16843009u;
    flic_player_answer answer =
        flic_start_player(reel.bytes, reel.length, now, first.picture.bytes, first.picture.length, first.palette.bytes,
                          first.palette.length, second.picture.bytes, second.picture.length, second.palette.bytes,
                          second.palette.length);
    flic_answer checked = flic_check_reel(
        reel.bytes, reel.length, checked_first.picture.bytes, checked_first.picture.length,
        checked_first.palette.bytes, checked_first.palette.length, checked_second.picture.bytes,
        checked_second.picture.length, checked_second.palette.bytes, checked_second.palette.length);
    meet(12, answer.number, answer.place);
    must(answer.number == checked.number && answer.place == checked.place, "a start answers otherwise than the check");
    must(unchanged(&reel), "a reel was changed by a start");
    must(same(&first, &checked_first) && same(&second, &checked_second), "a start leaves other pairs than the check");
    flic_player player = answer.player;
    if (answer.number) {
        flic_player none = {0};
        must(same_player(&player, &none), "a refused start gives a player");
        return;
    }
    flic_header header = flic_read_header(reel.bytes, reel.length);
    flic_span frame = flic_next_frame(reel.bytes, header.size, HEADER);
    flic_player wanted = {header.width, header.height, header.frames, 1, frame.end, frame.end, header.speed, now,
                          header.format};
    must(same_player(&player, &wanted), "a start gives another player");
    tick_laps(in, player, &first);
}

static void tick(const input *in)
{
    uint64_t place = word(in->choices + END);
    if (place == 65535)
        place = HEADER;
    uint32_t speed = in->choices[SPEED] * 16843009u, last = in->choices[STATES] * 16843009u;
    uint32_t now = last + (in->choices[ROOM] < 128 ? speed : (in->choices[ROOM] - 128u) * 33818640u);
    flic_player before = {in->width, in->height, in->choices[FRAMES], (uint8_t)(in->choices[CLOSED] + 1), place,
                          in->choices[STATES] * 5u, speed, last, in->format};
    lent record = lend_next((const uint8_t *)&before, sizeof before);
    lent reel = lend_next(in->bytes, in->length);
    pair shown = lend_pair(in, 0, 1);
    flic_player *player = (flic_player *)(void *)record.bytes;
    flic_ticked ticked = flic_tick(player, reel.bytes, reel.length, now, shown.picture.bytes, shown.picture.length,
                                   shown.palette.bytes, shown.palette.length);
    meet(13, ticked.number, ticked.place + ticked.event);
    must(ticked.place <= reel.length && (ticked.number <= 15 || is_of_frame(in->format, ticked.number)) &&
             ticked.event <= 2,
         "an answer out of range");
    must(unchanged(&reel), "a reel was changed by a tick");
    must(unchanged_from(&shown.picture, pixels_of(in)) && unchanged_from(&shown.palette, PALETTE),
         "excess was changed");
    must(ticked.event == 1 || pair_unchanged(&shown), "a tick that draws nothing changed the state");
    uint32_t reading = now, number = 0;
    flic_written replayed = flic_replay(speed, 1, last, &reading, 1, &number, 1);
    must(replayed.number == 0 && number == 1u + (ticked.number || ticked.event == 1),
         "a frame is due in a tick or in its replay alone");
    flic_player wanted = before;
    if (ticked.number) {
        must(ticked.event == 0 && unchanged(&record), "a refused tick tells an event, or changed the record");
    } else if (ticked.event == 2) {
        wanted.last = now;
    } else if (ticked.event == 1) {
        wanted.number = follows(before.number, before.frames);
        wanted.last = last + speed;
        wanted.place = wanted.number == before.frames + 1 ? before.first_end : player->place;
        must(before.number >= 1 && before.number <= before.frames + 1, "a frame was drawn after a number out of range");
        must(wanted.number == before.frames + 1 || (place + 16 <= player->place && player->place <= reel.length),
             "a drawn frame ends out of range");
    }
    must(same_player(player, &wanted), "a tick leaves another record");
}

static void replay(const input *in)
{
    size_t ticks = in->length / sizeof(uint32_t);
    size_t words = in->choices[ROOM] < 128 ? ticks + in->choices[ROOM] % 3 : in->choices[ROOM] - 128u;
    uint64_t frames = word(in->choices + FRAMES);
    uint32_t speed = in->choices[SPEED] * (in->choices[STATES] & 1 ? 1u : 16843009u), start = word(in->choices + END);
    lent readings = lend_next(in->bytes, ticks * sizeof(uint32_t)), numbers = lend_next(NULL, words * sizeof(uint32_t));
    const uint32_t *told = (const uint32_t *)(const void *)numbers.bytes;
    flic_written replayed = flic_replay(speed, frames, start, (const uint32_t *)(const void *)readings.bytes, ticks,
                                        (uint32_t *)(void *)numbers.bytes, words);
    meet(14, replayed.number, replayed.length);
    must(unchanged(&readings), "a replay changed the readings");
    must(replayed.number == (frames < 1 || frames > 4000 ? 14 : words < ticks ? 3 : 0) && replayed.place == 0,
         "a replay gives another refusal");
    must(replayed.length == (replayed.number ? 0 : ticks), "a replay tells another length");
    must(unchanged_from(&numbers, (size_t)replayed.length * sizeof(uint32_t)), "a replay changed other words");
    for (size_t tick = 0, stood = 1; tick < replayed.length; stood = told[tick++])
        must(told[tick] == stood || told[tick] == follows(stood, frames), "a replay goes on to another frame");
}

/* A pixel whose tile isn't marked must be the same in both pictures, and a marked tile have one that isn't. */
static void marks_hold(const input *in, const lent *previous, const lent *next, const uint64_t *words)
{
    uint64_t wanted[25] = {0};
    for (size_t y = 0; y < in->height; y++)
        for (size_t x = 0; x < in->width; x++)
            if (previous->bytes[y * in->width + x] != next->bytes[y * in->width + x])
                wanted[y / 8] |= (uint64_t)1 << x / 8;
    for (size_t j = 0; j < (in->height + 7) / 8; j++) {
        flic_tile_row row = flic_marked_tiles(words[j]);
        must(words[j] == wanted[j], "a tile map marks other tiles");
        must(words[j] ? words[j] >> row.first & words[j] >> row.last & 1 : row.first == 64 && row.last == 64,
             "the first or the last marked tile isn't marked");
        must(row.count <= (words[j] ? row.last - row.first + 1 : 0), "more tiles are marked than there are");
    }
}

static void tile_map(const input *in)
{
    static uint8_t content[PIXELS + 16];
    pair shown = lend_pair(in, 0, 1);
    size_t length = some_length(in, pixels_of(in), 2), rows = (in->height + 7) / 8;
    size_t count = in->choices[ROOM] < 128 ? (rows > 25 ? 25 : rows) + in->choices[ROOM] % 3 : in->choices[ROOM] - 128u;
    memcpy(content, shown.picture.bytes, shown.picture.length < length ? shown.picture.length : length);
    for (size_t i = 0; i + 1 < in->length && length; i += 2)
        content[word(in->bytes + i) % length] ^= in->bytes[i + 1];
    lent next = lend_next(content, length), words = lend_next(NULL, count * sizeof(uint64_t));
    flic_written mapped = flic_tile_map(in->width, in->height, shown.picture.bytes, shown.picture.length, next.bytes,
                                        next.length, (uint64_t *)(void *)words.bytes, count);
    meet(15, mapped.number, mapped.length);
    int is_size = in->width >= 1 && in->width <= 320 && in->height >= 1 && in->height <= 200;
    int is_short = shown.picture.length < pixels_of(in) || next.length < pixels_of(in);
    must(mapped.number == (!is_size ? 2 : is_short ? 1 : count < rows ? 3 : 0) && mapped.place == 0,
         "a tile map gives another refusal");
    must(mapped.length == (mapped.number ? 0 : rows), "a tile map tells another length");
    must(pair_unchanged(&shown) && unchanged(&next), "a tile map changed a picture");
    must(unchanged_from(&words, (size_t)mapped.length * sizeof(uint64_t)), "a tile map changed other words");
    if (mapped.number == 0)
        marks_hold(in, &shown.picture, &next, (const uint64_t *)(const void *)words.bytes);
}

int LLVMFuzzerTestOneInput(const uint8_t *data, size_t size)
{
    static void (*const entries[])(const input *) = {read_frame,    write_frame,   rewrite_frame, check_reel,
                                                     open_reel,     add_frame,     close_reel,    check_trailer,
                                                     write_trailer, list,          read_header,   next_frame,
                                                     start_player,  tick,          replay,        tile_map,
                                                     open_fli,      delays};
    if (size < CHOICES || size - CHOICES > MOST)
        return 0;
    const uint8_t *bytes = data + CHOICES;
    size_t length = size - CHOICES;
    input in = {data, bytes, length, data[FORMAT], data[WIDTH], data[HEIGHT], bytes, length};
    unsigned magic = in.length > HEADER ? word(in.bytes + 4) : 0;
    if (magic == 0xAF12 || magic == 0xAF11) {
        /* A reel: its own format and size, and its first frame. */
        in.frame += HEADER;
        in.frame_length -= HEADER;
        in.format = magic == 0xAF11;
        in.width = word(in.bytes + 8);
        in.height = word(in.bytes + 10);
    } else if (in.format & 1) {
        /* A frame of an FLI, whose size no byte holds. */
        in.width = 320;
        in.height = 200;
    }
    sides = data[SIDES];
    lend_anew();
    entries[data[ENTRY] % (sizeof entries / sizeof *entries)](&in);
    must(neighbours_hold(), "a byte beside a lent slice was written");
    return 0;
}
