/* Reads an override block and prints its tags, the instants at which the line is to be drawn, its karaoke syllables,
 * and its state and style at given instants: an example of the calls in include/hannuvel.h. All memory is on the stack,
 * and of a fixed size. */
#include "hannuvel.h"

#include <stdio.h>
#include <stdlib.h>
#include <string.h>

#define PLACES 64
#define NEVER INT64_MAX

/* What is printed of words: f an f32, n a number, s a signed number, p a part of the text by its offset and length. */
struct field {
    const char *name;
    const char *words;
};

/* The kinds of record from 1 on. */
static const struct field KINDS[] = {
    {"fad", "nn"},     {"fade", "nnnssss"}, {"pos", "ff"},  {"move", "ffffnss"}, {"frz", "f"},     {"blur", "f"},
    {"fscx", "f"},     {"fscy", "f"},       {"1c", "nnn"},  {"fs", "f"},         {"clip", "ffff"}, {"clip", "p"},
    {"frx", "f"},      {"fry", "f"},        {"org", "ff"},  {"bord", "f"},       {"xbord", "f"},   {"ybord", "f"},
    {"shad", "f"},     {"xshad", "f"},      {"yshad", "f"}, {"be", "n"},         {"fax", "f"},     {"fay", "f"},
    {"iclip", "ffff"}, {"iclip", "p"},      {"2c", "nnn"},  {"3c", "nnn"},       {"4c", "nnn"},    {"alpha", "n"},
    {"1a", "n"},       {"2a", "n"},         {"3a", "n"},    {"4a", "n"},         {"fsp", "f"},     {"q", "n"},
    {"an", "n"},       {"a", "n"},          {"fn", "pp"},   {"fe", "n"},         {"r", "np"},      {"b", "n"},
    {"i", "n"},        {"u", "n"},          {"s", "n"},     {"k", "nn"},         {"pbo", "s"},     {"p", "n"},
    {"t", "nssfn"},
};

/* The fields of a state that have no flag, and those that begin with one. */
static const struct plain {
    struct field field;
    int word;
} PLAIN[] =
    {
        {{"alpha_mul", "f"}, HANNUVEL_STATE_ALPHA_MUL},
        {{"rotate_radians", "f"}, HANNUVEL_STATE_ROTATE_RADIANS},
        {{"rotate_x_radians", "f"}, HANNUVEL_STATE_ROTATE_X_RADIANS},
        {{"rotate_y_radians", "f"}, HANNUVEL_STATE_ROTATE_Y_RADIANS},
        {{"scale", "ff"}, HANNUVEL_STATE_SCALE_X},
        {{"blur_sigma", "f"}, HANNUVEL_STATE_BLUR_SIGMA},
        {{"be_strength", "n"}, HANNUVEL_STATE_BE_STRENGTH},
        {{"shear", "ff"}, HANNUVEL_STATE_SHEAR_X},
},
  FLAGGED[] = {
      {{"translate", "ff"}, HANNUVEL_STATE_TRANSLATE},
      {{"clip_rect", "ffff"}, HANNUVEL_STATE_CLIP_RECT},
      {{"clip_drawing", "p"}, HANNUVEL_STATE_CLIP_DRAWING},
      {{"primary_color", "nnn"}, HANNUVEL_STATE_PRIMARY_COLOR},
      {{"font_size", "f"}, HANNUVEL_STATE_FONT_SIZE},
      {{"pivot", "ff"}, HANNUVEL_STATE_PIVOT},
      {{"border", "ff"}, HANNUVEL_STATE_BORDER},
      {{"shadow", "ff"}, HANNUVEL_STATE_SHADOW},
      {{"iclip_rect", "ffff"}, HANNUVEL_STATE_ICLIP_RECT},
      {{"iclip_drawing", "p"}, HANNUVEL_STATE_ICLIP_DRAWING},
      {{"secondary_color", "nnn"}, HANNUVEL_STATE_SECONDARY_COLOR},
      {{"outline_color", "nnn"}, HANNUVEL_STATE_OUTLINE_COLOR},
      {{"shadow_color", "nnn"}, HANNUVEL_STATE_SHADOW_COLOR},
      {{"primary_alpha", "n"}, HANNUVEL_STATE_PRIMARY_ALPHA},
      {{"secondary_alpha", "n"}, HANNUVEL_STATE_SECONDARY_ALPHA},
      {{"outline_alpha", "n"}, HANNUVEL_STATE_OUTLINE_ALPHA},
      {{"shadow_alpha", "n"}, HANNUVEL_STATE_SHADOW_ALPHA},
      {{"letter_spacing", "f"}, HANNUVEL_STATE_LETTER_SPACING},
      {{"wrap_style", "n"}, HANNUVEL_STATE_WRAP_STYLE},
      {{"alignment", "n"}, HANNUVEL_STATE_ALIGNMENT},
      {{"font_name", "pp"}, HANNUVEL_STATE_FONT_NAME},
      {{"font_encoding", "n"}, HANNUVEL_STATE_FONT_ENCODING},
      {{"bold_weight", "n"}, HANNUVEL_STATE_BOLD_WEIGHT},
      {{"reset_to_style", "p"}, HANNUVEL_STATE_RESET_TO_STYLE},
      {{"italic", "n"}, HANNUVEL_STATE_ITALIC},
      {{"underline", "n"}, HANNUVEL_STATE_UNDERLINE},
      {{"strikeout", "n"}, HANNUVEL_STATE_STRIKEOUT},
      {{"drawing_baseline_offset", "s"}, HANNUVEL_STATE_DRAWING_BASELINE_OFFSET},
      {{"drawing_scale", "n"}, HANNUVEL_STATE_DRAWING_SCALE},
};

#define COUNT(array) (sizeof(array) / sizeof *(array))

/* A line of subtitles: its block, its own style, and what was read from the block. */
struct line {
    const char *text;
    const char *style;
    int32_t duration;
    uint32_t table[PLACES * HANNUVEL_RECORD_WORDS];
    size_t words;
    uint32_t spans[PLACES * HANNUVEL_SPAN_WORDS];
    uint32_t syllables;
};

/* A call that is refused ends the program. */
static uint32_t answered(const char *call, uint64_t answer) {
    if (hannuvel_ground(answer) != HANNUVEL_ANSWERED) {
        printf("%s: refused, ground %u, place or count %u\n", call, hannuvel_ground(answer), hannuvel_value(answer));
        exit(1);
    }
    return hannuvel_value(answer);
}

static void print_words(const char *text, struct field field, const uint32_t *words) {
    printf("%s", field.name);
    for (const char *sort = field.words; *sort != '\0'; sort++, words++) {
        if (*sort == 'f') printf(" %.9g", hannuvel_f32(*words));
        if (*sort == 'n') printf(" %u", *words);
        if (*sort == 's') printf(" %d", hannuvel_i32(*words));
        if (*sort == 'p') {
            printf(" \"%.*s\"", (int)words[1], text + words[0]);
            words++;
        }
    }
    printf("\n");
}

/* Prints so many records, those inside a \t further in. */
static void print_tags(const char *text, const uint32_t *table, uint32_t records, int depth) {
    for (uint32_t place = 0; place < records; place++) {
        const uint32_t *record = table + HANNUVEL_RECORD_WORDS * place;
        printf("%*s\\", 2 * depth, "");
        print_words(text, KINDS[record[HANNUVEL_RECORD_KIND] - 1], record + 1);
        if (record[HANNUVEL_RECORD_KIND] == HANNUVEL_KIND_T) {
            print_tags(text, record + HANNUVEL_RECORD_WORDS, record[HANNUVEL_T_INSIDE], depth + 1);
            place += record[HANNUVEL_T_INSIDE];
        }
    }
}

/* Reads the line's block and works out its syllables. */
static void read_line(struct line *line) {
    const uint8_t *text = (const uint8_t *)line->text;
    uint64_t read = hannuvel_parse_raw_block(text, strlen(line->text), line->table, COUNT(line->table));
    line->words = (size_t)answered("parse_raw_block", read) * HANNUVEL_RECORD_WORDS;
    uint64_t sung = hannuvel_karaoke_spans(line->table, line->words, line->spans, COUNT(line->spans));
    line->syllables = answered("karaoke_spans", sung);
}

static const uint32_t *syllable(const struct line *line, uint32_t place) {
    return line->spans + HANNUVEL_SPAN_WORDS * place;
}

/* The first millisecond after t at which a syllable moves the picture: a sweep at each of its milliseconds up to its
 * end, and an empty one a millisecond behind its start, as hannuvel_progress has it; another where it begins. */
static int64_t next_syllable(const struct line *line, int64_t t) {
    int64_t next = NEVER;
    for (uint32_t place = 0; place < line->syllables; place++) {
        const uint32_t *span = syllable(line, place);
        int64_t first = span[HANNUVEL_SPAN_START_MS], last = first;
        if (span[HANNUVEL_SPAN_KIND] == HANNUVEL_KARAOKE_SWEEP) {
            first++;
            last = span[HANNUVEL_SPAN_END_MS] > first ? span[HANNUVEL_SPAN_END_MS] : first;
        }
        if (first <= t) first = t + 1;
        if (first <= last && first < next) next = first;
    }
    return next;
}

/* The first millisecond after t at which the picture may move: at the next mark, which is the state's and does not
 * speak of syllables, or where a syllable moves it, if that is earlier. */
static int64_t next_move(const struct line *line, int32_t t) {
    uint64_t answer = hannuvel_next_mark(line->table, line->words, t, line->duration);
    int64_t mark = hannuvel_i32(answered("next_mark", answer));
    if (hannuvel_extra(answer) == 1) mark = NEVER;
    int64_t sung = next_syllable(line, t);
    return mark < sung ? mark : sung;
}

/* Prints when the line is drawn: at its start, and at each later millisecond up to its end at which the picture may
 * move, as ranges. What would move after the end is not shown any more. */
static void print_moves(const struct line *line) {
    int64_t next = next_move(line, 0);
    if (next > line->duration) {
        printf("drawn at 0 ms, then never anew\n");
        return;
    }
    printf("drawn at 0 ms, then anew at");
    while (next <= line->duration) {
        int32_t first = (int32_t)next, last = first;
        while ((next = next_move(line, last)) == (int64_t)last + 1 && next <= line->duration) last++;
        printf(" %d", first);
        if (last > first) printf("-%d", last);
    }
    printf(" ms\n");
}

/* Prints the syllables that the \k, \kf and \ko time. */
static void print_karaoke(const struct line *line) {
    static const char *const NAMES[] = {"fill", "sweep", "outline"};
    for (uint32_t place = 0; place < line->syllables; place++) {
        const uint32_t *span = syllable(line, place);
        printf("syllable %u: %u to %u ms, %s\n", place, span[HANNUVEL_SPAN_START_MS], span[HANNUVEL_SPAN_END_MS],
               NAMES[span[HANNUVEL_SPAN_KIND]]);
    }
}

/* Prints how far an instant is through the syllable that is sung. */
static void print_progress(const struct line *line, int32_t t) {
    for (uint32_t place = 0; place < line->syllables; place++) {
        const uint32_t *span = syllable(line, place);
        uint64_t answer = hannuvel_progress(span[HANNUVEL_SPAN_START_MS], span[HANNUVEL_SPAN_END_MS], t);
        float through = hannuvel_f32(answered("progress", answer));
        if (0 < through && through < 1) printf("  through syllable %u %.9g\n", place, through);
    }
}

/* Prints the name of the style in force. */
static void print_style(const struct line *line, int32_t t) {
    const uint8_t *block = (const uint8_t *)line->text, *own = (const uint8_t *)line->style;
    uint64_t answer = hannuvel_style_in_force(line->table, line->words, t, line->duration, block, strlen(line->text),
                                              own, strlen(line->style));
    answered("style_in_force", answer);
    const char *names = hannuvel_extra(answer) == 1 ? line->text : line->style;
    printf("  style \"%.*s\"\n", (int)hannuvel_style_length(answer), names + hannuvel_style_offset(answer));
}

/* Prints the commands of a clip's drawing. */
static void print_clip(const char *argument, uint32_t bytes) {
    static const struct field COMMANDS[] = {{"move", "ff"}, {"line", "ff"}, {"cubic", "ffffff"}, {"close", ""}};
    uint32_t path[PLACES * HANNUVEL_RECORD_WORDS];
    uint64_t split = hannuvel_split_clip_arg((const uint8_t *)argument, bytes);
    uint32_t exponent = answered("split_clip_arg", split), rest = hannuvel_extra(split);
    uint64_t drawn =
        hannuvel_parse_drawing((const uint8_t *)argument + rest, bytes - rest, exponent, path, COUNT(path));
    uint32_t commands = answered("parse_drawing", drawn);
    for (uint32_t place = 0; place < commands; place++) {
        const uint32_t *command = path + HANNUVEL_RECORD_WORDS * place;
        printf("    ");
        print_words(argument, COMMANDS[command[HANNUVEL_COMMAND_KIND] - 1], command + HANNUVEL_COMMAND_X1);
    }
}

/* Prints the fields of the state at an instant that differ from those of a line without tags. */
static void print_state(const struct line *line, int32_t t) {
    uint32_t none[HANNUVEL_STATE_WORDS], state[HANNUVEL_STATE_WORDS];
    answered("evaluate_at", hannuvel_evaluate_at(line->table, 0, t, line->duration, none));
    answered("evaluate_at", hannuvel_evaluate_at(line->table, line->words, t, line->duration, state));
    printf("at %d ms\n", t);
    for (size_t i = 0; i < COUNT(PLAIN); i++) {
        const uint32_t *field = state + PLAIN[i].word;
        if (memcmp(field, none + PLAIN[i].word, strlen(PLAIN[i].field.words) * sizeof *field) == 0) continue;
        printf("  ");
        print_words(line->text, PLAIN[i].field, field);
    }
    for (size_t i = 0; i < COUNT(FLAGGED); i++) {
        const uint32_t *field = state + FLAGGED[i].word;
        if (*field == 0) continue;
        printf("  ");
        print_words(line->text, FLAGGED[i].field, field + 1);
    }
    if (state[HANNUVEL_STATE_CLIP_DRAWING] == 1) {
        printf("  the clip's path\n");
        print_clip(line->text + state[HANNUVEL_STATE_CLIP_DRAWING_OFFSET], state[HANNUVEL_STATE_CLIP_DRAWING_LENGTH]);
    }
}

int main(int count, char **arguments) {
    if (count < 4) {
        fprintf(stderr, "usage: block TEXT STYLE DURATION [INSTANT..]\n");
        return 2;
    }
    struct line line = {.text = arguments[1], .style = arguments[2], .duration = (int32_t)atol(arguments[3])};
    read_line(&line);
    uint32_t records = (uint32_t)line.words / HANNUVEL_RECORD_WORDS;
    printf("%s\n%u of %d records\n", line.text, records, PLACES);
    print_tags(line.text, line.table, records, 1);
    print_moves(&line);
    print_karaoke(&line);
    for (int i = 4; i < count; i++) {
        int32_t t = (int32_t)atol(arguments[i]);
        print_state(&line, t);
        print_style(&line, t);
        print_progress(&line, t);
    }
    return 0;
}
