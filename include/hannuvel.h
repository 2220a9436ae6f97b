/* Hannuvel: reads the override tags of Sub Station Alpha subtitles into a table of tags; gives the state of these
 * tags at an instant, the next millisecond at which this state may change, the karaoke syllables and the style in
 * force; and reads drawings into paths.
 *
 * The functions are those of crates/hannuvel, exported by crates/hannuvel_c, proved and compiled by
 * `tools/archives.sh hannuvel` into target/staticlib/libhannuvel.a, for programs on x86-64 Linux. They keep nothing
 * between calls, allocate nothing, and can be called from several threads at once on memory that the threads do not
 * share. examples/c has a program that calls them, host/ a Rust crate over them.
 *
 * Lent memory. A slice of Rattle is two arguments: `&[u8]` a pointer and its length in bytes, `&[u32]` and
 * `&mut [u32]` a pointer, aligned to 4 bytes, and its length in 32-bit words; `&mut [u32; 92]` is a pointer to
 * 92 such words. No pointer is NULL, also where the length is 0. What is lent to be written overlaps nothing else that
 * is lent to the call, and nothing else writes any of it while the call runs. All this is the caller's to see to: no
 * call can check it.
 *
 * A table has eight words to a record, a path eight to a command, a list of karaoke spans three to a span. The words
 * that make up a whole one are a place. Words behind the last whole place are never written, nor is any word where a
 * call is refused. Words behind the last record, command or span written keep what they held.
 *
 * Stack. The most bytes that a call uses, by how many \t stand inside each other in its text or table:
 *
 *                         none       1       8      16
 *     parse_overrides    1,024   1,344   3,456   5,888
 *     parse_raw_block    1,024   1,344   3,456   5,888
 *     evaluate_at        1,472   2,496   9,536  17,600
 *     next_mark            320     448   1,344   2,368
 *     karaoke_spans        192     320   1,216   2,240
 *     style_in_force       320     448   1,344   2,368
 *     parse_drawing        896
 *     split_clip_arg       192
 *     progress              64
 *
 * So in 48 KB (49,152 bytes), beside a text of so many bytes, a state and the stack of evaluate_at, a table has room
 * for so many records; 1,024 count:
 *
 *     text of bytes       none       1       8      16
 *      1,024             1,024   1,024   1,024     942
 *      4,096             1,024   1,024   1,024     846
 *      8,192             1,024   1,024     970     718
 *     12,288             1,024   1,024     842     590
 */
#ifndef HANNUVEL_H
#define HANNUVEL_H

#include <stddef.h>
#include <stdint.h>
#include <string.h>

#ifdef __cplusplus
extern "C" {
#endif

#define HANNUVEL_RECORD_WORDS 8     /* words to a record or a command */
#define HANNUVEL_SPAN_WORDS 3       /* words to a span */
#define HANNUVEL_STATE_WORDS 92     /* words of a state */
#define HANNUVEL_MOST_RECORDS 1024  /* records of a table, commands of a path or spans of a list that count */
#define HANNUVEL_MOST_BYTES 12288   /* bytes of a text */
#define HANNUVEL_MOST_MS 1000000000 /* how far an instant, a duration or a tag's time may lie from 0 */
#define HANNUVEL_MOST_DIGITS 9      /* digits of a numeral, written out, before its point, and behind it */
#define HANNUVEL_MOST_EXPONENT 32   /* a drawing's scale exponent */
#define HANNUVEL_MOST_DEPTH 16      /* how deep one \t may stand inside another */

/* What a call returns is one number:
 *
 *     bits 48 to 63   the ground, 0 where the call is answered
 *     bits 32 to 47   an extra beside the answer, 0 where the call has none
 *     bits  0 to 31   the answer's value; for a ground its place or count, 0 where it has none
 *
 * Places count bytes or records from 0. */
static inline unsigned hannuvel_ground(uint64_t answer) { return (unsigned)(answer >> 48); }
static inline unsigned hannuvel_extra(uint64_t answer) { return (unsigned)((answer >> 32) & 0xFFFF); }
static inline uint32_t hannuvel_value(uint64_t answer) { return (uint32_t)(answer & 0xFFFFFFFF); }

/* A word as the f32 or as the signed number whose bits it holds. */
static inline float hannuvel_f32(uint32_t word) {
    float number;
    memcpy(&number, &word, sizeof number);
    return number;
}
static inline int32_t hannuvel_i32(uint32_t word) {
    int32_t number;
    memcpy(&number, &word, sizeof number);
    return number;
}

/* The grounds for turning a call down, in checking order: of two the lower is given. The two reading calls have 1 to 4
 * and 9, evaluation and the next mark 5 and 6, karaoke spans 5 and 9, progress 6, the style in force 1, 2, 5, 6 and 8,
 * a drawing 1, 2, 3, 7 and 9, a clip argument 1 and 2.
 *
 * A numeral is too long (3) if it has, written out without its exponent, more than 9 digits before its point or behind
 * it (1e9), or if its exponent has more than two digits (1e002). In a drawing so are inf, infinity and nan.
 *
 * A table is malformed (5) if it has more than 1,024 records, or words behind the last whole one, or a word out
 * of the range of its field, or a \t that claims more records than follow in what encloses it, or seventeen \t one
 * inside the other. What a reading wrote, and no more words than that, is never malformed. */
enum hannuvel_ground {
    HANNUVEL_ANSWERED = 0,          /* none: the call is answered */
    HANNUVEL_TEXT_TOO_LONG = 1,     /* the text has more than 12,288 bytes */
    HANNUVEL_NOT_ASCII = 2,         /* a byte is 128 or more; place: the first */
    HANNUVEL_NUMERAL_TOO_LONG = 3,  /* place: the numeral's first byte */
    HANNUVEL_FADE_TOO_FAR = 4,      /* a time of a \fade; place: its backslash */
    HANNUVEL_TABLE_MALFORMED = 5,   /* place: the first record at fault, be it the 1,025th or one cut short */
    HANNUVEL_TIME_OUT_OF_RANGE = 6, /* an instant or a duration lies beyond 1,000,000,000 or -1,000,000,000 */
    HANNUVEL_SCALE_TOO_LARGE = 7,   /* a drawing's scale exponent is above 32 */
    HANNUVEL_NAME_BEYOND_TEXT = 8,  /* a name part ends beyond the given text */
    HANNUVEL_NO_ROOM = 9            /* count: the records, commands or spans that the whole input needs */
};

/* ---- Reading */

/* The kinds of record: the cases of the Rust's AnimatedTag in its order. */
enum hannuvel_kind {
    HANNUVEL_KIND_FAD = 1,            /* \fad: fades in over the first milliseconds of the line and out over the last */
    HANNUVEL_KIND_FADE = 2,           /* \fade: alpha A1 up to T1, to A2 by T2, held to T3, to A3 by T4 */
    HANNUVEL_KIND_POS = 3,            /* \pos: where the line stands */
    HANNUVEL_KIND_MOVE = 4,           /* \move: from one point to another between two times, or over the whole line */
    HANNUVEL_KIND_FRZ = 5,            /* \frz and \fr: around z */
    HANNUVEL_KIND_BLUR = 6,           /* \blur: Gaussian blur */
    HANNUVEL_KIND_FSCX = 7,           /* \fscx: scale to the right */
    HANNUVEL_KIND_FSCY = 8,           /* \fscy: scale down */
    HANNUVEL_KIND_COLOR1 = 9,         /* \c and \1c: the primary colour */
    HANNUVEL_KIND_FS = 10,            /* \fs: font size */
    HANNUVEL_KIND_CLIP_RECT = 11,     /* \clip with four numbers: the rectangle that is shown */
    HANNUVEL_KIND_CLIP_DRAWING = 12,  /* \clip with a drawing, its scale in front: what it covers is shown */
    HANNUVEL_KIND_FRX = 13,           /* \frx: around x */
    HANNUVEL_KIND_FRY = 14,           /* \fry: around y */
    HANNUVEL_KIND_ORG = 15,           /* \org: the point that rotations go around */
    HANNUVEL_KIND_BORD = 16,          /* \bord: border */
    HANNUVEL_KIND_XBORD = 17,         /* \xbord: border to the sides */
    HANNUVEL_KIND_YBORD = 18,         /* \ybord: border up and down */
    HANNUVEL_KIND_SHAD = 19,          /* \shad: shadow */
    HANNUVEL_KIND_XSHAD = 20,         /* \xshad: shadow to the right */
    HANNUVEL_KIND_YSHAD = 21,         /* \yshad: shadow down */
    HANNUVEL_KIND_BE = 22,            /* \be: edge blur */
    HANNUVEL_KIND_FAX = 23,           /* \fax: shear to the right */
    HANNUVEL_KIND_FAY = 24,           /* \fay: shear down */
    HANNUVEL_KIND_ICLIP_RECT = 25,    /* \iclip with four numbers: the rectangle that is hidden */
    HANNUVEL_KIND_ICLIP_DRAWING = 26, /* \iclip with a drawing: what it covers is hidden */
    HANNUVEL_KIND_COLOR2 = 27,        /* \2c: the secondary colour */
    HANNUVEL_KIND_COLOR3 = 28,        /* \3c: the border's colour */
    HANNUVEL_KIND_COLOR4 = 29,        /* \4c: the shadow's colour */
    HANNUVEL_KIND_ALPHA = 30,         /* \alpha: all four alphas */
    HANNUVEL_KIND_ALPHA1 = 31,        /* \1a: the primary colour's alpha */
    HANNUVEL_KIND_ALPHA2 = 32,        /* \2a: the secondary colour's alpha */
    HANNUVEL_KIND_ALPHA3 = 33,        /* \3a: the border's alpha */
    HANNUVEL_KIND_ALPHA4 = 34,        /* \4a: the shadow's alpha */
    HANNUVEL_KIND_FSP = 35,           /* \fsp: letter spacing */
    HANNUVEL_KIND_Q = 36,             /* \q: wrap style */
    HANNUVEL_KIND_AN = 37,            /* \an: alignment as on a keypad */
    HANNUVEL_KIND_A = 38,             /* \a: alignment in the old numbering */
    HANNUVEL_KIND_FN = 39,            /* \fn: font name, the letters behind fn and then the parameter */
    HANNUVEL_KIND_FE = 40,            /* \fe: font encoding */
    HANNUVEL_KIND_R = 41,             /* \r: back to the named style, or to the line's own */
    HANNUVEL_KIND_B = 42,             /* \b: bold */
    HANNUVEL_KIND_I = 43,             /* \i: italic */
    HANNUVEL_KIND_U = 44,             /* \u: underline */
    HANNUVEL_KIND_S = 45,             /* \s: strikeout */
    HANNUVEL_KIND_KARAOKE = 46,       /* \k, \kf, \K and \ko: a syllable */
    HANNUVEL_KIND_PBO = 47,           /* \pbo: offset of a drawing's baseline */
    HANNUVEL_KIND_P = 48,             /* \p: drawing mode */
    HANNUVEL_KIND_T = 49              /* \t: the tags inside come in between two times, or over the whole line */
};

/* The words of a record, by its kind: the kind first, then the fields; those that are not named are 0. An f32 stands as
 * its bits, finite and at most 1,000,000,000 in magnitude. Signed numbers stand in two's complement, within
 * 1,000,000,000 of 0. An offset and a length name a part of the text that was read; an empty part has both 0. */
enum hannuvel_record {
    HANNUVEL_RECORD_KIND = 0,          /* a hannuvel_kind */
    HANNUVEL_FAD_T1_MS = 1,            /* 0 to 2,147,483,647 */
    HANNUVEL_FAD_T2_MS = 2,            /* the same */
    HANNUVEL_FADE_A1 = 1,              /* 0 opaque, 255 transparent */
    HANNUVEL_FADE_A2 = 2,              /* the same */
    HANNUVEL_FADE_A3 = 3,              /* the same */
    HANNUVEL_FADE_T1_MS = 4,           /* signed */
    HANNUVEL_FADE_T2_MS = 5,           /* signed */
    HANNUVEL_FADE_T3_MS = 6,           /* signed */
    HANNUVEL_FADE_T4_MS = 7,           /* signed */
    HANNUVEL_POS_X = 1,                /* f32 */
    HANNUVEL_POS_Y = 2,                /* f32 */
    HANNUVEL_MOVE_X1 = 1,              /* f32 */
    HANNUVEL_MOVE_Y1 = 2,              /* f32 */
    HANNUVEL_MOVE_X2 = 3,              /* f32 */
    HANNUVEL_MOVE_Y2 = 4,              /* f32 */
    HANNUVEL_MOVE_TIMES = 5,           /* 1, and both times follow; or 0, and they are 0 */
    HANNUVEL_MOVE_T1_MS = 6,           /* signed */
    HANNUVEL_MOVE_T2_MS = 7,           /* signed */
    HANNUVEL_FRZ_DEGREES = 1,          /* f32 */
    HANNUVEL_BLUR_SIGMA = 1,           /* f32 */
    HANNUVEL_FSCX_PERCENT = 1,         /* f32 */
    HANNUVEL_FSCY_PERCENT = 1,         /* f32 */
    HANNUVEL_COLOR1_RED = 1,           /* 0 to 255 */
    HANNUVEL_COLOR1_GREEN = 2,         /* 0 to 255 */
    HANNUVEL_COLOR1_BLUE = 3,          /* 0 to 255 */
    HANNUVEL_FS_SIZE = 1,              /* f32 */
    HANNUVEL_CLIP_RECT_X1 = 1,         /* f32 */
    HANNUVEL_CLIP_RECT_Y1 = 2,         /* f32 */
    HANNUVEL_CLIP_RECT_X2 = 3,         /* f32 */
    HANNUVEL_CLIP_RECT_Y2 = 4,         /* f32 */
    HANNUVEL_CLIP_DRAWING_OFFSET = 1,
    HANNUVEL_CLIP_DRAWING_LENGTH = 2,
    HANNUVEL_FRX_DEGREES = 1,          /* f32 */
    HANNUVEL_FRY_DEGREES = 1,          /* f32 */
    HANNUVEL_ORG_X = 1,                /* f32 */
    HANNUVEL_ORG_Y = 2,                /* f32 */
    HANNUVEL_BORD_WIDTH = 1,           /* f32 */
    HANNUVEL_XBORD_WIDTH = 1,          /* f32 */
    HANNUVEL_YBORD_WIDTH = 1,          /* f32 */
    HANNUVEL_SHAD_DISTANCE = 1,        /* f32 */
    HANNUVEL_XSHAD_DISTANCE = 1,       /* f32 */
    HANNUVEL_YSHAD_DISTANCE = 1,       /* f32 */
    HANNUVEL_BE_STRENGTH = 1,          /* 0 to 255 */
    HANNUVEL_FAX_FACTOR = 1,           /* f32 */
    HANNUVEL_FAY_FACTOR = 1,           /* f32 */
    HANNUVEL_ICLIP_RECT_X1 = 1,        /* f32 */
    HANNUVEL_ICLIP_RECT_Y1 = 2,        /* f32 */
    HANNUVEL_ICLIP_RECT_X2 = 3,        /* f32 */
    HANNUVEL_ICLIP_RECT_Y2 = 4,        /* f32 */
    HANNUVEL_ICLIP_DRAWING_OFFSET = 1,
    HANNUVEL_ICLIP_DRAWING_LENGTH = 2,
    HANNUVEL_COLOR2_RED = 1,           /* 0 to 255 */
    HANNUVEL_COLOR2_GREEN = 2,         /* 0 to 255 */
    HANNUVEL_COLOR2_BLUE = 3,          /* 0 to 255 */
    HANNUVEL_COLOR3_RED = 1,           /* 0 to 255 */
    HANNUVEL_COLOR3_GREEN = 2,         /* 0 to 255 */
    HANNUVEL_COLOR3_BLUE = 3,          /* 0 to 255 */
    HANNUVEL_COLOR4_RED = 1,           /* 0 to 255 */
    HANNUVEL_COLOR4_GREEN = 2,         /* 0 to 255 */
    HANNUVEL_COLOR4_BLUE = 3,          /* 0 to 255 */
    HANNUVEL_ALPHA_VALUE = 1,          /* 0 opaque, 255 transparent */
    HANNUVEL_ALPHA1_VALUE = 1,         /* the same */
    HANNUVEL_ALPHA2_VALUE = 1,         /* the same */
    HANNUVEL_ALPHA3_VALUE = 1,         /* the same */
    HANNUVEL_ALPHA4_VALUE = 1,         /* the same */
    HANNUVEL_FSP_SPACING = 1,          /* f32 */
    HANNUVEL_Q_STYLE = 1,              /* 0 to 3 */
    HANNUVEL_AN_POSITION = 1,          /* 1 to 9 */
    HANNUVEL_A_POSITION = 1,           /* 0 to 255 */
    HANNUVEL_FN_OFFSET = 1,            /* one of the two parts may be empty */
    HANNUVEL_FN_LENGTH = 2,
    HANNUVEL_FN_PARAMETER_OFFSET = 3,
    HANNUVEL_FN_PARAMETER_LENGTH = 4,
    HANNUVEL_FE_ID = 1,                /* 0 to 255 */
    HANNUVEL_R_NAMED = 1,              /* 1, and the name follows; or 0 */
    HANNUVEL_R_OFFSET = 2,
    HANNUVEL_R_LENGTH = 3,
    HANNUVEL_B_WEIGHT = 1,             /* 0, or 100 to 900 */
    HANNUVEL_I_FLAG = 1,               /* 0 off, 1 on */
    HANNUVEL_U_FLAG = 1,               /* the same */
    HANNUVEL_S_FLAG = 1,               /* the same */
    HANNUVEL_KARAOKE_KIND = 1,         /* a hannuvel_karaoke_kind */
    HANNUVEL_KARAOKE_CS = 2,           /* centiseconds, 0 to 1,000,000,000 */
    HANNUVEL_PBO_Y = 1,                /* signed */
    HANNUVEL_P_SCALE = 1,              /* the exponent, 0 to 255, 0 for off */
    HANNUVEL_T_TIMES = 1,              /* 1, and both times follow; or 0, and they are 0 */
    HANNUVEL_T_T1_MS = 2,              /* signed */
    HANNUVEL_T_T2_MS = 3,              /* signed */
    HANNUVEL_T_ACCEL = 4,              /* f32, the power of the way */
    HANNUVEL_T_INSIDE = 5              /* the records inside it, at every depth; they follow */
};

/* Reads a block. Braces are ordinary bytes. The value of an answer is the number of records written. */
uint64_t hannuvel_parse_overrides(const uint8_t *text, size_t bytes, uint32_t *table, size_t words);

/* The same for the text without blanks around it, less one { and one }. Places and offsets still count from
 * the text given. */
uint64_t hannuvel_parse_raw_block(const uint8_t *text, size_t bytes, uint32_t *table, size_t words);

/* ---- States and marks. A table's `words` are those of the records that were read, eight times their number. */

/* The words of a state: the fields of the Rust's RenderState in its order, without its transform. An f32 stands as its
 * bits, 7FC00000 for a NaN. A field that a tag may leave to the style begins with a flag: 1, and its words follow; or
 * 0, none of the tags sets it, and they are 0. An offset and a length name a part of the text that was read.
 *
 * The opacity written is 0.0 to 1.0, no NaN and no minus zero: its word is at most 3F800000, and a host may multiply by
 * it unchecked. Where no \fad or \fade stands at any depth it is 1.0, and the word is 3F800000. */
enum hannuvel_state {
    HANNUVEL_STATE_ALPHA_MUL = 0,                      /* \fad and \fade, f32, 0.0 to 1.0, no NaN: 1.0 opaque */
    HANNUVEL_STATE_ROTATE_RADIANS = 1,                 /* \frz, f32 */
    HANNUVEL_STATE_ROTATE_X_RADIANS = 2,               /* \frx, f32 */
    HANNUVEL_STATE_ROTATE_Y_RADIANS = 3,               /* \fry, f32 */
    HANNUVEL_STATE_SCALE_X = 4,                        /* \fscx, 1.0 for 100%, f32 */
    HANNUVEL_STATE_SCALE_Y = 5,                        /* \fscy, f32 */
    HANNUVEL_STATE_TRANSLATE = 6,                      /* flag: \pos or \move */
    HANNUVEL_STATE_TRANSLATE_X = 7,                    /* f32 */
    HANNUVEL_STATE_TRANSLATE_Y = 8,                    /* f32 */
    HANNUVEL_STATE_BLUR_SIGMA = 9,                     /* \blur, f32 */
    HANNUVEL_STATE_CLIP_RECT = 10,                     /* flag: \clip of a rectangle */
    HANNUVEL_STATE_CLIP_RECT_X1 = 11,                  /* f32 */
    HANNUVEL_STATE_CLIP_RECT_Y1 = 12,                  /* f32 */
    HANNUVEL_STATE_CLIP_RECT_X2 = 13,                  /* f32 */
    HANNUVEL_STATE_CLIP_RECT_Y2 = 14,                  /* f32 */
    HANNUVEL_STATE_CLIP_DRAWING = 15,                  /* flag: \clip of a drawing */
    HANNUVEL_STATE_CLIP_DRAWING_OFFSET = 16,
    HANNUVEL_STATE_CLIP_DRAWING_LENGTH = 17,
    HANNUVEL_STATE_PRIMARY_COLOR = 18,                 /* flag: \c or \1c */
    HANNUVEL_STATE_PRIMARY_COLOR_RED = 19,             /* 0 to 255 */
    HANNUVEL_STATE_PRIMARY_COLOR_GREEN = 20,           /* 0 to 255 */
    HANNUVEL_STATE_PRIMARY_COLOR_BLUE = 21,            /* 0 to 255 */
    HANNUVEL_STATE_FONT_SIZE = 22,                     /* flag: \fs */
    HANNUVEL_STATE_FONT_SIZE_VALUE = 23,               /* f32 */
    HANNUVEL_STATE_PIVOT = 24,                         /* flag: \org */
    HANNUVEL_STATE_PIVOT_X = 25,                       /* f32 */
    HANNUVEL_STATE_PIVOT_Y = 26,                       /* f32 */
    HANNUVEL_STATE_BORDER = 27,                        /* flag: \bord, \xbord or \ybord */
    HANNUVEL_STATE_BORDER_X = 28,                      /* f32 */
    HANNUVEL_STATE_BORDER_Y = 29,                      /* f32 */
    HANNUVEL_STATE_SHADOW = 30,                        /* flag: \shad, \xshad or \yshad */
    HANNUVEL_STATE_SHADOW_X = 31,                      /* f32 */
    HANNUVEL_STATE_SHADOW_Y = 32,                      /* f32 */
    HANNUVEL_STATE_BE_STRENGTH = 33,                   /* \be, 0 to 255 */
    HANNUVEL_STATE_SHEAR_X = 34,                       /* \fax, f32 */
    HANNUVEL_STATE_SHEAR_Y = 35,                       /* \fay, f32 */
    HANNUVEL_STATE_ICLIP_RECT = 36,                    /* flag: \iclip of a rectangle */
    HANNUVEL_STATE_ICLIP_RECT_X1 = 37,                 /* f32 */
    HANNUVEL_STATE_ICLIP_RECT_Y1 = 38,                 /* f32 */
    HANNUVEL_STATE_ICLIP_RECT_X2 = 39,                 /* f32 */
    HANNUVEL_STATE_ICLIP_RECT_Y2 = 40,                 /* f32 */
    HANNUVEL_STATE_ICLIP_DRAWING = 41,                 /* flag: \iclip of a drawing */
    HANNUVEL_STATE_ICLIP_DRAWING_OFFSET = 42,
    HANNUVEL_STATE_ICLIP_DRAWING_LENGTH = 43,
    HANNUVEL_STATE_SECONDARY_COLOR = 44,               /* flag: \2c */
    HANNUVEL_STATE_SECONDARY_COLOR_RED = 45,           /* 0 to 255 */
    HANNUVEL_STATE_SECONDARY_COLOR_GREEN = 46,         /* 0 to 255 */
    HANNUVEL_STATE_SECONDARY_COLOR_BLUE = 47,          /* 0 to 255 */
    HANNUVEL_STATE_OUTLINE_COLOR = 48,                 /* flag: \3c */
    HANNUVEL_STATE_OUTLINE_COLOR_RED = 49,             /* 0 to 255 */
    HANNUVEL_STATE_OUTLINE_COLOR_GREEN = 50,           /* 0 to 255 */
    HANNUVEL_STATE_OUTLINE_COLOR_BLUE = 51,            /* 0 to 255 */
    HANNUVEL_STATE_SHADOW_COLOR = 52,                  /* flag: \4c */
    HANNUVEL_STATE_SHADOW_COLOR_RED = 53,              /* 0 to 255 */
    HANNUVEL_STATE_SHADOW_COLOR_GREEN = 54,            /* 0 to 255 */
    HANNUVEL_STATE_SHADOW_COLOR_BLUE = 55,             /* 0 to 255 */
    HANNUVEL_STATE_PRIMARY_ALPHA = 56,                 /* flag: \1a or \alpha */
    HANNUVEL_STATE_PRIMARY_ALPHA_VALUE = 57,           /* 0 opaque, 255 transparent */
    HANNUVEL_STATE_SECONDARY_ALPHA = 58,               /* flag: \2a or \alpha */
    HANNUVEL_STATE_SECONDARY_ALPHA_VALUE = 59,         /* the same */
    HANNUVEL_STATE_OUTLINE_ALPHA = 60,                 /* flag: \3a or \alpha */
    HANNUVEL_STATE_OUTLINE_ALPHA_VALUE = 61,           /* the same */
    HANNUVEL_STATE_SHADOW_ALPHA = 62,                  /* flag: \4a or \alpha */
    HANNUVEL_STATE_SHADOW_ALPHA_VALUE = 63,            /* the same */
    HANNUVEL_STATE_LETTER_SPACING = 64,                /* flag: \fsp */
    HANNUVEL_STATE_LETTER_SPACING_VALUE = 65,          /* f32 */
    HANNUVEL_STATE_WRAP_STYLE = 66,                    /* flag: \q */
    HANNUVEL_STATE_WRAP_STYLE_VALUE = 67,              /* 0 to 3 */
    HANNUVEL_STATE_ALIGNMENT = 68,                     /* flag: \an or \a */
    HANNUVEL_STATE_ALIGNMENT_VALUE = 69,               /* 1 to 9, as on a keypad */
    HANNUVEL_STATE_FONT_NAME = 70,                     /* flag: \fn */
    HANNUVEL_STATE_FONT_NAME_OFFSET = 71,              /* the letters behind fn, and then */
    HANNUVEL_STATE_FONT_NAME_LENGTH = 72,
    HANNUVEL_STATE_FONT_NAME_PARAMETER_OFFSET = 73,    /* the parameter; the name is both in turn */
    HANNUVEL_STATE_FONT_NAME_PARAMETER_LENGTH = 74,
    HANNUVEL_STATE_FONT_ENCODING = 75,                 /* flag: \fe */
    HANNUVEL_STATE_FONT_ENCODING_VALUE = 76,           /* 0 to 255 */
    HANNUVEL_STATE_BOLD_WEIGHT = 77,                   /* flag: \b */
    HANNUVEL_STATE_BOLD_WEIGHT_VALUE = 78,             /* 0, or 100 to 900 */
    HANNUVEL_STATE_RESET_TO_STYLE = 79,                /* 0 none, 1 \r, 2 \r with a name */
    HANNUVEL_STATE_RESET_TO_STYLE_OFFSET = 80,
    HANNUVEL_STATE_RESET_TO_STYLE_LENGTH = 81,
    HANNUVEL_STATE_ITALIC = 82,                        /* flag: \i */
    HANNUVEL_STATE_ITALIC_VALUE = 83,                  /* 0 off, 1 on */
    HANNUVEL_STATE_UNDERLINE = 84,                     /* flag: \u */
    HANNUVEL_STATE_UNDERLINE_VALUE = 85,               /* the same */
    HANNUVEL_STATE_STRIKEOUT = 86,                     /* flag: \s */
    HANNUVEL_STATE_STRIKEOUT_VALUE = 87,               /* the same */
    HANNUVEL_STATE_DRAWING_BASELINE_OFFSET = 88,       /* flag: \pbo */
    HANNUVEL_STATE_DRAWING_BASELINE_OFFSET_VALUE = 89, /* in two's complement */
    HANNUVEL_STATE_DRAWING_SCALE = 90,                 /* flag: \p */
    HANNUVEL_STATE_DRAWING_SCALE_VALUE = 91            /* 0 to 255 */
};

/* The state of a table's tags at the instant t of a line, both it and the duration in milliseconds. An answer has the
 * value 0 and writes every word of the state; beside a refusal the state's words keep what they held. */
uint64_t hannuvel_evaluate_at(const uint32_t *table, size_t words, int32_t t, int32_t duration,
                              uint32_t state[HANNUVEL_STATE_WORDS]);

/* The first millisecond after t at which the state may change: before it every instant from t on has the state that t
 * has. The value of an answer is this mark as an int32_t in two's complement; or the extra is 1 and the value 0: there
 * is none. Beside a refusal stands no mark: the extra is 0 and the value the ground's place.
 *
 * Marks are the state's, and do not speak of karaoke syllables. A host that shows syllables draws anew at the next
 * mark, and also where a syllable moves the picture; see hannuvel_karaoke_kind. */
uint64_t hannuvel_next_mark(const uint32_t *table, size_t words, int32_t t, int32_t duration);

/* The style in force at t: the name that the last \r gave, a part of the block that the table was read from, or else
 * the line's own name. The extra of an answer is 1 for a part of the block, 0 for one of the own name; the value is the
 * part's offset times 65,536 and its length. Grounds 1 and 2 look at the block, then at the own name, and a place in
 * the own name counts there. */
uint64_t hannuvel_style_in_force(const uint32_t *table, size_t words, int32_t t, int32_t duration,
                                 const uint8_t *block, size_t block_bytes, const uint8_t *own, size_t own_bytes);
static inline uint32_t hannuvel_style_offset(uint64_t answer) { return hannuvel_value(answer) >> 16; }
static inline uint32_t hannuvel_style_length(uint64_t answer) { return hannuvel_value(answer) & 0xFFFF; }

/* ---- Karaoke */

/* When a syllable moves the picture, which neither a state nor a mark says: a fill or an outline at the start of its
 * span; a sweep at every millisecond behind its start and up to its end, or, where the span is empty, at the one behind
 * its start, at which hannuvel_progress goes from 0 to 1. A host that shows syllables draws anew at the earlier of the
 * next mark and the next of these; examples/c works it out. */
enum hannuvel_karaoke_kind {
    HANNUVEL_KARAOKE_FILL = 0,   /* \k: the fill switches when the syllable begins */
    HANNUVEL_KARAOKE_SWEEP = 1,  /* \kf and \K: the fill sweeps from left to right over the syllable */
    HANNUVEL_KARAOKE_OUTLINE = 2 /* \ko: the outline appears when the syllable begins */
};

/* The words of a span. Times are in milliseconds from the line's start. */
enum hannuvel_span {
    HANNUVEL_SPAN_KIND = 0,     /* a hannuvel_karaoke_kind */
    HANNUVEL_SPAN_START_MS = 1, /* where the syllable starts */
    HANNUVEL_SPAN_END_MS = 2    /* where it ends and the next one starts, at most 4,294,967,295 */
};

/* The syllables that a table's \k, \kf and \ko outside any \t time, one behind the other from 0 on, three words to each
 * in a list that has so many words. The value of an answer is the number of spans written. */
uint64_t hannuvel_karaoke_spans(const uint32_t *table, size_t words, uint32_t *spans, size_t span_words);

/* How far the instant t is through a span: 0 up to its start, 1 from its end on. The value of an answer is the f32's
 * bits. */
uint64_t hannuvel_progress(uint32_t start_ms, uint32_t end_ms, int32_t t);

/* ---- Drawings */

enum hannuvel_command_kind {
    HANNUVEL_COMMAND_MOVE = 1,  /* begins a subpath at X1, Y1 */
    HANNUVEL_COMMAND_LINE = 2,  /* a straight line to X1, Y1 */
    HANNUVEL_COMMAND_CUBIC = 3, /* a Bezier curve to X3, Y3, with X1, Y1 and X2, Y2 as control points */
    HANNUVEL_COMMAND_CLOSE = 4  /* closes the subpath */
};

/* The words of a command; those that it has no use for are 0. */
enum hannuvel_command {
    HANNUVEL_COMMAND_KIND = 0, /* a hannuvel_command_kind */
    HANNUVEL_COMMAND_X1 = 1,   /* f32 */
    HANNUVEL_COMMAND_Y1 = 2,   /* f32 */
    HANNUVEL_COMMAND_X2 = 3,   /* f32 */
    HANNUVEL_COMMAND_Y2 = 4,   /* f32 */
    HANNUVEL_COMMAND_X3 = 5,   /* f32 */
    HANNUVEL_COMMAND_Y3 = 6    /* f32 */
};

/* Reads a drawing; its coordinates are divided by 2 to the power exponent - 1, not at all at exponent 0. The
 * value of an answer is the number of commands written. */
uint64_t hannuvel_parse_drawing(const uint8_t *text, size_t bytes, uint32_t exponent, uint32_t *path, size_t words);

/* Splits the argument of a \clip. The value of an answer is the scale, at least 1, and its extra the offset at
 * which the rest of the argument begins; it goes on to the end of the text. */
uint64_t hannuvel_split_clip_arg(const uint8_t *text, size_t bytes);

#ifdef __cplusplus
}
#endif

#endif
