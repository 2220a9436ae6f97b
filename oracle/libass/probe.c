// Shows what libass draws: reads rows from standard input, and writes each with its picture.
//
// A row has fields with a tab between them: the duration of a line and an instant in milliseconds, the line's text, and
// other texts. Each of these has a mark in front: = where its picture, for the same duration and instant, is that of
// the line, ! where it is another. A picture is its images, one by one: kind, colour, place and every pixel; two are
// told apart by a sum of 64 bits. The status is 1 if a mark does not hold. Lines that begin with # are copied.

#include <ass/ass.h>
#include <stdint.h>
#include <stdio.h>
#include <stdlib.h>
#include <string.h>

enum { WIDTH = 640, HEIGHT = 360, FIELDS = 16 };

#define STYLE(name, size, colour, border, shadow)                                                                      \
    "Style: " name ",DejaVu Sans," size "," colour                                                                     \
    ",&H000000FF,&H00000000,&H00808080,0,0,0,0,100,100,0,0,1," border "," shadow ",2,10,10,10,1\n"

// One unit of the script is one pixel.
static const char script[] =
    "[Script Info]\nScriptType: v4.00+\nPlayResX: 640\nPlayResY: 360\nScaledBorderAndShadow: yes\n[V4+ Styles]\n"
    "Format: Name, Fontname, Fontsize, PrimaryColour, SecondaryColour, OutlineColour, BackColour, Bold, Italic, "
    "Underline, StrikeOut, ScaleX, ScaleY, Spacing, Angle, BorderStyle, Outline, Shadow, Alignment, MarginL, MarginR, "
    "MarginV, Encoding\n"
    STYLE("Default", "50", "&H00FFFFFF", "0", "0") STYLE("Alt Style", "90", "&H0000FF00", "4", "4");

static const char *const kinds[] = {"fill", "border", "shadow"};

struct box {
    int left, top, right, bottom;
};

static ASS_Library *library;
static ASS_Renderer *renderer;

static void stop(const char *reason) {
    fprintf(stderr, "probe: %s\n", reason);
    exit(2);
}

static void silent(int level, const char *format, va_list values, void *data) {
    (void)level, (void)format, (void)values, (void)data;
}

// The box of the pixels that are not empty.
static struct box box_of(const ASS_Image *image) {
    struct box box = {WIDTH, HEIGHT, 0, 0};
    for (int y = 0; y < image->h; y++)
        for (int x = 0; x < image->w; x++)
            if (image->bitmap[y * image->stride + x]) {
                int column = image->dst_x + x, line = image->dst_y + y;
                if (column < box.left) box.left = column;
                if (line < box.top) box.top = line;
                if (column >= box.right) box.right = column + 1;
                if (line >= box.bottom) box.bottom = line + 1;
            }
    return box;
}

static uint64_t add(uint64_t sum, uint32_t value) { return (sum ^ value) * 0x100000001B3u; }

// FNV-1a over the image without its empty margins.
static uint64_t add_image(uint64_t sum, const ASS_Image *image, struct box box) {
    sum = add(add(sum, image->type), image->color);
    sum = add(add(add(add(sum, box.left), box.top), box.right), box.bottom);
    for (int y = box.top; y < box.bottom; y++)
        for (int x = box.left; x < box.right; x++)
            sum = add(sum, image->bitmap[(y - image->dst_y) * image->stride + x - image->dst_x]);
    return sum;
}

// Draws a text and gives the sum of its picture. With `tell` it writes the images: kind, colour (red, green, blue),
// alpha (0 is opaque, 255 clear) and box.
static uint64_t draw(const char *text, long duration, long at, int tell) {
    ASS_Track *track = ass_read_memory(library, (char *)script, sizeof script - 1, NULL);
    if (!track) stop("libass does not take the script");
    int number = ass_alloc_event(track);
    ASS_Event *event = track->events + number;
    event->Duration = duration;
    event->Style = track->default_style;
    event->Text = strdup(text);
    uint64_t sum = 0xCBF29CE484222325u;
    int seen = 0;
    for (const ASS_Image *image = ass_render_frame(renderer, track, at, NULL); image; image = image->next) {
        struct box box = box_of(image);
        if (box.left >= box.right) continue;
        sum = add_image(sum, image, box);
        if (tell)
            printf("%s%s %06X alpha %d at %d,%d to %d,%d", seen ? "; " : "", kinds[image->type], image->color >> 8,
                   (int)(image->color & 255), box.left, box.top, box.right, box.bottom);
        seen++;
    }
    if (tell) puts(seen ? "" : "nothing");
    ass_free_track(track);
    return sum;
}

int main(void) {
    if (!(library = ass_library_init())) stop("libass does not start");
    ass_set_message_cb(library, silent, NULL);
    if (!(renderer = ass_renderer_init(library))) stop("libass gives no renderer");
    ass_set_frame_size(renderer, WIDTH, HEIGHT);
    ass_set_fonts(renderer, NULL, "DejaVu Sans", ASS_FONTPROVIDER_FONTCONFIG, NULL, 1);
    static char line[1 << 12];
    int rows = 0, unlike = 0;
    while (fgets(line, sizeof line, stdin)) {
        line[strcspn(line, "\n")] = 0;
        if (!*line || *line == '#') {
            puts(line);
            continue;
        }
        char *fields[FIELDS], *rest = line;
        int count = 0;
        while (rest && count < FIELDS) fields[count++] = strsep(&rest, "\t");
        if (rest || count < 3) stop("a row is a duration, an instant, a text and at most 13 others, with tabs between");
        long duration = atol(fields[0]), at = atol(fields[1]);
        printf("%s  at %ld of %ld\n    ", fields[2], at, duration);
        uint64_t sum = draw(fields[2], duration, at, 1);
        for (int i = 3; i < count; i++) {
            int same = draw(fields[i] + 1, duration, at, 0) == sum, holds = *fields[i] == (same ? '=' : '!');
            printf("    %s %s%s\n", same ? "as" : "not as", fields[i] + 1, holds ? "" : "   <- marked otherwise");
            unlike += !holds;
        }
        rows++;
    }
    printf("libass %x.%x.%x: %d rows, %d marks do not hold\n", ass_library_version() >> 28,
           ass_library_version() >> 20 & 0xFF, ass_library_version() >> 12 & 0xFF, rows, unlike);
    ass_renderer_done(renderer);
    ass_library_done(library);
    return unlike > 0;
}
