/*
 * timeline.c: draws what wall.c wrote down. The log on standard input, an SVG picture on standard output.
 *
 * Each run is one panel: time from left to right, the tile's memory from bottom to top. Sloping lines are reads, dots are rows that are
 * written, coloured areas are bytes that are not zero, and the colour says whose. The dark line is the mark: how far the wall will
 * wipe. The calls stand above, the radio below.
 */
#include <stdio.h>
#include <stdlib.h>
#include <string.h>

enum { MOST = 60000, ROWS = 512, LEFT = 84, WIDE = 1088, TALL = 280, PANEL = 430, FIRST = 96 };

struct event {
    double ms;
    char what[12];
    char word[40]; /* a name, or empty */
    unsigned at, n;
};

static struct event events[MOST];
static int count;
static double span = 100; /* ms that a panel shows */
static int top;           /* of the plot that is being drawn */

static double across(double ms) { return LEFT + ms / span * WIDE; }
static double up(double at) { return top + TALL - at / 8192 * TALL; }

static const char *const earlier = "#c9ad8f", *const label = "#7fc4a8", *const visitor = "#b3a5db", *const torn = "#e0443e";
static const char *const wiped = "#d95f02", *const put = "#0b7a55", *const ink = "#222", *const pale = "#666";

/* ------------------------------------------------------------------------------------------------------------ The log */

static void take(const char *line)
{
    struct event *e = &events[count];
    double us;
    int used = 0;
    if (sscanf(line, "%lf %11s%n", &us, e->what, &used) < 2) return;
    e->ms = us / 1000;
    e->word[0] = 0;
    e->at = e->n = 0;
    if (strcmp(e->what, "run") == 0 || strcmp(e->what, "call") == 0)
        sscanf(line + used, " %39[^\n]", e->word);
    else
        sscanf(line + used, "%u %u", &e->at, &e->n);
    if (e->ms + 20 > span) span = e->ms + 20;
    count++;
}

static int is(const struct event *e, const char *what) { return strcmp(e->what, what) == 0; }

/* The next event of a kind in the same run, or the run's last. */
static int following(int i, int end, const char *what)
{
    int j = i + 1;
    while (j < end && !is(&events[j], what)) j++;
    return j < end ? j : end - 1;
}

/* ------------------------------------------------------------------------------------------------------------- Pieces */

static void text(double x, double y, const char *style, const char *colour, const char *said)
{
    printf("<text x=\"%.1f\" y=\"%.1f\" fill=\"%s\" %s>%s</text>\n", x, y, colour, style, said);
}

static void box(double x, double y, double w, double h, const char *fill, const char *more)
{
    printf("<rect x=\"%.2f\" y=\"%.2f\" width=\"%.2f\" height=\"%.2f\" fill=\"%s\" %s/>\n", x, y, w, h, fill, more);
}

static void line(double x, double y, double x2, double y2, const char *stroke, const char *more)
{
    printf("<line x1=\"%.2f\" y1=\"%.2f\" x2=\"%.2f\" y2=\"%.2f\" stroke=\"%s\" %s/>\n", x, y, x2, y2, stroke, more);
}

static void axes(double end)
{
    static const char *const places[] = {"0", "2,048", "4,096", "6,144", "8,192"};
    char said[16];
    int i;
    for (i = 0; i <= 4; i++) {
        line(LEFT, up(i * 2048), LEFT + WIDE, up(i * 2048), "#e4e4e4", "");
        text(LEFT - 8, up(i * 2048) + 4, "text-anchor=\"end\" font-size=\"12\"", pale, places[i]);
    }
    for (i = 0; i * 100 <= end; i++) {
        sprintf(said, "%d", i * 100);
        line(across(i * 100), top + TALL, across(i * 100), top + TALL + 5, pale, "");
        text(across(i * 100), top + TALL + 42, "text-anchor=\"middle\" font-size=\"12\"", pale, said);
    }
    text(LEFT + WIDE, top + TALL + 60, "text-anchor=\"end\" font-size=\"12\"", pale, "time in milliseconds");
    printf("<text transform=\"translate(22 %d) rotate(-90)\" text-anchor=\"middle\" font-size=\"12\" fill=\"%s\">byte of the "
           "tile</text>\n",
           top + TALL / 2, pale);
}

/* ------------------------------------------------------------------------------------------------------------- Layers */

/* The radio: a warm background while it is on, and a strip below. */
static void radio(int from, int end)
{
    int i;
    box(LEFT, top + TALL + 8, WIDE, 12, "#ececec", "");
    text(LEFT - 8, top + TALL + 18, "text-anchor=\"end\" font-size=\"12\"", pale, "radio");
    for (i = from; i < end; i++)
        if (is(&events[i], "rf") && events[i].at == 1) {
            double x = across(events[i].ms), w = across(events[following(i, end, "rf")].ms) - x;
            box(x, top, w, TALL, "#fff4cc", "");
            box(x, top + TALL + 8, w, 12, "#f0b400", "rx=\"2\"");
            text(x + w / 2, top + TALL + 18, "text-anchor=\"middle\" font-size=\"11\" font-weight=\"600\"", ink, "on");
        }
}

static void darkness(int from, int end)
{
    int i;
    for (i = from; i < end; i++)
        if (is(&events[i], "cut")) {
            double x = across(events[i].ms), w = across(events[following(i, end, "up")].ms) - x;
            box(x, top, w, TALL + 20, "url(#dark)", "");
            line(x, top - 12, x, top + TALL + 20, "#c4161c", "stroke-width=\"2.2\" stroke-dasharray=\"6 3\"");
            box(x + 5, top + TALL / 2 - 34, 140, 46, "#ffffff", "rx=\"4\"");
            text(x + 11, top + TALL / 2 - 15, "font-size=\"13\" font-weight=\"700\"", "#c4161c", "the plug is pulled");
            text(x + 11, top + TALL / 2 + 3, "font-size=\"13\"", pale, "no power");
        }
}

static double since[ROWS];
static const char *whose[ROWS];

/* A row's bytes stood there from `since` to now. */
static void stood(int row, double now)
{
    double x = across(since[row]), h = TALL * 16.0 / 8192;
    if (whose[row]) box(x, up(row * 16 + 16) - (h < 3 ? 3 - h : 0), across(now) - x, h < 3 ? 3 : h, whose[row], "");
    whose[row] = NULL;
}

static void filled(const struct event *e, unsigned at, unsigned n, const char *colour)
{
    unsigned row;
    for (row = at / 16; n > 0 && row <= (at + n - 1) / 16 && row < ROWS; row++) {
        stood((int)row, e->ms);
        since[row] = e->ms;
        whose[row] = colour;
    }
}

/* Bytes that are not zero, each row from when it was filled until it was wiped. */
static void contents(int from, int end)
{
    int i, row;
    for (i = from; i < end; i++) {
        const struct event *e = &events[i];
        if (is(e, "found")) filled(e, e->at, e->n, earlier);
        if (is(e, "put")) filled(e, e->at, e->n, label);
        if (is(e, "phone")) filled(e, e->at, e->n, visitor);
        if (is(e, "wipe") && e->at / 16 < ROWS) stood((int)(e->at / 16), e->ms);
    }
    for (row = 0; row < ROWS; row++) stood(row, events[end - 1].ms);
}

/* The row that a cut left half written, until it is wiped. */
static void torn_row(int from, int end)
{
    int i, j;
    for (i = from; i < end; i++)
        if (is(&events[i], "cut")) {
            for (j = i + 1; j < end - 1 && !(is(&events[j], "wipe") && events[j].at == events[i].at); j++) {}
            box(across(events[i].ms), up(events[i].at + 8) - 2, across(events[j].ms) - across(events[i].ms), 4, torn, "");
        }
}

static void transfers(int from, int end)
{
    int i;
    for (i = from; i < end; i++) {
        const struct event *e = &events[i];
        double took = (e->n + 4) * 0.0225;
        if (is(e, "read")) line(across(e->ms - took), up(e->at), across(e->ms), up(e->at + e->n), "#2b7bba", "stroke-width=\"1.6\"");
    }
    for (i = from; i < end; i++) {
        const struct event *e = &events[i];
        if (is(e, "wipe") || is(e, "put"))
            printf("<circle cx=\"%.2f\" cy=\"%.2f\" r=\"2.4\" fill=\"%s\"/>\n", across(e->ms), up(e->at + 8),
                   is(e, "wipe") ? wiped : put);
        if (is(e, "phone")) box(across(e->ms) - 3, up(e->at + e->n) - 4, 6, up(e->at) - up(e->at + e->n) + 6, "#5b3fb5", "rx=\"2\"");
    }
}

/* The mark, as a line of steps; it starts anew after a cut. */
static void mark(int from, int end)
{
    int i, drawn = 0;
    for (i = from; i < end; i++) {
        const struct event *e = &events[i];
        if (is(e, "mark")) {
            printf(drawn ? "H%.2f V%.2f " : "<path fill=\"none\" stroke=\"#222\" stroke-width=\"1.8\" d=\"M%.2f %.2f ", across(e->ms),
                   up(e->at));
            drawn = 1;
        }
        if (drawn && (is(e, "cut") || i == end - 1)) {
            printf("H%.2f\"/>\n", across(e->ms));
            drawn = 0;
        }
    }
}

/* The calls along the top; a name that would stand on the one before goes a line higher. */
static void calls(int from, int end)
{
    double free_from[3] = {0, 0, 0};
    int i, k;
    for (i = from; i < end; i++)
        if (is(&events[i], "call")) {
            int last = following(i, end, "end"), cut = following(i, end, "cut");
            double x = across(events[i].ms), w = across(events[is(&events[cut], "cut") && cut < last ? cut : last].ms) - x;
            for (k = 0; k < 2 && free_from[k] > x; k++) {}
            box(x, top - 26, w < 2 ? 2 : w, 8, "#4a4a4a", "rx=\"2\"");
            if (k > 0) line(x + 0.5, top - 26, x + 0.5, top - 32 - 15 * k, pale, "stroke-width=\"0.8\"");
            text(x + (k > 0 ? 3 : 0), top - 32 - 15 * k, "font-size=\"13\" font-weight=\"600\"", ink, events[i].word);
            free_from[k] = x + 8.2 * (double)strlen(events[i].word) + 6;
        }
}

static void panel(int number, int from, int end)
{
    char said[80];
    int i, rows = 0;
    top = FIRST + PANEL * number + 84;
    for (i = from; i < end; i++) rows += is(&events[i], "wipe");
    sprintf(said, "%d. %s", number + 1, events[from].word);
    text(LEFT, top - 66, "font-size=\"17\" font-weight=\"700\"", ink, said);
    sprintf(said, "%d rows wiped, %.0f ms", rows, events[end - 1].ms);
    text(LEFT + WIDE, top - 66, "text-anchor=\"end\" font-size=\"13\"", pale, said);
    box(LEFT, top, WIDE, TALL, "#fafafa", "");
    radio(from, end);
    axes(span);
    darkness(from, end);
    contents(from, end);
    torn_row(from, end);
    transfers(from, end);
    mark(from, end);
    calls(from, end);
}

/* ------------------------------------------------------------------------------------------------------------- The whole */

static void legend(int y)
{
    static const char *const names[] = {"earlier visitors' bytes", "the label", "the visitor's bytes", "a torn row"};
    const char *const fills[] = {earlier, label, visitor, torn};
    int i;
    for (i = 0; i < 4; i++) {
        box(LEFT + i * 190, y, 22, 12, fills[i], "rx=\"2\"");
        text(LEFT + i * 190 + 28, y + 11, "font-size=\"13\"", ink, names[i]);
    }
    y += 26;
    line(LEFT, y + 11, LEFT + 22, y, "#2b7bba", "stroke-width=\"1.8\"");
    text(LEFT + 28, y + 11, "font-size=\"13\"", ink, "memory is read");
    printf("<circle cx=\"%d\" cy=\"%d\" r=\"3.4\" fill=\"%s\"/>\n", LEFT + 201, y + 6, put);
    text(LEFT + 218, y + 11, "font-size=\"13\"", ink, "a row is written");
    printf("<circle cx=\"%d\" cy=\"%d\" r=\"3.4\" fill=\"%s\"/>\n", LEFT + 391, y + 6, wiped);
    text(LEFT + 408, y + 11, "font-size=\"13\"", ink, "a row is wiped");
    box(LEFT + 578, y, 6, 13, "#5b3fb5", "rx=\"2\"");
    text(LEFT + 598, y + 11, "font-size=\"13\"", ink, "a phone writes");
    line(LEFT + 740, y + 6, LEFT + 762, y + 6, ink, "stroke-width=\"2\"");
    text(LEFT + 768, y + 11, "font-size=\"13\"", ink, "the mark: how far the wall will wipe");
}

int main(void)
{
    char row[160];
    int i, from = 0, runs = 0, number = 0;
    while (count < MOST && fgets(row, sizeof row, stdin)) take(row);
    for (i = 0; i < count; i++) runs += is(&events[i], "run");
    if (runs == 0 || count == MOST) {
        fputs("timeline: no run in the log, or too long a one\n", stderr);
        return 1;
    }
    printf("<svg xmlns=\"http://www.w3.org/2000/svg\" viewBox=\"0 0 1200 %d\" width=\"1200\" height=\"%d\" "
           "font-family=\"Helvetica, Arial, 'DejaVu Sans', sans-serif\">\n",
           FIRST + PANEL * runs + 90, FIRST + PANEL * runs + 90);
    puts("<defs><pattern id=\"dark\" width=\"8\" height=\"8\" patternUnits=\"userSpaceOnUse\" patternTransform=\"rotate(45)\">"
         "<rect width=\"8\" height=\"8\" fill=\"#fff\" fill-opacity=\"0.55\"/><rect width=\"3\" height=\"8\" "
         "fill=\"#bbb\"/></pattern></defs>");
    box(0, 0, 1200, FIRST + PANEL * runs + 90, "#ffffff", "");
    text(LEFT, 44, "font-size=\"24\" font-weight=\"700\"", ink, "Two afternoons of one tile");
    text(LEFT, 70, "font-size=\"14\"", pale, "What stands in its memory, who put it there, and when the wall wipes it");
    while (from < count) {
        int end = from + 1;
        while (end < count && !is(&events[end], "run")) end++;
        panel(number++, from, end);
        from = end;
    }
    legend(FIRST + PANEL * runs + 26);
    puts("</svg>");
    return 0;
}
