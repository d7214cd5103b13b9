/*
 * wall.c: a complete small host. It drives sessions with skipnadur.h, and in place of a bus it has the simulated part of
 * skipnadur_tile.h: a firmware puts its own I2C driver into `transfer` and `wait`, and keeps the rest.
 *
 *     wall [--trace] [--log FILE] [LABEL]
 *
 * It tells of two afternoons: a visitor plays, and the tile is left clean; the plug is pulled in mid-wipe, and the tile is found and
 * cleaned at the next start. --trace shows every transfer, --log writes what timeline.c draws. Exit status 0 where all went as told.
 */
#include <stdarg.h>
#include <stdio.h>
#include <stdlib.h>
#include <string.h>

#include "skipnadur_tile.h"

enum { CYCLE_MS = 5, BYTE_NS = 22500, NO_CUT = -1 }; /* a row's write cycle; a byte and its acknowledge at 400 kHz */

struct host {
    /* the tile on the wall */
    skp_tile part;
    uint8_t memory[SKP_USER_MEMORY];
    uint8_t identity[SKP_TILE_IDENTITY_LEN];
    /* the session */
    uint8_t state[SKP_STATE_LEN], transfer[SKP_TRANSFER_LEN], reply[SKP_REPLY_LEN];
    /* what the story counts */
    uint64_t ns;
    unsigned transfers, rows;
    int cut_after; /* rows until the plug is pulled, or NO_CUT */
    int dark;      /* the plug is pulled */
    /* what was told last */
    uint32_t mark;
    int rf;
    int trace;
    FILE *log;
};

/* ---------------------------------------------------------------------------------------------------- What is written down */

static void note(struct host *h, const char *form, ...)
{
    va_list args;
    if (!h->log) return;
    fprintf(h->log, "%llu ", (unsigned long long)(h->ns / 1000));
    va_start(args, form);
    vfprintf(h->log, form, args);
    va_end(args);
    fputc('\n', h->log);
}

/* The mark and the radio, where they changed. */
static void note_changes(struct host *h)
{
    uint32_t mark = skp_step_value(skp_tag_dirty(h->state, sizeof h->state));
    if (mark != h->mark) note(h, "mark %u", (unsigned)mark);
    if ((h->part.rf == 0) != h->rf) note(h, "rf %d", h->part.rf == 0);
    h->mark = mark;
    h->rf = h->part.rf == 0;
}

static void show(struct host *h, const char *what, uint64_t step, uint32_t ack)
{
    uint32_t i, send = skp_step_send(step), got = skp_step_read(step);
    if (!h->trace) return;
    printf("    %9.3f ms  %-5s %02x ", (double)h->ns / 1e6, what, (unsigned)skp_step_address(step));
    for (i = 0; i < send; i++) printf(" %02x", h->transfer[i]);
    if (got) printf("  -> %u bytes", (unsigned)got);
    puts(ack ? "" : "  refused");
}

/* A transfer for the log: memory read, a row put or wiped; the rest only counts. */
static void note_transfer(struct host *h, uint64_t step, uint32_t ack)
{
    uint32_t send = skp_step_send(step), at = h->transfer[0] * 256u + h->transfer[1];
    uint32_t i, sum = 0;
    if (skp_step_address(step) != 0x53 || send < 2 || at >= SKP_USER_MEMORY || !ack) return;
    for (i = 2; i < send; i++) sum |= h->transfer[i];
    if (skp_step_kind(step) == SKP_WRITE)
        note(h, "%s %u %u", sum ? "put" : "wipe", (unsigned)at, (unsigned)send - 2);
    else
        note(h, "read %u %u", (unsigned)at, (unsigned)skp_step_read(step));
}

/* ------------------------------------------------------------------------------------------------------------- The bus */

/* The power fails inside the cycle of the row that is being written: its bytes are then anything, here a pattern. */
static void pull_the_plug(struct host *h)
{
    static const uint8_t torn[SKP_ROW] = "\x00\xff\x31\x00\x80\x46\x00\x00\x01\xfe\x00\x68\x00\x7f\x00\x20";
    note(h, "cut %u", (unsigned)(h->transfer[0] * 256u + h->transfer[1]));
    skp_tile_cut(&h->part, h->memory, sizeof h->memory, torn, sizeof torn, 0);
    h->dark = 1;
}

/* One transfer; `out` is where SKP_READ_OUT reads to. Returns the acknowledgement. */
static uint32_t transfer(struct host *h, uint64_t step, uint8_t *out)
{
    uint8_t dev = (uint8_t)skp_step_address(step);
    uint32_t send = skp_step_send(step), count = skp_step_read(step), ack;
    int row = 0;
    if (skp_step_kind(step) == SKP_WRITE) {
        ack = skp_tile_write(&h->part, h->memory, sizeof h->memory, dev, h->transfer, send, CYCLE_MS);
        row = ack && dev == 0x53 && send > 2 && h->transfer[0] < 0x20;
    } else {
        ack = skp_tile_read(&h->part, h->identity, sizeof h->identity, h->memory, sizeof h->memory, dev, h->transfer, send,
                            skp_step_kind(step) == SKP_READ ? h->reply : out, count);
    }
    h->ns += (uint64_t)BYTE_NS * (1 + send + (count ? 1 + count : 0));
    h->transfers++;
    h->rows += (unsigned)row;
    show(h, skp_step_kind(step) == SKP_WRITE ? "write" : "read", step, ack);
    note_transfer(h, step, ack);
    if (row && h->cut_after != NO_CUT && --h->cut_after == 0) pull_the_plug(h);
    return ack;
}

static void wait(struct host *h, uint32_t ms)
{
    skp_tile_wait(&h->part, ms);
    h->ns += (uint64_t)ms * 1000000;
    if (h->trace) printf("    %9.3f ms  wait  %u ms\n", (double)h->ns / 1e6, (unsigned)ms);
}

/*
 * Takes a call to its answer, from its first step. `data` and `out` are what the call was started with, or NULL. Returns the answer,
 * or the step that was open when the plug was pulled.
 */
static uint64_t carry_out(struct host *h, uint64_t step, const uint8_t *data, skp_size data_len, uint8_t *out, skp_size out_len)
{
    h->transfers = h->rows = 0;
    while (skp_step_kind(step) != SKP_ANSWER) {
        uint32_t ack = 1;
        if (skp_step_kind(step) == SKP_DELAY)
            wait(h, skp_step_delay(step));
        else
            ack = transfer(h, step, out);
        if (h->dark) return step;
        step = skp_tag_reply(h->state, sizeof h->state, h->transfer, sizeof h->transfer, h->reply, sizeof h->reply, data, data_len, out,
                             out_len, ack);
        note_changes(h);
    }
    return step;
}

/* ------------------------------------------------------------------------------------------------------------ The story */

static void give_up(const char *what, uint32_t number)
{
    uint8_t text[SKP_MESSAGE_LEN];
    skp_message(number, text);
    printf("\n%s: refused %u: %s\n", what, (unsigned)number, (const char *)text);
    exit(1);
}

static void expect(int held, const char *what)
{
    if (held) return;
    printf("\nThis should not be: %s\n", what);
    exit(1);
}

static unsigned left_over(const struct host *h)
{
    unsigned i, n = 0;
    for (i = 0; i < SKP_USER_MEMORY; i++) n += h->memory[i] != 0;
    return n;
}

#define LENT h->state, sizeof h->state, h->transfer, sizeof h->transfer, h->reply, sizeof h->reply
enum call { BEGIN, GO_LIVE, FINISH };

/* One of the calls that take neither data nor `out`. */
static void call(struct host *h, enum call which)
{
    static const char *const names[] = {"begin", "go_live", "finish"};
    uint64_t step, began = h->ns;
    note(h, "call %s", names[which]);
    step = which == BEGIN ? skp_tag_begin(LENT) : which == GO_LIVE ? skp_tag_go_live(LENT) : skp_tag_finish(LENT);
    note_changes(h);
    step = carry_out(h, step, NULL, 0, NULL, 0);
    if (h->dark) return;
    note(h, "end");
    if (skp_step_number(step) != SKP_OK) give_up(names[which], skp_step_number(step));
    expect(skp_step_rows(step) == h->rows, "the rows that the call reports are the rows that were written");
    printf("             %u transfers, %.0f ms", h->transfers, (double)(h->ns - began) / 1e6);
    if (which != GO_LIVE) printf(", %u rows wiped", h->rows);
    puts(".");
}

/* The label's image, and how long it is. */
static skp_size image_of(const char *text, uint8_t *image, skp_size room)
{
    skp_size values[2];
    uint32_t number = skp_text_image(image, room, SKP_AREA, (const uint8_t *)text, strlen(text), values);
    if (number != SKP_OK) give_up("text_image", number);
    return values[0];
}

static void write_label(struct host *h, const char *label)
{
    static uint8_t image[SKP_USER_MEMORY];
    skp_size i, n = image_of(label, image, sizeof image);
    uint64_t step;
    printf("\n  write      The label %s goes onto the tile, row by row, and is read back and compared.\n", label);
    note(h, "call write");
    step = skp_tag_write(LENT, 0, image, n);
    note_changes(h);
    step = carry_out(h, step, image, n, NULL, 0);
    note(h, "end");
    if (skp_step_number(step) != SKP_OK) give_up("write", skp_step_number(step));
    printf("             %u bytes in %u rows, %u transfers:", (unsigned)n, h->rows, h->transfers);
    for (i = 0; i < n && i < 64; i++) printf("%s%02x", i % 16 ? " " : "\n               ", image[i]);
    puts(n > 64 ? " .." : "");
}

/* Lists an image as a reader sees it, and keeps the first text. */
static void list(const uint8_t *image, skp_size len, const char *who, char *said, skp_size room)
{
    skp_cursor cursor;
    skp_record record;
    skp_size part[2];
    uint32_t n = 0, number = skp_read(image, len, &cursor);
    said[0] = 0;
    while (number == SKP_OK && (number = skp_next(image, len, &cursor, &record)) == SKP_OK) {
        n++;
        if (skp_text(image, len, &record, part)) {
            printf("             %s finds record %u: the text \"%.*s\".\n", who, (unsigned)n, (int)part[1],
                   (const char *)image + part[0]);
            if (!said[0] && part[1] < room) {
                memcpy(said, image + part[0], part[1]);
                said[part[1]] = 0;
            }
        } else {
            skp_payload(image, len, &record, part);
            printf("             %s finds record %u: %u bytes of another kind.\n", who, (unsigned)n, (unsigned)part[1]);
        }
    }
    if (number != SKP_END) give_up(who, number);
}

/* A phone is held to the tile for a moment, and writes. */
static void phone_writes(struct host *h, skp_size at, const uint8_t *bytes, skp_size n)
{
    skp_tile_phone(&h->part, h->memory, sizeof h->memory, at, bytes, n);
    note(h, "phone %u %u", (unsigned)at, (unsigned)n);
}

static void hold_phone(struct host *h, uint32_t ms)
{
    skp_tile_wait(&h->part, ms);
    h->ns += (uint64_t)ms * 1000000;
}

static void read_back(struct host *h, char *said, skp_size room)
{
    static uint8_t seen[SKP_USER_MEMORY];
    uint64_t step;
    puts("\n  read_whole The radio goes off, so that nothing can change any more, and the wall reads the whole tile.");
    note(h, "call read_whole");
    step = carry_out(h, skp_tag_read_whole(LENT, seen, sizeof seen), NULL, 0, seen, sizeof seen);
    note(h, "end");
    if (skp_step_number(step) != SKP_OK) give_up("read_whole", skp_step_number(step));
    printf("             %u transfers; the last byte that is not zero is number %u.\n", h->transfers, (unsigned)h->mark);
    list(seen, sizeof seen, "The wall", said, room);
}

static void nothing_left(struct host *h)
{
    expect(left_over(h) == 0, "bytes are left on the tile");
    puts("             Looked at from outside: all 8,192 bytes of the tile are zero.");
}

/* A tile with power, and a session that knows nothing about it. */
static void power_up(struct host *h)
{
    skp_tag_new(h->state, sizeof h->state, SKP_USER_MEMORY);
    h->dark = 0;
    note(h, "up");
    h->mark = UINT32_MAX;
    h->rf = -1;
    note_changes(h);
}

static void new_tile(struct host *h, const char *title)
{
    static const uint8_t identity[SKP_TILE_IDENTITY_LEN] = {0xFF, 0x07, 0x03, 0x51, 0x4D, 0x41, 0x52, 0x43, 0x48, 0x31, 0x02, 0xE0};
    memset(h->memory, 0, sizeof h->memory);
    memset(&h->part, 0, sizeof h->part);
    memcpy(h->identity, identity, sizeof identity);
    h->part.gpo1 = 0x85;
    h->part.mngt = h->part.rf = 0x02;
    h->part.cfg = 0x3A;
    h->ns = 0;
    h->cut_after = NO_CUT;
    note(h, "run %s", title);
    power_up(h);
}

/* What earlier visitors may have left: a long note, a scrap, a few bytes far up. */
static void litter(struct host *h)
{
    unsigned i;
    for (i = 0; i < 520; i++) h->memory[i] = (uint8_t)(0x20 + i * 7 % 90);
    for (i = 2600; i < 2840; i++) h->memory[i] = (uint8_t)(0x20 + i * 5 % 90);
    for (i = 6992; i < 7100; i++) h->memory[i] = (uint8_t)(0x20 + i * 3 % 90);
    note(h, "found 0 520");
    note(h, "found 2600 240");
    note(h, "found 6992 108");
}

/* Label on, radio on, and what the visitor's phone reads. */
static void offer(struct host *h, const char *label)
{
    char said[80];
    write_label(h, label);
    puts("\n  go_live    The radio goes on: from here a phone can see the tile.");
    call(h, GO_LIVE);
    hold_phone(h, 60);
    list(h->memory, sizeof h->memory, "The visitor's phone", said, sizeof said);
}

static void a_visitor_plays(struct host *h, const char *label, const char *partner)
{
    static uint8_t image[SKP_USER_MEMORY], scrap[48];
    char said[80];
    skp_size n = image_of(partner, image, sizeof image);
    puts("\n1. A visitor plays\n------------------");
    new_tile(h, "A visitor plays");
    litter(h);
    printf("\n  The tile comes from an earlier group. It still holds %u bytes of theirs, in three places.\n", left_over(h));
    puts("\n  begin      The wall takes the tile: radio off, every row is read, and rows that are not zero are wiped.");
    call(h, BEGIN);
    nothing_left(h);
    offer(h, label);
    printf("\n             The visitor answers %s. The phone writes %u bytes, and its app leaves 48 bytes of its own at 4,096.\n",
           partner, (unsigned)n);
    memset(scrap, 0xA5, sizeof scrap);
    phone_writes(h, 0, image, n);
    phone_writes(h, 4096, scrap, sizeof scrap);
    hold_phone(h, 60);
    read_back(h, said, sizeof said);
    expect(strcmp(said, partner) == 0, "the answer is the partner that the visitor chose");
    printf("             So the visitor's answer is %s, and no other.\n", said);
    puts("\n  finish     The session ends: all that was read is wiped, the app's bytes too.");
    call(h, FINISH);
    nothing_left(h);
}

static void the_plug_is_pulled(struct host *h, const char *label)
{
    static uint8_t chat[720];
    unsigned i;
    puts("\n\n2. The plug is pulled\n---------------------");
    new_tile(h, "The plug is pulled");
    puts("\n  begin      The next day; the tile is clean, and the wall looks all the same.");
    call(h, BEGIN);
    offer(h, label);
    for (i = 0; i < sizeof chat; i++) chat[i] = (uint8_t)("my whole chat "[i % 14]);
    printf("\n             This phone pastes a whole chat, %u bytes. The wall's guard has seen enough and ends the game.\n",
           (unsigned)sizeof chat);
    phone_writes(h, 0, chat, sizeof chat);
    hold_phone(h, 60);
    puts("\n  finish     The radio goes off. The tile reports that a phone wrote, so all of it is to be looked at and wiped.");
    h->cut_after = 17;
    call(h, FINISH);
    expect(h->dark && left_over(h) > 0, "the plug was pulled in mid-wipe");
    printf("             A cleaner pulls the plug while row number %u is being wiped. The tile is dark, with one row half\n", h->rows);
    printf("             written and %u bytes on it that are not zero.\n", left_over(h));
    h->ns += 150000000;
    h->cut_after = NO_CUT;
    puts("\n             The power comes back. The wall knows nothing about the tile now, and so trusts none of it.");
    power_up(h);
    puts("\n  begin      Before the radio may go on, every row is read, and what is not zero is wiped.");
    call(h, BEGIN);
    nothing_left(h);
}

int main(int argc, char **argv)
{
    static struct host host;
    const char *label = "MARCH1", *partner = "HLA-DRA", *log = NULL;
    int i;
    for (i = 1; i < argc; i++) {
        if (strcmp(argv[i], "--trace") == 0)
            host.trace = 1;
        else if (strcmp(argv[i], "--log") == 0 && i + 1 < argc)
            log = argv[++i];
        else
            label = argv[i];
    }
    if (log && !(host.log = fopen(log, "w"))) {
        perror(log);
        return 2;
    }
    puts("Two afternoons of one tile on the wall (its clock: 400 kHz bus, 5 ms to write a row)");
    a_visitor_plays(&host, label, partner);
    the_plug_is_pulled(&host, label);
    puts("\nNothing was left behind, on either afternoon.");
    if (host.log && fclose(host.log) != 0) return 1;
    return 0;
}
