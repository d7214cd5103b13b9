/*
 * fuzz.c: every export on hostile inputs.
 *
 *     fuzz [-s SEED] [-t SECONDS | -n CASES | -c CASE]
 *
 * Each lent buffer stands between two pages that nobody may touch, flush against one of them, so that one byte read or written outside
 * ends the program; what is lent to be read is mapped for reading alone. Beside that each answer is held to what skipnadur.h says of
 * it: numbers, places inside the image, bytes that may not change. A failure names its case, and -c runs that one alone. The digest of
 * all answers after -n cases is the same on every processor.
 */
#define _GNU_SOURCE
#include <inttypes.h>
#include <signal.h>
#include <stdio.h>
#include <stdlib.h>
#include <string.h>
#include <sys/mman.h>
#include <time.h>
#include <unistd.h>

#include "skipnadur_tile.h"

enum { ROOM = 131072, PAGE = 65536 }; /* multiples of every page size in use */

/* --------------------------------------------------------------------------------------------------------- Chance and blame */

static uint64_t seed = 1, number_of_case, calls, chance, digest;
static const char *at_work = "nothing";

static uint64_t any(void)
{
    uint64_t z = (chance += 0x9E3779B97F4A7C15u);
    z = (z ^ z >> 30) * 0xBF58476D1CE4E5B9u;
    z = (z ^ z >> 27) * 0x94D049BB133111EBu;
    return z ^ z >> 31;
}

static uint64_t below(uint64_t n) { return n ? any() % n : 0; }

static void blame(const char *what)
{
    printf("fuzz: %s in %s; again with -s %" PRIu64 " -c %" PRIu64 "\n", what, at_work, seed, number_of_case);
    fflush(stdout);
    _exit(1);
}

static void outside(int signal)
{
    (void)signal;
    blame("a byte outside of what was lent was touched");
}

static void hold(int held, const char *what)
{
    if (!held) blame(what);
}

static void digested(uint64_t answer) { digest = (digest ^ answer) * 0x100000001B3u + 1; }

static void digested_bytes(const uint8_t *p, skp_size n)
{
    skp_size i;
    for (i = 0; i < n; i++) digested(p[i]);
}

/* A length or place: small, at an edge, or anything. */
static uint64_t edge(void)
{
    /* clang-format off */
    static const uint64_t edges[] = {
        0, 1, 2, 3, 7, 8, 10, 11, 15, 16, 17, 18, 19, 20, 21, 23, 24, 35, 36, 63, 64, 65, 127, 128, 250, 251, 254, 255, 256, 257,
        264, 268, 272, 276, 4096, 8128, 8184, 8191, 8192, 8193, 65528, 65529, 65535, 65536, 65549, 66000, 524287, 524288,
        0x7FFFFFFF, 0xFFFFFFFF, 0x100000000, INT64_MAX, (uint64_t)1 << 63, UINT64_MAX - 12, UINT64_MAX - 8, UINT64_MAX - 1,
        UINT64_MAX,
    };
    /* clang-format on */
    uint64_t way = below(4), bits = below(64);
    return way == 0 ? below(40) : way == 1 ? any() >> bits : edges[below(sizeof edges / sizeof *edges)];
}

static skp_size length(skp_size most)
{
    uint64_t n = edge();
    return n <= most ? n : below(below(8) ? 300 : most + 1);
}

/* ------------------------------------------------------------------------------------------------------------ Lent buffers */

struct lent {
    uint8_t *rw; /* the pages, for writing; the same ones for reading alone */
    const uint8_t *ro;
    uint8_t *was; /* what stood there before the call */
    uint8_t *p;   /* what is lent, for writing; for reading alone */
    const uint8_t *c;
    skp_size n;
};

static struct lent out, in, in2, state, transfer, reply, data, room, numbers, cursor, record, tile;
static struct lent *const all[] = {&out, &in, &in2, &state, &transfer, &reply, &data, &room, &numbers, &cursor, &record, &tile};

static void *guarded(FILE *pages, int way)
{
    uint8_t *p = mmap(NULL, ROOM + 2 * PAGE, PROT_NONE, MAP_PRIVATE | MAP_ANONYMOUS, -1, 0);
    if (p == MAP_FAILED || mmap(p + PAGE, ROOM, way, MAP_SHARED | MAP_FIXED, fileno(pages), 0) == MAP_FAILED) {
        perror("fuzz: mmap");
        exit(2);
    }
    return p + PAGE;
}

static void make(struct lent *b)
{
    FILE *pages = tmpfile();
    if (!pages || ftruncate(fileno(pages), ROOM) != 0 || !(b->was = malloc(ROOM))) {
        perror("fuzz: tmpfile");
        exit(2);
    }
    b->rw = guarded(pages, PROT_READ | PROT_WRITE);
    b->ro = guarded(pages, PROT_READ);
}

/* Lends n bytes, flush against the page before or the page after; of no bytes, at times no place at all. */
static void lend(struct lent *b, skp_size n)
{
    skp_size from = below(2) ? ROOM - n : 0;
    b->n = n;
    b->p = b->rw + from;
    b->c = b->ro + from;
    if (n == 0 && below(2)) b->p = NULL, b->c = NULL;
}

static void fill(struct lent *b)
{
    skp_size i;
    uint64_t way = below(5);
    for (i = 0; i < b->n; i++) b->p[i] = (uint8_t)(way == 0 ? 0 : way == 1 ? 32 + below(95) : way == 2 ? below(4) * 85 : any());
}

/* One byte changed. */
static void spoil(struct lent *b)
{
    skp_size at = below(b->n);
    uint8_t byte = (uint8_t)any();
    if (b->n) b->p[at] = byte;
}

static void keep(struct lent *b)
{
    if (b->n) memcpy(b->was, b->p, b->n);
}

static int same(const struct lent *b, skp_size from) { return from >= b->n || memcmp(b->was + from, b->p + from, b->n - from) == 0; }

static int zero(const uint8_t *p, skp_size n)
{
    skp_size i;
    for (i = 0; i < n && !p[i]; i++) {}
    return i == n;
}

/* A lent object of n bytes that is to be written: random before. */
static void *object(struct lent *b, skp_size n)
{
    lend(b, n);
    fill(b);
    keep(b);
    return b->p;
}

/* -------------------------------------------------------------------------------------------------------------- Building */

static void lengths(void)
{
    uint64_t a = edge(), b = edge();
    uint8_t *container = object(&numbers, 8);
    skp_size i;
    hold(skp_image_len_for(a, b) >= b && skp_mime_image_len(a, b) == skp_image_len_for(a, b), "a length below its payload");
    hold(skp_record_image_len(b) == skp_image_len_for(1, b) && skp_image_len(b) >= b && skp_text_image_len(b) >= b, "a length");
    if (skp_capability_container(a, container) == 0)
        hold(a <= 524287 && container[0] == 0xE2 && container[6] * 256u + container[7] == a / 8, "a container");
    else
        hold(a > 524287 && zero(container, 8), "a refused container");
    lend(&in, length(9000));
    fill(&in);
    if (below(2) && in.n) memset(in.p + below(in.n), 0, 1), memset(in.p + in.n / 2, 0, in.n - in.n / 2);
    for (i = in.n; i > 0 && in.p[i - 1] == 0; i--) {}
    hold(skp_high_water(in.c, in.n) == i, "a high water mark");
    object(&out, length(300));
    skp_set_read_only(out.p, out.n);
    hold(out.n < 2 ? same(&out, 0) : out.p[0] == out.was[0] && out.p[1] == 0x43 && same(&out, 2), "a read-only mark");
    calls += 8;
}

/* What a builder answered: document 01's number, its values, and the bytes it may have changed. Returns 1 where it is done. */
static int built(uint32_t number)
{
    const skp_size *values = (const skp_size *)(const void *)numbers.p;
    calls++;
    hold(number <= 5, "a number that builders do not have");
    digested(number), digested(values[0]), digested(values[1]);
    if (number == 2)
        hold(values[0] > values[1] && values[1] == out.n, "the values of 2");
    else if (number == 3)
        hold(values[0] > 65535 && values[1] == 0, "the values of 3");
    else if (number != 0)
        hold(values[0] == 0 && values[1] == 0, "the values of a refusal");
    if (number != 0) {
        hold(same(&out, 0), "a refused build changed a byte");
        return 0;
    }
    hold(values[0] <= out.n && values[1] == 0, "the length of an image");
    hold(same(&out, values[0]), "a byte after the image changed");
    digested_bytes(out.p, values[0]);
    return 1;
}

static uint64_t an_area(void) { return below(4) ? 8184 : edge(); }

/* A text: UTF-8 in most cases, and in some of these one byte of it changed. */
static void a_text(struct lent *b, skp_size most)
{
    static const char *const letters[] = {"M", "1", "\xc3\xa9", "\xe2\x82\xac", "\xf0\x9f\xa7\xac", "\xed\x9f\xbf", "\xf4\x8f\xbf\xbf"};
    skp_size i = 0;
    lend(b, length(most));
    if (below(5) == 0) {
        fill(b);
        return;
    }
    while (i < b->n) {
        const char *letter = letters[below(below(2) ? 2 : 7)];
        skp_size n = strlen(letter);
        if (n > b->n - i) letter = "A", n = 1;
        memcpy(b->p + i, letter, n);
        i += n;
    }
    if (below(4) == 0) spoil(b);
}

/* What was built is read back whole. */
static void reads_back(const struct lent *said, int prefix)
{
    skp_cursor where;
    skp_record found;
    skp_size at[3];
    skp_size len = ((const skp_size *)(const void *)numbers.p)[0];
    hold(skp_read(out.p, len, &where) == 0 && skp_next(out.p, len, &where, &found) == 0, "an image that was built is not read");
    hold(found.last == 1 && found.id_len == 0, "the record that was built");
    if (prefix < 0)
        hold(skp_text(out.p, len, &found, at) == 1, "the text that was built is none");
    else
        hold(skp_uri(out.p, len, &found, at) == (prefix <= 35) && (prefix > 35 || at[2] == (skp_size)prefix), "the URI that was built");
    if (prefix <= 35) hold(at[1] == said->n && (at[1] == 0 || memcmp(out.p + at[0], said->p, said->n) == 0), "the text that was built");
    hold(skp_next(out.p, len, &where, &found) == SKP_END, "more records than were built");
}

static void whole_images(void)
{
    skp_size *values = object(&numbers, 16);
    uint8_t prefix = (uint8_t)(below(3) ? below(40) : any());
    uint64_t way = below(4);
    a_text(&in, 66000);
    object(&out, below(3) ? in.n + below(40) : length(ROOM));
    if (way == 0 && built(skp_text_image(out.p, out.n, an_area(), in.c, in.n, values))) reads_back(&in, -1);
    if (way == 1 && built(skp_uri_image(out.p, out.n, an_area(), in.c, in.n, prefix, values))) reads_back(&in, prefix);
    if (way == 2) built(skp_empty_image(out.p, out.n, an_area(), values));
    if (way == 3) {
        lend(&in2, length(300));
        fill(&in2);
        built(skp_mime_image(out.p, out.n, an_area(), in2.c, in2.n, in.c, in.n, values));
    }
}

static void begun_images(void)
{
    skp_size *values = object(&numbers, 16), payload = below(2) ? below(300) : edge(), area = an_area();
    uint64_t way = below(5);
    uint8_t byte = (uint8_t)any();
    lend(&in, length(300));
    fill(&in);
    object(&out, below(3) ? in.n + (payload < 66000 ? payload : 0) + below(40) : length(ROOM));
    if (way == 0) built(skp_open(out.p, out.n, area, byte, in.c, in.n, payload, values));
    if (way == 1) built(skp_begin(out.p, out.n, area, payload, byte, values));
    if (way == 2) built(skp_begin_text(out.p, out.n, area, payload, values));
    if (way == 3) built(skp_begin_mime(out.p, out.n, area, in.c, in.n, payload, values));
    if (way == 4 && built(skp_finish(out.p, out.n, payload, values)))
        hold(values[0] == payload + 1 && out.p[payload] == 0xFE && memcmp(out.p, out.was, payload) == 0, "a finished image");
}

/* --------------------------------------------------------------------------------------------------------------- Reading */

/* An image as a phone may leave it, made piece by piece. */
static uint8_t made[20000];
static skp_size made_len;

static void put(uint64_t byte)
{
    if (made_len < sizeof made) made[made_len++] = (uint8_t)byte;
}

static void put_some(skp_size n)
{
    while (n-- > 0) put(below(3) ? 'a' + below(26) : any());
}

/* A length that is mostly true, at times one more or anything. */
static skp_size lying(skp_size n) { return below(24) ? n : below(2) ? n + 1 : below(300); }

/* A record: mostly a text or a URI, mostly short, at times with an id. */
static void put_record(int last)
{
    skp_size kind = below(4) ? 1 : below(4), id = below(4) ? 0 : below(4), payload = below(20) ? below(12) : below(600);
    int small = payload < 256 && below(8), named = id > 0 || below(8) == 0;
    skp_size said = lying(payload);
    skp_size format = below(4) ? 1 : below(8), chunked = below(40) ? 0 : 0x20;
    put(format | chunked | (last ? 0x40 : 0) | (small ? 0x10 : 0) | (named ? 8 : 0));
    put(lying(kind));
    if (!small) put(0), put(below(40) ? 0 : any()), put(said >> 8);
    put(said);
    if (named) put(lying(id));
    while (kind-- > 0) put(below(2) ? 'T' : 'U');
    put_some(id);
    if (payload > 0) put(below(4) ? below(payload + 2) : any());
    put_some(payload > 0 ? payload - 1 : 0);
}

static void put_block(uint64_t type)
{
    static uint8_t body[sizeof made];
    skp_size from = made_len, n, said, records = below(4) ? below(4) : below(200);
    if (type == 3)
        while (records-- > 0) put_record(records == 0 && below(4));
    else
        put_some(below(below(8) ? 12 : 300));
    n = made_len - from;
    memcpy(body, made + from, n);
    made_len = from;
    put(type);
    said = lying(n);
    if (said >= 255 || below(8) == 0) put(0xFF), put(said >> 8);
    put(said);
    for (from = 0; from < n; from++) put(body[from]);
}

/* The image, lent: often cut short, or with a byte changed, or only noise. */
static void an_image(void)
{
    uint64_t first = below(3) ? 0xE2 : 0xE1, third = below(2), i;
    made_len = 0;
    put(first), put(below(20) ? 0x40 : any()), put(third), put(1);
    if (first == 0xE2 || third == 0) put(0), put(0), put(3), put(0xFF);
    while (below(3) == 0) put(0);
    while (below(3) == 0) put_block(below(2) ? 1 : any() | 4);
    if (below(12)) put_block(3);
    if (below(3)) put(0xFE);
    if (below(3) == 0) made_len = below(made_len + 1);
    lend(&in, below(10) ? made_len : length(9000));
    fill(&in);
    for (i = 0; i < in.n && i < made_len; i++) in.p[i] = made[i];
    if (below(4) == 0) spoil(&in);
}

/* What a part says: inside the image, or nothing. */
static void a_part(uint32_t is, const skp_size *part)
{
    calls++;
    digested(is), digested(part[0]), digested(part[1]);
    hold(is == 1 ? part[0] <= in.n && part[1] <= in.n - part[0] : is == 0 && part[0] == 0 && part[1] == 0, "a part outside the image");
}

static void parts(const skp_record *r, int given)
{
    skp_size *part = object(&numbers, 24);
    skp_size before = in.n;
    a_part(skp_kind(in.c, in.n, r, part), part);
    hold(!given || (part[0] == r->kind && part[1] == r->kind_len), "a type that is not where it was found");
    a_part(skp_id(in.c, in.n, r, part), part);
    hold(!given || part[1] == r->id_len, "an id that is not where it was found");
    a_part(skp_payload(in.c, in.n, r, part), part);
    hold(!given || part[1] == r->payload_len, "a payload that is not where it was found");
    a_part(skp_text(in.c, in.n, r, part), part);
    a_part(skp_uri(in.c, in.n, r, part), part);
    hold(part[2] <= 35 && skp_is(in.c, in.n, r, 'U') <= 1, "a URI's prefix");
    hold(in.n == before, "a length");
    calls++;
}

/* Walks an image, with a cursor and a record that stand against a guard page. */
static void walk(void)
{
    skp_size steps = 0;
    skp_record *r;
    uint32_t number;
    an_image();
    lend(&cursor, sizeof(skp_cursor));
    number = skp_read(in.c, in.n, (skp_cursor *)(void *)cursor.p);
    hold(number == 0 || (number >= 11 && number <= 13), "a number that reading does not have");
    digested(number);
    hold(number == 0 || zero(cursor.p, cursor.n), "the cursor of a refusal");
    hold(((skp_cursor *)(void *)cursor.p)->end <= in.n && (number == 11 || in.n >= 4), "a message outside the image");
    do {
        r = object(&record, sizeof(skp_record));
        number = skp_next(in.c, in.n, (skp_cursor *)(void *)cursor.p, r);
        calls++;
        digested(number);
        hold(number == 0 || number == 13 || number == 14 || number == 255, "a number that walking does not have");
        hold(number == 0 || zero(record.p, record.n), "a record beside a refusal");
        if (number == 0) parts(r, 1);
        hold(++steps <= in.n + 2, "a walk that does not end");
    } while (number == 0);
    r = object(&record, sizeof(skp_record));
    hold(skp_next(in.c, in.n, (skp_cursor *)(void *)cursor.p, r) == 255, "a walk that goes on after its end");
}

/* A cursor and a record with any numbers in them. */
static void strangers(void)
{
    skp_size *where, *r, i;
    uint32_t number;
    an_image();
    where = object(&cursor, sizeof(skp_cursor));
    r = object(&record, sizeof(skp_record));
    for (i = 0; i < 6; i++) r[i] = below(2) ? below(in.n + 2) : edge();
    if (below(2)) r[0] = 1, r[3] = 1, r[4] = 0;
    parts((const skp_record *)(void *)r, 0);
    where[0] = below(2) ? below(in.n + 2) : edge();
    where[1] = below(2) ? in.n : edge();
    number = skp_next(in.c, in.n, (skp_cursor *)(void *)where, (skp_record *)(void *)r);
    hold(number == 0 || number == 13 || number == 14 || number == 255, "a number that walking does not have");
    if (number == 0) parts((const skp_record *)(void *)r, 1);
}

static void words(void)
{
    uint8_t code = (uint8_t)any(), *prefix = object(&out, 26), *text;
    skp_size *len = object(&numbers, 8);
    uint32_t number = below(2) ? (uint32_t)below(40) : (uint32_t)edge(), n;
    hold(skp_uri_prefix(code, prefix, len) == (code <= 35), "a prefix code");
    hold(*len <= 26 && zero(prefix + *len, 26 - *len) && (code <= 35 || *len == 0) && !memchr(prefix, 0, *len), "a prefix");
    digested_bytes(prefix, 26);
    text = object(&out, 64);
    n = skp_message(number, text);
    digested_bytes(text, 64);
    hold(n < 64 && zero(text + n, 64 - n) && !memchr(text, 0, n), "a message");
    calls += 2;
}

/* ------------------------------------------------------------------------------------------------------------ The session */

static int known(uint32_t number) { return number == 0 || (number >= 21 && number <= 26) || (number >= 31 && number <= 34); }

/* What a start or a reply left: its step, and the three buffers. Returns 1 while the call is open. */
static int left(uint64_t step)
{
    uint32_t kind = skp_step_kind(step), send = skp_step_send(step), number = skp_step_number(step);
    calls++;
    hold(kind <= SKP_DELAY, "a kind that steps do not have");
    digested(step), digested_bytes(state.p, state.n), digested_bytes(transfer.p, transfer.n);
    if (kind == SKP_ANSWER && number >= 31) {
        hold(known(number), "a number that sessions do not have");
        hold(same(&state, 0) && same(&transfer, 0) && same(&reply, 0), "31 to 34 changed a byte");
        return 0;
    }
    hold(state.n == SKP_STATE_LEN && transfer.n >= 19 && reply.n >= 64, "a wrong length was taken");
    hold(same(&transfer, 19) && same(&reply, 64), "a byte past 19 or 64 changed");
    if (kind == SKP_ANSWER) {
        hold(known(number) && zero(transfer.p, 19) && zero(reply.p, 64), "an answer");
        return 0;
    }
    hold(same(&reply, 0), "the reply buffer was written before the answer");
    if (kind == SKP_DELAY)
        hold(zero(transfer.p, 19), "a delay's bytes");
    else
        hold(send <= 19 && zero(transfer.p + send, 19 - send), "bytes after those to send");
    if (kind == SKP_READ) hold(skp_step_read(step) <= 64, "more to read than the reply buffer has");
    if (kind == SKP_READ_OUT) hold(skp_step_read(step) == room.n, "another read than `out` has room for");
    return 1;
}

static void keep_three(void)
{
    keep(&state);
    keep(&transfer);
    keep(&reply);
}

#define LENT state.p, state.n, transfer.p, transfer.n, reply.p, reply.n

static uint64_t start(uint64_t which)
{
    uint64_t at = below(2) ? below(8200) : edge();
    static uint64_t (*const plain[])(uint8_t *, skp_size, uint8_t *, skp_size, uint8_t *, skp_size) = {
        skp_tag_identify, skp_tag_prepare, skp_tag_wait_ready, skp_tag_rf_off,  skp_tag_rf_on,
        skp_tag_rf_wrote, skp_tag_scrub,   skp_tag_begin,      skp_tag_go_live, skp_tag_finish};
    if (which < 10) lend(&room, 0);
    if (which != 12) lend(&data, 0);
    keep_three();
    if (which < 10) return plain[which](LENT);
    if (which == 10) return skp_tag_read_user(LENT, at, room.c, room.n);
    if (which == 11) return skp_tag_read_whole(LENT, room.c, room.n);
    lend(&room, 0);
    return skp_tag_write(LENT, at, data.c, data.n);
}

/* The state: new, or bytes that may be no state at all. */
static void a_state(void)
{
    lend(&state, below(8) ? SKP_STATE_LEN : length(60));
    fill(&state);
    keep(&state);
    if (below(8) == 0) return;
    hold(skp_step_number(skp_tag_new(state.p, state.n, below(4) ? below(9000) : edge())) == (state.n == SKP_STATE_LEN ? 0 : 34),
         "a new session");
    hold(state.n == SKP_STATE_LEN || same(&state, 0), "a refused new session");
    if (below(16) == 0) spoil(&state);
}

/* A reply of a part that mostly does what it should, so that calls get far. */
static uint64_t answer(uint64_t step, uint64_t obliging)
{
    skp_size i, n = skp_step_read(step);
    uint32_t ack = below(100) < obliging ? (uint32_t)(below(2) ? 1 : any() | 1) : 0;
    keep_three();
    if (skp_step_kind(step) == SKP_READ && below(8))
        for (i = 0; i < n && i < 64; i++) reply.p[i] = below(3) ? 0 : (uint8_t)any();
    if (skp_step_kind(step) == SKP_READ && n == 12) memcpy(reply.p, "\xff\x07\x03\x51 1234567\xe0", 12);
    if (skp_step_kind(step) == SKP_READ && n == 1) reply.p[0] = (uint8_t)(below(2) ? 0x3A : below(2) ? 0x85 : below(8));
    keep(&reply);
    return skp_tag_reply(LENT, data.c, data.n, room.c, room.n, ack);
}

/* The open transfer once more: the same step and bytes, and nothing else moves. */
static void once_more(uint64_t step)
{
    keep_three();
    if (transfer.n) transfer.p[below(transfer.n < 19 ? transfer.n : 19)] ^= 0x55;
    hold(skp_tag_next(state.c, state.n, transfer.p, transfer.n, reply.c, reply.n, data.c, data.n, room.c, room.n) == step,
         "another step");
    hold(same(&state, 0) && same(&transfer, 0) && same(&reply, 0), "asking again changed a byte");
    calls++;
}

static void session(void)
{
    uint64_t step, steps = 0, obliging = 50 + below(51);
    a_state();
    lend(&transfer, below(12) ? 19 + below(6) : length(40));
    lend(&reply, below(12) ? 64 + below(6) : length(100));
    lend(&data, length(below(4) ? 300 : 9000));
    lend(&room, below(3) ? length(9000) : 8192);
    fill(&transfer), fill(&reply), fill(&data), fill(&room);
    step = start(below(13));
    while (left(step) && steps++ < 3000) {
        if (below(16) == 0) once_more(step);
        if (below(64) == 0) keep_three(), hold(skp_step_number(skp_tag_begin(LENT)) == 32 && same(&state, 0), "a second call");
        if (below(256) == 0) spoil(&state);
        if (below(64) == 0) lend(&data, length(300)), fill(&data);
        step = answer(step, obliging);
    }
    hold(known(skp_step_number(skp_tag_dirty(state.c, state.n))) || skp_step_kind(step), "a mark");
}

/* --------------------------------------------------------------------------------------------------------------- The tile */

static void simulated(void)
{
    static const uint8_t devs[] = {0x53, 0x57, 0x51, 0x55};
    skp_size *t = object(&tile, sizeof(skp_tile)), i;
    uint8_t dev = below(8) ? devs[below(4)] : (uint8_t)any();
    for (i = 0; i < sizeof(skp_tile) / sizeof *t; i++) t[i] = below(2) ? below(4) : edge();
    if (below(2)) t[6] = 0;
    object(&out, below(8) ? 8192 : length(9000));
    lend(&in, below(8) ? 12 : length(40));
    lend(&in2, below(2) ? length(24) : below(4));
    fill(&in), fill(&in2);
    if (in2.n) in2.p[0] = (uint8_t)below(0x22);
    keep(&tile);
    hold(skp_tile_write((skp_tile *)(void *)t, out.p, out.n, dev, in2.c, in2.n, (uint8_t)any()) <= 1, "an acknowledgement");
    hold(out.n == 8192 || same(&out, 0), "a memory of another length");
    object(&room, below(2) ? 1 : length(9000));
    hold(skp_tile_read((skp_tile *)(void *)t, in.c, in.n, out.p, out.n, dev, in2.c, in2.n, room.p, room.n) <= 1, "an acknowledgement");
    skp_tile_wait((skp_tile *)(void *)t, edge());
    skp_tile_phone((skp_tile *)(void *)t, out.p, out.n, edge(), in2.c, in2.n);
    for (i = 0; i < sizeof(skp_tile) / sizeof *t; i++) t[i] = below(2) ? below(4) : edge();
    skp_tile_cut((skp_tile *)(void *)t, out.p, out.n, in2.c, in2.n, (uint8_t)below(2));
    digested_bytes(tile.p, tile.n), digested_bytes(room.p, room.n);
    calls += 5;
}

/* -------------------------------------------------------------------------------------------------------------- The runs */

static const struct {
    const char *name;
    void (*run)(void);
} cases[] = {{"lengths", lengths},   {"whole images", whole_images},   {"begun images", begun_images},
             {"a walk", walk},       {"hostile places", strangers},    {"words", words},
             {"a session", session}, {"the simulated tile", simulated}};

static void one(uint64_t number)
{
    size_t which = number % (sizeof cases / sizeof *cases);
    number_of_case = number;
    chance = seed * 0xD1342543DE82EF95u + number * 0x2545F4914F6CDD1Du;
    at_work = cases[which].name;
    cases[which].run();
}

int main(int argc, char **argv)
{
    uint64_t seconds = 10, only = UINT64_MAX, most = UINT64_MAX, number = 0;
    time_t end;
    size_t i;
    int option;
    while ((option = getopt(argc, argv, "s:t:n:c:")) != -1) {
        if (option == '?') return 2;
        *(option == 's' ? &seed : option == 't' ? &seconds : option == 'n' ? &most : &only) = strtoull(optarg, NULL, 10);
    }
    signal(SIGSEGV, outside);
    signal(SIGBUS, outside);
    for (i = 0; i < sizeof all / sizeof *all; i++) make(all[i]);
    if (only != UINT64_MAX) {
        one(only);
        return 0;
    }
    end = time(NULL) + (time_t)seconds;
    while (most == UINT64_MAX ? time(NULL) < end : number < most)
        for (i = 0; i < 64 && number < most; i++) one(number++);
    printf("fuzz: %" PRIu64 " cases, %" PRIu64 " calls, seed %" PRIu64 ": no byte outside, every answer as promised", number, calls,
           seed);
    if (most != UINT64_MAX) printf(" (digest %016" PRIx64 ")", digest);
    puts("");
    return 0;
}
