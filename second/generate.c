/* Writes scripts (docs/SCRIPTS.md) by chance: `generate SEED COUNT`
 * writes COUNT streams to standard output, and `generate SEED COUNT PART`
 * streams with a PARTth of the bytes; with `links` before the seed, links and
 * receives are among what is drawn; `generate bounds` writes every bound of a
 * state, in and out. The same words write the same script everywhere. The
 * streams' bytes are made by streams.h, the links' by links.h. */
#include "../play/places.h"
#include "streams.h"

#include "links.h"

#include <stdio.h>
#include <stdlib.h>

/* Whether links and receives are drawn too. Without them a seed draws what it
 * drew before there were any, so that what is stored of it stays. */
static bool links;

/* ------------------------------------------------------------------------
 * Lines
 * --------------------------------------------------------------------- */

static bool can_be_quoted(uint8_t byte)
{
    return byte >= 0x20 && byte <= 0x7E && byte != '"';
}

/* How many bytes from `at` on are equal. */
static size_t run_of_equals(size_t at, size_t end)
{
    size_t n = 1;
    while (at + n < end && bytes[at + n] == bytes[at])
        n++;
    return n;
}

/* How many from `at` on may stand in quotes. */
static size_t run_of_text(size_t at, size_t end)
{
    size_t n = 0;
    while (at + n < end && can_be_quoted(bytes[at + n]))
        n++;
    return n;
}

/* The items of bytes `at` to `end` - 1. */
static void write_items(size_t at, size_t end)
{
    while (at < end) {
        size_t equals = run_of_equals(at, end);
        size_t text = run_of_text(at, end);
        if (equals >= 4) {
            printf(" %zu*%02X", equals, (unsigned)bytes[at]);
            at += equals;
        } else if (text >= 2) {
            printf(" \"%.*s\"", (int)text, (const char *)bytes + at);
            at += text;
        } else {
            printf(" %02X", (unsigned)bytes[at]);
            at++;
        }
    }
}

static void write_piece(size_t at, size_t end, bool each)
{
    fputs(each && end - at <= 60 ? "each" : "feed", stdout);
    write_items(at, end);
    putchar('\n');
}

static void write_hold(void)
{
    unsigned k = once_in(6) ? ONE_OF(0, 5, 255, 256, 257, 4294967295u)
                 : once_in(5) ? between(1, 4)
                              : some_window();
    printf("hold %u\n", k);
    if (!belief.held && k >= 1 && k <= 4 && belief.windows[k].defined) {
        belief.held = true;
        belief.selected = k;
    }
}

static void write_release(void)
{
    puts("release");
    belief.held = false;
}

/* A receive of the bytes from `at` on, mostly where they are meant for. */
static void write_receive(size_t at)
{
    printf("receive %u", once_in(10) ? ONE_OF(16, 255, 256 + meant,
                                              4294967295u)
                         : once_in(4) ? below(16)
                                      : meant);
    write_items(at, length);
    putchar('\n');
}

/* A receive that is no part of the stream. */
static void write_short_receive(void)
{
    size_t at = length;
    meant = below(16);
    put_link();
    write_receive(at);
    length = at;
}

/* A call between two pieces. */
static void write_between(void)
{
    unsigned n = below(links ? 11 : 10);
    switch (n) {
    case 0:
    case 1:
    case 2:
        puts("refresh");
        break;
    case 3:
    case 4:
        write_hold();
        break;
    case 5:
    case 6:
        write_release();
        break;
    case 7:
        puts("cursor");
        break;
    case 8:
        puts("sum");
        break;
    default:
        if (links && n == 9)
            write_short_receive();
        else
            puts("feed");
        break;
    }
}

/* The stream's bytes from `at` on, cut anywhere, with calls between. */
static void write_cut(size_t at, unsigned each_once_in)
{
    while (at < length) {
        size_t rest = length - at;
        size_t most = once_in(4) ? 4 : rest;
        size_t n = 1 + below((unsigned)(most < rest ? most : rest));
        write_piece(at, at + n, once_in(each_once_in));
        at += n;
        if (at < length && !once_in(3))
            write_between();
    }
}

static void write_opening(void)
{
    puts("new");
    if (once_in(5)) /* one of 16, since the stored calls have each font whole */
        printf("font seed %u\n",
               (unsigned)(UINT32_C(2654435769) * (draw() >> 60)));
    puts("start");
    if (!once_in(8))
        puts("refresh");
    believe_initial();
    length = 0;
}

static void write_closing(void)
{
    puts("refresh\nsum");
}

/* ------------------------------------------------------------------------
 * Streams
 * --------------------------------------------------------------------- */

static void stream_well_formed(void)
{
    put_well_formed(amount(25, 110));
    write_cut(0, 8);
}

/* Commands written as they come, so that belief follows the holds. */
static void stream_held(void)
{
    for (unsigned i = between(1, 3); i > 0; i--)
        put_define();
    write_piece(0, length, false);
    for (unsigned round = amount(2, 4); round > 0; round--) {
        size_t at = length;
        write_hold();
        for (unsigned n = between(1, 5); n > 0; n--)
            put_command();
        if (once_in(3) && length > at + 1)
            length -= 1; /* leave the last command half read */
        write_piece(at, length, once_in(4));
        if (once_in(3))
            puts("refresh");
        if (once_in(3))
            puts("cursor");
        if (!once_in(6))
            write_release();
        at = length;
        for (unsigned n = between(1, 4); n > 0; n--)
            put_command();
        write_piece(at, length, once_in(4));
    }
}

static void stream_damaged(void)
{
    put_well_formed(amount(25, 100));
    damage();
    write_cut(0, 6);
}

static void stream_noise(void)
{
    put_noise();
    write_cut(0, 4);
}

/* Downloads, each command a piece, half the time with sixteen stored. */
static void stream_downloads(void)
{
    if (once_in(2))
        put_full_store();
    if (once_in(3))
        put_define();
    put_own(1);
    write_piece(0, length, false);
    for (unsigned n = amount(6, 18); n > 0; n--) {
        size_t at = length;
        put_download_command();
        write_piece(at, length, once_in(12));
        if (once_in(6))
            write_between();
    }
}

/* A link that carries a stream, each piece received; the data of telegrams
 * that are good and alone are fed. */
static void stream_link(void)
{
    meant = below(16);
    put_well_formed(amount(25, 110));
    carry();
    for (unsigned n = amount(12, 30); n > 0; n--) {
        length = 0;
        if (once_in(3)) {
            put_good_telegram();
            write_receive(0);
            write_piece(3, length - 2, once_in(8));
        } else {
            for (unsigned i = between(1, 3); i > 0; i--)
                put_link();
            if (once_in(4))
                damage();
            write_receive(0);
        }
    }
}

static void stream_boundaries(void)
{
    for (unsigned n = amount(4, 10); n > 0; n--) {
        size_t at = length;
        put_boundary();
        write_piece(at, length, !once_in(4));
        if (once_in(6))
            write_between();
    }
}

/* ------------------------------------------------------------------------
 * Wrong lengths
 * --------------------------------------------------------------------- */

static unsigned some_length(unsigned right)
{
    if (once_in(2))
        return right;
    return ONE_OF(0, right - 1, right + 1, 4096);
}

/* One call of each kind, so that an answer shows. */
static void write_each_call(void)
{
    size_t at = length;
    put(some_character());
    if (once_in(2))
        put_move();
    write_piece(at, length, once_in(2));
    if (once_in(2))
        puts("refresh");
    if (once_in(2))
        write_hold();
    else
        write_release();
    if (once_in(2))
        puts("feed");
    puts("refresh");
    puts(once_in(2) ? "release" : "hold 1");
    belief.held = false;
}

static void stream_lengths(void)
{
    put_well_formed(amount(10, 40));
    write_piece(0, length, false);
    for (unsigned n = between(1, 4); n > 0; n--) {
        unsigned memory_length = some_length(1024);
        unsigned font_length = some_length(1120);
        unsigned glass_length = some_length(224);
        printf("lengths %u %u %u\n", memory_length, font_length,
               glass_length);
        if (once_in(4))
            puts("spoil base 512 0 1");
        write_each_call();
        if (once_in(5)) {
            puts("start");
            believe_initial();
        }
        puts("spoil base 3 1 1\nlengths");
        write_each_call();
    }
}

/* ------------------------------------------------------------------------
 * Spoiled states: each field just inside and just outside its bound
 * --------------------------------------------------------------------- */

struct setting_bound {
    const char *key;
    unsigned count;
    unsigned values[8];
    unsigned right;
};

static const struct setting_bound setting_bounds[] = {
    {"52", 4, {0, 13, 14, 255}, 0},
    {"74", 8, {0, 5, 6, 15, 16, 19, 20, 255}, 0},
    {"43", 4, {0, 1, 2, 255}, 0},
    {"58", 5, {0, 1, 8, 9, 255}, 8},
    {"72", 4, {0, 1, 2, 255}, 0},
    {"73", 4, {0, 31, 32, 255}, 0},
    {"77", 4, {0, 3, 4, 255}, 0},
    {"w", 5, {0, 1, 2, 3, 255}, 1},
    {"x", 5, {0, 1, 4, 5, 255}, 1},
    {"y", 5, {0, 1, 2, 3, 255}, 1},
    {"write", 4, {0, 1, 2, 255}, 0},
    {"own", 4, {0, 1, 2, 255}, 0},
};

static const char *const window_records[] = {
    "none",
    "0 0 512 2 511 1 3",   "511 1 1 1 0 0 1",     "10 0 14 1 13 0 2",
    "0 0 1 2 0 1 1",       "100 0 24 2 23 1 2",   "500 1 12 1 11 0 3",
    "512 0 1 1 0 0 1",     "511 0 2 1 0 0 1",     "0 0 513 1 0 0 1",
    "1 0 512 1 0 0 1",     "0 1 5 2 0 0 1",       "0 0 5 3 0 0 1",
    "0 2 5 1 0 0 1",       "10 0 14 1 14 0 1",    "10 0 14 1 0 1 1",
    "10 0 14 2 0 2 1",     "10 0 14 1 0 0 0",     "10 0 14 1 0 0 4",
    "10 0 14 1 0 0 255",   "0 0 0 1 0 0 1",       "0 0 1 0 0 0 1",
    "65534 0 2 1 0 0 1",   "0 65534 1 2 0 0 1",   "2 0 65534 1 0 0 1",
    "0 1 1 65534 0 0 1",   "0 0 9 2 65534 0 1",   "0 0 9 2 0 65534 1",
    "10 0 14 1 13 0 1",    "10 0 14 2 0 1 3",     "505 0 7 2 0 0 2",
};

static const char *const base_records[] = {
    "0 0 1",   "511 1 3",   "111 0 2",   "112 1 1",   "512 0 1",
    "0 2 1",   "0 0 0",     "0 0 4",     "65534 0 1", "0 65534 1",
    "0 0 255", "105 0 3",   "399 1 2",
};

static const char *const span_records[] = {
    "none",    "0 511",   "511 511", "0 0",     "5 4",         "0 512",
    "512 512", "111 112", "112 200", "110 111", "0 65534",     "65534 0",
    "0 111",   "511 0",   "3 9",     "111 511", "65534 65534",
};

/* Beginnings of a command: proper ones, but a define whose first code has come
 * is so only if that is stored. */
static const char *const half_beginnings[] = {
    "1B", "1F", "1F 28", "1F 28 61", "1F 28 66", "1F 28 67", "1F 28 77",
    "1F 28 61 10 01 02 03 04", "1F 28 61 11 01 02 03", "1F 28 61 01",
    "1F 28 61 40", "1F 28 66 11", "1F 28 66 11 00", "1F 28 66 11 00 02",
    "1F 28 66 11 03 00 01", "1F 28 66 11 03 00 01 00",
    "1F 28 66 11 03 00 02 00", "1F 28 66 11 03 00 02 00 01",
    "1F 28 66 11 03 00 02 00 01 AA BB CC DD EE",
    "1F 28 66 11 03 00 02 00 01 AA BB CC", "1F 28 67 03", "1F 28 67 40",
    "1F 28 67 40 09", "1F 28 77 01", "1F 28 77 02", "1F 28 77 02 01",
    "1F 28 77 02 04", "1F 28 77 02 02 01",
    "1F 28 77 02 02 01 FF FF FF FF FF FF FF",
    "1F 28 77 02 02 01 05 00 00 00 07 00 01", "1F 28 77 10", "1F 24",
    "1F 24 05", "1F 24 05 00 01", "1F 24 FF FF FF", "1F 43", "1F 58",
    "1F 72", "1F 73", "1F 77", "1B 52", "1B 74", "1B 25", "1B 3F",
    "1B 3F 01", "1B 26", "1B 26 01", "1B 26 01 20", "1B 26 01 FF",
    "1B 26 01 30 30", "1B 26 01 30 31", "1B 26 01 30 31 05",
    "1B 26 01 30 31 07", "1B 26 01 30 31 05 01 02 03 04 05",
    "1B 26 01 30 31 05 01 02 03 04 05 07 01 02 03 04 05 06",
    "1B 26 01 FF FF 05 01 02 03 04",
};

/* Bytes of the record (docs/RECORD.md, "What is half read"), those that follow
 * them 0, that are none: numbers beyond their bounds, none left to come, slots
 * that a case does not use, cases that there are not. */
static const char *const half_records[] = {
    "09", "09 06", "09 FF", "04 01", "05 00 00 01", "0F 07",
    "0F 07 00 00 00 01 02", "10 07 00 01 00 58 02", "11 00 00 00 00 03",
    "11 00 00 00 00 03 00 03", "11 00 00 00 00 03 00 02 01",
    "11 01 00 00 00 03 00 02", "11 00 00 00 00 03 00 02 00 01",
    "12 00 00 00 00 03 00 02 00 03", "08 0A", "14 01 01", "15 01", "17",
    "17 05", "17 02 01", "0F 02", "10 05 05 01 00 05 00 00 00 07",
    "07 00 00 00 00 01", "0F 08", "02 01", "08 06 01", "1A", "01 40",
    "08 FF", "FF", "1B", "0A 01", "0B 41", "03 01", "06 00 01",
    "13 01", "16 01", "18 01", "18 00 00 00 01", "19 01 01",
    "13 00 00 00 01", "01 00 00 00 00 00 00 00 00 00 00 00 00 05",
    "12 00 00 00 00 03 00 02 00 00 00 00 00 00 00 01",
};

/* The same of a define that is half read, in and out: whether a code before
 * the next one is stored decides too. */
static const char *const define_records[] = {
    "0C 1F", "0C 20", "0D 20 20 20", "0D FF FF FF", "0D 1F 1F 20",
    "0D 31 30 32", "0D 30 33 32", "0D 30 30 32 01", "0D 30 31 32",
    "0D 30 31 32 01", "0D 30 31 32 02", "0D 40 43 44", "0D 40 43 44 01",
    "0D 41 43 44", "0D 41 43 44 01", "0D 41 51 51", "0D 41 52 52 01",
    "0E 30 31 32 01 00 00 00 00 00 00 00 00 05 01 01",
    "0E 40 42 42 01 00 00 00 00 00 00 00 00 07 02 01 02",
    "0E 41 42 42 00 00 00 00 00 00 00 00 00 07 02 01 02",
};

/* And of its columns. */
static const char *const column_records[] = {
    "0D 30 30 30 00 01", "0D 30 30 30 00 00 00 00 00 00 00 00 00 05",
    "0E 30 30 32 00 00 00 00 00 00 00 00 00",
    "0E 30 30 32 00 00 00 00 00 00 00 00 00 05 00",
    "0E 30 30 32 00 00 00 00 00 00 00 00 00 05 04 01 02 03 04",
    "0E 30 30 32 00 00 00 00 00 00 00 00 00 05 05 01 02 03 04 05",
    "0E 30 30 32 00 00 00 00 00 00 00 00 00 05 03 01 02 03 04",
    "0E 30 30 32 00 00 00 00 00 00 00 00 00 05 04 01 02 03 04 00 01",
    "0E 30 30 32 00 00 00 00 00 00 00 00 00 06 01 01",
    "0E 30 30 32 00 00 00 00 00 00 00 00 00 07 00",
    "0E 30 30 32 00 00 00 00 00 00 00 00 00 07 06 01 02 03 04 05 06",
    "0E 30 30 32 00 00 00 00 00 00 00 00 00 07 07 01 02 03 04 05 06 07",
    "0E 30 30 32 00 00 00 00 00 00 00 00 00 07 06 01 02 03 04 05 06 01",
    "0E 30 30 32 00 00 00 00 00 00 00 00 00 08 01 01",
    "0E 30 30 32 00 00 00 00 00 00 00 00 00 05 FF",
    "0E 30 30 32 00 00 00 00 00 00 00 00 00 FF 01 01",
    "0E 1F 1F 20 00 00 00 00 00 00 00 00 00 05 01 01",
};

/* Lines that store none of those codes, the first of them, or sixteen. */
static const char *const stores[] = {
    "# no download",
    "spoil download 3 30 05 81 42",
    "feed 1B 26 01 41 50 96*05",
};

/* A place of the downloads, in and out; 42h is stored in another. */
static const char *const download_records[] = {
    "20 05", "FF 07 01 02 03 04 05 06 07", "42 05", "1F 05",
    "00 05", "00 00 00 00 00 00 00 00 01", "41 00", "41 04", "41 06",
    "41 08", "41 FF", "41 05 01 02 03 04 05", "41 05 01 02 03 04 05 01",
    "41 05 01 02 03 04 05 00 01", "41 07",
};

#define RECORD_OF(list) list[below(sizeof(list) / sizeof((list)[0]))]

static void spoil_a_setting(void)
{
    const struct setting_bound *b =
        &setting_bounds[below(sizeof setting_bounds /
                              sizeof setting_bounds[0])];
    printf("spoil set %s %u\n", b->key, b->values[below(b->count)]);
    write_each_call();
    if (!once_in(4))
        printf("spoil set %s %u\n", b->key, b->right);
}

static void spoil_a_window(void)
{
    unsigned k = between(1, 4);
    printf("spoil window %u %s\n", k, RECORD_OF(window_records));
    if (once_in(3))
        printf("spoil selected %u\n", k);
    write_each_call();
    if (!once_in(4))
        printf("spoil window %u 40 0 30 2 2 0 1\n", k);
}

static void spoil_the_base(void)
{
    printf("spoil base %s\n", RECORD_OF(base_records));
    write_each_call();
    if (!once_in(4))
        puts("spoil base 1 1 1");
}

static void spoil_the_selection(void)
{
    printf("spoil selected %u\n", ONE_OF(0, 1, 2, 3, 4, 5, 255));
    write_each_call();
    if (!once_in(4))
        puts("spoil selected 0");
}

static void spoil_a_span(void)
{
    unsigned row = below(2);
    printf("spoil span %u %s\n", row, RECORD_OF(span_records));
    if (once_in(2))
        puts("refresh");
    write_each_call();
    if (!once_in(4))
        puts("spoil span 0 none\nspoil span 1 2 5");
}

/* The bytes of the half-read command, those that follow them 0. */
static void write_half_record(const char *record)
{
    printf("spoil half none\nspoil record %u %s\n", (unsigned)AT_HALF, record);
}

/* A few bytes more, mostly small ones. */
static void write_more_bytes(void)
{
    size_t at = length;
    for (unsigned n = between(1, 10); n > 0; n--)
        put(once_in(3) ? below(256) : below(8));
    write_piece(at, length, true);
}

static void spoil_the_half(void)
{
    if (once_in(2))
        write_half_record(RECORD_OF(half_records));
    else
        printf("spoil half %s\n", RECORD_OF(half_beginnings));
    if (once_in(2))
        write_more_bytes();
    write_each_call();
    if (!once_in(4))
        puts("spoil half none");
}

/* A half-read define, over downloads that make it good or bad. */
static void spoil_the_define(void)
{
    if (once_in(3))
        puts(RECORD_OF(stores));
    write_half_record(once_in(3) ? RECORD_OF(column_records)
                                 : RECORD_OF(define_records));
    if (once_in(2))
        write_more_bytes();
    write_each_call();
    if (!once_in(4))
        puts("spoil half none");
}

static void spoil_a_download(void)
{
    unsigned place = below(16);
    puts("spoil download 5 42 07");
    printf("spoil download %u %s\n", place, RECORD_OF(download_records));
    if (once_in(2)) {
        size_t at = length;
        put_download_command();
        write_piece(at, length, once_in(12));
    }
    write_each_call();
    if (!once_in(4))
        printf("spoil download %u none\n", place);
}

/* Holding: the held window, the selected one, the saved one and settings. */
static void spoil_the_holding(void)
{
    unsigned k = between(1, 4);
    printf("spoil window %u 20 0 30 2 1 1 2\n", k);
    printf("spoil selected %u\n", once_in(6) ? between(0, 4) : k);
    unsigned held = once_in(5) ? ONE_OF(0, 1, 4, 5, 255) : k;
    unsigned saved = once_in(3) ? ONE_OF(1, 2, 3, 4, 5, 255) : 0;
    printf("spoil held %u %u\n", held, saved);
    if (once_in(2)) {
        const struct setting_bound *b =
            &setting_bounds[below(sizeof setting_bounds /
                                  sizeof setting_bounds[0])];
        printf("spoil saved %s %u\n", b->key, b->values[below(b->count)]);
    }
    if (once_in(2))
        puts("sum");
    write_each_call();
    if (!once_in(4))
        puts("spoil held none\nspoil selected 0");
}

static void stream_spoiled(void)
{
    put_well_formed(amount(5, 30));
    write_piece(0, length, false);
    for (unsigned n = amount(2, 5); n > 0; n--)
        switch (below(10)) {
        case 0:
            spoil_a_setting();
            break;
        case 1:
            spoil_a_window();
            break;
        case 2:
            spoil_the_base();
            break;
        case 3:
            spoil_the_selection();
            break;
        case 4:
            spoil_a_span();
            break;
        case 5:
        case 6:
            spoil_the_half();
            break;
        case 7:
            spoil_the_define();
            break;
        case 8:
            spoil_a_download();
            break;
        default:
            spoil_the_holding();
            break;
        }
}

static void stream(void)
{
    unsigned n = below(links ? 122 : 110);
    write_opening();
    if (n < 40)
        stream_well_formed();
    else if (n < 50)
        stream_held();
    else if (n < 64)
        stream_damaged();
    else if (n < 71)
        stream_noise();
    else if (n < 80)
        stream_boundaries();
    else if (n < 84)
        stream_lengths();
    else if (n < 102)
        stream_spoiled();
    else if (n < 110)
        stream_downloads();
    else
        stream_link();
    write_closing();
}

/* ------------------------------------------------------------------------
 * Every bound, in and out, with no chance in it
 * --------------------------------------------------------------------- */

/* A fresh panel: what is spoiled comes next. */
static void bound_begin(void)
{
    puts("new\nstart");
}

/* The same with window 1 held, for what differs then. */
static void bound_begin_held(void)
{
    puts("new\nstart\nspoil window 1 20 0 30 2 1 1 2\nhold 1");
}

/* Every call that tests a state. */
static void bound_end(void)
{
    puts("feed 41\nrefresh\nhold 1\nrelease\nsum");
}

static void bound_end_held(void)
{
    puts("feed 41\nrelease\nsum");
}

static void bound(const char *spoiled, const char *record)
{
    bound_begin();
    printf("spoil %s %s\n", spoiled, record);
    bound_end();
}

static void bound_held(const char *spoiled, const char *record)
{
    bound_begin_held();
    printf("spoil %s %s\n", spoiled, record);
    bound_end_held();
}

#define COUNT_OF(list) (sizeof(list) / sizeof((list)[0]))

#define BOUND_EACH(spoiled, list) \
    for (size_t i = 0; i < COUNT_OF(list); i++) \
    bound(spoiled, (list)[i])

static void bounds_of_settings(void)
{
    char record[32];
    for (size_t i = 0; i < COUNT_OF(setting_bounds); i++)
        for (unsigned j = 0; j < setting_bounds[i].count; j++) {
            snprintf(record, sizeof record, "%s %u", setting_bounds[i].key, setting_bounds[i].values[j]);
            bound("set", record);
            bound_held("saved", record);
        }
}

static void bounds_of_windows(void)
{
    char spoiled[32];
    for (unsigned k = 1; k <= 4; k += 3) {
        snprintf(spoiled, sizeof spoiled, "window %u", k);
        BOUND_EACH(spoiled, window_records);
    }
}

static void bound_half(const char *record)
{
    bound_begin();
    write_half_record(record);
    bound_end();
}

static void bounds_of_half(void)
{
    BOUND_EACH("half", half_beginnings);
    for (size_t i = 0; i < COUNT_OF(half_records); i++)
        bound_half(half_records[i]);
    for (size_t i = 0; i < COUNT_OF(column_records); i++)
        bound_half(column_records[i]);
}

/* Over each store, and while held over one. */
static void bounds_of_defines(void)
{
    for (size_t i = 0; i < COUNT_OF(define_records); i++) {
        for (size_t j = 0; j < COUNT_OF(stores); j++) {
            bound_begin();
            puts(stores[j]);
            write_half_record(define_records[i]);
            bound_end();
        }
        bound_begin_held();
        puts(stores[1]);
        write_half_record(define_records[i]);
        bound_end_held();
    }
}

static void bounds_of_downloads(void)
{
    for (unsigned place = 0; place < 16; place += 15)
        for (size_t i = 0; i < COUNT_OF(download_records); i++) {
            bound_begin();
            puts("spoil download 5 42 07");
            printf("spoil download %u %s\n", place, download_records[i]);
            bound_end();
        }
}

static void bounds(void)
{
    static const char *const numbers[] = {"0", "1", "2", "4", "5", "255"};
    char record[32];
    puts("# generate bounds");
    bounds_of_settings();
    bounds_of_windows();
    BOUND_EACH("base", base_records);
    BOUND_EACH("selected", numbers);
    BOUND_EACH("span 0", span_records);
    BOUND_EACH("span 1", span_records);
    bounds_of_half();
    bounds_of_defines();
    bounds_of_downloads();
    for (size_t i = 0; i < COUNT_OF(numbers); i++) {
        snprintf(record, sizeof record, "%s 0", numbers[i]);
        bound_held("held", record);
        snprintf(record, sizeof record, "1 %s", numbers[i]);
        bound_held("held", record);
    }
}

int main(int argc, char **argv)
{
    char *end;
    if (argc == 2 && strcmp(argv[1], "bounds") == 0) {
        bounds();
        return fflush(stdout) == 0 ? 0 : 1;
    }
    if (argc > 1 && strcmp(argv[1], "links") == 0) {
        links = true;
        argc--;
        argv++;
    }
    if (argc != 3 && argc != 4) {
        fputs("usage: generate [links] SEED COUNT [PART] | generate bounds\n", stderr);
        return 2;
    }
    uint64_t seed = strtoull(argv[1], &end, 10);
    if (end == argv[1] || *end != 0) {
        fputs("generate: SEED is not a number\n", stderr);
        return 2;
    }
    unsigned long count = strtoul(argv[2], &end, 10);
    if (end == argv[2] || *end != 0) {
        fputs("generate: COUNT is not a number\n", stderr);
        return 2;
    }
    if (argc == 4) {
        part = (unsigned)strtoul(argv[3], &end, 10);
        if (end == argv[3] || *end != 0 || part == 0) {
            fputs("generate: PART is not a number from 1\n", stderr);
            return 2;
        }
    }
    chance = seed;
    printf("# generate %s%s %s%s%s\n", links ? "links " : "", argv[1], argv[2], argc == 4 ? " " : "", argc == 4 ? argv[3] : "");
    for (unsigned long i = 0; i < count; i++)
        stream();
    return fflush(stdout) == 0 ? 0 : 1;
}
