/* The long comparison: the proved panel's archive (include/panel.h) and the
 * second program in one program, fed the same streams by chance, with holds,
 * refreshes, wrong lengths and spoiled states, and given the same links to
 * receive from. `compare [SEED [CALLS [BYTES]]]` goes on until so many calls
 * are made and so many bytes are fed.
 *
 * After every call the answers, counts, outcomes, memories, glasses and states
 * are compared, and what the call may not change is held to what it was. The
 * first difference is written with the seed, the call, what was handed in and
 * both answers, and ends the run with status 1. Without one the last line is
 * one of counts, and the status 0. */
#include "../include/panel.h"
#include "record.h"
#include "streams.h"
#include "telegram.h"

#include "links.h"
#include "spoil.h"

#include <inttypes.h>
#include <stdio.h>
#include <stdlib.h>

/* ------------------------------------------------------------------------
 * What is lent
 * --------------------------------------------------------------------- */

/* Bytes beside each buffer that no call may write. A length that is too long
 * reaches into them. */
enum { GUARD = 64 };

/* What calls write: one side's buffers, guards between them. */
struct lent {
    uint8_t guard[GUARD];
    uint8_t memory[PANEL_MEMORY + GUARD];
    uint8_t glass[PANEL_GLASS + GUARD];
    uint8_t record[PANEL_STATE + GUARD];
};

/* What they only read: both sides the same. */
struct given {
    uint8_t guard[GUARD];
    uint8_t font[PANEL_FONT + GUARD];
    uint8_t piece[BYTES_MAX + GUARD];
};

static struct lent ours, theirs; /* theirs has the record of `state` */
static second_state state;
static struct given given, kept; /* `kept` shows that `given` stays as it is */

/* ------------------------------------------------------------------------
 * Calls and answers
 * --------------------------------------------------------------------- */

enum kind { START, FEED, HOLD, RELEASE, REFRESH, RECEIVE };

static const char *const kind_names[] = {"start",   "feed",    "hold",
                                         "release", "refresh", "receive"};

struct call {
    enum kind kind;
    size_t record_length, memory_length, font_length, glass_length;
    size_t piece_at, piece_length; /* in given.piece */
    size_t window, address;
    bool null; /* what has length 0 is handed in as a null pointer */
};

struct answer {
    size_t number, outcome, carried, answered, moved, first, count, after;
};

static uint8_t *lend(const struct call *c, uint8_t *bytes_lent, size_t n)
{
    return c->null && n == 0 ? NULL : bytes_lent;
}

static struct answer ask_panel(const struct call *c)
{
    struct answer a = {.outcome = PANEL_UNFINISHED};
    uint8_t *record = lend(c, ours.record, c->record_length);
    uint8_t *memory = lend(c, ours.memory, c->memory_length);
    uint8_t *glass = lend(c, ours.glass, c->glass_length);
    const uint8_t *font = lend(c, given.font, c->font_length);
    const uint8_t *piece = lend(c, given.piece + c->piece_at, c->piece_length);
    PanelFed f;
    PanelRefreshed r;
    PanelReceived t;
    switch (c->kind) {
    case START:
        a.number = panel_start(record, c->record_length, memory,
                               c->memory_length);
        break;
    case FEED:
        f = panel_feed(record, c->record_length, memory, c->memory_length,
                       font, c->font_length, piece, c->piece_length);
        a.number = f.answer;
        a.outcome = f.outcome;
        a.carried = f.carried;
        a.answered = f.answered;
        break;
    case HOLD:
        a.number = panel_hold(record, c->record_length, c->window);
        break;
    case RELEASE:
        a.number = panel_release(record, c->record_length);
        break;
    case REFRESH:
        r = panel_refresh(record, c->record_length, memory, c->memory_length,
                          glass, c->glass_length);
        a.number = r.answer;
        a.moved = r.moved;
        break;
    case RECEIVE:
        t = panel_receive(piece, c->piece_length, c->address);
        a.number = t.answer;
        a.first = t.first;
        a.count = t.count;
        a.after = t.after;
        break;
    }
    return a;
}

static struct answer ask_second(const struct call *c)
{
    struct answer a = {.outcome = SECOND_UNFINISHED};
    uint8_t *memory = lend(c, theirs.memory, c->memory_length);
    uint8_t *glass = lend(c, theirs.glass, c->glass_length);
    const uint8_t *font = lend(c, given.font, c->font_length);
    const uint8_t *piece = lend(c, given.piece + c->piece_at, c->piece_length);
    second_counts counts;
    second_part data;
    switch (c->kind) {
    case START:
        a.number = second_start(&state, memory, c->memory_length);
        break;
    case FEED:
        a.number = second_feed(&state, memory, c->memory_length, font,
                               c->font_length, piece, c->piece_length,
                               &counts);
        a.outcome = counts.outcome;
        a.carried = counts.carried;
        a.answered = counts.answered;
        break;
    case HOLD: /* it takes 32 bits; a number above is none of 1 to 4 */
        a.number = second_hold(&state, c->window > UINT32_MAX
                                           ? UINT32_MAX
                                           : (uint32_t)c->window);
        break;
    case RELEASE:
        a.number = second_release(&state);
        break;
    case REFRESH:
        a.number = second_refresh(&state, memory, c->memory_length, glass,
                                  c->glass_length, &a.moved);
        break;
    case RECEIVE:
        a.number = second_receive(piece, c->piece_length, c->address, &data);
        a.first = data.first;
        a.count = data.count;
        a.after = data.after;
        return a; /* it is lent no state */
    }
    if (a.number == SECOND_NOT_REFUSED || c->kind == START)
        record_of(&state, theirs.record);
    return a;
}

/* A record of another length is the panel's own matter (docs/RECORD.md): the
 * second program has none. */
static struct answer expected(const struct call *c)
{
    if (c->record_length == PANEL_STATE)
        return ask_second(c);
    return (struct answer){.number = PANEL_RECORD_LENGTH,
                           .outcome = PANEL_UNFINISHED};
}

/* ------------------------------------------------------------------------
 * Comparing
 * --------------------------------------------------------------------- */

#define BY(kind) (1u << (kind))
#define PLACE(member) offsetof(struct lent, member)

/* The parts of what is lent, and which calls may change them. */
static const struct part {
    const char *name;
    size_t at, size;
    unsigned changed_by;
} parts[] = {
    {"guard before the memory", PLACE(guard), GUARD, 0},
    {"memory", PLACE(memory), PANEL_MEMORY, BY(START) | BY(FEED)},
    {"guard after the memory", PLACE(memory) + PANEL_MEMORY, GUARD, 0},
    {"glass", PLACE(glass), PANEL_GLASS, BY(REFRESH)},
    {"guard after the glass", PLACE(glass) + PANEL_GLASS, GUARD, 0},
    {"record", PLACE(record), PANEL_STATE,
     BY(START) | BY(FEED) | BY(HOLD) | BY(RELEASE) | BY(REFRESH)},
    {"guard after the record", PLACE(record) + PANEL_STATE, GUARD, 0},
};

/* A refused call changes nothing; but a start answered 1 gives the initial
 * state. */
static bool may_change(const struct call *c, size_t number,
                       const struct part *p)
{
    if (number == PANEL_OK)
        return (p->changed_by & BY(c->kind)) != 0;
    return c->kind == START && number == PANEL_MEMORY_LENGTH &&
           p->at == PLACE(record);
}

/* A call with all that a report of it needs. */
struct made {
    const struct call *call;
    struct answer panel, second;
    struct lent before;
    second_state state_before;
};

static uint64_t seed, calls, bytes_fed, receives, bytes_received;
static uint64_t answers_seen[PANEL_RECORD_LENGTH + 1];
static uint64_t outcomes_seen[PANEL_NOT_STORED + 1];

static void print_bytes(const char *what, const uint8_t *from, size_t n)
{
    printf("  %s:", what);
    for (size_t i = 0; i < n; i++)
        printf(" %02X", (unsigned)from[i]);
    putchar('\n');
}

static void print_answer(const char *who, const struct answer *a)
{
    printf("  %s: answer %zu, outcome %zu, carried %zu, answered %zu, "
           "moved %zu, first %zu, count %zu, after %zu\n",
           who, a->number, a->outcome, a->carried, a->answered, a->moved,
           a->first, a->count, a->after);
}

/* The call, after what differs was written on a line that is begun. */
static _Noreturn void report(const struct made *m)
{
    const struct call *c = m->call;
    printf("\n  seed %" PRIu64 ", call %" PRIu64 ": %s", seed, calls,
           kind_names[c->kind]);
    if (c->kind == HOLD)
        printf(" %zu", c->window);
    if (c->kind == RECEIVE)
        printf(" at address %zu", c->address);
    printf("; lengths: record %zu, memory %zu, font %zu, glass %zu\n",
           c->record_length, c->memory_length, c->font_length,
           c->glass_length);
    if (c->kind == FEED || c->kind == RECEIVE)
        print_bytes("piece", given.piece + c->piece_at, c->piece_length);
    print_bytes("record before", m->before.record, PANEL_STATE);
    print_bytes("record, panel", ours.record, PANEL_STATE);
    print_bytes("record, second", theirs.record, PANEL_STATE);
    print_answer("panel", &m->panel);
    print_answer("second", &m->second);
    exit(1);
}

static void compare_numbers(const struct made *m, const char *what,
                            size_t panel, size_t second)
{
    if (panel == second)
        return;
    printf("DIFFERENCE: %s, panel %zu, second %zu", what, panel, second);
    report(m);
}

/* Holds a part of the panel's side to that of another. */
static void compare_part(const struct made *m, const struct part *p,
                         const struct lent *other, const char *who)
{
    const uint8_t *a = (const uint8_t *)&ours + p->at;
    const uint8_t *b = (const uint8_t *)other + p->at;
    unsigned i = 0;
    if (memcmp(a, b, p->size) == 0)
        return;
    while (a[i] == b[i])
        i++;
    printf("DIFFERENCE: %s, byte %u", p->name, i);
    if (p->at == PLACE(record)) {
        const struct group *g;
        const struct field *f = field_at(i, &g);
        printf(" (%s, %s)", g->name, f->name);
    }
    printf(", panel %02X, %s %02X", (unsigned)a[i], who, (unsigned)b[i]);
    report(m);
}

/* What is only read: the font, the piece, and the bytes beside them. */
static void compare_given(const struct made *m)
{
    size_t n = offsetof(struct given, piece) + m->call->piece_at +
               m->call->piece_length + GUARD;
    if (memcmp(&given, &kept, n) == 0)
        return;
    printf("DIFFERENCE: the font or the piece is changed");
    report(m);
}

static void compare(const struct made *m)
{
    const struct answer *a = &m->panel, *b = &m->second;
    compare_numbers(m, "answer", a->number, b->number);
    compare_numbers(m, "outcome", a->outcome, b->outcome);
    compare_numbers(m, "commands carried out", a->carried, b->carried);
    compare_numbers(m, "commands answered", a->answered, b->answered);
    compare_numbers(m, "bytes moved", a->moved, b->moved);
    compare_numbers(m, "the data's place", a->first, b->first);
    compare_numbers(m, "data bytes", a->count, b->count);
    compare_numbers(m, "the place after", a->after, b->after);
    for (size_t i = 0; i < sizeof parts / sizeof parts[0]; i++) {
        compare_part(m, &parts[i], &theirs, "second");
        if (!may_change(m->call, a->number, &parts[i]))
            compare_part(m, &parts[i], &m->before, "before");
    }
    compare_given(m);
    if (a->number != PANEL_OK && m->call->kind != START &&
        memcmp(&state, &m->state_before, sizeof state) != 0) {
        printf("DIFFERENCE: a refused call changed the second's state");
        report(m);
    }
}

/* Makes a call of both and compares; gives its answer. */
static struct answer make(const struct call *c)
{
    struct made m = {.call = c, .before = ours};
    memcpy(&m.state_before, &state, sizeof state);
    calls++;
    m.panel = ask_panel(c);
    m.second = expected(c);
    compare(&m);
    answers_seen[m.panel.number]++;
    if (c->kind == FEED && m.panel.number == PANEL_OK) {
        outcomes_seen[m.panel.outcome]++;
        bytes_fed += c->piece_length;
    }
    if (c->kind == RECEIVE) {
        receives++;
        bytes_received += c->piece_length;
    }
    return m.panel;
}

/* ------------------------------------------------------------------------
 * Calls by chance
 * --------------------------------------------------------------------- */

static size_t some_length(unsigned right)
{
    switch (below(8)) {
    case 0:
        return 0;
    case 1:
        return right - 1;
    case 2:
        return right + 1;
    case 3:
        return below(right);
    case 4:
        return right + between(1, GUARD);
    default:
        return right;
    }
}

static struct call right_call(enum kind kind)
{
    return (struct call){.kind = kind,
                         .record_length = PANEL_STATE,
                         .memory_length = PANEL_MEMORY,
                         .font_length = PANEL_FONT,
                         .glass_length = PANEL_GLASS,
                         .null = once_in(2)};
}

/* Mostly right, now and then with wrong lengths. */
static struct call some_call(enum kind kind)
{
    struct call c = right_call(kind);
    if (once_in(50)) {
        c.memory_length = some_length(PANEL_MEMORY);
        c.font_length = some_length(PANEL_FONT);
        c.glass_length = some_length(PANEL_GLASS);
        if (once_in(4))
            c.record_length = some_length(PANEL_STATE);
    }
    return c;
}

static struct answer start(void)
{
    struct call c = some_call(START);
    return make(&c);
}

/* The piece that calls are given parts of. */
static void give_piece(const uint8_t *piece, size_t n)
{
    memcpy(given.piece, piece, n);
    memcpy(kept.piece, piece, n);
}

static struct answer feed_part(size_t at, size_t n)
{
    struct call c = some_call(FEED);
    c.piece_at = at;
    c.piece_length = n;
    return make(&c);
}

static struct answer feed(const uint8_t *piece, size_t n)
{
    give_piece(piece, n);
    return feed_part(0, n);
}

static struct answer hold(void)
{
    static const size_t strange[] = {0, 5, 255, 256, 257, UINT32_MAX,
                                     SIZE_MAX, SIZE_MAX - 255};
    struct call c = some_call(HOLD);
    c.window = once_in(12) ? strange[below(8)] : between(1, 4);
    for (unsigned i = 0; i < 2 && c.window >= 1 && c.window <= 4 &&
                         !state.windows[c.window - 1].defined; i++)
        c.window = between(1, 4);
    return make(&c);
}

static struct answer release(void)
{
    struct call c = some_call(RELEASE);
    return make(&c);
}

static struct answer refresh(void)
{
    struct call c = some_call(REFRESH);
    return make(&c);
}

/* From a part of the piece; the bytes behind it are the rest of the link. */
static struct answer receive_part(size_t at, size_t n, size_t address)
{
    struct call c = right_call(RECEIVE);
    c.piece_at = at;
    c.piece_length = n;
    c.address = address;
    return make(&c);
}

/* Mostly one of ours. */
static size_t some_address(void)
{
    static const size_t strange[] = {16, 17, 255, 256, 259, UINT32_MAX,
                                     (size_t)UINT32_MAX + 4, SIZE_MAX,
                                     SIZE_MAX - 252};
    return once_in(12) ? strange[below(9)] : below(16);
}

/* A call between two pieces. */
static void call_between(void)
{
    switch (below(16)) {
    case 0:
    case 1:
    case 2:
        hold();
        break;
    case 3:
    case 4:
    case 5:
        release();
        break;
    case 6:
        feed_part(0, 0);
        break;
    case 7:
        receive_part(0, below(256), some_address());
        break;
    default:
        refresh();
        break;
    }
}

/* Feeds the bytes that were put, cut anywhere, with calls between. Small pieces
 * are the most calls, though few streams are cut so. */
static void feed_cut(void)
{
    size_t most = once_in(24)  ? between(1, 16)
                  : once_in(3) ? length
                               : between(60, 1000);
    for (size_t at = 0; at < length;) {
        size_t rest = length - at;
        size_t n = between(1, (unsigned)(most < rest ? most : rest));
        feed(bytes + at, n);
        at += n;
        if (once_in(3))
            call_between();
    }
    length = 0;
}

/* ------------------------------------------------------------------------
 * Turns of a stream
 * --------------------------------------------------------------------- */

/* What the generator of bytes believes is what the panel has. */
static void believe_the_state(void)
{
    believe_initial();
    for (unsigned k = 1; k <= SECOND_WINDOWS; k++) {
        const second_window *w = &state.windows[k - 1];
        belief.windows[k] = (struct rectangle){w->defined, w->left, w->top,
                                               w->width, w->height};
    }
    belief.selected = state.selected;
    belief.held = state.held;
    belief.w = state.settings.w;
    belief.x_enlarged = state.settings.x_enlarged;
    belief.y_enlarged = state.settings.y_enlarged;
    belief.write_mode = state.settings.write_mode;
    belief.own = state.settings.own;
}

static void turn_well_formed(void)
{
    put_well_formed(between(20, 3000));
    feed_cut();
}

static void turn_damaged(void)
{
    for (unsigned n = between(1, 10); n > 0; n--) {
        put_well_formed(between(20, 400));
        damage();
    }
    feed_cut();
}

static void turn_noise(void)
{
    for (unsigned n = between(1, 30); n > 0; n--)
        put_noise();
    feed_cut();
}

static void turn_boundaries(void)
{
    for (unsigned n = between(4, 60); n > 0; n--)
        put_boundary();
    feed_cut();
}

/* Downloads, mostly with each command a piece, so that its answer shows; half
 * the time with sixteen stored. */
static void turn_downloads(void)
{
    if (once_in(2))
        put_full_store();
    put_some_own();
    feed_cut();
    for (unsigned n = between(4, 40); n > 0; n--) {
        put_download_command();
        if (once_in(3)) {
            put_command();
        } else {
            feed(bytes, length);
            length = 0;
        }
        if (once_in(12))
            call_between();
    }
    feed_cut();
}

/* A guest: holds, mostly leaves a command half read, is released. */
static void turn_held(void)
{
    put_define();
    put_command();
    feed_cut();
    hold();
    believe_the_state();
    for (unsigned n = between(1, 30); n > 0; n--)
        put_command();
    if (once_in(2) && length > 1)
        length -= 1;
    feed_cut();
    if (once_in(2))
        refresh();
    release();
}

/* The telegrams of a part of the piece, one after another; many are fed from
 * where they lie. */
static void read_link(size_t at, size_t end, size_t address)
{
    struct answer a = receive_part(at, end - at, address);
    while (a.number == PANEL_OK) {
        if (once_in(2))
            feed_part(at + a.first, a.count);
        if (once_in(8))
            call_between();
        at += a.after;
        a = receive_part(at, end - at, address);
    }
}

/* A link that carries a stream, read whole, at each address, and cut. */
static void turn_link(void)
{
    size_t address = some_address();
    meant = address & 0xFF;
    put_well_formed(between(20, 1000));
    carry();
    for (unsigned n = between(1, 40); n > 0; n--)
        put_link();
    if (once_in(3))
        damage();
    give_piece(bytes, length);
    read_link(0, length, address);
    for (unsigned other = 0; other < 16; other++)
        receive_part(0, length, other);
    for (unsigned n = between(1, 4); n > 0; n--) {
        size_t at = below((unsigned)length + 1);
        read_link(at, at + below((unsigned)(length - at) + 1), address);
    }
    length = 0;
}

/* Any call but start, a feed or a receive with few bytes. */
static void some_short_call(void)
{
    length = 0;
    for (unsigned n = below(12); n > 0; n--)
        put(once_in(2) ? below(256) : below(8));
    switch (below(6)) {
    case 0:
        hold();
        break;
    case 1:
        release();
        break;
    case 2:
        refresh();
        break;
    case 3:
        give_piece(bytes, length);
        receive_part(0, length, some_address());
        break;
    default:
        feed(bytes, length);
        break;
    }
}

/* Both sides have a record and the state that it stands for. */
static void take_record(const uint8_t *record)
{
    memcpy(ours.record, record, PANEL_STATE);
    memcpy(theirs.record, record, PANEL_STATE);
    state_of(record, &state);
}

/* Calls on a state that was spoiled behind the panel's back. Then the state as
 * it was, or on with the spoiled one if it is accepted. */
static void call_spoiled(void)
{
    uint8_t before[PANEL_STATE], spoiled[PANEL_STATE];
    memcpy(before, ours.record, PANEL_STATE);
    memcpy(spoiled, before, PANEL_STATE);
    spoil(spoiled);
    take_record(spoiled);
    for (unsigned n = between(1, 3); n > 0; n--)
        some_short_call();
    struct call empty_feed = right_call(FEED);
    if (make(&empty_feed).number != PANEL_OK || once_in(2))
        take_record(before);
}

static void turn_spoiled(void)
{
    for (unsigned n = between(1, 16); n > 0; n--)
        call_spoiled();
}

static void turn(void)
{
    unsigned n = below(100);
    length = 0;
    believe_the_state();
    if (n < 30)
        turn_well_formed();
    else if (n < 44)
        turn_damaged();
    else if (n < 51)
        turn_noise();
    else if (n < 58)
        turn_boundaries();
    else if (n < 67)
        turn_held();
    else if (n < 75)
        turn_downloads();
    else if (n < 81)
        turn_link();
    else if (n < 98)
        turn_spoiled();
    else
        start();
    if (once_in(4))
        store_record(ours.record);
}

/* ------------------------------------------------------------------------
 * The run
 * --------------------------------------------------------------------- */

static void fill(void *to, size_t n)
{
    uint8_t *at = to;
    for (size_t i = 0; i < n; i++)
        at[i] = (uint8_t)below(256);
}

/* A panel from its start on, on memory, glass, record and font full of noise. */
static void panel_life(void)
{
    fill(&given, offsetof(struct given, piece));
    memcpy(&kept, &given, offsetof(struct given, piece));
    fill(&ours, sizeof ours);
    theirs = ours;
    take_record(ours.record);
    while (start().number == PANEL_RECORD_LENGTH)
        ;
    for (unsigned n = between(10, 60); n > 0; n--)
        turn();
}

static void print_seen(const char *what, const uint64_t *seen, size_t first,
                       size_t end)
{
    const char *comma = "";
    printf("; %s", what);
    for (size_t i = first; i < end; i++)
        if (seen[i] > 0) {
            printf("%s %zu: %" PRIu64, comma, i, seen[i]);
            comma = ",";
        }
}

/* The argument as a number, or what stands for one that is not there. */
static uint64_t number_of(int argc, char **argv, int i, uint64_t other)
{
    if (i >= argc)
        return other;
    char *end;
    uint64_t n = strtoull(argv[i], &end, 10);
    if (end == argv[i] || *end != 0 || argc > 4) {
        fputs("usage: compare [SEED [CALLS [BYTES]]]\n", stderr);
        exit(2);
    }
    return n;
}

int main(int argc, char **argv)
{
    seed = number_of(argc, argv, 1, 1);
    const uint64_t calls_wanted = number_of(argc, argv, 2, 1000000);
    const uint64_t bytes_wanted = number_of(argc, argv, 3, 50000000);
    chance = seed;
    while (calls < calls_wanted || bytes_fed < bytes_wanted)
        panel_life();
    printf("seed %" PRIu64 ", %" PRIu64 " calls, %" PRIu64 " bytes, %" PRIu64
           " receives of %" PRIu64 " bytes",
           seed, calls, bytes_fed, receives, bytes_received);
    print_seen("answers", answers_seen, 0, PANEL_RECORD_LENGTH + 1);
    print_seen("outcomes", outcomes_seen, PANEL_UNFINISHED,
               PANEL_NOT_STORED + 1);
    printf("; no difference\n");
    return fflush(stdout) == 0 ? 0 : 2;
}
