/* Streams of bytes for the panel, made by chance: well-formed commands,
 * boundaries, damage and noise. Whoever includes this sets `chance` to a seed
 * and `length` to 0, lets the functions put bytes, and takes them from `bytes`.
 * The same seed gives the same bytes everywhere: the chance is this file's own,
 * and no list of arguments draws twice from it, since C leaves the order of
 * arguments open. */
#include <stdbool.h>
#include <stddef.h>
#include <stdint.h>
#include <string.h>

/* ------------------------------------------------------------------------
 * Chance
 * --------------------------------------------------------------------- */

static uint64_t chance;

/* splitmix64 */
static uint64_t draw(void)
{
    chance += UINT64_C(0x9E3779B97F4A7C15);
    uint64_t z = chance;
    z = (z ^ (z >> 30)) * UINT64_C(0xBF58476D1CE4E5B9);
    z = (z ^ (z >> 27)) * UINT64_C(0x94D049BB133111EB);
    return z ^ (z >> 31);
}

/* 0 to n - 1 */
static unsigned below(unsigned n)
{
    return (unsigned)(draw() % n);
}

static unsigned between(unsigned least, unsigned most)
{
    return least + below(most - least + 1);
}

/* How much of something a stream has: a PARTth of it, but some. */
static unsigned part = 1;

static unsigned amount(unsigned least, unsigned most)
{
    unsigned n = between(least, most) / part;
    return n > 0 ? n : 1;
}

/* true once in n times */
static bool once_in(unsigned n)
{
    return below(n) == 0;
}

static unsigned one_of(const unsigned *list, unsigned count)
{
    return list[below(count)];
}

#define ONE_OF(...)                                                        \
    one_of((const unsigned[]){__VA_ARGS__},                                \
           sizeof((const unsigned[]){__VA_ARGS__}) / sizeof(unsigned))

/* ------------------------------------------------------------------------
 * The stream's bytes, and what the generator believes of the panel so that
 * its cursors come near edges. Belief may be wrong: it only steers chance.
 * --------------------------------------------------------------------- */

enum { BYTES_MAX = 8192 };

static uint8_t bytes[BYTES_MAX];
static size_t length;

struct rectangle {
    bool defined;
    unsigned left, top, width, height;
};

static struct {
    struct rectangle windows[5]; /* 0 is the base */
    unsigned selected;
    bool held;
    unsigned w, x_enlarged, y_enlarged, write_mode, own;
} belief;

static void believe_initial(void)
{
    memset(&belief, 0, sizeof belief);
    belief.windows[0] = (struct rectangle){true, 0, 0, 512, 2};
    belief.w = 1;
    belief.x_enlarged = 1;
    belief.y_enlarged = 1;
}

static void put(unsigned byte)
{
    if (length < BYTES_MAX)
        bytes[length++] = (uint8_t)byte;
}

static void put16(unsigned n)
{
    put(n & 255);
    put(n >> 8 & 255);
}

/* ------------------------------------------------------------------------
 * Well-formed commands
 * --------------------------------------------------------------------- */

/* The codes that are downloaded: few, so that they are met again, and more
 * than are stored. */
enum { OWN_FIRST = 0x41, OWN_CODES = 20, OWN_STORED = 16 };

static unsigned some_own_code(void)
{
    return once_in(16) ? ONE_OF(0x20, 0xFF)
                       : between(OWN_FIRST, OWN_FIRST + OWN_CODES - 1);
}

static unsigned some_character(void)
{
    if (belief.own == 1 && once_in(2))
        return some_own_code();
    return once_in(8) ? between(0x20, 0xFF) : between(0x21, 0x7E);
}

static void put_text(void)
{
    unsigned count = once_in(6) ? between(8, 20) : between(1, 6);
    unsigned same = once_in(4) ? some_character() : 0;
    for (unsigned i = 0; i < count; i++)
        put(same != 0 ? same : some_character());
}

static void put_move(void)
{
    put(ONE_OF(0x08, 0x08, 0x08, 0x09, 0x09, 0x09, 0x0A, 0x0A, 0x0A, 0x0B,
               0x0D, 0x0D));
}

static unsigned cell_width(void)
{
    return (6 + belief.w) * belief.x_enlarged;
}

/* A column at or near an edge of something `width` wide. */
static unsigned near_edge(unsigned width)
{
    unsigned c = cell_width();
    unsigned at = ONE_OF(0, 1, c - 1, c, c + 1, width - 2 * c - 1,
                         width - 2 * c, width - 2 * c + 1, width - c - 1,
                         width - c, width - c + 1, width - 2, width - 1);
    return at < width ? at : below(width);
}

/* A column for the cursor of the believed window. */
static unsigned some_column(void)
{
    const struct rectangle *window = &belief.windows[belief.selected];
    if (once_in(4))
        return below(window->width);
    if (belief.selected == 0 && belief.write_mode == 0)
        return once_in(3) ? 112 + near_edge(400) : near_edge(112);
    return near_edge(window->width);
}

static void put_cursor_set(void)
{
    const struct rectangle *window = &belief.windows[belief.selected];
    unsigned x = once_in(20) ? window->width : some_column();
    unsigned y = once_in(20) ? window->height : below(window->height);
    put(0x1F);
    put(0x24);
    put16(x);
    put16(y);
}

static void put_mode(void)
{
    put(0x1F);
    put(between(1, 3));
}

static void put_write_mode(void)
{
    unsigned a = once_in(15) ? 2 : below(2);
    put(0x1F);
    put(0x28);
    put(0x77);
    put(0x10);
    put(a);
    if (a < 2 && !belief.held)
        belief.write_mode = a;
}

static void put_w(void)
{
    unsigned w = once_in(8) ? between(2, 5) : below(2);
    put(0x1F);
    put(0x28);
    put(0x67);
    put(0x03);
    put(w);
    if (w < 2)
        belief.w = w;
}

static void put_enlarge(void)
{
    unsigned x = once_in(20) ? ONE_OF(0, 5) : ONE_OF(1, 1, 1, 2, 2, 3, 4);
    unsigned y = once_in(20) ? ONE_OF(0, 3) : ONE_OF(1, 1, 2);
    put(0x1F);
    put(0x28);
    put(0x67);
    put(0x40);
    put(x);
    put(y);
    if (x >= 1 && x <= 4 && y >= 1 && y <= 2) {
        belief.x_enlarged = x;
        belief.y_enlarged = y;
    }
}

static void put_reverse(void)
{
    put(0x1F);
    put(0x72);
    put(once_in(15) ? 2 : below(2));
}

static void put_mixing(void)
{
    put(0x1F);
    put(0x77);
    put(once_in(15) ? 4 : below(4));
}

/* The settings that are kept only. */
static void put_kept(void)
{
    switch (below(5)) {
    case 0:
        put(0x1B);
        put(0x52);
        put(below(15));
        break;
    case 1:
        put(0x1B);
        put(0x74);
        put(below(21));
        break;
    case 2:
        put(0x1F);
        put(0x43);
        put(below(3));
        break;
    case 3:
        put(0x1F);
        put(0x58);
        put(below(10));
        break;
    default:
        put(0x1F);
        put(0x73);
        put(below(33));
        break;
    }
}

static struct rectangle some_rectangle(void)
{
    struct rectangle r = {.defined = true};
    r.height = between(1, 2);
    r.top = r.height == 1 ? below(2) : 0;
    r.width = once_in(5)   ? between(1, 512)
              : once_in(3) ? cell_width() * between(1, 4)
                           : between(1, 45);
    r.left = once_in(4)   ? below(512)
             : once_in(4) ? 112 - (r.width < 112 ? r.width / 2 : 0)
                          : below(112);
    if (r.left + r.width > 512)
        r.left = 512 - r.width;
    return r;
}

static void put_define(void)
{
    struct rectangle r = some_rectangle();
    unsigned k = between(1, 4);
    put(0x1F);
    put(0x28);
    put(0x77);
    put(0x02);
    put(k);
    put(1);
    put16(r.left);
    put16(r.top);
    put16(r.width);
    put16(r.height);
    if (!belief.held)
        belief.windows[k] = r;
}

static void put_cancel(void)
{
    unsigned k = between(1, 4);
    put(0x1F);
    put(0x28);
    put(0x77);
    put(0x02);
    put(k);
    put(0);
    if (belief.held)
        return;
    belief.windows[k].defined = false;
    if (belief.selected == k)
        belief.selected = 0;
}

/* Mostly a window that is believed to be defined. */
static unsigned some_window(void)
{
    unsigned k = below(5);
    for (unsigned i = 0; i < 8 && !belief.windows[k].defined; i++)
        k = below(5);
    return once_in(12) ? below(5) : k;
}

static void put_select(void)
{
    unsigned k = some_window();
    if (once_in(2)) {
        put(0x10 + k);
    } else {
        put(0x1F);
        put(0x28);
        put(0x77);
        put(0x01);
        put(once_in(20) ? 5 : k);
    }
    if (belief.windows[k].defined && !belief.held)
        belief.selected = k;
}

static void put_image(unsigned width, unsigned height)
{
    unsigned same = once_in(3) || width > 24 ? between(1, 255) : 0;
    put(0x1F);
    put(0x28);
    put(0x66);
    put(0x11);
    put16(width);
    put16(height);
    put(1);
    for (unsigned i = 0; i < width * height; i++)
        put(same != 0 ? same : below(256));
}

static void put_some_image(void)
{
    unsigned height = between(1, 2);
    if (once_in(40))
        put_image(between(400, 512), height);
    else if (once_in(12))
        put_image(between(25, 130), height);
    else
        put_image(between(1, 9), height);
}

static void put_own(unsigned n)
{
    put(0x1B);
    put(0x25);
    put(n);
    if (n < 2)
        belief.own = n;
}

static void put_some_own(void)
{
    put_own(once_in(8) ? ONE_OF(2, 255) : once_in(3) ? 0 : 1);
}

static void put_erase(void)
{
    put(0x1B);
    put(0x3F);
    put(once_in(12) ? ONE_OF(0, 2, 255) : 1);
    put(once_in(12) ? below(0x20) : some_own_code());
}

/* A define's bytes before its first code's. */
static void put_download_head(unsigned c1, unsigned c2)
{
    put(0x1B);
    put(0x26);
    put(1);
    put(c1);
    put(c2);
}

/* One code's width and columns. */
static void put_picture(void)
{
    unsigned width = ONE_OF(5, 5, 7);
    put(width);
    for (unsigned i = 0; i < width; i++)
        put(below(256));
}

/* A define of few codes. */
static void put_download(void)
{
    unsigned c1 = some_own_code();
    unsigned c2 = c1 + ONE_OF(0, 0, 0, 1, 2);
    if (c2 > 0xFF)
        c2 = 0xFF;
    put_download_head(c1, c2);
    for (unsigned code = c1; code <= c2; code++)
        put_picture();
}

/* Sixteen codes. */
static void put_full_store(void)
{
    unsigned c1 = OWN_FIRST + below(OWN_CODES - OWN_STORED + 1);
    put_download_head(c1, c1 + OWN_STORED - 1);
    for (unsigned i = 0; i < OWN_STORED; i++)
        put_picture();
}

/* A define that is cancelled: at a, c1, c2, or at a width, the codes before
 * which stay. */
static void put_cancelled_download(void)
{
    unsigned c1 = some_own_code();
    put(0x1B);
    put(0x26);
    switch (below(8)) {
    case 0:
        put(ONE_OF(0, 2, 255));
        return;
    case 1:
        put(1);
        put(below(0x20));
        return;
    case 2:
        put(1);
        put(c1);
        put(c1 - 1);
        return;
    default:
        put(1);
        put(c1);
        put(0xFF);
        for (unsigned n = c1 < 0xFD ? below(3) : 0; n > 0; n--)
            put_picture();
        put(ONE_OF(0, 4, 6, 8, 255));
        return;
    }
}

/* What has to do with downloads. */
static void put_download_command(void)
{
    switch (below(10)) {
    case 0:
    case 1:
    case 2:
    case 3:
        put_download();
        break;
    case 4:
    case 5:
        put_erase();
        break;
    case 6:
        put_some_own();
        break;
    case 7:
        put_cancelled_download();
        break;
    default:
        for (unsigned n = between(1, 4); n > 0; n--)
            put(some_own_code());
        break;
    }
}

static void put_action(void)
{
    unsigned i = below(4);
    put(0x1F);
    put(0x28);
    put(0x61);
    put((const unsigned[]){0x01, 0x10, 0x11, 0x40}[i]);
    for (unsigned n = (const unsigned[]){1, 5, 4, 1}[i]; n > 0; n--)
        put(below(256));
}

static void put_initialise(void)
{
    bool held = belief.held;
    put(0x1B);
    put(0x40);
    if (!held)
        believe_initial();
}

/* Codes that the reading rules don't know. */
static void put_unknown(void)
{
    switch (below(5)) {
    case 0:
        put(ONE_OF(0x00, 0x07, 0x0E, 0x0F, 0x15, 0x1A, 0x1C, 0x1E));
        break;
    case 1:
        put(0x1B);
        put(below(256));
        break;
    case 2:
        put(0x1F);
        put(below(256));
        break;
    case 3:
        put(0x1F);
        put(0x28);
        put(below(256));
        break;
    default:
        put(0x1F);
        put(0x28);
        put(ONE_OF(0x61, 0x66, 0x67, 0x77));
        put(below(256));
        break;
    }
}

static void put_command(void)
{
    unsigned n = below(106);
    if (n < 26)
        put_text();
    else if (n < 38)
        put_move();
    else if (n < 52)
        put_cursor_set();
    else if (n < 59)
        put_mode();
    else if (n < 65)
        put_some_image();
    else if (n < 70)
        put_enlarge();
    else if (n < 74)
        put_w();
    else if (n < 77)
        put_reverse();
    else if (n < 80)
        put_mixing();
    else if (n < 84)
        put_write_mode();
    else if (n < 89)
        put_define();
    else if (n < 94)
        put_select();
    else if (n < 95)
        put_cancel();
    else if (n < 96)
        put(0x0C);
    else if (n < 97)
        put_kept();
    else if (n < 98)
        put_action();
    else if (n < 99)
        put_unknown();
    else if (n < 105)
        put_download_command();
    else if (once_in(2))
        put_initialise();
}

/* Windows, modes and settings first, so that what follows meets them. */
static void put_opening(void)
{
    for (unsigned i = below(3); i > 0; i--)
        put_define();
    if (once_in(3))
        put_write_mode();
    if (once_in(2))
        put_select();
    if (once_in(2))
        put_mode();
    if (once_in(3))
        put_enlarge();
    if (once_in(3))
        put_w();
    if (once_in(4))
        put_some_own();
}

static void put_well_formed(unsigned least)
{
    size_t end = length + least;
    put_opening();
    while (length < end)
        put_command();
}

/* ------------------------------------------------------------------------
 * Boundaries
 * --------------------------------------------------------------------- */

struct boundary {
    const char *code;  /* the command's bytes before the parameter */
    unsigned count;
    unsigned values[8];
};

/* Each domain of one byte: its ends and one beyond. */
static const struct boundary boundaries[] = {
    {"\x1B\x52", 4, {0, 13, 14, 255}},
    {"\x1B\x74", 8, {0, 5, 6, 15, 16, 19, 20, 255}},
    {"\x1B\x25", 4, {0, 1, 2, 255}},
    {"\x1B\x3F\x01", 5, {0, 31, 32, 65, 255}},
    {"\x1F\x43", 4, {0, 1, 2, 255}},
    {"\x1F\x58", 5, {0, 1, 8, 9, 255}},
    {"\x1F\x72", 4, {0, 1, 2, 255}},
    {"\x1F\x73", 4, {0, 31, 32, 255}},
    {"\x1F\x77", 4, {0, 3, 4, 255}},
    {"\x1F\x28\x67\x03", 6, {0, 1, 2, 3, 4, 255}},
    {"\x1F\x28\x77\x01", 6, {0, 1, 4, 5, 17, 255}},
    {"\x1F\x28\x77\x10", 4, {0, 1, 2, 255}},
};

static void put_code(const char *code)
{
    for (size_t i = 0; code[i] != 0; i++)
        put((uint8_t)code[i]);
}

static void put_boundary_byte(void)
{
    const struct boundary *b =
        &boundaries[below(sizeof boundaries / sizeof boundaries[0])];
    put_code(b->code);
    put(b->values[below(b->count)]);
}

static void put_boundary_define(void)
{
    unsigned left = ONE_OF(0, 1, 10, 111, 112, 510, 511, 512, 65535);
    unsigned top = ONE_OF(0, 0, 1, 1, 2, 65535);
    unsigned width = once_in(2) ? 512 - left % 513 + below(2)
                                : ONE_OF(0, 1, 6, 7, 512, 513, 65535);
    unsigned height = ONE_OF(0, 1, 1, 2, 2, 3, 65535);
    put_code("\x1F\x28\x77\x02");
    put(ONE_OF(0, 1, 1, 2, 3, 4, 4, 5, 255));
    put(ONE_OF(0, 1, 1, 1, 1, 1, 2, 255));
    put16(left);
    put16(top);
    put16(width);
    put16(height);
}

static void put_boundary_image(void)
{
    unsigned width = ONE_OF(0, 1, 1, 2, 2, 255, 256, 512, 513, 65535);
    unsigned height = ONE_OF(0, 1, 1, 1, 2, 2, 2, 3, 256, 257);
    put_code("\x1F\x28\x66\x11");
    put16(width);
    put16(height);
    put(ONE_OF(0, 1, 1, 1, 1, 2, 255));
    unsigned data = width * height < 1025 ? width * height : 3;
    unsigned byte = between(0x21, 0x7E);
    for (unsigned i = 0; i < data; i++)
        put(byte);
}

static void put_boundary_download(void)
{
    unsigned c1 = ONE_OF(0x1F, 0x20, 0x20, 0xFE, 0xFF, 0xFF);
    put_code("\x1B\x26");
    put(ONE_OF(0, 1, 1, 1, 1, 2));
    put(c1);
    put(once_in(4) ? c1 - 1 : once_in(2) ? c1 : 0xFF);
    unsigned x = ONE_OF(4, 5, 5, 5, 6, 7, 7, 7, 8);
    put(x);
    for (unsigned i = 0; i < x; i++)
        put(below(256));
}

static void put_boundary(void)
{
    switch (below(8)) {
    case 0:
        put_code("\x1F\x24");
        put16(ONE_OF(0, 111, 112, 255, 256, 511, 512, 767, 65535));
        put16(ONE_OF(0, 1, 2, 255, 256, 257, 65535));
        break;
    case 1:
        put_code("\x1F\x28\x67\x40");
        put(ONE_OF(0, 1, 4, 5, 255));
        put(ONE_OF(0, 1, 2, 3, 255));
        break;
    case 2:
        put_boundary_define();
        break;
    case 3:
        put_boundary_image();
        break;
    case 4:
        put_boundary_download();
        break;
    case 5:
        put(between(0, 0x20));
        break;
    default:
        put_boundary_byte();
        break;
    }
    if (once_in(3))
        put(some_character());
}

/* ------------------------------------------------------------------------
 * Damage and noise
 * --------------------------------------------------------------------- */

static void flip_a_bit(void)
{
    bytes[below((unsigned)length)] ^= (uint8_t)(1u << below(8));
}

static void drop_a_byte(void)
{
    size_t at = below((unsigned)length);
    length--;
    memmove(bytes + at, bytes + at + 1, length - at);
}

static void insert_a_byte(void)
{
    if (length == BYTES_MAX)
        return;
    size_t at = below((unsigned)length + 1);
    memmove(bytes + at + 1, bytes + at, length - at);
    bytes[at] = (uint8_t)below(256);
    length++;
}

static void damage(void)
{
    for (unsigned n = between(1, 6); n > 0 && length > 1; n--)
        switch (below(3)) {
        case 0:
            flip_a_bit();
            break;
        case 1:
            drop_a_byte();
            break;
        default:
            insert_a_byte();
            break;
        }
    if (once_in(3))
        length = 1 + below((unsigned)length);
}

/* Even noise, or noise that loves the openers and the small numbers. */
static void put_noise(void)
{
    bool even = once_in(3);
    for (unsigned n = amount(20, 90); n > 0; n--) {
        unsigned kind = even ? 0 : below(8);
        if (kind < 2)
            put(below(256));
        else if (kind < 4)
            put(ONE_OF(0x1B, 0x1F, 0x1F, 0x1F, 0x28, 0x28));
        else if (kind < 5)
            put(ONE_OF(0x61, 0x66, 0x67, 0x77, 0x24, 0x40, 0x26));
        else
            put(below(0x15));
    }
}
