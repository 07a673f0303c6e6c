/* The fields of docs/RECORD.md's record, and records spoiled by chance: fields
 * at and beyond their bounds, parts of other records, half-read commands that
 * can be and cannot be, noise. Wants streams.h and record.h. */

/* ------------------------------------------------------------------------
 * The fields, with values at and beside their bounds
 * --------------------------------------------------------------------- */

struct field {
    const char *name;
    unsigned at, size; /* counted from its group */
    unsigned count, values[8];
};

static const struct field setting_fields[] = {
    {"character set", SET_CHARSET, 1, 4, {0, 13, 14, 255}},
    {"code table", SET_CODEPAGE, 1, 8, {0, 5, 6, 15, 16, 19, 20, 255}},
    {"cursor display", SET_CURSOR_SHOWN, 1, 4, {0, 1, 2, 255}},
    {"brightness", SET_BRIGHTNESS, 1, 5, {0, 1, 8, 9, 255}},
    {"speed", SET_SPEED, 1, 4, {0, 31, 32, 255}},
    {"width", SET_W, 1, 4, {0, 1, 2, 255}},
    {"write mode", SET_WRITE_MODE, 1, 4, {0, 1, 2, 255}},
    {"downloads drawn", SET_OWN, 1, 4, {0, 1, 2, 255}},
    {"reverse", SET_REVERSE, 1, 4, {0, 1, 2, 255}},
    {"mixing", SET_MIXING, 1, 5, {0, 1, 3, 4, 255}},
    {"x enlargement", SET_X_ENLARGED, 1, 5, {0, 1, 4, 5, 255}},
    {"y enlargement", SET_Y_ENLARGED, 1, 5, {0, 1, 2, 3, 255}},
};

static const struct field window_fields[] = {
    {"left", WINDOW_LEFT, 2, 7, {0, 1, 112, 498, 511, 512, 65535}},
    {"top", WINDOW_TOP, 2, 4, {0, 1, 2, 65535}},
    {"width", WINDOW_WIDTH, 2, 8, {0, 1, 7, 14, 511, 512, 513, 65535}},
    {"height", WINDOW_HEIGHT, 2, 5, {0, 1, 2, 3, 65535}},
    {"cursor x", WINDOW_PLACE + PLACE_X, 2, 7,
     {0, 1, 6, 13, 511, 512, 65535}},
    {"cursor y", WINDOW_PLACE + PLACE_Y, 2, 4, {0, 1, 2, 65535}},
    {"mode", WINDOW_PLACE + PLACE_MODE, 1, 6, {0, 1, 2, 3, 4, 255}},
};

static const struct field base_fields[] = {
    {"cursor x", PLACE_X, 2, 7, {0, 111, 112, 399, 511, 512, 65535}},
    {"cursor y", PLACE_Y, 2, 4, {0, 1, 2, 65535}},
    {"mode", PLACE_MODE, 1, 6, {0, 1, 2, 3, 4, 255}},
};

/* From AT_SELECTED on. */
static const struct field holding_fields[] = {
    {"selected window", 0, 1, 7, {0, 1, 2, 3, 4, 5, 255}},
    {"held or not", AT_HELD - AT_SELECTED, 1, 4, {0, 1, 2, 255}},
    {"held window", AT_HELD_WINDOW - AT_SELECTED, 1, 7,
     {0, 1, 2, 3, 4, 5, 255}},
    {"saved selection", AT_SAVED_SELECTED - AT_SELECTED, 1, 7,
     {0, 1, 2, 3, 4, 5, 255}},
};

static const struct field half_fields[] = {
    {"case", HALF_CASE, 1, 8, {0, 1, 9, 14, 18, 25, 26, 255}},
    {"a", HALF_A, 1, 8, {0, 1, 5, 9, 10, 31, 32, 255}},
    {"b", HALF_B, 1, 8, {0, 1, 4, 5, 31, 32, 254, 255}},
    {"c", HALF_C, 1, 6, {0, 1, 31, 32, 254, 255}},
    {"d", HALF_D, 1, 4, {0, 1, 2, 255}},
    {"p", HALF_P, 2, 8, {0, 1, 2, 255, 256, 512, 513, 65535}},
    {"q", HALF_Q, 2, 6, {0, 1, 2, 3, 256, 65535}},
    {"r", HALF_R, 2, 7, {0, 1, 2, 255, 511, 512, 65535}},
    {"s", HALF_S, 2, 5, {0, 1, 2, 3, 65535}},
    {"in all", HALF_IN_ALL, 1, 7, {0, 4, 5, 6, 7, 8, 255}},
    {"have come", HALF_COME, 1, 7, {0, 1, 4, 5, 6, 7, 255}},
    {"column 1", HALF_COLUMNS, 1, 2, {0, 255}},
    {"column 2", HALF_COLUMNS + 1, 1, 2, {0, 255}},
    {"column 3", HALF_COLUMNS + 2, 1, 2, {0, 255}},
    {"column 4", HALF_COLUMNS + 3, 1, 2, {0, 255}},
    {"column 5", HALF_COLUMNS + 4, 1, 2, {0, 255}},
    {"column 6", HALF_COLUMNS + 5, 1, 2, {0, 255}},
    {"column 7", HALF_COLUMNS + 6, 1, 2, {0, 255}},
};

static const struct field span_fields[] = {
    {"first", SPAN_FIRST, 2, 7, {0, 1, 111, 112, 511, 512, 65535}},
    {"end", SPAN_END, 2, 8, {0, 1, 112, 113, 511, 512, 513, 65535}},
};

static const struct field download_fields[] = {
    {"code", DOWNLOAD_CODE, 1, 7, {0, 31, 32, 65, 66, 67, 255}},
    {"width", DOWNLOAD_WIDTH, 1, 7, {0, 4, 5, 6, 7, 8, 255}},
    {"column 1", DOWNLOAD_COLUMNS, 1, 2, {0, 255}},
    {"column 2", DOWNLOAD_COLUMNS + 1, 1, 2, {0, 255}},
    {"column 3", DOWNLOAD_COLUMNS + 2, 1, 2, {0, 255}},
    {"column 4", DOWNLOAD_COLUMNS + 3, 1, 2, {0, 255}},
    {"column 5", DOWNLOAD_COLUMNS + 4, 1, 2, {0, 255}},
    {"column 6", DOWNLOAD_COLUMNS + 5, 1, 2, {0, 255}},
    {"column 7", DOWNLOAD_COLUMNS + 6, 1, 2, {0, 255}},
};

#define FIELDS(list) list, sizeof list / sizeof list[0]
#define WINDOW(k) \
    {"window " #k, AT_WINDOWS + WINDOW_BYTES * (k - 1), WINDOW_BYTES, \
     FIELDS(window_fields)}
#define DOWNLOAD(p) \
    {"download " #p, AT_DOWNLOADS + DOWNLOAD_BYTES * p, DOWNLOAD_BYTES, \
     FIELDS(download_fields)}

/* In the record's order. */
static const struct group {
    const char *name;
    unsigned at, size;
    const struct field *fields;
    unsigned count;
} groups[] = {
    {"settings", AT_SETTINGS, SETTINGS_BYTES, FIELDS(setting_fields)},
    WINDOW(1), WINDOW(2), WINDOW(3), WINDOW(4),
    {"base", AT_BASE, PLACE_BYTES, FIELDS(base_fields)},
    {"holding", AT_SELECTED, AT_SAVED - AT_SELECTED, FIELDS(holding_fields)},
    {"saved settings", AT_SAVED, SETTINGS_BYTES, FIELDS(setting_fields)},
    {"half", AT_HALF, HALF_BYTES, FIELDS(half_fields)},
    {"upper span", AT_SPANS, SPAN_BYTES, FIELDS(span_fields)},
    {"lower span", AT_SPANS + SPAN_BYTES, SPAN_BYTES, FIELDS(span_fields)},
    DOWNLOAD(0), DOWNLOAD(1), DOWNLOAD(2), DOWNLOAD(3), DOWNLOAD(4),
    DOWNLOAD(5), DOWNLOAD(6), DOWNLOAD(7), DOWNLOAD(8), DOWNLOAD(9),
    DOWNLOAD(10), DOWNLOAD(11), DOWNLOAD(12), DOWNLOAD(13), DOWNLOAD(14),
    DOWNLOAD(15),
};

enum {
    GROUPS = sizeof groups / sizeof groups[0],
    GROUPS_BEFORE_DOWNLOADS = GROUPS - RECORD_DOWNLOADS
};

/* Which group and field the record's byte `at` lies in. */
static const struct field *field_at(unsigned at, const struct group **group)
{
    const struct group *g = groups;
    while (at >= g->at + g->size)
        g++;
    const struct field *f = g->fields;
    while (at >= g->at + f->at + f->size)
        f++;
    *group = g;
    return f;
}

/* ------------------------------------------------------------------------
 * Spoiling
 * --------------------------------------------------------------------- */

static unsigned word_at(const uint8_t *at)
{
    return at[0] + 256u * at[1];
}

static void set_word(uint8_t *at, unsigned n)
{
    at[0] = (uint8_t)n;
    at[1] = (uint8_t)(n >> 8);
}

/* One value of a field, in the group that begins at `from`. */
static void set_field(uint8_t *from, const struct field *f)
{
    unsigned value = f->values[below(f->count)];
    if (f->size == 1)
        from[f->at] = (uint8_t)value;
    else
        set_word(from + f->at, value);
}

/* The downloads are sixteen groups, and not to be most of what is spoiled. */
static const struct group *some_group(void)
{
    return once_in(5)
               ? &groups[GROUPS_BEFORE_DOWNLOADS + below(RECORD_DOWNLOADS)]
               : &groups[below(GROUPS_BEFORE_DOWNLOADS)];
}

static void spoil_field(uint8_t *record)
{
    const struct group *g = some_group();
    set_field(record + g->at, &g->fields[below(g->count)]);
}

/* One byte, a little or altogether other. */
static void spoil_byte(uint8_t *record)
{
    uint8_t *at = record + below(RECORD_BYTES);
    switch (below(4)) {
    case 0:
        *at = (uint8_t)below(256);
        break;
    case 1:
        *at ^= (uint8_t)(1u << below(8));
        break;
    case 2:
        ++*at;
        break;
    default:
        --*at;
        break;
    }
}

/* A window with its fields just at or just beyond what the others allow. */
static void spoil_window(uint8_t *record)
{
    uint8_t *w = record + AT_WINDOWS + WINDOW_BYTES * below(RECORD_WINDOWS);
    unsigned more = below(2);
    switch (below(5)) {
    case 0: /* the left */
        set_word(w + WINDOW_LEFT, 512 - word_at(w + WINDOW_WIDTH) + more);
        break;
    case 1: /* the top */
        set_word(w + WINDOW_TOP, 2 - word_at(w + WINDOW_HEIGHT) + more);
        break;
    case 2: /* the cursor */
        set_word(w + WINDOW_PLACE + PLACE_X,
                 word_at(w + WINDOW_WIDTH) - 1 + more);
        break;
    case 3:
        set_word(w + WINDOW_PLACE + PLACE_Y,
                 word_at(w + WINDOW_HEIGHT) - 1 + more);
        break;
    default: /* defined anew, or not at all */
        memset(w, 0, WINDOW_BYTES);
        if (more == 0) {
            unsigned width = between(1, 60);
            unsigned height = between(1, 2);
            set_word(w + WINDOW_LEFT, below(513 - width));
            set_word(w + WINDOW_TOP, below(3 - height));
            set_word(w + WINDOW_WIDTH, width);
            set_word(w + WINDOW_HEIGHT, height);
            w[WINDOW_PLACE + PLACE_MODE] = (uint8_t)between(1, 3);
        }
        break;
    }
}

static void spoil_span(uint8_t *record)
{
    uint8_t *span = record + AT_SPANS + SPAN_BYTES * below(RECORD_ROWS);
    set_word(span + SPAN_FIRST, word_at(span + SPAN_END) - below(2));
}

/* Holding the selected window, or another, with what is saved. */
static void spoil_holding(uint8_t *record)
{
    record[AT_HELD] = (uint8_t)!once_in(4);
    record[AT_HELD_WINDOW] =
        once_in(4) ? (uint8_t)below(6) : record[AT_SELECTED];
    record[AT_SAVED_SELECTED] = once_in(2) ? (uint8_t)below(6) : 0;
    memcpy(record + AT_SAVED, record + AT_SETTINGS, SETTINGS_BYTES);
}

/* A download in a place of the record; five columns leave two bytes 0. */
static void set_download(uint8_t *place, unsigned code)
{
    unsigned width = ONE_OF(5, 7);
    memset(place, 0, DOWNLOAD_BYTES);
    place[DOWNLOAD_CODE] = (uint8_t)code;
    place[DOWNLOAD_WIDTH] = (uint8_t)width;
    for (unsigned i = 0; i < width; i++)
        place[DOWNLOAD_COLUMNS + i] = (uint8_t)below(256);
}

static uint8_t *some_download(uint8_t *record)
{
    return record + AT_DOWNLOADS + DOWNLOAD_BYTES * below(RECORD_DOWNLOADS);
}

/* Sixteen codes in a row, so that no place is free. */
static void fill_downloads(uint8_t *record)
{
    unsigned code = OWN_FIRST + below(OWN_CODES - OWN_STORED + 1);
    for (unsigned p = 0; p < RECORD_DOWNLOADS; p++)
        set_download(record + AT_DOWNLOADS + DOWNLOAD_BYTES * p, code + p);
}

/* Places filled, freed, moved; a code twice; bytes where none may be. */
static void spoil_downloads(uint8_t *record)
{
    uint8_t *place = some_download(record);
    const uint8_t *other = some_download(record);
    switch (below(8)) {
    case 0:
    case 1:
        fill_downloads(record);
        break;
    case 2:
        memset(place, 0, DOWNLOAD_BYTES);
        break;
    case 3: /* the same code, if the other has one */
        set_download(place, other[DOWNLOAD_CODE]);
        break;
    case 4:
        memcpy(place, other, DOWNLOAD_BYTES);
        break;
    case 5:
        set_download(place, some_own_code());
        break;
    case 6: /* of five columns, one more */
        set_download(place, some_own_code());
        place[DOWNLOAD_WIDTH] = 5;
        break;
    default:
        set_field(place, &download_fields[below(2)]);
        break;
    }
}

/* The slots that a case of a half-read command uses. */
static const char *const slots_used[26] = {
    [8] = "a",   [9] = "a",     [12] = "a", [13] = "abcd", [14] = "abcdih",
    [17] = "pq", [18] = "pqrs", [20] = "a", [23] = "a",    [25] = "a"};

/* Cases 15 and 16: the slots that a 16-bit parameter uses beside a and c. */
static const char *const slots_of_word[8] = {"",    "p",    "b", "bp",
                                             "bpq", "bpqr", "",  "p"};

/* A slot is named by its field's first letter. */
static void spoil_slots(uint8_t *half, const char *used)
{
    for (; *used != 0; used++) {
        const struct field *f = &half_fields[1];
        while (f->name[0] != *used)
            f++;
        set_field(half, f);
    }
}

/* A define that is half read, good or nearly so: whether it is depends on the
 * downloads too. */
static void spoil_define(uint8_t *record)
{
    uint8_t *half = record + AT_HALF;
    unsigned c1 = some_own_code();
    unsigned code = c1 + below(4), c2 = code + below(3);
    unsigned width = ONE_OF(5, 7), come = below(width + 1);
    if (once_in(4))
        fill_downloads(record);
    memset(half, 0, HALF_BYTES);
    half[HALF_CASE] = (uint8_t)between(13, 14);
    half[HALF_A] = (uint8_t)c1;
    half[HALF_B] = (uint8_t)code;
    half[HALF_C] = (uint8_t)c2;
    half[HALF_D] = (uint8_t)below(2);
    if (half[HALF_CASE] == 13)
        return;
    half[HALF_IN_ALL] = (uint8_t)width;
    half[HALF_COME] = (uint8_t)come;
    for (unsigned i = 0; i < come; i++)
        half[HALF_COLUMNS + i] = (uint8_t)below(256);
    if (once_in(8))
        half[HALF_COLUMNS + below(RECORD_COLUMNS)] ^= 1;
}

static void spoil_half(uint8_t *record)
{
    uint8_t *half = record + AT_HALF;
    unsigned number = below(28), which = below(9);
    memset(half, 0, HALF_BYTES);
    half[HALF_CASE] = (uint8_t)number;
    if (number == 15 || number == 16) {
        half[HALF_A] = (uint8_t)which;
        spoil_slots(half, which < 8 ? slots_of_word[which] : "");
        spoil_slots(half, number == 16 ? "c" : "");
    } else if (number < 26 && slots_used[number] != NULL) {
        spoil_slots(half, slots_used[number]);
    }
    if (once_in(8))
        spoil_slots(half, (const char *[]){"a", "b", "c", "d", "p", "q", "r",
                                           "s", "i", "h"}[below(10)]);
}

/* Records that were a panel's, from this stream and others. */
enum { STORED = 64 };

static uint8_t stored[STORED][RECORD_BYTES];
static unsigned stored_count;

static void store_record(const uint8_t *record)
{
    unsigned at = stored_count < STORED ? stored_count++ : below(STORED);
    memcpy(stored[at], record, RECORD_BYTES);
}

/* Another record, or groups of it. */
static void spoil_from_stored(uint8_t *record)
{
    if (stored_count == 0)
        return;
    const uint8_t *other = stored[below(stored_count)];
    if (once_in(3)) {
        memcpy(record, other, RECORD_BYTES);
        return;
    }
    for (unsigned n = between(1, 3); n > 0; n--) {
        const struct group *g = some_group();
        memcpy(record + g->at, other + g->at, g->size);
    }
}

static void spoil_with_noise(uint8_t *record)
{
    for (unsigned i = 0; i < RECORD_BYTES; i++)
        record[i] = (uint8_t)below(256);
}

static void spoil_once(uint8_t *record)
{
    switch (below(20)) {
    case 0:
    case 1:
    case 2:
    case 3:
        spoil_field(record);
        break;
    case 4:
    case 5:
        spoil_byte(record);
        break;
    case 6:
    case 7:
        spoil_window(record);
        break;
    case 8:
        spoil_span(record);
        break;
    case 9:
        spoil_holding(record);
        break;
    case 10:
    case 11:
    case 12:
        spoil_half(record);
        break;
    case 13:
    case 14:
        spoil_from_stored(record);
        break;
    case 15:
    case 16:
        spoil_downloads(record);
        break;
    case 17:
    case 18:
        spoil_define(record);
        break;
    default:
        if (once_in(4))
            spoil_with_noise(record);
        else
            spoil_byte(record);
        break;
    }
}

/* Mostly one thing, so that what is tested last is reached too. */
static void spoil(uint8_t *record)
{
    unsigned n = once_in(4) ? between(2, 4) : 1;
    for (; n > 0; n--)
        spoil_once(record);
}
