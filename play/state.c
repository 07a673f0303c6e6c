/* The state in words, from its record. */
#include "state.h"

const struct setting settings[SETTINGS_BYTES] = {
    {"52", SET_CHARSET},      {"74", SET_CODEPAGE},
    {"43", SET_CURSOR_SHOWN}, {"58", SET_BRIGHTNESS},
    {"72", SET_REVERSE},      {"73", SET_SPEED},
    {"77", SET_MIXING},       {"w", SET_W},
    {"x", SET_X_ENLARGED},    {"y", SET_Y_ENLARGED},
    {"write", SET_WRITE_MODE}, {"own", SET_OWN},
};

unsigned get16(const uint8_t *from)
{
    return from[0] + 256u * from[1];
}

void put16(uint8_t *to, unsigned n)
{
    to[0] = (uint8_t)n;
    to[1] = (uint8_t)(n >> 8);
}

unsigned window_place(unsigned k)
{
    return AT_WINDOWS + WINDOW_BYTES * (k - 1);
}

unsigned download_place(unsigned p)
{
    return AT_DOWNLOADS + DOWNLOAD_BYTES * p;
}

bool is_held(const uint8_t *record)
{
    return record[AT_HELD] != 0;
}

static bool is_zero(const uint8_t *from, unsigned length)
{
    for (unsigned i = 0; i < length; i++)
        if (from[i] != 0)
            return false;
    return true;
}

static void describe_place(struct text *text, const uint8_t *place)
{
    append(text, " %u %u %u", get16(place + PLACE_X), get16(place + PLACE_Y),
           (unsigned)place[PLACE_MODE]);
}

void describe_cursor(struct text *text, const uint8_t *record, unsigned k)
{
    describe_place(text, record + (k == 0 ? (unsigned)AT_BASE
                                          : window_place(k) + WINDOW_PLACE));
}

static void describe_settings(struct text *text, const char *name,
                              const uint8_t *from)
{
    append(text, "%s", name);
    for (unsigned i = 0; i < SETTINGS_BYTES; i++)
        append(text, " %s %u", settings[i].key,
               (unsigned)from[settings[i].at]);
    append_byte(text, '\n');
}

/* "A user window that is not defined is 13 zeros" */
static void describe_window(struct text *text, unsigned k, const uint8_t *w)
{
    append(text, "window %u", k);
    if (is_zero(w, WINDOW_BYTES)) {
        append(text, " none\n");
        return;
    }
    for (unsigned at = 0; at < WINDOW_PLACE; at += 2)
        append(text, " %u", get16(w + at));
    describe_place(text, w + WINDOW_PLACE);
    append_byte(text, '\n');
}

/* The record has the column after the last one. */
static void describe_span(struct text *text, unsigned row,
                          const uint8_t *span)
{
    if (is_zero(span, SPAN_BYTES))
        append(text, "span %u none\n", row);
    else
        append(text, "span %u %u %u\n", row, get16(span + SPAN_FIRST),
               (get16(span + SPAN_END) - 1) & 0xFFFF);
}

/* "Each place of the downloads that is not free has a line": "as many columns
 * as its width says (seven if it is not 5)" */
static void describe_download(struct text *text, unsigned p,
                              const uint8_t *place)
{
    if (is_zero(place, DOWNLOAD_BYTES))
        return;
    const unsigned width = place[DOWNLOAD_WIDTH];
    append(text, "download %u %02X %u", p, (unsigned)place[DOWNLOAD_CODE],
           width);
    for (unsigned i = 0; i < (width == 5 ? 5 : RECORD_COLUMNS); i++)
        append(text, " %02X", (unsigned)place[DOWNLOAD_COLUMNS + i]);
    append_byte(text, '\n');
}

static void describe_held(struct text *text, const uint8_t *record)
{
    if (is_held(record))
        append(text, "held %u %u\n", (unsigned)record[AT_HELD_WINDOW],
               (unsigned)record[AT_SAVED_SELECTED]);
    else
        append(text, "held none\n");
}

void describe(struct text *text, const uint8_t *record)
{
    append(text, "selected %u\n", (unsigned)record[AT_SELECTED]);
    describe_held(text, record);
    append(text, "base");
    describe_place(text, record + AT_BASE);
    append_byte(text, '\n');
    for (unsigned k = 1; k <= RECORD_WINDOWS; k++)
        describe_window(text, k, record + window_place(k));
    describe_settings(text, "set", record + AT_SETTINGS);
    if (is_held(record))
        describe_settings(text, "saved", record + AT_SAVED);
    for (unsigned row = 0; row < RECORD_ROWS; row++)
        describe_span(text, row, record + AT_SPANS + SPAN_BYTES * row);
    append(text, "half %s\n", record[AT_HALF] == 0 ? "none" : "some");
    for (unsigned p = 0; p < RECORD_DOWNLOADS; p++)
        describe_download(text, p, record + download_place(p));
}
