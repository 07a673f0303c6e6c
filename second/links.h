/* Links by chance: telegrams (order 4 of document 02) as they come over a
 * wire, good and broken, one in another, with noise between. Whoever includes
 * this includes streams.h before it, says whose telegrams are to be found
 * (`meant`), and may give them a stream to carry (`carry`). Bytes are put as
 * streams.h puts them. What is called good here only steers chance. */

/* The address that many telegrams are for. */
static unsigned meant;

/* A stream that the data of telegrams are taken from, while there is some. */
static uint8_t carried[BYTES_MAX];
static size_t carried_length, carried_at;

/* What was put is what telegrams carry. */
static void carry(void)
{
    memcpy(carried, bytes, length);
    carried_length = length;
    carried_at = 0;
    length = 0;
}

static unsigned some_data_byte(void)
{
    if (carried_at < carried_length)
        return carried[carried_at++];
    return once_in(2) ? ONE_OF(0x01, 0x02, 0x02, 0x03, 0x03, meant)
                      : below(256);
}

static void put_data(unsigned count)
{
    for (; count > 0; count--)
        put(some_data_byte());
}

/* The check byte of what was put from `at` on, with some bits wrong. */
static void put_check(size_t at, unsigned wrong)
{
    for (; at < length; at++)
        wrong ^= bytes[at];
    put(wrong);
}

/* Whom a telegram is for. */
static unsigned some_receiver(void)
{
    if (once_in(3))
        return meant;
    return once_in(6) ? 0xFF : once_in(5) ? between(16, 254) : below(16);
}

/* Of a telegram that is good. */
static unsigned some_count(void)
{
    return once_in(12)  ? ONE_OF(1, 127, 128)
           : once_in(6) ? between(1, 128)
                        : between(1, 12);
}

static void put_good_telegram(void)
{
    size_t at = length;
    unsigned count = some_count();
    put(0x02);
    put(some_receiver());
    put(count);
    put_data(count);
    put(0x03);
    put_check(at, 0);
}

/* What is wrong with a telegram: its 02h; as many data bytes as none has; a
 * length that is not theirs; its 03h; its check byte, otherwise right for the
 * bytes as they are. */
enum { FLAW_HEADER, FLAW_COUNT, FLAW_LENGTH, FLAW_FOOTER, FLAW_CHECK, FLAWS };

static void put_broken_telegram(void)
{
    size_t at = length;
    unsigned header = 0x02, count = some_count(), told = count, footer = 0x03;
    unsigned receiver = some_receiver(), wrong = 0;
    switch (below(FLAWS)) {
    case FLAW_HEADER:
        header = ONE_OF(0x00, 0x01, 0x03, 0x82);
        break;
    case FLAW_COUNT:
        told = count = ONE_OF(0x00, 0x81, 0x81, 0xFF);
        break;
    case FLAW_LENGTH:
        told = ONE_OF(0x00, 0x01, count - 1, count + 1, 0x80, 0x81, 0xFF);
        break;
    case FLAW_FOOTER:
        footer = ONE_OF(0x00, 0x01, 0x02, 0x04, 0x83);
        break;
    default:
        wrong = ONE_OF(0x01, 0x02, 0x03, 0x80, 0xFF, receiver, count);
        break;
    }
    put(header);
    put(receiver);
    put(told);
    put_data(count);
    put(footer);
    put_check(at, wrong);
}

/* Telegrams in the data of one that is good, or has a wrong check byte. */
static void put_nested(unsigned depth)
{
    size_t at = length;
    put(0x02);
    put(some_receiver());
    size_t told = length;
    put(0);
    put_data(below(4));
    for (unsigned n = depth > 0 ? between(1, 2) : 0; n > 0; n--)
        put_nested(depth - 1);
    put_data(between(depth > 0 ? 0 : 1, 4));
    if (told < length)
        bytes[told] = (uint8_t)(length - told - 1);
    put(0x03);
    put_check(at, once_in(3) ? 0x02 : 0);
}

/* One that ends behind the one in whose data it begins: that one's 03h and
 * check byte are data of it. Either may have a wrong check byte. */
static void put_overlapping(void)
{
    size_t at = length;
    unsigned before = below(6), shared = below(6), behind = below(6);
    put(0x02);
    put(some_receiver());
    put(before + 3 + shared);
    put_data(before);
    size_t inner = length;
    put(0x02);
    put(some_receiver());
    put(shared + 2 + behind);
    put_data(shared);
    put(0x03);
    put_check(at, once_in(4) ? 0x02 : 0);
    put_data(behind);
    put(0x03);
    put_check(inner, once_in(4) ? 0x02 : 0);
}

/* Few values, so that short telegrams come by chance, over each other too. */
static void put_link_noise(void)
{
    for (unsigned n = between(1, 24); n > 0; n--)
        put(once_in(16) ? below(256)
                        : ONE_OF(0x01, 0x01, 0x02, 0x02, 0x02, 0x03, 0x03,
                                 meant));
}

/* 02h many times, before a telegram. */
static void put_headers(void)
{
    for (unsigned n = between(1, 8); n > 0; n--)
        put(0x02);
    put_good_telegram();
}

/* The next of a link. */
static void put_link(void)
{
    unsigned n = below(20);
    if (n < 8)
        put_good_telegram();
    else if (n < 11)
        put_broken_telegram();
    else if (n < 14)
        put_nested(between(1, 2));
    else if (n < 16)
        put_overlapping();
    else if (n < 17)
        put_headers();
    else
        put_link_noise();
}
