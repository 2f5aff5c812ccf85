/* The inline layer of bintolage.h, checked: records that are built are read back, null lists are lent as none, features are
 * told apart by their numbers, well-known binary becomes the events that are built, and they become it, a text that went bad
 * has its place and is found, and every answer has its words. Prints how many checks were made and how many failed. */
#include "bintolage.h"

#include <stdio.h>
#include <stdlib.h>
#include <string.h>

static unsigned checks, failures;

static void check(const char *what, int holds)
{
    checks++;
    if (!holds) {
        failures++;
        printf("failed: %s\n", what);
    }
}

#define MOST 0xffffffffu

#define COUNT_OF(list) (sizeof(list) / sizeof *(list))

/* A feature's number of which every byte is another. */
#define FEATURE 0x0c0b0a09u

/* Bits of doubles that are easily lost: a NaN with a payload, minus zero, the least number above zero, minus infinity. */
static const uint64_t unusual[] = {0x7ff8000000c0ffee, 0x8000000000000000, 1, 0xfff0000000000000};

static double unusual_double(int i)
{
    return bintolage_double_of(unusual[i % 4]);
}

static int is_unusual(double x, int i)
{
    return bintolage_bits_of(x) == unusual[i % 4];
}

static void check_numbers(void)
{
    for (int i = 0; i < 4; i++) {
        check("a double's bits", is_unusual(unusual_double(i), i));
    }
    check("a float's bits", bintolage_bits_of_float(-1.5f) == 0xbfc00000);
    check("a float of bits", bintolage_bits_of_float(bintolage_float_of(0x7fc0ffee)) == 0x7fc0ffee);
    check("a float of low bits", bintolage_bits_of_float(bintolage_float_of(0x123456787fc0ffee)) == 0x7fc0ffee);
}

static int says(bintolage_event_fields e, uint32_t feature, int kind, int tagged, uint32_t size, uint32_t idx)
{
    return e.feature == feature && e.kind == kind && e.tagged == tagged && e.size == size && e.idx == idx;
}

static int is_bare(bintolage_event_fields e)
{
    return e.present == 0 && bintolage_bits_of(e.x) == 0 && bintolage_bits_of(e.y) == 0 && bintolage_bits_of(e.z) == 0 &&
           bintolage_bits_of(e.m) == 0 && bintolage_bits_of(e.t) == 0 && e.tm == 0;
}

static void check_frames(void)
{
    for (uint8_t type = 1; type <= BINTOLAGE_TRIANGLE; type++) {
        const bintolage_event_record begin = bintolage_begin(FEATURE, type, 255, MOST, MOST - 1);
        const bintolage_event_record end = bintolage_end(MOST - 2, type, 1, MOST);
        const bintolage_event_record bare = bintolage_begin(0, type, 0, 0, 0);
        const bintolage_event_fields b = bintolage_event_of(&begin), e = bintolage_event_of(&end);
        const bintolage_event_fields zero = bintolage_event_of(&bare);
        check("a begin", says(b, FEATURE, type, 1, MOST, MOST - 1) && is_bare(b));
        check("an end", says(e, MOST - 2, type + 32, 1, 0, MOST) && is_bare(e));
        check("a bare begin", says(zero, 0, type, 0, 0, 0) && is_bare(zero));
        check("a begin's feature", bintolage_feature_of(&begin) == FEATURE && bintolage_feature_of(&bare) == 0);
        check("an end's feature", bintolage_feature_of(&end) == MOST - 2);
    }
}

static void check_pairs(void)
{
    for (int i = 0; i < 4; i++) {
        const bintolage_event_record record = bintolage_xy(FEATURE, unusual_double(i), unusual_double(i + 1), MOST);
        const bintolage_event_fields e = bintolage_event_of(&record);
        check("a pair", says(e, FEATURE, 64, 0, 0, MOST) && is_unusual(e.x, i) && is_unusual(e.y, i + 1));
        check("a pair alone", e.present == 0 && e.tm == 0 && bintolage_bits_of(e.z) == 0);
    }
}

static int is_unusual_or_zero(double x, int i, int present)
{
    return present ? is_unusual(x, i) : bintolage_bits_of(x) == 0;
}

static void check_coordinates(void)
{
    for (int present = 0; present < 16; present++) {
        const bintolage_event_record record = bintolage_coordinate(
            FEATURE, unusual_double(1), unusual_double(0), (uint8_t)present, unusual_double(0), unusual_double(1),
            unusual_double(2), UINT64_MAX - 1, MOST);
        const bintolage_event_fields e = bintolage_event_of(&record);
        check("a coordinate", says(e, FEATURE, 65, 0, 0, MOST) && e.present == present);
        check("its pair", is_unusual(e.x, 1) && is_unusual(e.y, 0));
        check("its z", is_unusual_or_zero(e.z, 0, present & BINTOLAGE_Z));
        check("its m", is_unusual_or_zero(e.m, 1, present & BINTOLAGE_M));
        check("its t", is_unusual_or_zero(e.t, 2, present & BINTOLAGE_T));
        check("its tm", e.tm == (present & BINTOLAGE_TM ? UINT64_MAX - 1 : 0));
    }
}

/* The bytes themselves, each in its place: builders and readers that were wrong alike would agree with one another. */
static void check_bytes(void)
{
    const bintolage_event_record begin = bintolage_begin(FEATURE, 3, 1, 0x04030201, 0x08070605);
    const bintolage_event_record at = bintolage_coordinate(MOST, -0.0, 1, 15, 1.5, -2, 0.5, 0x0807060504030201, 9);
    static const uint8_t frame[64] = {3, 1, 0, 0, 1, 2, 3, 4, 5, 6, 7, 8, 9, 10, 11, 12};
    static const uint8_t point[64] = {65, 0, 15, 0, 0, 0, 0, 0, 9, 0, 0, 0, 255, 255, 255, 255, 0, 0, 0, 0, 0, 0,
                                      0, 0x80, 0, 0, 0, 0, 0, 0, 0xf0, 0x3f, 0, 0, 0, 0, 0, 0, 0xf8, 0x3f, 0, 0, 0, 0,
                                      0, 0, 0, 0xc0, 0, 0, 0, 0, 0, 0, 0xe0, 0x3f, 1, 2, 3, 4, 5, 6, 7, 8};
    check("a begin's bytes", memcmp(begin.bytes, frame, 64) == 0);
    check("a coordinate's bytes", memcmp(at.bytes, point, 64) == 0);
}

static uint8_t table[4 * BINTOLAGE_GEOMETRY_BYTES], properties[256];
static uint64_t xy[32], z[16], m[16], t[16], tm[16];
static uint32_t ends[16];

static const bintolage_memory all = {
    table, sizeof table, xy, 32, ends, 16, z, 16, m, 16, t, 16, tm, 16, properties, sizeof properties};

/* All, but the lists that the bits of `mask` name have another count, and are null where `null` says so. */
static bintolage_memory without(int mask, int null, size_t count)
{
    bintolage_memory lent = all;
#define TAKE(bit, list, length) if (mask >> (bit) & 1) { lent.list = null ? NULL : lent.list; lent.length = count; }
    TAKE(0, table, table_bytes)
    TAKE(1, xy, xy_words)
    TAKE(2, ends, ends_words)
    TAKE(3, z, z_words)
    TAKE(4, m, m_words)
    TAKE(5, t, t_words)
    TAKE(6, tm, tm_words)
    TAKE(7, properties, properties_bytes)
#undef TAKE
    return lent;
}

/* A line of one place with all values, in a MultiLineString, so that every list is used; answers come in order. */
#define ANSWERS 12

static void make_every_call(const bintolage_memory *memory, uint8_t answers[ANSWERS])
{
    static const uint8_t two[] = {BINTOLAGE_COLUMN_INT, BINTOLAGE_COLUMN_STRING};
    const bintolage_event_record line[] = {
        bintolage_begin(FEATURE, BINTOLAGE_MULTI_LINE_STRING, 0, 1, 0),
        bintolage_begin(FEATURE, BINTOLAGE_LINE_STRING, 0, 1, 0),
        bintolage_coordinate(FEATURE, 1, 2, 15, 3, 4, 5, 6, 0),
        bintolage_end(FEATURE, BINTOLAGE_LINE_STRING, 0, 0)};
    bintolage_event_record log[8];
    bintolage_value_record values[2];
    bintolage_edges edges;
    bintolage_state state;
    uint32_t count = 0;
    size_t taken = 0;
    memset(answers, 255, ANSWERS);
    memset(table, 0, sizeof table);
    bintolage_start(&state, BINTOLAGE_MULTI_LINE_STRING, 0, 0);
    answers[0] = bintolage_give(&state, memory, line[0]);
    answers[1] = bintolage_give_many(&state, memory, line + 1, 3, &taken);
    answers[2] = (uint8_t)taken;
    answers[3] = bintolage_give_number(&state, memory, 0, BINTOLAGE_COLUMN_INT, 7);
    answers[4] = bintolage_give_text(&state, memory, 1, BINTOLAGE_COLUMN_STRING, "pipe", 4, NULL);
    answers[5] = bintolage_read_values(&state, memory, two, 2, values, 2, &count, NULL);
    answers[6] = (uint8_t)count;
    answers[7] = bintolage_finish_feature(&state, memory);
    answers[8] = bintolage_read_feature(memory, BINTOLAGE_MULTI_LINE_STRING, 15, FEATURE, log, 8, &count);
    answers[9] = (uint8_t)count;
    answers[10] = bintolage_read_box(memory, 0, &edges);
    answers[11] = bintolage_next_feature(&state, memory);
}

/* For any lists: null, whatever their count says, they come to what they come to at a place of their own with count 0. */
static void check_nulls(void)
{
    for (int mask = 0; mask < 256; mask++) {
        const bintolage_memory empty = without(mask, 0, 0), null = without(mask, 1, 0), counted = without(mask, 1, 99);
        uint8_t wanted[ANSWERS], found[ANSWERS];
        make_every_call(&empty, wanted);
        make_every_call(&null, found);
        check("null lists are empty lists", memcmp(wanted, found, ANSWERS) == 0);
        make_every_call(&counted, found);
        check("null lists are empty whatever their count", memcmp(wanted, found, ANSWERS) == 0);
    }
}

/* What the calls answer where all is lent, where nothing is, and where what is given or read into is null. */
static void check_answers(void)
{
    static const uint8_t full[ANSWERS] = {0, 0, 3, 0, 0, 0, 2, 0, 0, 5, 0, 0};
    static const uint8_t empty[ANSWERS] = {0, 12, 1, 12, 12, 0, 0, 12, 10, 0, 10, 15};
    const bintolage_memory nothing = without(255, 1, 0);
    bintolage_state state;
    uint8_t found[ANSWERS];
    size_t taken = 9;
    uint32_t count = 9;
    make_every_call(&nothing, found);
    check("nothing lent", memcmp(found, empty, ANSWERS) == 0);
    make_every_call(&all, found);
    check("all lent", memcmp(found, full, ANSWERS) == 0);
    check("pairs and ends in their lists", xy[0] == bintolage_bits_of(1) && xy[1] == bintolage_bits_of(2) && ends[0] == 1);
    check("values in their lists", z[0] == bintolage_bits_of(3) && m[0] == bintolage_bits_of(4));
    check("times in their lists", t[0] == bintolage_bits_of(5) && tm[0] == 6);
    check("a null log", bintolage_read_feature(&all, 5, 0, 0, NULL, 3, &count) == BINTOLAGE_LOG_FULL && count == 0);
    bintolage_start(&state, 0, 0, 0);
    check("no events", bintolage_give_many(&state, &all, NULL, 3, &taken) == BINTOLAGE_DONE && taken == 0);
    check("no text", bintolage_give_text(&state, &all, 0, BINTOLAGE_COLUMN_STRING, NULL, 3, NULL) == BINTOLAGE_DONE);
    check("its bytes", bintolage_property_bytes(&state) == 6 && memcmp(properties, "\0\0\0\0\0\0", 6) == 0);
    check("no columns", bintolage_read_values(&state, &all, NULL, 3, NULL, 3, &count, NULL) == BINTOLAGE_COLUMN_UNKNOWN);
    state.words[2] = MOST;
    check("no more is read than is lent",
          bintolage_read_values(&state, &nothing, NULL, 0, NULL, 0, &count, NULL) == BINTOLAGE_DONE);
}

static int is_box(bintolage_edges box, double least_x, double least_y, double greatest_x, double greatest_y)
{
    return bintolage_bits_of(box.least_x) == bintolage_bits_of(least_x) &&
           bintolage_bits_of(box.least_y) == bintolage_bits_of(least_y) &&
           bintolage_bits_of(box.greatest_x) == bintolage_bits_of(greatest_x) &&
           bintolage_bits_of(box.greatest_y) == bintolage_bits_of(greatest_y);
}

static int is_beginning(bintolage_edges box)
{
    const double minus = unusual_double(3);
    return is_box(box, -minus, -minus, minus, minus);
}

/* A collection of one place: a part, a box, and records at odd addresses. */
static void check_reading(void)
{
    const bintolage_event_record given[] = {
        bintolage_begin(FEATURE, BINTOLAGE_GEOMETRY_COLLECTION, 0, 1, 0), bintolage_begin(FEATURE, BINTOLAGE_POINT, 0, 0, 0),
        bintolage_xy(FEATURE, -7.5, unusual_double(1), 0), bintolage_end(FEATURE, BINTOLAGE_POINT, 0, 0),
        bintolage_end(FEATURE, BINTOLAGE_GEOMETRY_COLLECTION, 0, 0)};
    uint8_t bytes[1 + sizeof given];
    bintolage_event_record *log = (bintolage_event_record *)(bytes + 1);
    bintolage_edges box;
    bintolage_state state;
    uint32_t count = 0;
    size_t taken = 0;
    bintolage_start(&state, BINTOLAGE_GEOMETRY_COLLECTION, 0, 0);
    check("events given", bintolage_give_many(&state, &all, given, 5, &taken) == BINTOLAGE_DONE && taken == 5);
    check("a part", bintolage_parts(&state) == 1);
    check("a feature finished", bintolage_finish_feature(&state, &all) == BINTOLAGE_DONE);
    check("a feature read",
          bintolage_read_feature(&all, BINTOLAGE_GEOMETRY_COLLECTION, 0, FEATURE, log, 5, &count) == BINTOLAGE_DONE);
    check("its events", count == 5);
    check("the events that were given", memcmp(log, given, sizeof given) == 0);
    check("a part's box", bintolage_read_box(&all, 1, &box) == BINTOLAGE_DONE && is_box(box, -7.5, -0.0, -7.5, -0.0));
    check("the feature's box", bintolage_read_box(&all, 0, &box) == BINTOLAGE_DONE && is_box(box, -7.5, -0.0, -7.5, -0.0));
    check("no such record", bintolage_read_box(&all, 4, &box) == BINTOLAGE_BAD_RECORD && is_beginning(box));
}

static int holds(const bintolage_state *state, uint8_t has, uint32_t feature)
{
    return bintolage_has_feature(state) == has && bintolage_feature(state) == feature;
}

/* The number that a writer holds, from a feature's first event that is taken to its next. */
static void check_held(uint32_t feature)
{
    const bintolage_event_record given = bintolage_xy(feature, 1, 2, 0), stray = bintolage_xy(feature + 1, 1, 2, 0);
    const bintolage_event_record two[] = {given, stray};
    bintolage_state state, before;
    size_t taken = 0;
    bintolage_start(&state, 0, 0, 0);
    check("no number at first", holds(&state, 0, 0));
    check("a malformed event", bintolage_give(&state, &all, bintolage_begin(feature, 0, 0, 0, 0)) == BINTOLAGE_MALFORMED);
    check("a refused event sets none", holds(&state, 0, 0));
    check("a first event", bintolage_give(&state, &all, given) == BINTOLAGE_DONE && holds(&state, 1, feature));
    before = state;
    check("an event of another feature", bintolage_give(&state, &all, stray) == BINTOLAGE_OTHER_FEATURE);
    check("which changes no state", memcmp(&state, &before, sizeof state) == 0);
    check("one behind others", bintolage_give_many(&state, &all, two, 2, &taken) == BINTOLAGE_OTHER_FEATURE && taken == 1);
    check("which leaves the number", holds(&state, 1, feature));
    check("a finish keeps it", bintolage_finish_feature(&state, &all) == BINTOLAGE_DONE && holds(&state, 1, feature));
    check("a next lets it go", bintolage_next_feature(&state, &all) == BINTOLAGE_DONE && holds(&state, 0, 0));
    check("another feature", bintolage_give(&state, &all, stray) == BINTOLAGE_DONE && holds(&state, 1, feature + 1));
    state.words[0] &= ~(8u << 24);
    check("without its mark no number is held", holds(&state, 0, 0));
}

/* A place read three times into one log, under three numbers, each behind the last. */
static void check_log(void)
{
    static const uint32_t features[] = {MOST, 0, FEATURE};
    const bintolage_event_record given[] = {
        bintolage_begin(1, BINTOLAGE_POINT, 0, 0, 0), bintolage_xy(1, -7.5, 3, 0), bintolage_end(1, BINTOLAGE_POINT, 0, 0)};
    bintolage_event_record log[9];
    bintolage_state state;
    uint32_t count = 0, used = 0;
    size_t taken = 0;
    bintolage_start(&state, BINTOLAGE_POINT, 0, 0);
    check("a place given", bintolage_give_many(&state, &all, given, 3, &taken) == BINTOLAGE_DONE);
    check("a place finished", bintolage_finish_feature(&state, &all) == BINTOLAGE_DONE);
    for (int i = 0; i < 3; i++) {
        const uint8_t answer = bintolage_read_feature(&all, BINTOLAGE_POINT, 0, features[i], log + used, 9 - used, &count);
        check("a place read behind others", answer == BINTOLAGE_DONE && count == 3);
        used += count;
    }
    for (int i = 0; i < 9; i++) {
        check("its number", bintolage_feature_of(&log[i]) == features[i / 3]);
        bintolage_put32(log[i].bytes + 12, 1);
        check("all else as it was given", memcmp(&log[i], &given[i % 3], sizeof log[i]) == 0);
    }
}

/* A point in both byte orders, and a byte behind it. */
static const uint8_t big[] = {
    0, 0, 0, 0, 1, 0xc0, 0, 0, 0, 0, 0, 0, 0, 0x7f, 0xf8, 0, 0, 0, 0xc0, 0xff, 0xee, 0};
static const uint8_t little[] = {
    1, 1, 0, 0, 0, 0, 0, 0, 0, 0, 0, 0, 0xc0, 0xee, 0xff, 0xc0, 0, 0, 0, 0xf8, 0x7f, 0};

/* Its events. */
#define POINT_RECORDS 3
static void put_point(bintolage_event_record *point)
{
    point[0] = bintolage_begin(FEATURE, BINTOLAGE_POINT, 0, 0, 0);
    point[1] = bintolage_xy(FEATURE, -2, unusual_double(0), 0);
    point[2] = bintolage_end(FEATURE, BINTOLAGE_POINT, 0, 0);
}

/* Whether a reading of the bytes answers so, and leaves so many of the point's events in a log of at most 4 records. */
static int is_point(const uint8_t *wkb, size_t bytes, size_t log_records, uint8_t answer, uint32_t wanted)
{
    bintolage_event_record point[POINT_RECORDS], log[4];
    uint32_t count = MOST;
    put_point(point);
    return bintolage_read_wkb_events(wkb, bytes, FEATURE, log, log_records, &count) == answer && count == wanted &&
           memcmp(log, point, wanted * sizeof *log) == 0;
}

static void check_wkb(void)
{
    static const uint8_t *const orders[] = {big, little};
    const size_t whole = sizeof big - 1;
    uint32_t count = MOST;
    for (size_t i = 0; i < COUNT_OF(orders); i++) {
        check("well-known binary", is_point(orders[i], whole, 4, BINTOLAGE_DONE, 3));
        check("a log of its length", is_point(orders[i], whole, 3, BINTOLAGE_DONE, 3));
        check("a log too short for it", is_point(orders[i], whole, 2, BINTOLAGE_LOG_FULL, 2));
        check("no log for it", bintolage_read_wkb_events(
            orders[i], whole, FEATURE, NULL, 3, &count) == BINTOLAGE_LOG_FULL && count == 0);
        check("a byte less", is_point(orders[i], whole - 1, 4, BINTOLAGE_WKB_CUT, 1));
        check("a byte more", is_point(orders[i], whole + 1, 4, BINTOLAGE_WKB_LEFT_OVER, 3));
    }
    check("no bytes", is_point(NULL, whole, 4, BINTOLAGE_WKB_CUT, 0));
    check("no bytes, and no log",
          bintolage_read_wkb_events(NULL, whole, FEATURE, NULL, 3, &count) == BINTOLAGE_WKB_CUT && count == 0);
}

/* Whether a writing of the events, with room for at most 24 bytes, answers so and leaves so many of the point's bytes, which
 * `written` says, and all else as it was. */
static int is_wkb(const bintolage_event_record *events, size_t count, size_t room, uint8_t answer, size_t wanted)
{
    uint8_t wkb[24], as_it_was[24];
    size_t written = MOST;
    memset(wkb, 0xa5, sizeof wkb);
    memset(as_it_was, 0xa5, sizeof as_it_was);
    return bintolage_write_wkb_events(events, count, wkb, room, &written) == answer && written == wanted &&
           memcmp(wkb, little, wanted) == 0 && memcmp(wkb + wanted, as_it_was, sizeof wkb - wanted) == 0;
}

/* The same point written, and what is none. */
static void check_wkb_written(void)
{
    bintolage_event_record point[POINT_RECORDS + 1];
    const size_t whole = sizeof little - 1;
    size_t written = MOST;
    put_point(point);
    point[POINT_RECORDS] = point[0];
    check("written", is_wkb(point, POINT_RECORDS, 24, BINTOLAGE_DONE, whole));
    check("room for its length", is_wkb(point, POINT_RECORDS, whole, BINTOLAGE_DONE, whole));
    check("room for a byte less", is_wkb(point, POINT_RECORDS, whole - 1, BINTOLAGE_NO_ROOM, 0));
    check("no room for it", bintolage_write_wkb_events(
        point, POINT_RECORDS, NULL, whole, &written) == BINTOLAGE_NO_ROOM && written == 0);
    check("an event less", is_wkb(point, POINT_RECORDS - 1, 24, BINTOLAGE_BADLY_NESTED, 0));
    check("an event more", is_wkb(point, POINT_RECORDS + 1, 24, BINTOLAGE_BADLY_NESTED, 0));
    check("none of the events that there are", is_wkb(point, 0, 24, BINTOLAGE_BADLY_NESTED, 0));
    check("no events", is_wkb(NULL, POINT_RECORDS, 24, BINTOLAGE_BADLY_NESTED, 0));
    written = MOST;
    check("no events, and no room",
          bintolage_write_wkb_events(NULL, POINT_RECORDS, NULL, whole, &written) == BINTOLAGE_BADLY_NESTED && written == 0);
    point[1].bytes[3] = 1;
    check("a bad record", is_wkb(point, POINT_RECORDS, 24, BINTOLAGE_MALFORMED, 0));
    check("a bad record behind an event less", is_wkb(point + 1, POINT_RECORDS - 1, 24, BINTOLAGE_MALFORMED, 0));
}

/* The events of a collection in a collection, and so on, as the layer's records: of 16 levels, and of one more. */
static void check_wkb_levels(void)
{
    bintolage_event_record nest[2 * (BINTOLAGE_LEVELS + 1)];
    uint8_t wkb[9 * (BINTOLAGE_LEVELS + 1)];
    size_t written;
    for (uint32_t levels = BINTOLAGE_LEVELS; levels <= BINTOLAGE_LEVELS + 1; levels++) {
        const int fits = levels == BINTOLAGE_LEVELS;
        for (uint32_t i = 0; i < levels; i++) {
            nest[i] = bintolage_begin(FEATURE, BINTOLAGE_GEOMETRY_COLLECTION, 0, i + 1 < levels, 0);
            nest[levels + i] = bintolage_end(FEATURE, BINTOLAGE_GEOMETRY_COLLECTION, 0, 0);
        }
        check("levels", bintolage_write_wkb_events(nest, 2 * levels, wkb, sizeof wkb, &written) ==
                            (fits ? BINTOLAGE_DONE : BINTOLAGE_TOO_DEEP) && written == (fits ? 9 * levels : 0));
    }
}

/* One level more than there may be. */
#define LINKS (BINTOLAGE_LEVELS + 1)

/* Records one below the other. Record i has the numbers i and i + 1 for its pair. */
static void put_chain(uint8_t *records)
{
    for (uint32_t i = 0; i < LINKS; i++) {
        uint8_t *record = records + i * BINTOLAGE_GEOMETRY_BYTES;
        record[1] = 1 | 64;
        bintolage_put32(record + 4, i);
        bintolage_put32(record + 8, 2);
        bintolage_put32(record + 52, i + 1);
        bintolage_put32(record + 56, i + 1 < LINKS);
    }
    for (int i = 0; i <= LINKS; i++) {
        xy[i] = bintolage_bits_of(i);
    }
}

/* The levels that a box goes down, and the box that comes with a refusal on the way. */
static void check_boxes(void)
{
    uint8_t chain[LINKS * BINTOLAGE_GEOMETRY_BYTES] = {0};
    bintolage_memory lent = all;
    bintolage_edges box;
    lent.table = chain;
    lent.table_bytes = sizeof chain;
    put_chain(chain);
    check("16 levels", bintolage_read_box(&lent, 1, &box) == BINTOLAGE_DONE && is_box(box, 1, 2, 16, 17));
    check("17 levels", bintolage_read_box(&lent, 0, &box) == BINTOLAGE_TOO_DEEP && is_beginning(box));
    chain[sizeof chain - 1] = 1;
    check("a bad part", bintolage_read_box(&lent, 1, &box) == BINTOLAGE_BAD_RECORD && is_beginning(box));
    check("too deep before bad", bintolage_read_box(&lent, 0, &box) == BINTOLAGE_TOO_DEEP && is_beginning(box));
}

static const uint8_t widths[] = {1, 1, 1, 2, 2, 4, 4, 8, 8, 4, 8};
static const uint8_t columns[] = {0, 1, 2, 3, 4, 5, 6, 7, 8, 9, 10, 11, 12, 13, 14};

/* All bits that a number of the type has. */
static uint64_t most_of(uint8_t type)
{
    return type == BINTOLAGE_COLUMN_BOOL ? 1 : UINT64_MAX >> (64 - 8 * widths[type]);
}

static int is_most(bintolage_value_fields v)
{
    return v.length == widths[v.column_type] && v.word == most_of(v.column_type);
}

static int is_text(bintolage_value_fields v, const char *text)
{
    return v.length == strlen(text) && v.word + v.length <= sizeof properties && !memcmp(properties + v.word, text, v.length);
}

/* A value of each type, in the column of its number. */
static void check_values(void)
{
    bintolage_value_record log[15];
    bintolage_state state;
    uint32_t count = 0;
    bintolage_start(&state, 0, 0, 0);
    for (uint8_t type = 0; type < 11; type++) {
        check("a number given", bintolage_give_number(&state, &all, type, type, most_of(type)) == BINTOLAGE_DONE);
    }
    for (uint8_t type = 11; type < 15; type++) {
        check("a text given", bintolage_give_text(&state, &all, type, type, "mål", 4, NULL) == BINTOLAGE_DONE);
    }
    check("values read", bintolage_read_values(&state, &all, columns, 15, log, 15, &count, NULL) == BINTOLAGE_DONE);
    check("as many as were given", count == 15);
    for (uint8_t type = 0; type < 15; type++) {
        const bintolage_value_fields v = bintolage_value_of(&log[type]);
        check("its column and type", v.column == type && v.column_type == type);
        check("its value", type < 11 ? is_most(v) : is_text(v, "mål"));
    }
}

/* A number is no text, a text no number, and where another refusal is due before, that is given. */
static void check_types(void)
{
    for (int type = 0; type < 256; type++) {
        bintolage_state state;
        bintolage_start(&state, 0, 0, 0);
        const uint8_t number = bintolage_give_number(&state, &all, 0, (uint8_t)type, 0);
        const uint8_t text = bintolage_give_text(&state, &all, 0, (uint8_t)type, "", 0, NULL);
        check("a number's type", number == (type < 11 ? BINTOLAGE_DONE : BINTOLAGE_MALFORMED));
        check("a text's type", text == (type > 10 && type < 15 ? BINTOLAGE_DONE : BINTOLAGE_MALFORMED));
        check("a number's column", bintolage_give_number(&state, &all, 65536, (uint8_t)type, 0) == BINTOLAGE_COLUMN_TOO_LARGE);
        check("a text's column",
              bintolage_give_text(&state, &all, 65536, (uint8_t)type, "", 0, NULL) == BINTOLAGE_COLUMN_TOO_LARGE);
    }
}

/* A text, what a call is to answer to it, and where it went bad. */
typedef struct text_case {
    const char *bytes;
    size_t length;
    uint8_t answer;
    size_t place;
} text_case;

static const text_case good = {"mål", 4, BINTOLAGE_DONE, 0};
static const text_case typed = {"H. Schr\xe4" "der", 11, BINTOLAGE_NOT_UTF8, 7};
static const text_case others[] = {
    {"", 0, BINTOLAGE_DONE, 0},
    {"\xe5l", 2, BINTOLAGE_NOT_UTF8, 0},
    {"mål\xa5\xff", 6, BINTOLAGE_NOT_UTF8, 4},
    {"12 \xe2\x82/m", 7, BINTOLAGE_NOT_UTF8, 3}, /* a character that is broken is placed at its first byte, */
    {"12 \xe2\x82", 5, BINTOLAGE_NOT_UTF8, 3},   /* and so is one that is cut */
};

/* The same text where another answer is due, with which there is no place. */
static text_case but(text_case text, uint8_t answer)
{
    text.answer = answer;
    text.place = 0;
    return text;
}

/* What stands in a place before a call, and is no text's. */
#define UNWRITTEN SIZE_MAX

/* Whether a writer in this state answers so to the text, and writes the place. */
static int is_given(bintolage_state state, const bintolage_memory *memory, uint32_t column, uint8_t type, text_case text)
{
    size_t place = UNWRITTEN;
    const uint8_t answer = bintolage_give_text(&state, memory, column, type, text.bytes, text.length, &place);
    return answer == text.answer && place == text.place;
}

static void check_given(text_case text)
{
    bintolage_state state;
    bintolage_start(&state, 0, 0, 0);
    check("where a String went bad", is_given(state, &all, 0, BINTOLAGE_COLUMN_STRING, text));
    check("where a Json went bad", is_given(state, &all, 0, BINTOLAGE_COLUMN_JSON, text));
    check("where a DateTime went bad", is_given(state, &all, 0, BINTOLAGE_COLUMN_DATE_TIME, text));
    check("a Binary never does", is_given(state, &all, 0, BINTOLAGE_COLUMN_BINARY, but(text, BINTOLAGE_DONE)));
    check("a place that is not wanted", bintolage_give_text(
        &state, &all, 0, BINTOLAGE_COLUMN_STRING, text.bytes, text.length, NULL) == text.answer);
}

/* With another refusal there is no place. There is room for one byte less than the good text needs. */
static void check_given_otherwise(void)
{
    const bintolage_memory narrow = without(1 << 7, 0, 9);
    const uint8_t string = BINTOLAGE_COLUMN_STRING;
    bintolage_state state, waiting;
    bintolage_start(&state, 0, 0, 0);
    waiting = state;
    check("a feature that waits", bintolage_finish_feature(&waiting, &all) == BINTOLAGE_DONE);
    check("no place with 15", is_given(waiting, &all, 0, string, but(typed, BINTOLAGE_NOT_ITS_TURN)));
    check("no place with 16", is_given(state, &all, 65536, string, but(typed, BINTOLAGE_COLUMN_TOO_LARGE)));
    check("no place with 11", is_given(state, &all, 0, BINTOLAGE_COLUMN_INT, but(typed, BINTOLAGE_MALFORMED)));
    check("no place with 12", is_given(state, &narrow, 0, string, but(good, BINTOLAGE_NO_ROOM)));
    check("6 before 12", is_given(state, &narrow, 0, string, typed));
}

/* A text that no property buffer has room for is searched to its end. */
static void check_given_far(void)
{
    static char bytes[BINTOLAGE_PROPERTY_BYTES + 9];
    static const size_t places[] = {0, 255, 65535, 65536, sizeof bytes - 1};
    text_case text = {bytes, sizeof bytes, BINTOLAGE_NOT_UTF8, 0};
    bintolage_state state;
    bintolage_start(&state, 0, 0, 0);
    memset(bytes, 'a', sizeof bytes);
    check("a text too long", is_given(state, &all, 0, BINTOLAGE_COLUMN_STRING, but(text, BINTOLAGE_NO_ROOM)));
    for (size_t i = 0; i < COUNT_OF(places); i++) {
        text.place = places[i];
        bytes[text.place] = '\xe4';
        check("where it went bad", is_given(state, &all, 0, BINTOLAGE_COLUMN_STRING, text));
        bytes[text.place] = 'a';
    }
}

/* A number, and the text behind it: as Binary, which any bytes are. */
static bintolage_state holding(text_case text)
{
    const uint8_t binary = BINTOLAGE_COLUMN_BINARY;
    bintolage_state state;
    bintolage_start(&state, 0, 0, 0);
    check("a number before", bintolage_give_number(&state, &all, 0, BINTOLAGE_COLUMN_UINT, MOST) == BINTOLAGE_DONE);
    check("any bytes", bintolage_give_text(&state, &all, 1, binary, text.bytes, text.length, NULL) == BINTOLAGE_DONE);
    return state;
}

/* Whether a reading that has the text as a String answers so, and writes the place. A refusal stands at the text. */
static int is_read(bintolage_state state, size_t columns_count, size_t log_records, text_case text)
{
    static const uint8_t types[] = {BINTOLAGE_COLUMN_UINT, BINTOLAGE_COLUMN_STRING};
    bintolage_value_record log[2];
    uint32_t count = MOST;
    size_t place = UNWRITTEN;
    const uint8_t answer = bintolage_read_values(&state, &all, types, columns_count, log, log_records, &count, &place);
    return answer == text.answer && place == text.place && count == (answer == BINTOLAGE_DONE ? 2u : 1u);
}

static void check_read_otherwise(void)
{
    bintolage_state state = holding(typed);
    check("6 before 9", is_read(state, 2, 1, typed));
    check("no place with 2", is_read(state, 1, 2, but(typed, BINTOLAGE_COLUMN_UNKNOWN)));
    state.words[2]--;
    check("no place with 14", is_read(state, 2, 2, but(typed, BINTOLAGE_VALUE_CUT)));
    check("no place with 9", is_read(holding(good), 2, 1, but(good, BINTOLAGE_LOG_FULL)));
}

static void check_place(text_case text)
{
    check_given(text);
    check("where a text that is read went bad", is_read(holding(text), 2, 2, text));
}

static void check_places(void)
{
    check_place(good);
    check_place(typed);
    for (size_t i = 0; i < COUNT_OF(others); i++) {
        check_place(others[i]);
    }
    check_given_otherwise();
    check_given_far();
    check_read_otherwise();
}

/* The columns of a row of properties, by their numbers: those of the texts come last. */
enum { NUMBER, BINARY, NO_VALUE, NO_VALUE_EITHER, STRING, JSON, DATE_TIME, KINDS };

static const uint8_t row_types[KINDS] = {
    BINTOLAGE_COLUMN_USHORT, BINTOLAGE_COLUMN_BINARY, BINTOLAGE_COLUMN_BINARY + 1, 255,
    BINTOLAGE_COLUMN_STRING, BINTOLAGE_COLUMN_JSON, BINTOLAGE_COLUMN_DATE_TIME};

/* A value of two bytes in each column that has one: a Binary is no UTF-8, and is good. */
static const char *const row_values[KINDS] = {"\xff\xff", "\xff\xe4", "", "", "å", "{}", "\xc2\xb5"};

/* Property bytes, and how many values they have. There is room for a few properties. */
typedef struct property_row {
    uint8_t bytes[64];
    size_t length;
    uint32_t values;
} property_row;

static void put_bytes(property_row *row, const void *bytes, size_t count)
{
    memcpy(row->bytes + row->length, bytes, count);
    row->length += count;
}

static void put_property(property_row *row, uint8_t column, const char *value, size_t length)
{
    const uint8_t type = row_types[column], number[] = {column, 0};
    uint8_t said[4];
    put_bytes(row, number, sizeof number);
    if (type >= BINTOLAGE_COLUMN_STRING && type <= BINTOLAGE_COLUMN_BINARY) {
        bintolage_put32(said, (uint32_t)length);
        put_bytes(row, said, sizeof said);
    }
    put_bytes(row, value, length);
    row->values += type <= BINTOLAGE_COLUMN_BINARY;
}

static void put_good(property_row *row, uint8_t column)
{
    put_property(row, column, row_values[column], strlen(row_values[column]));
}

/* More than a row has values: zeros stand behind them. */
#define ROW_RECORDS 8

/* A row of properties with a text that is refused, and what its reading wrote. */
typedef struct refused_row {
    property_row row;
    size_t start, end; /* of the text's own bytes */
    uint8_t column;
    bintolage_value_record log[ROW_RECORDS];
    uint32_t count;
} refused_row;

/* The text that went bad behind the row, with a number behind it, is read. */
static refused_row read_behind(property_row row, uint8_t column)
{
    refused_row refused;
    uint8_t stopped;
    size_t place;
    const uint32_t values = row.values;
    memset(&refused, 0, sizeof refused);
    put_property(&row, column, typed.bytes, typed.length);
    refused.end = row.length;
    refused.start = row.length - typed.length;
    put_good(&row, NUMBER);
    refused.row = row;
    refused.column = column;
    check("a text refused behind others", bintolage_read_properties(
        row.bytes, row.length, 1, row_types, KINDS, BINTOLAGE_NO_STOP, (uint8_t *)refused.log, sizeof refused.log,
        &refused.count, &stopped, &place) == BINTOLAGE_NOT_UTF8);
    check("its place, and the values before it", place == typed.place && refused.count == values);
    return refused;
}

static int is_no_text(bintolage_text text, const uint8_t *bytes)
{
    return text.column == 0 && text.column_type == 0 && text.bytes == bytes && text.length == 0;
}

static int is_refused(bintolage_text text, const uint8_t *bytes, const refused_row *refused)
{
    return text.column == refused->column && text.column_type == row_types[refused->column] &&
           text.bytes == bytes + refused->start && text.length == typed.length &&
           memcmp(text.bytes, typed.bytes, typed.length) == 0;
}

static int is_within(bintolage_text text, const uint8_t *bytes, size_t count)
{
    return text.bytes >= bytes && text.length <= count && (size_t)(text.bytes - bytes) <= count - text.length;
}

/* The bytes at the end of memory of their own, behind which valgrind and the sanitizers see a reading. A byte stands before
 * them, since there may be none. */
static uint8_t *copy_of(const uint8_t *bytes, size_t count)
{
    uint8_t *memory = (uint8_t *)malloc(1 + count);
    if (!memory) {
        exit(1);
    }
    memcpy(memory + 1, bytes, count);
    return memory + 1;
}

static void drop_copy(uint8_t *copy)
{
    free(copy - 1);
}

/* The bytes end early: the text is found where it is whole. With any count it lies within the bytes. */
static void check_cut(const refused_row *refused, size_t length)
{
    uint8_t *bytes = copy_of(refused->row.bytes, length);
    bintolage_text text = bintolage_refused_text(bytes, length, row_types, KINDS, refused->log, refused->count);
    check("a text in bytes that are cut",
          length < refused->end ? is_no_text(text, bytes) : is_refused(text, bytes, refused));
    for (uint32_t count = 0; count <= ROW_RECORDS; count++) {
        text = bintolage_refused_text(bytes, length, row_types, KINDS, refused->log, count);
        check("a text with a senseless count", is_within(text, bytes, length));
    }
    drop_copy(bytes);
}

/* The columns end early: the text is found where its own is there, which is a later one than those that have no value. */
static void check_few_columns(const refused_row *refused, size_t count)
{
    const uint8_t *bytes = refused->row.bytes;
    uint8_t *types = copy_of(row_types, count);
    const bintolage_text text = bintolage_refused_text(
        bytes, refused->row.length, types, count, refused->log, refused->count);
    check("a text with few columns", count > refused->column ? is_refused(text, bytes, refused) : is_no_text(text, bytes));
    drop_copy(types);
}

/* Records that say values longer than the bytes lead to no text. */
static void check_senseless_log(const refused_row *refused)
{
    const property_row *row = &refused->row;
    bintolage_value_record log[ROW_RECORDS];
    for (int byte = 1; byte < 256; byte++) {
        memset(log, byte, sizeof log);
        check("a text with a senseless log", is_no_text(
            bintolage_refused_text(row->bytes, row->length, row_types, KINDS, log, ROW_RECORDS), row->bytes));
    }
}

static void check_refused(const refused_row *refused)
{
    const property_row *row = &refused->row;
    check("the text that was refused", is_refused(
        bintolage_refused_text(row->bytes, row->length, row_types, KINDS, refused->log, refused->count),
        row->bytes, refused));
    for (size_t length = 0; length <= row->length; length++) {
        check_cut(refused, length);
    }
    for (size_t count = 0; count <= KINDS; count++) {
        check_few_columns(refused, count);
    }
    check_senseless_log(refused);
}

/* What is null lends nothing, whatever its count says. */
static void check_refused_nulls(void)
{
    const property_row empty = {{0}, 0, 0};
    const refused_row refused = read_behind(empty, STRING);
    const uint8_t *bytes = refused.row.bytes;
    const size_t length = refused.row.length;
    check("a text in no bytes", is_no_text(bintolage_refused_text(NULL, 99, row_types, KINDS, refused.log, 1), NULL));
    check("a text without columns", is_no_text(bintolage_refused_text(bytes, length, NULL, 99, refused.log, 0), bytes));
    check("a text behind no log", is_refused(
        bintolage_refused_text(bytes, length, row_types, KINDS, NULL, 99), bytes, &refused));
}

/* A text of one letter, in a column of every type: a String, a Json or a DateTime is found, and no other. */
static void check_refused_types(void)
{
    static const uint8_t bytes[] = {0, 0, 1, 0, 0, 0, 'a'};
    for (int type = 0; type < 256; type++) {
        const uint8_t types[] = {(uint8_t)type};
        const bintolage_text text = bintolage_refused_text(bytes, sizeof bytes, types, COUNT_OF(types), NULL, 0);
        const int is_letter = text.length == 1 && text.bytes == &bytes[sizeof bytes - 1] && text.column_type == type;
        check("a refused text's type", type > 10 && type < 14 ? is_letter : is_no_text(text, bytes));
    }
}

/* A text of each type, first and behind every two properties; the kind past the last puts none. */
static void check_refused_texts(void)
{
    for (int kinds = 0; kinds < (KINDS + 1) * (KINDS + 1); kinds++) {
        property_row row = {{0}, 0, 0};
        const int order[] = {kinds / (KINDS + 1), kinds % (KINDS + 1)};
        for (size_t i = 0; i < COUNT_OF(order); i++) {
            if (order[i] < KINDS) {
                put_good(&row, (uint8_t)order[i]);
            }
        }
        for (uint8_t column = STRING; column <= DATE_TIME; column++) {
            const refused_row refused = read_behind(row, column);
            check_refused(&refused);
        }
    }
    check_refused_nulls();
    check_refused_types();
}

static void check_value_bytes(void)
{
    static const bintolage_value_record record = {{0xfe, 0xff, 14, 0, 1, 2, 3, 0xff, 1, 2, 3, 4, 5, 6, 7, 0xff}};
    const bintolage_value_fields v = bintolage_value_of(&record);
    check("a value's column", v.column == 65534 && v.column_type == 14);
    check("a value's length and word", v.length == 0xff030201 && v.word == 0xff07060504030201);
}

static void check_words(void)
{
    static const char unknown[] = "a number that no call answers";
    for (int number = 0; number < 256; number++) {
        const char *words = bintolage_refusal((uint8_t)number);
        check("words", words[0] != 0 && (strcmp(words, unknown) == 0) == (number > 21));
        for (int other = 0; other < number && number < 22; other++) {
            check("words of its own", strcmp(words, bintolage_refusal((uint8_t)other)) != 0);
        }
    }
    check("done", strcmp(bintolage_refusal(BINTOLAGE_DONE), "done") == 0);
}

int main(void)
{
    check_numbers();
    check_frames();
    check_pairs();
    check_coordinates();
    check_bytes();
    check_nulls();
    check_answers();
    check_reading();
    check_held(0);
    check_held(FEATURE);
    check_held(MOST);
    check_log();
    check_wkb();
    check_wkb_written();
    check_wkb_levels();
    check_boxes();
    check_values();
    check_types();
    check_places();
    check_refused_texts();
    check_value_bytes();
    check_words();
    printf("layer: %u checks, %u failed\n", checks, failures);
    return failures != 0;
}
