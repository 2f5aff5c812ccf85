/* A polygon from a county map, a field with a well in it, becomes a feature and its tree, and well-known binary again: its
 * bytes are read to events, the writer takes them as they are, the tree reads back as the same events, and these are written
 * as the bytes that came. Bytes that were cut on their way are refused, and so are the events before the cut. */
#include "bintolage.h"

#include <inttypes.h>
#include <stdio.h>
#include <stdlib.h>
#include <string.h>

#define LOG_RECORDS 32

/* The county's own number for the field. */
#define FIELD 1204u

/* Laid down by hand from the layout in OGC Simple Features 1.2.1, 8.2; metres from the corner of the map's sheet. */
static const uint8_t wkb[] = {
    1,                      /* order mark: the lowest byte first */
    3, 0, 0, 0,             /* type: Polygon */
    2, 0, 0, 0,             /* rings */
    5, 0, 0, 0,             /* pairs of the field's edge */
    0, 0, 0, 0, 0, 0, 0, 0,            0, 0, 0, 0, 0, 0, 0, 0,            /* 0 0 */
    0, 0, 0, 0, 0, 0, 0x79, 0x40,      0, 0, 0, 0, 0, 0, 0, 0,            /* 400 0 */
    0, 0, 0, 0, 0, 0, 0x79, 0x40,      0, 0, 0, 0, 0, 0x40, 0x6f, 0x40,   /* 400 250 */
    0, 0, 0, 0, 0, 0, 0, 0,            0, 0, 0, 0, 0, 0x40, 0x6f, 0x40,   /* 0 250 */
    0, 0, 0, 0, 0, 0, 0, 0,            0, 0, 0, 0, 0, 0, 0, 0,            /* 0 0 */
    4, 0, 0, 0,             /* pairs of the ring around the well */
    0, 0, 0, 0, 0, 0, 0x69, 0x40,      0, 0, 0, 0, 0, 0xc0, 0x62, 0x40,   /* 200 150 */
    0, 0, 0, 0, 0, 0x40, 0x6a, 0x40,   0, 0, 0, 0, 0, 0, 0x64, 0x40,      /* 210 160 */
    0, 0, 0, 0, 0, 0xc0, 0x67, 0x40,   0, 0, 0, 0, 0, 0, 0x64, 0x40,      /* 190 160 */
    0, 0, 0, 0, 0, 0, 0x69, 0x40,      0, 0, 0, 0, 0, 0xc0, 0x62, 0x40,   /* 200 150 */
};

/* Where a bad line broke off, within the first pair around the well. */
#define CUT_BYTES 100

static uint8_t handed_back[sizeof wkb];
static bintolage_state state;
static uint8_t table[BINTOLAGE_GEOMETRY_BYTES];
static uint64_t xy[18];
static uint32_t ends[2];
static bintolage_event_record given[LOG_RECORDS], read_back[LOG_RECORDS];

static const bintolage_memory memory = {
    .table = table, .table_bytes = sizeof table,
    .xy = xy, .xy_words = 18,
    .ends = ends, .ends_words = 2,
};

static void must(const char *call, uint8_t answer)
{
    if (answer != BINTOLAGE_DONE) {
        printf("%s: refused with %d, %s\n", call, answer, bintolage_refusal(answer));
        exit(1);
    }
}

/* What came before the cut is in the log, and is no feature; handed back as it is, it would be another field. */
static void read_cut(void)
{
    uint32_t count;
    size_t written;
    uint8_t answer = bintolage_read_wkb_events(wkb, CUT_BYTES, FIELD, given, LOG_RECORDS, &count);
    printf("cut to %d bytes: refused with %d, %s; %" PRIu32 " events came before\n", CUT_BYTES, answer,
           bintolage_refusal(answer), count);
    answer = bintolage_write_wkb_events(given, count, handed_back, sizeof handed_back, &written);
    printf("these events as well-known binary: refused with %d, %s\n", answer, bintolage_refusal(answer));
}

/* The feature of the polygon, finished; says of how many events. */
static uint32_t write_field(void)
{
    uint32_t count;
    size_t taken;
    must("read_wkb", bintolage_read_wkb_events(wkb, sizeof wkb, FIELD, given, LOG_RECORDS, &count));
    printf("%zu bytes: %" PRIu32 " events of feature %u\n", sizeof wkb, count, FIELD);
    bintolage_start(&state, BINTOLAGE_POLYGON, 0, 0);
    must("give", bintolage_give_many(&state, &memory, given, count, &taken));
    must("finish", bintolage_finish_feature(&state, &memory));
    return count;
}

static void print_event(bintolage_event_fields e)
{
    switch (e.kind) {
    case BINTOLAGE_POLYGON: printf("polygon of %" PRIu32 " rings\n", e.size); break;
    case BINTOLAGE_LINE_STRING: printf("  ring %" PRIu32 ", %" PRIu32 " pairs\n", e.idx, e.size); break;
    case BINTOLAGE_XY: printf("    %.1f %.1f\n", e.x, e.y); break;
    }
}

/* The tree's events, beside those that came of the well-known binary; says how many. */
static uint32_t read_field(uint32_t wanted)
{
    uint32_t count;
    must("read", bintolage_read_feature(&memory, BINTOLAGE_POLYGON, 0, FIELD, read_back, LOG_RECORDS, &count));
    for (uint32_t i = 0; i < count; i++) {
        print_event(bintolage_event_of(&read_back[i]));
    }
    if (count != wanted || memcmp(read_back, given, count * sizeof *given) != 0) {
        printf("the tree has other events\n");
        exit(1);
    }
    printf("the tree has the same %" PRIu32 " events\n", count);
    return count;
}

/* The tree's events as well-known binary, beside the bytes that came: all their order marks are 1. */
static void hand_back(uint32_t count)
{
    size_t written;
    must("write_wkb", bintolage_write_wkb_events(read_back, count, handed_back, sizeof handed_back, &written));
    if (written != sizeof wkb || memcmp(handed_back, wkb, sizeof wkb) != 0) {
        printf("other bytes go back to the county\n");
        exit(1);
    }
    printf("the same %zu bytes go back to the county\n", written);
}

int main(void)
{
    read_cut();
    hand_back(read_field(write_field()));
    return 0;
}
