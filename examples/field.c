/* A field edge with two keep-out rings, and what the crew has to know; then a field in two blocks. Each is written, read back
 * and printed, with the box around it. A name that is not UTF-8 is refused, whether it was sent or typed, and the dealer is
 * told where it went bad. */
#include "bintolage.h"

#include <stdio.h>
#include <stdlib.h>
#include <string.h>

/* A small terminal's memory; z, m, t and tm are not used. */
static bintolage_state state;
static uint8_t table[8 * BINTOLAGE_GEOMETRY_BYTES];
static uint64_t xy[128];
static uint32_t ends[64];
static uint8_t properties[256];
static bintolage_event_record events[64];
static bintolage_value_record values[8];

static const bintolage_memory memory = {
    .table = table, .table_bytes = sizeof table,
    .xy = xy, .xy_words = 128,
    .ends = ends, .ends_words = 64,
    .properties = properties, .properties_bytes = sizeof properties,
};

/* The numbers of the two features. */
#define FIELD 1
#define BLOCKS 2

/* The columns, by their numbers. */
enum { DEPTH, SLOPE, CREW };

static const uint8_t columns[] = {BINTOLAGE_COLUMN_DOUBLE, BINTOLAGE_COLUMN_USHORT, BINTOLAGE_COLUMN_STRING};
static const char *const names[] = {"depth", "slope", "crew"};
static const char crew[] = "Jensen, Søren";

/* Another of the crew, typed on an old keypad, which writes Latin-1. */
static const char typed[] = "H. Schr\xe4" "der";

/* Properties as an office sends them that has the name from such a keypad. */
static const uint8_t sent[] = {
    SLOPE, 0, 3, 0,
    CREW, 0, 11, 0, 0, 0, 'H', '.', ' ', 'S', 'c', 'h', 'r', 0xe4, 'd', 'e', 'r',
};

static const double edge[][2] = {{0, 0}, {400, 0}, {400, 250}, {0, 250}, {0, 0}};
static const double main_pipe[][2] = {{50, 40}, {50, 60}, {350, 60}, {350, 40}, {50, 40}};
static const double well[][2] = {{200, 150}, {210, 160}, {190, 160}, {200, 150}};
static const double west[][2] = {{450, 20}, {600, 20}, {600, 310}, {450, 20}};
static const double east[][2] = {{620, -40}, {780, -40}, {780, 200}, {620, -40}};

static void must(const char *call, uint8_t answer)
{
    if (answer != BINTOLAGE_DONE) {
        printf("%s: refused with %d, %s\n", call, answer, bintolage_refusal(answer));
        exit(1);
    }
}

static void give(bintolage_event_record event)
{
    must("give", bintolage_give(&state, &memory, event));
}

static void give_ring(uint32_t feature, uint32_t idx, const double pairs[][2], uint32_t count)
{
    give(bintolage_begin(feature, BINTOLAGE_LINE_STRING, 0, count, idx));
    for (uint32_t i = 0; i < count; i++) {
        give(bintolage_xy(feature, pairs[i][0], pairs[i][1], i));
    }
    give(bintolage_end(feature, BINTOLAGE_LINE_STRING, 0, idx));
}

static void give_field(void)
{
    give(bintolage_begin(FIELD, BINTOLAGE_POLYGON, 1, 3, 0));
    give_ring(FIELD, 0, edge, 5);
    give_ring(FIELD, 1, main_pipe, 5);
    give_ring(FIELD, 2, well, 4);
    give(bintolage_end(FIELD, BINTOLAGE_POLYGON, 1, 0));
}

static void give_block(uint32_t idx, const double pairs[][2], uint32_t count)
{
    give(bintolage_begin(BLOCKS, BINTOLAGE_POLYGON, 0, 1, idx));
    give_ring(BLOCKS, 0, pairs, count);
    give(bintolage_end(BLOCKS, BINTOLAGE_POLYGON, 0, idx));
}

static void give_blocks(void)
{
    give(bintolage_begin(BLOCKS, BINTOLAGE_MULTI_POLYGON, 0, 2, 0));
    give_block(0, west, 4);
    give_block(1, east, 4);
    give(bintolage_end(BLOCKS, BINTOLAGE_MULTI_POLYGON, 0, 0));
}

static void print_bad_text(const char *origin, uint16_t column, const uint8_t *text, size_t place)
{
    printf("%s, %s: not UTF-8 at byte %zu (0x%02x)\n", origin, names[column], place, text[place]);
}

/* A reading says the place alone; the text is found behind the values that came before it. */
static void read_sent(void)
{
    uint32_t count;
    uint8_t stopped;
    size_t place;
    const uint8_t answer = bintolage_read_properties(
        sent, sizeof sent, 1, columns, sizeof columns, BINTOLAGE_NO_STOP, (uint8_t *)values, sizeof values,
        &count, &stopped, &place);
    if (answer == BINTOLAGE_NOT_UTF8) {
        const bintolage_text text = bintolage_refused_text(sent, sizeof sent, columns, sizeof columns, values, count);
        print_bad_text("sent", text.column, text.bytes, place);
    } else {
        must("sent", answer);
    }
}

/* A name that is not UTF-8 is refused, and the feature goes on as though it had not come. */
static void give_crew(const char *name)
{
    size_t place;
    const uint8_t answer = bintolage_give_text(&state, &memory, CREW, columns[CREW], name, strlen(name), &place);
    if (answer == BINTOLAGE_NOT_UTF8) {
        print_bad_text("typed", CREW, (const uint8_t *)name, place);
    } else {
        must(names[CREW], answer);
    }
}

static void give_properties(void)
{
    must(names[DEPTH], bintolage_give_number(&state, &memory, DEPTH, columns[DEPTH], bintolage_bits_of(1.15)));
    must(names[SLOPE], bintolage_give_number(&state, &memory, SLOPE, columns[SLOPE], 3));
    give_crew(typed);
    give_crew(crew);
}

static void print_event(bintolage_event_fields e)
{
    switch (e.kind) {
    case BINTOLAGE_MULTI_POLYGON: printf("field of %u blocks\n", e.size); break;
    case BINTOLAGE_POLYGON: printf("polygon of %u ring%s\n", e.size, e.size == 1 ? "" : "s"); break;
    case BINTOLAGE_LINE_STRING: printf("  ring %u, %u pairs\n", e.idx, e.size); break;
    case BINTOLAGE_XY: printf("    %.1f %.1f\n", e.x, e.y); break;
    case BINTOLAGE_LINE_STRING + BINTOLAGE_END: printf("  end of ring %u\n", e.idx); break;
    case BINTOLAGE_POLYGON + BINTOLAGE_END: printf("end of polygon\n"); break;
    case BINTOLAGE_MULTI_POLYGON + BINTOLAGE_END: printf("end of field\n"); break;
    }
}

/* The box of record 0 is around the whole feature, also where all its pairs are in its parts. */
static void print_feature(uint32_t feature)
{
    uint32_t count;
    bintolage_edges box;
    must("read", bintolage_read_feature(&memory, BINTOLAGE_UNKNOWN, 0, feature, events, 64, &count));
    for (uint32_t i = 0; i < count; i++) {
        print_event(bintolage_event_of(&events[i]));
    }
    must("box", bintolage_read_box(&memory, 0, &box));
    printf("box %.1f %.1f to %.1f %.1f\n", box.least_x, box.least_y, box.greatest_x, box.greatest_y);
}

static void print_value(bintolage_value_fields v)
{
    printf("%s: ", names[v.column]);
    switch (v.column_type) {
    case BINTOLAGE_COLUMN_DOUBLE: printf("%.2f\n", bintolage_double_of(v.word)); break;
    case BINTOLAGE_COLUMN_STRING: printf("%.*s\n", (int)v.length, (const char *)properties + v.word); break;
    default: printf("%u\n", (unsigned)v.word);
    }
}

static void print_properties(void)
{
    uint32_t count;
    must("values", bintolage_read_values(&state, &memory, columns, sizeof columns, values, 8, &count, NULL));
    for (uint32_t i = 0; i < count; i++) {
        print_value(bintolage_value_of(&values[i]));
    }
}

int main(void)
{
    read_sent();
    bintolage_start(&state, BINTOLAGE_UNKNOWN, 0, 0);
    give_field();
    give_properties();
    must("finish", bintolage_finish_feature(&state, &memory));
    print_feature(FIELD);
    print_properties();
    must("next", bintolage_next_feature(&state, &memory));
    give_blocks();
    must("finish", bintolage_finish_feature(&state, &memory));
    print_feature(BLOCKS);
    must("next", bintolage_next_feature(&state, &memory));
    return 0;
}
