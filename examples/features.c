/* Three features in one log: a field's edge, a pipe run and a well, each read into what is left of the log under its number.
 * Then each is found again by that number, in another order. An event that has strayed from one feature into another is
 * refused. */
#include "bintolage.h"

#include <inttypes.h>
#include <stdio.h>
#include <stdlib.h>

#define LOG_RECORDS 32

/* The crew's own numbers for the features; any will do. */
#define EDGE 1204u
#define PIPE_RUN 0u
#define WELL 4294967295u

static bintolage_state state;
static uint8_t table[BINTOLAGE_GEOMETRY_BYTES];
static uint64_t xy[16];
static uint32_t ends[1];
static bintolage_event_record records[LOG_RECORDS];
static uint32_t used;

static const bintolage_memory memory = {
    .table = table, .table_bytes = sizeof table,
    .xy = xy, .xy_words = 16,
    .ends = ends, .ends_words = 1,
};

static const double edge[][2] = {{0, 0}, {400, 0}, {400, 250}, {0, 250}, {0, 0}};
static const double pipe_run[][2] = {{350, 200}, {350, 20.5}};

static void must(const char *call, uint8_t answer)
{
    if (answer != BINTOLAGE_DONE) {
        printf("%s: refused with %d, %s\n", call, answer, bintolage_refusal(answer));
        exit(1);
    }
}

static void give(bintolage_event_record event)
{
    must("give", bintolage_give(&state, &memory, event));
}

static void give_line(uint32_t feature, uint8_t tagged, const double pairs[][2], uint32_t count)
{
    give(bintolage_begin(feature, BINTOLAGE_LINE_STRING, tagged, count, 0));
    for (uint32_t i = 0; i < count; i++) {
        give(bintolage_xy(feature, pairs[i][0], pairs[i][1], i));
    }
    give(bintolage_end(feature, BINTOLAGE_LINE_STRING, tagged, 0));
}

static void give_edge(void)
{
    give(bintolage_begin(EDGE, BINTOLAGE_POLYGON, 1, 1, 0));
    give_line(EDGE, 0, edge, 5);
    give(bintolage_end(EDGE, BINTOLAGE_POLYGON, 1, 0));
}

/* The edge's pair has strayed here: it is refused, and the pipe run goes on as though it had not come. */
static void give_pipe_run(void)
{
    give_line(PIPE_RUN, 1, pipe_run, 2);
    const uint8_t answer = bintolage_give(&state, &memory, bintolage_xy(EDGE, 400, 250, 2));
    printf("feature %" PRIu32 ": an event of feature %u is refused with %d, %s\n", bintolage_feature(&state), EDGE, answer,
           bintolage_refusal(answer));
}

static void give_well(void)
{
    give(bintolage_begin(WELL, BINTOLAGE_POINT, 0, 0, 0));
    give(bintolage_xy(WELL, 200, 150, 0));
    give(bintolage_end(WELL, BINTOLAGE_POINT, 0, 0));
}

/* The finished feature goes behind those that the log has, under the number that its events had. */
static void read_behind_the_others(void)
{
    const uint32_t feature = bintolage_feature(&state);
    uint32_t count;
    must("finish", bintolage_finish_feature(&state, &memory));
    must("read", bintolage_read_feature(
        &memory, BINTOLAGE_UNKNOWN, 0, feature, records + used, LOG_RECORDS - used, &count));
    printf("feature %" PRIu32 ": %" PRIu32 " records from record %" PRIu32 " on\n", feature, count, used);
    used += count;
    must("next", bintolage_next_feature(&state, &memory));
}

static void print_event(bintolage_event_fields e)
{
    switch (e.kind) {
    case BINTOLAGE_POLYGON: printf("  polygon\n"); break;
    case BINTOLAGE_LINE_STRING: printf("  line of %" PRIu32 " pairs\n", e.size); break;
    case BINTOLAGE_POINT: printf("  point\n"); break;
    case BINTOLAGE_XY: printf("    %.1f %.1f\n", e.x, e.y); break;
    }
}

static void find(uint32_t feature)
{
    printf("found feature %" PRIu32 "\n", feature);
    for (uint32_t i = 0; i < used; i++) {
        if (bintolage_feature_of(&records[i]) == feature) {
            print_event(bintolage_event_of(&records[i]));
        }
    }
}

int main(void)
{
    bintolage_start(&state, BINTOLAGE_UNKNOWN, 0, 0);
    give_edge();
    read_behind_the_others();
    give_pipe_run();
    read_behind_the_others();
    give_well();
    read_behind_the_others();
    find(WELL);
    find(EDGE);
    find(PIPE_RUN);
    return 0;
}
