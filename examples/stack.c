/* How deep the stack of each call goes: each is made on a stack of its own, painted before it; the lowest byte that changed
 * tells. Arguments that go by the stack are counted. Reading is tried with every type at the bottom of 16 levels, with 0, 1
 * and 2 ends; well-known binary with every type in 14 to 16 collections, in both byte orders, and its writing with the events
 * that are read of it and with many more collections, each list also with a fault at each event; a box with 16 levels and 17,
 * of records that have one part or share several. */
#define _XOPEN_SOURCE 700
#include "bintolage.h"

#include <stdio.h>
#include <string.h>
#include <ucontext.h>

#define STACK_BYTES 65536
#define PAINT 0xa5

/* Collections one in the other, which a writing of well-known binary has to go through in three passes. */
#define COLLECTIONS 600

static uint8_t stack[STACK_BYTES] __attribute__((aligned(16)));
static uint8_t *top;
static ucontext_t outside, inside;

static bintolage_state state;
static uint8_t table[(BINTOLAGE_LEVELS + 1) * BINTOLAGE_GEOMETRY_BYTES];
static uint64_t xy[64], z[32], m[32], t[32], tm[32];
static uint32_t ends[32];
static uint8_t event[BINTOLAGE_EVENT_BYTES];
static uint8_t buffer[256], records[2 * COLLECTIONS * BINTOLAGE_EVENT_BYTES], wkb[256];
static size_t wkb_bytes, written;
static const uint8_t text[] = {'S', 0xc3, 0xb8, 'r', 'e', 'n'};
static const uint8_t columns[] = {BINTOLAGE_COLUMN_STRING};
static uint32_t count;
static size_t taken, place;
static uint8_t stopped;
static uint64_t edges[4];

#define POOLS xy, 64, ends, 32, z, 32, m, 32, t, 32, tm, 32

static void start(void) { bintolage_start(&state, BINTOLAGE_POLYGON, 1, 1); }
static void take(void) { bintolage_event(&state, event, sizeof event, table, sizeof table, POOLS); }
static void take_many(void) { bintolage_events(&state, event, sizeof event, table, sizeof table, POOLS, &taken); }
static void property(void)
{
    bintolage_property(&state, 0, BINTOLAGE_COLUMN_STRING, 0, text, sizeof text, buffer, sizeof buffer, &place);
}
static void finish(void) { bintolage_finish(&state, table, sizeof table, POOLS); }
static void next(void) { bintolage_next(&state, table, sizeof table, POOLS); }
static void read_tree(void) { bintolage_read(table, sizeof table, POOLS, 0, 15, 7, records, sizeof records, &count); }
static void read_wkb(void) { bintolage_read_wkb(wkb, wkb_bytes, 7, records, sizeof records, &count); }
static void write_wkb(void)
{
    bintolage_write_wkb(records, count * BINTOLAGE_EVENT_BYTES, wkb, sizeof wkb, &written);
}
static void read_properties(void)
{
    bintolage_read_properties(buffer, state.words[2], 1, columns, sizeof columns, BINTOLAGE_NO_STOP, records, sizeof records,
                              &count, &stopped, &place);
}
static void box(void) { bintolage_box(table, sizeof table, POOLS, 0, edges); }

static void (*call)(void);
static volatile int returned;

/* What stands after the call keeps it from being the last jump, which would leave out its return address. */
static void on_painted_stack(void)
{
    top = __builtin_frame_address(0);
    call();
    returned = 1;
}

/* The bytes below the frame of the one who calls that the call came to. */
static long depth(void (*made)(void))
{
    call = made;
    memset(stack, PAINT, sizeof stack);
    getcontext(&inside);
    inside.uc_stack.ss_sp = stack;
    inside.uc_stack.ss_size = sizeof stack;
    inside.uc_link = &outside;
    makecontext(&inside, on_painted_stack, 0);
    swapcontext(&outside, &inside);
    const uint8_t *low = stack;
    while (*low == PAINT) {
        low++;
    }
    return (long)(top - low);
}

static void put_list(uint8_t *record, int lane, uint32_t first, uint32_t length)
{
    record[1] |= (uint8_t)(1 << lane);
    bintolage_put32(record + 4 + 8 * lane, first);
    bintolage_put32(record + 8 + 8 * lane, length);
}

/* Records 0 to 14 are collections of one part; record 15, at level 16, has every list but parts, and so many ends. */
static void nest(uint8_t type, uint32_t lines)
{
    memset(table, 0, sizeof table);
    for (uint32_t i = 0; i < BINTOLAGE_LEVELS - 1; i++) {
        table[64 * i] = BINTOLAGE_GEOMETRY_COLLECTION;
        put_list(table + 64 * i, 6, i + 1, 1);
    }
    uint8_t *last = table + 64 * (BINTOLAGE_LEVELS - 1);
    last[0] = type;
    put_list(last, 0, 0, 16);
    put_list(last, 1, 0, lines);
    for (int lane = 2; lane < 6; lane++) {
        put_list(last, lane, 0, 8);
    }
    ends[0] = 4;
    ends[1] = 8;
}

static long deepest_read(int *deepest)
{
    long most = 0;
    for (int i = 0; i < 3 * 256; i++) {
        nest((uint8_t)(i / 3), (uint32_t)(i % 3));
        long d = depth(read_tree);
        if (d > most) {
            most = d;
            *deepest = i / 3;
        }
    }
    return most;
}

static void put_number(uint8_t mark, uint32_t number)
{
    for (int i = 0; i < 4; i++) {
        wkb[wkb_bytes++] = (uint8_t)(number >> 8 * (mark ? i : 3 - i));
    }
}

static void put_head(uint8_t mark, uint32_t type)
{
    wkb[wkb_bytes++] = mark;
    put_number(mark, type);
}

/* A Point, a LineString or a Polygon of one pair, which is zeros; a pair of a line has one count before it, of a polygon two. */
static void put_single(uint8_t mark, uint32_t type)
{
    put_head(mark, type);
    for (uint32_t counts = 1; counts < type; counts++) {
        put_number(mark, 1);
    }
    wkb_bytes += 16;
}

/* So many collections one in the other, and a geometry of a type from 1 to 6 in the innermost; a Multi has one member. */
static void put_wkb(uint8_t mark, uint32_t collections, uint32_t type)
{
    memset(wkb, 0, sizeof wkb);
    wkb_bytes = 0;
    for (uint32_t i = 0; i < collections; i++) {
        put_head(mark, BINTOLAGE_GEOMETRY_COLLECTION);
        put_number(mark, 1);
    }
    if (type <= BINTOLAGE_POLYGON) {
        put_single(mark, type);
    } else {
        put_head(mark, type);
        put_number(mark, 1);
        put_single(mark, type - 3);
    }
}

/* In 14 collections a Multi's member is at level 16; in 15 it is refused, and in 16 every type is. */
static long deepest_read_wkb(void)
{
    long most = 0;
    for (uint8_t mark = 0; mark < 2; mark++) {
        for (uint32_t collections = BINTOLAGE_LEVELS - 2; collections <= BINTOLAGE_LEVELS; collections++) {
            for (uint32_t type = BINTOLAGE_POINT; type <= BINTOLAGE_MULTI_POLYGON; type++) {
                put_wkb(mark, collections, type);
                long d = depth(read_wkb);
                most = d > most ? d : most;
            }
        }
    }
    return most;
}

/* The list as it is, and then with another idx at each of its events, which refuses it there. */
static long deepest_fault(void)
{
    long most = depth(write_wkb);
    for (uint32_t i = 0; i < count; i++) {
        uint8_t *idx = records + BINTOLAGE_EVENT_BYTES * i + 8;
        *idx ^= 1;
        long d = depth(write_wkb);
        most = d > most ? d : most;
        *idx ^= 1;
    }
    return most;
}

/* In 14 collections every type is written, and in 15 what is no Multi. Of what a reading refuses, the list ends too early. */
static long deepest_write_wkb(void)
{
    long most = 0;
    for (uint32_t collections = BINTOLAGE_LEVELS - 2; collections <= BINTOLAGE_LEVELS; collections++) {
        for (uint32_t type = BINTOLAGE_POINT; type <= BINTOLAGE_MULTI_POLYGON; type++) {
            put_wkb(1, collections, type);
            read_wkb();
            long d = deepest_fault();
            most = d > most ? d : most;
        }
    }
    count = 2 * COLLECTIONS;
    for (uint32_t i = 0; i < COLLECTIONS; i++) {
        const bintolage_event_record begin =
            bintolage_begin(7, BINTOLAGE_GEOMETRY_COLLECTION, 0, i + 1 < COLLECTIONS, 0);
        const bintolage_event_record end = bintolage_end(7, BINTOLAGE_GEOMETRY_COLLECTION, 0, 0);
        memcpy(records + BINTOLAGE_EVENT_BYTES * i, begin.bytes, sizeof begin);
        memcpy(records + BINTOLAGE_EVENT_BYTES * (COLLECTIONS + i), end.bytes, sizeof end);
    }
    long d = deepest_fault();
    return d > most ? d : most;
}

/* Records one below the other, each with a pair and with the next records for its parts, `reach` of them or all that follow. */
static void share(uint32_t levels, uint32_t reach)
{
    memset(table, 0, sizeof table);
    for (uint32_t i = 0; i < levels; i++) {
        const uint32_t below = levels - i - 1;
        put_list(table + 64 * i, 0, 0, 2);
        put_list(table + 64 * i, 6, i + 1, below < reach ? below : reach);
    }
}

/* Of one level more than there may be, the deepest is refused. */
static long deepest_box(void)
{
    long most = 0;
    for (uint32_t levels = BINTOLAGE_LEVELS; levels <= BINTOLAGE_LEVELS + 1; levels++) {
        for (uint32_t reach = 1; reach < levels; reach++) {
            share(levels, reach);
            long d = depth(box);
            most = d > most ? d : most;
        }
    }
    return most;
}

/* Every kind of event, of the feature in hand and of another, taken in a collection, so that an end finishes a part. */
static long deepest_event(void (*made)(void))
{
    long most = 0;
    for (int i = 0; i < 2 * 256; i++) {
        bintolage_start(&state, BINTOLAGE_GEOMETRY_COLLECTION, 0, 0);
        memset(event, 0, sizeof event);
        event[0] = BINTOLAGE_GEOMETRY_COLLECTION;
        take();
        event[0] = (uint8_t)(i / 2);
        bintolage_put32(event + 12, (uint32_t)(i % 2));
        long d = depth(made);
        most = d > most ? d : most;
    }
    return most;
}

int main(void)
{
    int type = 0;
    printf("%-26s bytes\n", "call");
    printf("%-26s %5ld\n", "start", depth(start));
    printf("%-26s %5ld\n", "event, of any kind", deepest_event(take));
    printf("%-26s %5ld\n", "events, of any kind", deepest_event(take_many));
    start();
    printf("%-26s %5ld\n", "property", depth(property));
    printf("%-26s %5ld\n", "read_properties", depth(read_properties));
    printf("%-26s %5ld\n", "finish", depth(finish));
    printf("%-26s %5ld\n", "next", depth(next));
    printf("%-26s %5ld\n", "read_wkb, of 16 levels", deepest_read_wkb());
    printf("%-26s %5ld\n", "write_wkb, of any depth", deepest_write_wkb());
    printf("%-26s %5ld\n", "box, of 16 levels", deepest_box());
    printf("%-26s %5ld", "read, of 16 levels", deepest_read(&type));
    printf("  (type %d at the bottom)\n", type);
    return 0;
}
