/*
 * Bintolage: the feature store of a drainage plough's terminal.
 *
 * Events go in, a tree of geometry records comes out, and the tree reads back as events. Property values go in as typed
 * numbers or texts, and property bytes read back as values. Well-known binary becomes events, and events become well-known
 * binary. Every function behind these calls is proved to do what its contract says on every input.
 *
 *     cc program.c libbintolage.a
 *
 * The library has no heap, no variables of its own, and calls nothing. It works in memory that the caller lends for the
 * time of one call. It never blocks, and every call ends. Calls on different memory may run at the same time.
 *
 *
 * A PIPE RUN, WRITTEN AND READ BACK
 *
 *     uint8_t table[BINTOLAGE_GEOMETRY_BYTES];
 *     uint64_t xy[4];
 *     bintolage_memory memory = {.table = table, .table_bytes = sizeof table, .xy = xy, .xy_words = 4};
 *     bintolage_event_record log[4];
 *     uint32_t count;
 *     bintolage_state state;
 *     const uint32_t run = 7;
 *     bintolage_start(&state, BINTOLAGE_LINE_STRING, 0, 0);
 *     must(bintolage_give(&state, &memory, bintolage_begin(run, BINTOLAGE_LINE_STRING, 1, 2, 0)));
 *     must(bintolage_give(&state, &memory, bintolage_xy(run, 350, 200, 0)));
 *     must(bintolage_give(&state, &memory, bintolage_xy(run, 350, 20.5, 1)));
 *     must(bintolage_give(&state, &memory, bintolage_end(run, BINTOLAGE_LINE_STRING, 1, 0)));
 *     must(bintolage_finish_feature(&state, &memory));
 *     must(bintolage_read_feature(&memory, BINTOLAGE_LINE_STRING, 0, run, log, 4, &count));
 *     must(bintolage_next_feature(&state, &memory));
 *
 * `log` has the four events again. `run` is the feature's number, which is the program's to choose. must() is the program's
 * own: it looks at each answer, which is 0 or a refusal, and bintolage_refusal has it in words. The calls that are proved
 * come first in this file, each list as two arguments; behind them, FOR A C PROGRAM, stands a thin layer of inline functions
 * over them, in which the lines above are written.
 *
 *
 * HOW MEMORY IS LENT
 *
 * A list is lent as two arguments: a pointer to its first element, and how many ELEMENTS (not bytes) there are. Every call
 * accepts every count and any contents. The caller sees to this:
 *
 *   - a pointer is not null, even where the count is 0 (the inline layer sees to this for its caller), and is aligned for
 *     its element (8 for uint64_t, 4 for uint32_t);
 *   - as many elements as the count says can be read, and written where the pointer is not const;
 *   - what one call may write overlaps nothing else that the same call is lent.
 *
 * A part of what is lent is never touched: what lies beyond the usable room (BINTOLAGE_..., below), the remainder of a
 * table or a log that is no whole record, and whatever a call has no reason to change.
 *
 *
 * A FEATURE, FROM BEGINNING TO END
 *
 *     bintolage_start      once
 *     bintolage_events     for a row of events, or                  \
 *     bintolage_event      for each event                            |  in any order,
 *     bintolage_property   for each property                        /  for each feature
 *     bintolage_finish     the tree now stands in table and pools
 *     bintolage_read, bintolage_box, bintolage_read_properties: read it, copy it, store it
 *     bintolage_next       and the next feature may begin
 *
 * Between calls the caller keeps what the state uses as the last call left it: as many property bytes as word 2 of the
 * state says; of each pool the words up to start + count of its pending list (words 4 to 15); of the table the parts, at
 * records 1 to word 1, and record 0 while a finished feature waits. All else in the lent memory is free to change. Memory
 * may be lent at another address, or longer, at each call; lent shorter than what is used, a call answers 12.
 *
 *
 * A COUNTY MAP'S WELL-KNOWN BINARY
 *
 *     bintolage_read_wkb   the bytes of a geometry become events in a log
 *     bintolage_events     which are given to the writer as they stand there
 *     bintolage_read       a tree's events, read with no flag,
 *     bintolage_write_wkb  become the bytes of a geometry again
 *
 * A county map has the geometry of each feature as well-known binary (WKB). What is read of it is the events that a program
 * would otherwise make itself; the feature then goes on as above. On the way back too the events may be a program's own.
 *
 *
 * SEVERAL FEATURES IN ONE LOG
 *
 * Every event has the number of its feature. The caller chooses it, and any number will do, 0 too. A reading is given a
 * number and says it in every record. So features that are read one after the other, each into what is left of the log, stay
 * apart in it, and a feature is found again by its number.
 *
 * The writer holds the number of the feature in hand. The first event that is taken sets it, and an event of another number
 * is then refused (17); a refused event never sets it. The number is held until bintolage_next lets it go. A property,
 * bintolage_finish and bintolage_next do not look at it.
 */
#ifndef BINTOLAGE_H
#define BINTOLAGE_H

#include <stddef.h>
#include <stdint.h>
#include <string.h>

#ifdef __cplusplus
extern "C" {
#endif

/*
 * ANSWERS
 *
 * Every call but bintolage_start answers 0 for done, or why it was refused. A refused write changes nothing: neither a
 * word of the state nor a lent byte (of bintolage_events this is the event that was refused; those before it are taken).
 * Of a refused read the log has the records that come before the refused place, and no others.
 *
 * With 6 the two calls on properties say in `place` where the text went bad: the first byte that begins no well-formed
 * character, counted from 0 at the text's own first byte. Everything before it is well-formed; a further byte of a good
 * character begins none either, and is not meant. A character that is cut short or broken is placed at its first byte. With
 * every other answer, 0 for done too, the place is 0; with 6 it may be 0 as well.
 */
#define BINTOLAGE_DONE             0
#define BINTOLAGE_XY_ABSENT        1  /* read: a list of coordinates is absent where one is needed */
#define BINTOLAGE_PARTS_ABSENT     2  /* read: a list of parts is absent where one is needed */
#define BINTOLAGE_COLUMN_UNKNOWN   2  /* read_properties: the property's column is not below the column count */
#define BINTOLAGE_TYPE_UNKNOWN     3  /* read: no such geometry type, or one that has no events (0, 13, 14) */
#define BINTOLAGE_TYPE_NOT_A_CURVE 4  /* read: a type that does not belong in a curve or a surface */
#define BINTOLAGE_TYPES_MIXED      5  /* event: this type does not go into a feature of the declared type */
#define BINTOLAGE_NOT_UTF8         6  /* property, read_properties: a String, Json or DateTime is not UTF-8 (RFC 3629), and
                                         `place` says where */
#define BINTOLAGE_PAST_LIST        7  /* read: a coordinate, or a z, m, t or tm value, lies past its list */
#define BINTOLAGE_BAD_END          8  /* read: an end that is 2^31 or larger, or less than the end before it */
#define BINTOLAGE_LOG_FULL         9  /* read, read_wkb, read_properties: the log has no room for the next record */
#define BINTOLAGE_BAD_RECORD      10  /* read, box: a bad geometry record or table ("Geometry record", below) */
#define BINTOLAGE_MALFORMED       11  /* event, write_wkb: no well-formed event record; property: no such type, a Bool
                                         above 1, or bits beyond the type's width */
#define BINTOLAGE_NO_ROOM         12  /* event, property, finish, next: no room in a pool, the table or the property
                                         buffer, or one is lent shorter than the state already uses; write_wkb: `out` is
                                         shorter than what is to be written */
#define BINTOLAGE_TOO_DEEP        13  /* read, box: a part at level 17, the root or the box's own record being level 1;
                                         read_wkb, write_wkb: a geometry at level 17, the outermost being level 1 */
#define BINTOLAGE_VALUE_CUT       14  /* read_properties: the bytes end within a value */
#define BINTOLAGE_NOT_ITS_TURN    15  /* event, property, finish: a finished feature waits for next; next: none waits */
#define BINTOLAGE_COLUMN_TOO_LARGE 16 /* property: a column above 65,535 */
#define BINTOLAGE_OTHER_FEATURE   17  /* event: its feature's number is not the one that is held */
#define BINTOLAGE_WKB_CUT         18  /* read_wkb: the bytes end before a field is whole */
#define BINTOLAGE_WKB_UNKNOWN     19  /* read_wkb: an order mark that is neither 0 nor 1, or a type that may not stand
                                         there */
#define BINTOLAGE_WKB_LEFT_OVER   20  /* read_wkb: bytes behind the geometry */
#define BINTOLAGE_BADLY_NESTED    21  /* write_wkb: events that are no geometry's: badly nested, tagged, indexed or sized */

/* Where several refusals are due, the first of these is given: event 11, 15, 17, 5, 12; property 15, 16, 11, 6, 12;
 * finish and next 15, 12; read and box, on entering a geometry, 13, 10; read_properties, at each property, 2, 14, 6, 9;
 * read_wkb, at each field, 18, 19, behind a geometry's type 13, and at the end 20; write_wkb, each over the whole list, 11,
 * 21, 13, 12. */

/*
 * USABLE ROOM
 *
 * What is lent beyond it is neither read nor changed.
 */
#define BINTOLAGE_RECORDS          4096  /* geometry records in a table */
#define BINTOLAGE_XY_WORDS       131072  /* words in the xy pool: 65,536 pairs */
#define BINTOLAGE_POOL_WORDS      65536  /* words in each other pool */
#define BINTOLAGE_LOG_RECORDS   1048576  /* records in a log */
#define BINTOLAGE_PROPERTY_BYTES  65536  /* bytes in a property buffer */
#define BINTOLAGE_LEVELS             16  /* levels of geometries within geometries; the root, a box's own record, or the
                                            outermost geometry of well-known binary, is the first */

#define BINTOLAGE_EVENT_BYTES        64
#define BINTOLAGE_GEOMETRY_BYTES     64
#define BINTOLAGE_VALUE_BYTES        16

/*
 * GEOMETRY TYPES
 */
#define BINTOLAGE_UNKNOWN              0
#define BINTOLAGE_POINT                1
#define BINTOLAGE_LINE_STRING          2
#define BINTOLAGE_POLYGON              3
#define BINTOLAGE_MULTI_POINT          4
#define BINTOLAGE_MULTI_LINE_STRING    5
#define BINTOLAGE_MULTI_POLYGON        6
#define BINTOLAGE_GEOMETRY_COLLECTION  7
#define BINTOLAGE_CIRCULAR_STRING      8
#define BINTOLAGE_COMPOUND_CURVE       9
#define BINTOLAGE_CURVE_POLYGON       10
#define BINTOLAGE_MULTI_CURVE         11
#define BINTOLAGE_MULTI_SURFACE       12
#define BINTOLAGE_CURVE               13
#define BINTOLAGE_SURFACE             14
#define BINTOLAGE_POLYHEDRAL_SURFACE  15
#define BINTOLAGE_TIN                 16
#define BINTOLAGE_TRIANGLE            17

/*
 * EVENT KINDS
 *
 * A begin has the geometry type's number, an end has it plus BINTOLAGE_END. There are no events of types 0, 13 and 14.
 */
#define BINTOLAGE_END         32
#define BINTOLAGE_XY          64  /* a pair x, y */
#define BINTOLAGE_COORDINATE  65  /* a pair with those of z, m, t, tm that its present bits name */

/* An event's present bits, and the flags of bintolage_read. */
#define BINTOLAGE_Z   1
#define BINTOLAGE_M   2
#define BINTOLAGE_T   4
#define BINTOLAGE_TM  8

/*
 * COLUMN TYPES
 */
#define BINTOLAGE_COLUMN_BYTE       0
#define BINTOLAGE_COLUMN_UBYTE      1
#define BINTOLAGE_COLUMN_BOOL       2
#define BINTOLAGE_COLUMN_SHORT      3
#define BINTOLAGE_COLUMN_USHORT     4
#define BINTOLAGE_COLUMN_INT        5
#define BINTOLAGE_COLUMN_UINT       6
#define BINTOLAGE_COLUMN_LONG       7
#define BINTOLAGE_COLUMN_ULONG      8
#define BINTOLAGE_COLUMN_FLOAT      9
#define BINTOLAGE_COLUMN_DOUBLE    10
#define BINTOLAGE_COLUMN_STRING    11
#define BINTOLAGE_COLUMN_JSON      12
#define BINTOLAGE_COLUMN_DATE_TIME 13
#define BINTOLAGE_COLUMN_BINARY    14

/*
 * RECORDS
 *
 * All numbers are little-endian, spare bytes are zero. Doubles travel as their bit patterns; a NaN keeps its payload.
 *
 * Event record, 64 bytes
 *     0      kind
 *     1      tagged, 0 or 1: LineString, Polygon and Triangle, begin and end; it says that the geometry stands by itself
 *            or in a collection, and not inside another type
 *     2      present bits: kind 65
 *     3      spare
 *     4..7   size, how many lines, rings, pairs or parts follow: every begin but Point's
 *     8..11  idx, its number within what holds it: every kind
 *    12..15  feature, the number of the feature that it is of: every kind, and any number
 *    16 x   24 y                     kinds 64 and 65
 *    32 z   40 m   48 t   56 tm      kind 65, where its present bit is set
 * A field that the kind does not use, and a value whose present bit is not set, is zero. A record that breaks any of this,
 * or is not 64 bytes long, is malformed (11).
 *
 * Geometry record, 64 bytes
 *     0      type
 *     1      present bits: xy 1, ends 2, z 4, m 8, t 16, tm 32, parts 64
 *     2..3   spare
 *     4..59  seven pairs of uint32, start and count, in that order: the first six count words of the pool of that name,
 *            parts counts records of the table. An absent list has start and count 0.
 *    60..63  spare
 * Record 0 is the root. Parts stand one after the other, at numbers above the record's own. The ends of a list of lines or
 * rings count pairs, from the start of the record's own xy list, to the end of each line or ring.
 * A table that is read is bad (10) if it has no record, or bytes left over behind its whole records. A record is bad (10)
 * if it is not in the table or its number is above 4,095, a spare byte is set or the present bits are 128 or more, a list
 * without its bit has a start or a count, a list goes on behind what is lent or usable, or its parts do not start above it.
 *
 * Value record, 16 bytes
 *     0..1   column
 *     2      column type
 *     3      spare
 *     4..7   how many bytes the value has
 *     8..15  the value's bytes, padded with zeros; for types 11 to 14 the place (uint64) where its bytes start within the
 *            property bytes. A Bool is 0 or 1.
 */

/*
 * THE WRITER'S STATE
 *
 * Words that the caller keeps and lends to every writing call. They may be copied, stored and sent.
 *     0       declared type + 256 * current type + 65536 * mode + 2^24 * (detect 1, promote 2, waiting 4, a number held 8)
 *     1       how many parts the feature has
 *     2       how many property bytes it has
 *     3       the feature's number that is held, 0 where none is
 *     4..15   start and count of the pending list in each pool: xy, ends, z, m, t, tm
 * Any words are accepted as a state. Where word 0 says that no number is held, word 3 is not looked at, and the top four
 * bits of word 0 never are; a call that is done writes those bits as 0, and word 3 as above. On a refusal the words stay as
 * they were, bit for bit. The property bytes of a feature, of which the caller wants the length, are the first words[2] of
 * the buffer.
 */
#define BINTOLAGE_STATE_WORDS        16

typedef struct bintolage_state {
    uint32_t words[BINTOLAGE_STATE_WORDS];
} bintolage_state;

/*
 * The state of a fresh writer. `declared` is the type of the features to come, 0 where it is not known. With `detect` the
 * first type that is seen becomes the declared type; with `promote` a LineString may go into a MultiLineString and a
 * Polygon into a MultiPolygon. For both, 0 is no and all else is yes.
 */
void bintolage_start(bintolage_state *state, uint8_t declared, uint8_t detect, uint8_t promote);

/*
 * Takes one event record. Refused: 11, 15, 17, 5, 12.
 */
uint8_t bintolage_event(
    bintolage_state *state,
    const uint8_t *event, size_t event_bytes,
    uint8_t *table, size_t table_bytes,
    uint64_t *xy, size_t xy_words,
    uint32_t *ends, size_t ends_words,
    uint64_t *z, size_t z_words,
    uint64_t *m, size_t m_words,
    uint64_t *t, size_t t_words,
    uint64_t *tm, size_t tm_words);

/*
 * Takes event records one after the other, as bintolage_event takes each, until one is refused: *taken is how many were
 * taken, and the answer says why the next was not, or 0 where all were. Those that were taken stay; the refused one changes
 * nothing. Bytes at the end that are no whole record are refused with 11. Many events in one call take a fraction of the
 * time of a call for each. Refused: 11, 15, 17, 5, 12.
 */
uint8_t bintolage_events(
    bintolage_state *state,
    const uint8_t *events, size_t events_bytes,
    uint8_t *table, size_t table_bytes,
    uint64_t *xy, size_t xy_words,
    uint32_t *ends, size_t ends_words,
    uint64_t *z, size_t z_words,
    uint64_t *m, size_t m_words,
    uint64_t *t, size_t t_words,
    uint64_t *tm, size_t tm_words,
    size_t *taken);

/*
 * Lays one property down in `buffer`, after those before it: the column's index in two bytes, then the value. A number is
 * given in `bits`, in the low bytes, higher bytes zero (a negative Byte -1 is 0xff), and its text is not looked at; a
 * String, Json, DateTime or Binary is given in `text`, and its bits are not looked at. `place` is written refused or not,
 * and says where a text that is refused with 6 went bad; a text that is longer than the room is searched too, so the place
 * may be above 65,535. Refused: 15, 16, 11, 6, 12.
 */
uint8_t bintolage_property(
    bintolage_state *state,
    uint32_t column, uint8_t column_type, uint64_t bits,
    const uint8_t *text, size_t text_bytes,
    uint8_t *buffer, size_t buffer_bytes,
    size_t *place);

/*
 * Ends the feature: its root goes down as record 0, and the feature waits. The tree has as many records as the state has
 * parts, and the root. Refused: 15, 12.
 */
uint8_t bintolage_finish(
    bintolage_state *state,
    uint8_t *table, size_t table_bytes,
    const uint64_t *xy, size_t xy_words,
    const uint32_t *ends, size_t ends_words,
    const uint64_t *z, size_t z_words,
    const uint64_t *m, size_t m_words,
    const uint64_t *t, size_t t_words,
    const uint64_t *tm, size_t tm_words);

/*
 * Leaves the finished feature behind. What is still pending moves to the front of its pool and belongs to the next
 * feature; declared type, current type and mode stay, and the feature's number is let go. Refused: 15, 12.
 */
uint8_t bintolage_next(
    bintolage_state *state,
    const uint8_t *table, size_t table_bytes,
    uint64_t *xy, size_t xy_words,
    uint32_t *ends, size_t ends_words,
    uint64_t *z, size_t z_words,
    uint64_t *m, size_t m_words,
    uint64_t *t, size_t t_words,
    uint64_t *tm, size_t tm_words);

/*
 * Reads the tree whose root is record 0, as event records from the start of `log`, and says in `count` how many, refused
 * or not. `declared` is the type to read the root under, 0 for its own. `flags` says which of z, m, t and tm are wanted, by
 * the present bits of an event; higher bits are not looked at. With no flag every pair is kind 64, with any it is kind 65.
 * `feature` is the number that every record says, and changes nothing else; the tree itself holds no number. The table must
 * have a whole number of records. Refused: 1, 2, 3, 4, 7, 8, 9, 10, 13.
 */
uint8_t bintolage_read(
    const uint8_t *table, size_t table_bytes,
    const uint64_t *xy, size_t xy_words,
    const uint32_t *ends, size_t ends_words,
    const uint64_t *z, size_t z_words,
    const uint64_t *m, size_t m_words,
    const uint64_t *t, size_t t_words,
    const uint64_t *tm, size_t tm_words,
    uint8_t declared, uint8_t flags, uint32_t feature,
    uint8_t *log, size_t log_bytes,
    uint32_t *count);

/*
 * Reads well-known binary (OGC Simple Features 1.2.1, two-dimensional), as event records from the start of `log`, and says
 * in `count` how many, refused or not. `feature` is the number that every record says. The types are 1 to 7, Point to
 * GeometryCollection. Both byte orders are read, and each geometry by its own order mark, whatever that of the geometry
 * around it. A Point is a begin, the pair 0 and an end, and the begin is said before the x is looked at; a MultiPoint's
 * member is one pair with the member's idx. A LineString or a Polygon is tagged where it is outermost or in a collection,
 * and untagged as a Multi's member. Coordinates are taken bit for bit.
 *
 * The fields are the order mark, the type, a count and each coordinate, of 1, 4, 4 and 8 bytes. At each field 18 stands
 * first, and then 19: an order mark that is neither 0 nor 1, a type that is not 1 to 7, a member that is not of its Multi's
 * single type. So the dialects that say z, m or a reference system in the type's number are refused with 19. A geometry
 * inside another is one level deeper, the members of MultiPoint, MultiLineString and MultiPolygon too, and one at level 17
 * is refused with 13 behind its type. With 20 the log has the whole geometry. Refused: 18, 19, 13, 9, 20.
 */
uint8_t bintolage_read_wkb(
    const uint8_t *bytes, size_t bytes_count,
    uint32_t feature,
    uint8_t *log, size_t log_bytes,
    uint32_t *count);

/*
 * Writes event records as well-known binary, from the start of `out`, and says in `written` how many bytes; where it is
 * refused they are 0, and `out` is as it was. The records are exactly those that bintolage_read_wkb says of a geometry,
 * under one number, whichever; so what is written reads back as the same records, and what was read with every order mark 1
 * is written as the same bytes. Every order mark that is written is 1, with the lowest byte of each number first.
 * Coordinates are laid down bit for bit.
 *
 * Each refusal is over the whole list: a fault at its end may be refused before another at its beginning. With 11 a record
 * is malformed, or bytes at the end are no whole record. With 21 all are well-formed and are no geometry's of the types 1 to
 * 7: there are none; they are of several features or of several geometries; a begin has no end or an end no begin; a type, a
 * `tagged` or an idx is none that may stand there; more or fewer follow a begin than its size says, or a Point's than one
 * pair; a pair is of kind 65. With 13 they are those of a geometry of more than 16 levels, counted as in bintolage_read_wkb.
 * With 12 `out` is shorter than what is to be written; 21 bytes for each record are always enough, and what `out` has to
 * spare is not touched. Refused: 11, 21, 13, 12.
 */
uint8_t bintolage_write_wkb(
    const uint8_t *events, size_t events_bytes,
    uint8_t *out, size_t out_bytes,
    size_t *written);

/* No column's number: with it as `stop` bintolage_read_properties reads on to the end. */
#define BINTOLAGE_NO_STOP         65536

/*
 * Reads property bytes, as value records from the start of `log`, and says in `count` how many, refused or not. `columns`
 * has the type of each column; with `has_columns` 0 it is not looked at and nothing is read. A column of a type above 14
 * gives no value and takes no bytes. The reading ends after the first value of column `stop`, and says so by 1 in
 * `stopped`, else 0; 65,536 or more for none. A single byte at the end is no property. Refused: 2, 14, 6, 9.
 *
 * `place` is written refused or not, and says where a text that is refused with 6 went bad, counted behind the four bytes
 * of its length, not from the start of `bytes`. It is the text of the next value behind those in the log, which
 * bintolage_refused_text finds.
 */
uint8_t bintolage_read_properties(
    const uint8_t *bytes, size_t bytes_count,
    uint8_t has_columns,
    const uint8_t *columns, size_t columns_count,
    uint32_t stop,
    uint8_t *log, size_t log_bytes,
    uint32_t *count, uint8_t *stopped, size_t *place);

/*
 * The box around the geometry of record `n` with all its parts, as the bit patterns of four doubles: the least x and y,
 * and then the greatest. The box of record 0 is the whole feature's. It is as though all pairs stood in one list: the
 * record's own, and then those of each part in order, with the parts that it has itself; parts of every type, whether
 * they would be read or not. An xy list's last word without a partner is left out. At first the least edges are plus
 * infinity and the greatest minus infinity; a value replaces an edge only where it is strictly beyond it, so a NaN never
 * does, and of 0.0 and -0.0 the first stays.
 *
 * Record `n` is level 1. The first refusal on the way is the answer; the edges, which are written refused or not, are
 * then as at first. Where records share parts the call still ends soon: it enters at most one record, and 16 for each place
 * in a list of parts, and looks at no record's pairs twice. Refused, on entering a geometry: 13, 10.
 */
uint8_t bintolage_box(
    const uint8_t *table, size_t table_bytes,
    const uint64_t *xy, size_t xy_words,
    const uint32_t *ends, size_t ends_words,
    const uint64_t *z, size_t z_words,
    const uint64_t *m, size_t m_words,
    const uint64_t *t, size_t t_words,
    const uint64_t *tm, size_t tm_words,
    uint32_t n,
    uint64_t edges[4]);

/*
 * FOR A C PROGRAM
 *
 * What follows is inline, in this header alone, over the calls above: it has no memory of its own and decides nothing; it
 * hands a struct's lists on, lays records down, takes them apart and walks along property bytes. Records are read and
 * written byte by byte, so any byte order and any address will do. A double is IEEE 754's of 64 bits.
 *
 *     a record of an event       bintolage_begin, bintolage_end, bintolage_xy, bintolage_coordinate
 *     what a record says         bintolage_event_of, bintolage_feature_of, bintolage_value_of
 *     a feature written          bintolage_start, then bintolage_give, bintolage_give_many, bintolage_give_number,
 *                                bintolage_give_text, bintolage_finish_feature, bintolage_next_feature
 *     a feature read             bintolage_read_feature, bintolage_read_values, bintolage_read_box
 *     well-known binary          bintolage_read_wkb_events, bintolage_write_wkb_events
 *     a text refused on reading  bintolage_refused_text
 *     the feature in hand        bintolage_has_feature, bintolage_feature, bintolage_parts, bintolage_property_bytes
 *     an answer in words         bintolage_refusal
 */

/*
 * What is lent: the table, the six pools and the property buffer, each with its count of elements, as the calls above take
 * them. A null pointer lends nothing, whatever its count says, so what a program does not use may be left zero.
 */
typedef struct bintolage_memory {
    uint8_t *table;
    size_t table_bytes;
    uint64_t *xy;
    size_t xy_words;
    uint32_t *ends;
    size_t ends_words;
    uint64_t *z;
    size_t z_words;
    uint64_t *m;
    size_t m_words;
    uint64_t *t;
    size_t t_words;
    uint64_t *tm;
    size_t tm_words;
    uint8_t *properties;
    size_t properties_bytes;
} bintolage_memory;

/* The records of a log, or of events to come. An array of them has nothing between its records. */
typedef struct bintolage_event_record {
    uint8_t bytes[BINTOLAGE_EVENT_BYTES];
} bintolage_event_record;

typedef struct bintolage_value_record {
    uint8_t bytes[BINTOLAGE_VALUE_BYTES];
} bintolage_value_record;

/* A compiler that lays these out otherwise stops here. */
typedef char bintolage_event_record_is_its_bytes[sizeof(bintolage_event_record) == BINTOLAGE_EVENT_BYTES ? 1 : -1];
typedef char bintolage_value_record_is_its_bytes[sizeof(bintolage_value_record) == BINTOLAGE_VALUE_BYTES ? 1 : -1];
typedef char bintolage_double_is_a_word[sizeof(double) == sizeof(uint64_t) && sizeof(float) == sizeof(uint32_t) ? 1 : -1];

/*
 * Numbers in records: least byte first, at any address.
 */
static inline void bintolage_put32(uint8_t *at, uint32_t number)
{
    for (int i = 0; i < 4; i++) {
        at[i] = (uint8_t)(number >> (8 * i));
    }
}

static inline void bintolage_put64(uint8_t *at, uint64_t number)
{
    bintolage_put32(at, (uint32_t)number);
    bintolage_put32(at + 4, (uint32_t)(number >> 32));
}

static inline uint16_t bintolage_get16(const uint8_t *at)
{
    return (uint16_t)(at[0] | at[1] << 8);
}

static inline uint32_t bintolage_get32(const uint8_t *at)
{
    return (uint32_t)at[0] | (uint32_t)at[1] << 8 | (uint32_t)at[2] << 16 | (uint32_t)at[3] << 24;
}

static inline uint64_t bintolage_get64(const uint8_t *at)
{
    return bintolage_get32(at) | (uint64_t)bintolage_get32(at + 4) << 32;
}

/*
 * A double's or a float's bits, as the pools and a property have them, and back.
 */
static inline uint64_t bintolage_bits_of(double number)
{
    uint64_t bits;
    memcpy(&bits, &number, sizeof bits);
    return bits;
}

static inline double bintolage_double_of(uint64_t bits)
{
    double number;
    memcpy(&number, &bits, sizeof number);
    return number;
}

static inline uint64_t bintolage_bits_of_float(float number)
{
    uint32_t bits;
    memcpy(&bits, &number, sizeof bits);
    return bits;
}

static inline float bintolage_float_of(uint64_t bits)
{
    const uint32_t low = (uint32_t)bits;
    float number;
    memcpy(&number, &low, sizeof number);
    return number;
}

/*
 * The record of a begin. `feature` is the number of the feature that it is of, the same in all its events. `size` is how
 * many lines, rings, pairs or parts follow, and 0 for a Point; `idx` is its number within what holds it. `tagged` says of a
 * LineString, Polygon or Triangle that it stands by itself or in a collection, 0 is no and all else yes; it is 0 for all
 * other types. Other values make a record that is refused as malformed (11).
 */
static inline bintolage_event_record bintolage_begin(
    uint32_t feature, uint8_t geometry_type, uint8_t tagged, uint32_t size, uint32_t idx)
{
    bintolage_event_record record = {{0}};
    record.bytes[0] = geometry_type;
    record.bytes[1] = tagged != 0;
    bintolage_put32(record.bytes + 4, size);
    bintolage_put32(record.bytes + 8, idx);
    bintolage_put32(record.bytes + 12, feature);
    return record;
}

/* The record of an end: its feature, its type, `tagged` and `idx` as its begin has them. */
static inline bintolage_event_record bintolage_end(uint32_t feature, uint8_t geometry_type, uint8_t tagged, uint32_t idx)
{
    return bintolage_begin(feature, (uint8_t)(geometry_type + BINTOLAGE_END), tagged, 0, idx);
}

/* The record of a pair. */
static inline bintolage_event_record bintolage_xy(uint32_t feature, double x, double y, uint32_t idx)
{
    bintolage_event_record record = bintolage_begin(feature, BINTOLAGE_XY, 0, 0, idx);
    bintolage_put64(record.bytes + 16, bintolage_bits_of(x));
    bintolage_put64(record.bytes + 24, bintolage_bits_of(y));
    return record;
}

/*
 * The record of a pair with those of z, m, t and tm that `present` names (BINTOLAGE_Z, ...). One that it does not name is
 * not looked at; a bit of `present` beyond the four makes a record that is refused as malformed (11).
 */
static inline bintolage_event_record bintolage_coordinate(
    uint32_t feature, double x, double y, uint8_t present, double z, double m, double t, uint64_t tm, uint32_t idx)
{
    bintolage_event_record record = bintolage_xy(feature, x, y, idx);
    record.bytes[0] = BINTOLAGE_COORDINATE;
    record.bytes[2] = present;
    bintolage_put64(record.bytes + 32, present & BINTOLAGE_Z ? bintolage_bits_of(z) : 0);
    bintolage_put64(record.bytes + 40, present & BINTOLAGE_M ? bintolage_bits_of(m) : 0);
    bintolage_put64(record.bytes + 48, present & BINTOLAGE_T ? bintolage_bits_of(t) : 0);
    bintolage_put64(record.bytes + 56, present & BINTOLAGE_TM ? tm : 0);
    return record;
}

/* What an event record says ("Event record", above). What its kind does not use is zero. */
typedef struct bintolage_event_fields {
    uint8_t kind;
    uint8_t tagged;
    uint8_t present;
    uint32_t size;
    uint32_t idx;
    uint32_t feature;
    double x, y, z, m, t;
    uint64_t tm;
} bintolage_event_fields;

static inline bintolage_event_fields bintolage_event_of(const bintolage_event_record *record)
{
    const uint8_t *bytes = record->bytes;
    bintolage_event_fields fields;
    fields.kind = bytes[0];
    fields.tagged = bytes[1];
    fields.present = bytes[2];
    fields.size = bintolage_get32(bytes + 4);
    fields.idx = bintolage_get32(bytes + 8);
    fields.feature = bintolage_get32(bytes + 12);
    fields.x = bintolage_double_of(bintolage_get64(bytes + 16));
    fields.y = bintolage_double_of(bintolage_get64(bytes + 24));
    fields.z = bintolage_double_of(bintolage_get64(bytes + 32));
    fields.m = bintolage_double_of(bintolage_get64(bytes + 40));
    fields.t = bintolage_double_of(bintolage_get64(bytes + 48));
    fields.tm = bintolage_get64(bytes + 56);
    return fields;
}

/* The number of the feature that an event record is of, by itself: by it a feature is found in a log that has several. */
static inline uint32_t bintolage_feature_of(const bintolage_event_record *record)
{
    return bintolage_get32(record->bytes + 12);
}

/*
 * What a value record says ("Value record", above). `word` is a number's bits: cast it to the type of the column's width
 * for a negative one, (int16_t)word, or give it to bintolage_double_of or bintolage_float_of. For types 11 to 14 it is the
 * place where the text's `length` bytes start within the property bytes; no zero byte ends them.
 */
typedef struct bintolage_value_fields {
    uint16_t column;
    uint8_t column_type;
    uint32_t length;
    uint64_t word;
} bintolage_value_fields;

static inline bintolage_value_fields bintolage_value_of(const bintolage_value_record *record)
{
    const uint8_t *bytes = record->bytes;
    bintolage_value_fields fields;
    fields.column = bintolage_get16(bytes);
    fields.column_type = bytes[2];
    fields.length = bintolage_get32(bytes + 4);
    fields.word = bintolage_get64(bytes + 8);
    return fields;
}

/* Whether a number is held for the feature in hand, 1 or 0; and which, 0 where none is. */
static inline uint8_t bintolage_has_feature(const bintolage_state *state)
{
    return (uint8_t)(state->words[0] >> 27 & 1);
}

static inline uint32_t bintolage_feature(const bintolage_state *state)
{
    return bintolage_has_feature(state) ? state->words[3] : 0;
}

/* How many parts it has, and how many property bytes. */
static inline uint32_t bintolage_parts(const bintolage_state *state)
{
    return state->words[1];
}

static inline uint32_t bintolage_property_bytes(const bintolage_state *state)
{
    return state->words[2];
}

/*
 * The same memory with no null pointer in it: where there was one, it lends no element of `nothing`.
 */
static inline bintolage_memory bintolage_without_nulls(const bintolage_memory *memory, uint64_t *nothing)
{
    bintolage_memory lent = *memory;
    if (!lent.table) { lent.table = (uint8_t *)nothing; lent.table_bytes = 0; }
    if (!lent.xy) { lent.xy = nothing; lent.xy_words = 0; }
    if (!lent.ends) { lent.ends = (uint32_t *)nothing; lent.ends_words = 0; }
    if (!lent.z) { lent.z = nothing; lent.z_words = 0; }
    if (!lent.m) { lent.m = nothing; lent.m_words = 0; }
    if (!lent.t) { lent.t = nothing; lent.t_words = 0; }
    if (!lent.tm) { lent.tm = nothing; lent.tm_words = 0; }
    if (!lent.properties) { lent.properties = (uint8_t *)nothing; lent.properties_bytes = 0; }
    return lent;
}

#define BINTOLAGE_LISTS(lent) \
    (lent).table, (lent).table_bytes, (lent).xy, (lent).xy_words, (lent).ends, (lent).ends_words, (lent).z, (lent).z_words, \
    (lent).m, (lent).m_words, (lent).t, (lent).t_words, (lent).tm, (lent).tm_words

/* Gives the writer one event. Refused: 11, 15, 17, 5, 12. */
static inline uint8_t bintolage_give(bintolage_state *state, const bintolage_memory *memory, bintolage_event_record event)
{
    uint64_t nothing = 0;
    const bintolage_memory lent = bintolage_without_nulls(memory, &nothing);
    return bintolage_event(state, event.bytes, sizeof event.bytes, BINTOLAGE_LISTS(lent));
}

/*
 * Gives the writer `count` events one after the other, until one is refused: *taken is how many were taken, refused or
 * not. Refused: 11, 15, 17, 5, 12.
 */
static inline uint8_t bintolage_give_many(
    bintolage_state *state, const bintolage_memory *memory,
    const bintolage_event_record *events, size_t count,
    size_t *taken)
{
    uint64_t nothing = 0;
    const bintolage_memory lent = bintolage_without_nulls(memory, &nothing);
    const uint8_t *bytes = events ? (const uint8_t *)events : (const uint8_t *)&nothing;
    return bintolage_events(state, bytes, events ? count * sizeof *events : 0, BINTOLAGE_LISTS(lent), taken);
}

/* No column's type: in its place a type that the call is not for is refused as malformed (11), when its turn comes. */
#define BINTOLAGE_NO_TYPE 255

/*
 * Gives the writer a property of a type from 0 to 10, a number, by its bits: the low bytes, higher bytes zero. A negative
 * one is cast to the unsigned type of the column's width, (uint16_t)-3, and a double is given by bintolage_bits_of.
 * Refused: 15, 16, 11, 12.
 */
static inline uint8_t bintolage_give_number(
    bintolage_state *state, const bintolage_memory *memory, uint32_t column, uint8_t column_type, uint64_t bits)
{
    uint64_t nothing = 0;
    size_t unwanted;
    const bintolage_memory lent = bintolage_without_nulls(memory, &nothing);
    const uint8_t type = column_type < BINTOLAGE_COLUMN_STRING ? column_type : BINTOLAGE_NO_TYPE;
    return bintolage_property(
        state, column, type, bits, (const uint8_t *)&nothing, 0, lent.properties, lent.properties_bytes, &unwanted);
}

/*
 * Gives the writer a property of a type from 11 to 14: a text, or any bytes for Binary. *place says where a text that is
 * refused with 6 went bad, and is 0 with every other answer; `place` is null where that is not wanted. Refused: 15, 16, 11,
 * 6, 12.
 */
static inline uint8_t bintolage_give_text(
    bintolage_state *state, const bintolage_memory *memory, uint32_t column, uint8_t column_type,
    const void *text, size_t text_bytes,
    size_t *place)
{
    uint64_t nothing = 0;
    size_t unwanted;
    const bintolage_memory lent = bintolage_without_nulls(memory, &nothing);
    const uint8_t type = column_type < BINTOLAGE_COLUMN_STRING ? BINTOLAGE_NO_TYPE : column_type;
    const uint8_t *bytes = (const uint8_t *)(text ? text : &nothing);
    return bintolage_property(
        state, column, type, 0, bytes, text ? text_bytes : 0, lent.properties, lent.properties_bytes,
        place ? place : &unwanted);
}

/* Ends the feature, which then waits. Its tree stands in the table and the pools. Refused: 15, 12. */
static inline uint8_t bintolage_finish_feature(bintolage_state *state, const bintolage_memory *memory)
{
    uint64_t nothing = 0;
    const bintolage_memory lent = bintolage_without_nulls(memory, &nothing);
    return bintolage_finish(state, BINTOLAGE_LISTS(lent));
}

/* Leaves the finished feature behind, and the next may begin. Refused: 15, 12. */
static inline uint8_t bintolage_next_feature(bintolage_state *state, const bintolage_memory *memory)
{
    uint64_t nothing = 0;
    const bintolage_memory lent = bintolage_without_nulls(memory, &nothing);
    return bintolage_next(state, BINTOLAGE_LISTS(lent));
}

/*
 * Reads the tree whose root is record 0 as events, into the `log_records` records of `log`, and says in *count how many,
 * refused or not; `declared`, `flags` and `feature` as for bintolage_read. A log that has records already takes more behind
 * them: log + used, log_records - used. Refused: 1, 2, 3, 4, 7, 8, 9, 10, 13.
 */
static inline uint8_t bintolage_read_feature(
    const bintolage_memory *memory, uint8_t declared, uint8_t flags, uint32_t feature,
    bintolage_event_record *log, size_t log_records,
    uint32_t *count)
{
    uint64_t nothing = 0;
    const bintolage_memory lent = bintolage_without_nulls(memory, &nothing);
    uint8_t *bytes = log ? (uint8_t *)log : (uint8_t *)&nothing;
    return bintolage_read(
        BINTOLAGE_LISTS(lent), declared, flags, feature, bytes, log ? log_records * sizeof *log : 0, count);
}

/*
 * Reads well-known binary as events, into the `log_records` records of `log`, and says in *count how many, refused or not;
 * the records go to bintolage_give_many. Refused: 18, 19, 13, 9, 20.
 */
static inline uint8_t bintolage_read_wkb_events(
    const uint8_t *wkb, size_t wkb_bytes, uint32_t feature,
    bintolage_event_record *log, size_t log_records,
    uint32_t *count)
{
    uint64_t nothing = 0;
    const uint8_t *bytes = wkb ? wkb : (const uint8_t *)&nothing;
    uint8_t *records = log ? (uint8_t *)log : (uint8_t *)&nothing;
    return bintolage_read_wkb(
        bytes, wkb ? wkb_bytes : 0, feature, records, log ? log_records * sizeof *log : 0, count);
}

/*
 * Writes `count` events as well-known binary, into the `wkb_bytes` bytes of `wkb`, and says in *written how many, 0 where it
 * is refused. Refused: 11, 21, 13, 12.
 */
static inline uint8_t bintolage_write_wkb_events(
    const bintolage_event_record *events, size_t count,
    uint8_t *wkb, size_t wkb_bytes,
    size_t *written)
{
    uint64_t nothing = 0;
    const uint8_t *records = events ? (const uint8_t *)events : (const uint8_t *)&nothing;
    uint8_t *bytes = wkb ? wkb : (uint8_t *)&nothing;
    return bintolage_write_wkb(records, events ? count * sizeof *events : 0, bytes, wkb ? wkb_bytes : 0, written);
}

/*
 * Reads the properties of the feature in hand as values, into the `log_records` records of `log`, and says in *count how
 * many, refused or not. `columns` has the type of each column. *place says where a text that is refused with 6 went bad,
 * counted from the text's own first byte, and is 0 with every other answer; `place` is null where that is not wanted.
 * bintolage_refused_text finds that text, among the bintolage_property_bytes of the state. Refused: 2, 14, 6, 9.
 */
static inline uint8_t bintolage_read_values(
    const bintolage_state *state, const bintolage_memory *memory,
    const uint8_t *columns, size_t columns_count,
    bintolage_value_record *log, size_t log_records,
    uint32_t *count, size_t *place)
{
    uint64_t nothing = 0;
    size_t unwanted;
    uint8_t stopped;
    const bintolage_memory lent = bintolage_without_nulls(memory, &nothing);
    const size_t used = bintolage_property_bytes(state);
    const uint8_t *types = columns ? columns : (const uint8_t *)&nothing;
    uint8_t *bytes = log ? (uint8_t *)log : (uint8_t *)&nothing;
    return bintolage_read_properties(
        lent.properties, used < lent.properties_bytes ? used : lent.properties_bytes,
        1, types, columns ? columns_count : 0,
        BINTOLAGE_NO_STOP,
        bytes, log ? log_records * sizeof *log : 0,
        count, &stopped, place ? place : &unwanted);
}

/* A text among property bytes: its column, the column's type, and its own bytes; no zero byte ends them. */
typedef struct bintolage_text {
    uint16_t column;
    uint8_t column_type;
    const uint8_t *bytes;
    size_t length;
} bintolage_text;

/* What a property has before its value: its column in two bytes, and before a text its length in four more. */
#define BINTOLAGE_BEFORE_NUMBER 2
#define BINTOLAGE_BEFORE_TEXT   6

/* The place, from `at` on, of the next property that has a value, or the end: a column of a type above 14 has none. */
static inline size_t bintolage_next_value(
    const uint8_t *bytes, size_t bytes_count, const uint8_t *columns, size_t columns_count, size_t at)
{
    while (bytes_count - at >= BINTOLAGE_BEFORE_NUMBER) {
        const uint16_t column = bintolage_get16(bytes + at);
        if (column >= columns_count || columns[column] <= BINTOLAGE_COLUMN_BINARY) {
            break;
        }
        at += BINTOLAGE_BEFORE_NUMBER;
    }
    return at;
}

/* The place behind the property at `at`, of which this is the record; the end of the bytes where that would lie behind it. */
static inline size_t bintolage_behind_value(const bintolage_value_record *record, size_t bytes_count, size_t at)
{
    const bintolage_value_fields value = bintolage_value_of(record);
    const size_t before = value.column_type < BINTOLAGE_COLUMN_STRING ? BINTOLAGE_BEFORE_NUMBER : BINTOLAGE_BEFORE_TEXT;
    const size_t left = bytes_count - at;
    return left < before || left - before < value.length ? bytes_count : at + before + value.length;
}

/* The text of the property at `at`, of length 0 where none stands there whole. Binary is none: any bytes are good for it. */
static inline bintolage_text bintolage_text_at(
    const uint8_t *bytes, size_t bytes_count, const uint8_t *columns, size_t columns_count, size_t at)
{
    const bintolage_text none = {0, 0, bytes, 0};
    bintolage_text text = none;
    if (bytes_count - at < BINTOLAGE_BEFORE_TEXT) {
        return none;
    }
    text.column = bintolage_get16(bytes + at);
    if (text.column >= columns_count) {
        return none;
    }
    text.column_type = columns[text.column];
    if (text.column_type < BINTOLAGE_COLUMN_STRING || text.column_type >= BINTOLAGE_COLUMN_BINARY) {
        return none;
    }
    text.bytes = bytes + at + BINTOLAGE_BEFORE_TEXT;
    text.length = bintolage_get32(bytes + at + BINTOLAGE_BEFORE_NUMBER);
    return text.length <= bytes_count - at - BINTOLAGE_BEFORE_TEXT ? text : none;
}

/*
 * The text that a reading of property bytes refused with 6, so that its column and the byte at its place can be shown. It is
 * for a reading that answered 6, and is given what that reading was given and came to: the bytes, the column types, and the
 * log with its count. Whatever else it is given, it reads nothing outside of it, and a null pointer lends nothing; where it
 * comes to no text, `length` is 0 and `bytes` are those that it was given. A refused text is never empty.
 */
static inline bintolage_text bintolage_refused_text(
    const uint8_t *bytes, size_t bytes_count,
    const uint8_t *columns, size_t columns_count,
    const bintolage_value_record *log, uint32_t count)
{
    const size_t end = bytes ? bytes_count : 0, types = columns ? columns_count : 0;
    const uint32_t values = log ? count : 0;
    size_t at = bintolage_next_value(bytes, end, columns, types, 0);
    for (uint32_t i = 0; i < values && at < end; i++) {
        at = bintolage_next_value(bytes, end, columns, types, bintolage_behind_value(&log[i], end, at));
    }
    return bintolage_text_at(bytes, end, columns, types, at);
}

/* The edges of a box. */
typedef struct bintolage_edges {
    double least_x, least_y, greatest_x, greatest_y;
} bintolage_edges;

/*
 * The box around the geometry of record `n` with all its parts, which for record 0 is the whole feature's; refused, the box
 * that every box begins with. Refused: 13, 10.
 */
static inline uint8_t bintolage_read_box(const bintolage_memory *memory, uint32_t n, bintolage_edges *edges)
{
    uint64_t nothing = 0;
    uint64_t bits[4];
    const bintolage_memory lent = bintolage_without_nulls(memory, &nothing);
    const uint8_t answer = bintolage_box(BINTOLAGE_LISTS(lent), n, bits);
    edges->least_x = bintolage_double_of(bits[0]);
    edges->least_y = bintolage_double_of(bits[1]);
    edges->greatest_x = bintolage_double_of(bits[2]);
    edges->greatest_y = bintolage_double_of(bits[3]);
    return answer;
}

#undef BINTOLAGE_LISTS
#undef BINTOLAGE_NO_TYPE
#undef BINTOLAGE_BEFORE_NUMBER
#undef BINTOLAGE_BEFORE_TEXT

/* An answer in words. 2 is said of a tree, and of property bytes. */
static inline const char *bintolage_refusal(uint8_t number)
{
    switch (number) {
    case BINTOLAGE_DONE: return "done";
    case BINTOLAGE_XY_ABSENT: return "an xy list is absent";
    case BINTOLAGE_PARTS_ABSENT: return "parts are absent, or a column is not below the column count";
    case BINTOLAGE_TYPE_UNKNOWN: return "unknown geometry type";
    case BINTOLAGE_TYPE_NOT_A_CURVE: return "unexpected type in a curve";
    case BINTOLAGE_TYPES_MIXED: return "types mixed";
    case BINTOLAGE_NOT_UTF8: return "text is not UTF-8";
    case BINTOLAGE_PAST_LIST: return "a coordinate or a z, m, t or tm value past its list";
    case BINTOLAGE_BAD_END: return "an end that is 2^31 or larger, or less than the end before it";
    case BINTOLAGE_LOG_FULL: return "the log is full";
    case BINTOLAGE_BAD_RECORD: return "bad geometry record or table";
    case BINTOLAGE_MALFORMED: return "malformed event or value";
    case BINTOLAGE_NO_ROOM: return "no room in a pool, the table or the property bytes";
    case BINTOLAGE_TOO_DEEP: return "a part at level 17";
    case BINTOLAGE_VALUE_CUT: return "a property value cut short";
    case BINTOLAGE_NOT_ITS_TURN: return "not its turn";
    case BINTOLAGE_COLUMN_TOO_LARGE: return "column number above 65,535";
    case BINTOLAGE_OTHER_FEATURE: return "an event of another feature";
    case BINTOLAGE_WKB_CUT: return "well-known binary that ends before a field is whole";
    case BINTOLAGE_WKB_UNKNOWN: return "an order mark that is neither 0 nor 1, or a type that may not stand there";
    case BINTOLAGE_WKB_LEFT_OVER: return "bytes behind the geometry";
    case BINTOLAGE_BADLY_NESTED: return "events that are no geometry's: badly nested, tagged, indexed or sized";
    default: return "a number that no call answers";
    }
}

#ifdef __cplusplus
}
#endif

#endif
