/*
 * Round areas from stop boxes: polygons and plug verdicts.
 *
 * A box is four signed 32-bit numbers: west, south, east, north, in whole metres from the depot's datum. East and north grow upward. A box
 * may be a line or a point. A round has 1 to 1,024 boxes; every edge is from -16,000 to 16,000. Equal boxes are allowed and each counts.
 * A plug is two such numbers, east then north, in the same span. Boxes and plugs are numbered from 1.
 *
 * A pick gives each box one point in it, edges included, whose coordinates are fractions over some positive common denominator.
 * - A plug is not strictly inside a pick's hull if some whole direction (a, b), not both zero, has
 *   a * (east - plug east) + b * (north - plug north) at most 0 for every picked point.
 * - A plug is in the hull (edge included) if whole weights, none negative and not all zero, make the weighted sum of (picked point - plug)
 *   zero.
 * A pick succeeds for the first driver if the plug is not strictly inside its hull, and for the second if the plug is in its hull.
 *
 * Every call but feltloquat_print_round answers with a struct, returned by value. It starts with `refused` and `place`. `refused` is 0, and
 * then `place` is 0; or it is the number of a cause in this table, and then every other result in the struct is 0 and every lent buffer is
 * as it was. feltloquat_print_round says its own below.
 *
 *   number  cause                                                         place
 *    1      box list not a multiple of 4 numbers, or plug list not of 2   list length
 *    2      no box                                                        0
 *    3      more than 1,024 boxes                                         box count
 *    4      box edge beyond +-16,000                                      box number
 *    5      west over east, or south over north                           box number
 *    6      plug beyond +-16,000                                          plug number, 1 for a single plug
 *    7      buffer shorter than needed                                    length needed, or the largest 64-bit number if that is less
 *    8      unknown mark                                                  byte offset of the mark, from 0
 *    9      file stops within a record, or with no end record             offset where that record begins, or the file length
 *   10      box after a plug                                              offset of its mark
 *   11      byte after the end record                                     its offset
 *   12      program input over 65,536 bytes                               65536; only in feltloquat_print_round's text
 *
 * Order: 1, 2, 3; then box by box, 4 before 5; then 6; then 7. The reader and the writer say their own below.
 *
 * What is proved of a call that answers with a struct (crates/c_api): the answer that the struct means keeps the promise of the library's
 * call that is wrapped, and the struct is that answer's numbers (`Answered` in crates/c_answers). The verdicts and the word are equal to
 * those of one definition (`verdict_of` in crates/verdicts), reasons included. Of feltloquat_print_round: the text and its length. Not proved but tested (tests/c): that this header names the fields and the parameters as the library does.
 *
 * No call has a precondition on numbers, bytes or lengths. What a caller owes is what C always asks: each list is a pointer to as many numbers,
 * records or bytes as its length says, aligned as their type asks, and a list that a call writes overlaps no other. A list of length 0 may
 * be NULL: its pointer is not followed. No call keeps a pointer, allocates, or has state; calls from several threads do not disturb each
 * other.
 *
 * A call takes no more stack than its FELTLOQUAT_STACK_ constant says, whatever it is lent; what its caller and the C library keep on the
 * same stack comes beside that, and some 4 KiB for a loader that binds memcpy and memset only when they are first called. The polygons and
 * the verdicts of every round run on a thread of 64 KiB. Not proved but measured (tests/c/stacks.c): no call takes more than is stated, nor
 * less than half of it.
 *
 * Build the library for x86-64 Linux: ./library [PREFIX], which makes libfeltloquat.a, libfeltloquat.so and feltloquat.pc. For C89 or later
 * with <stdint.h> and __inline, as gcc and clang have them, or C++.
 */
#ifndef FELTLOQUAT_H
#define FELTLOQUAT_H

#include <stddef.h>
#include <stdint.h>

#if SIZE_MAX != UINT64_MAX
#error "the library is for machines whose size_t has 64 bits"
#endif

#ifdef __cplusplus
extern "C" {
#endif

#define FELTLOQUAT_VERSION_MAJOR 0
#define FELTLOQUAT_VERSION_MINOR 1
#define FELTLOQUAT_VERSION_PATCH 0
#define FELTLOQUAT_VERSION "0.1.0"

#define FELTLOQUAT_MOST_BOXES 1024        /* the most boxes of a round */
#define FELTLOQUAT_SPAN 16000             /* the greatest edge or coordinate; the least is its negative */
#define FELTLOQUAT_MOST_DIRECTION 32000   /* the greatest part of a direction; the least is its negative */
#define FELTLOQUAT_MOST_WEIGHT 2048000000 /* the greatest weight of an entry */
#define FELTLOQUAT_MOST_INPUT 65536       /* the most bytes of a file that feltloquat_print_round takes */
#define FELTLOQUAT_TEXT_LENGTH 131072     /* the bytes of the text that feltloquat_print_round is lent */

/* The most bytes of stack that each call takes, for every input. */
#define FELTLOQUAT_STACK_OUTER_POLYGON 43008
#define FELTLOQUAT_STACK_CORNER_POLYGONS 24576
#define FELTLOQUAT_STACK_VERDICT 1536
#define FELTLOQUAT_STACK_WORD 1536
#define FELTLOQUAT_STACK_VERDICT_ON_RECORDS 20480
#define FELTLOQUAT_STACK_READ_ROUND 256
#define FELTLOQUAT_STACK_WRITE_ROUND 256
#define FELTLOQUAT_STACK_PRINT_ROUND 98304

/* The number of a cause: `refused` where it is not 0. */
enum feltloquat_cause {
    FELTLOQUAT_LIST_LENGTH = 1,
    FELTLOQUAT_NO_BOX = 2,
    FELTLOQUAT_TOO_MANY_BOXES = 3,
    FELTLOQUAT_EDGE_BEYOND = 4,
    FELTLOQUAT_EDGES_REVERSED = 5,
    FELTLOQUAT_PLUG_BEYOND = 6,
    FELTLOQUAT_BUFFER_SHORT = 7,
    FELTLOQUAT_UNKNOWN_MARK = 8,
    FELTLOQUAT_CUT_SHORT = 9,
    FELTLOQUAT_BOX_AFTER_PLUG = 10,
    FELTLOQUAT_BYTE_AFTER_END = 11,
    FELTLOQUAT_INPUT_TOO_LONG = 12
};

/* A cause in the words of the table; "", never NULL, for 0 and every other number that is no cause. */
static __inline const char *feltloquat_cause_words(uint32_t refused) {
    switch (refused) {
    case FELTLOQUAT_LIST_LENGTH: return "box list not a multiple of 4 numbers, or plug list not of 2";
    case FELTLOQUAT_NO_BOX: return "no box";
    case FELTLOQUAT_TOO_MANY_BOXES: return "more than 1,024 boxes";
    case FELTLOQUAT_EDGE_BEYOND: return "box edge beyond +-16,000";
    case FELTLOQUAT_EDGES_REVERSED: return "west over east, or south over north";
    case FELTLOQUAT_PLUG_BEYOND: return "plug beyond +-16,000";
    case FELTLOQUAT_BUFFER_SHORT: return "buffer shorter than needed";
    case FELTLOQUAT_UNKNOWN_MARK: return "unknown mark";
    case FELTLOQUAT_CUT_SHORT: return "file stops within a record, or with no end record";
    case FELTLOQUAT_BOX_AFTER_PLUG: return "box after a plug";
    case FELTLOQUAT_BYTE_AFTER_END: return "byte after the end record";
    case FELTLOQUAT_INPUT_TOO_LONG: return "program input over 65,536 bytes";
    default: return "";
    }
}

/* The number of a corner's name. */
enum feltloquat_corner {
    FELTLOQUAT_SW = 0,
    FELTLOQUAT_SE = 1,
    FELTLOQUAT_NE = 2,
    FELTLOQUAT_NW = 3
};

/* The number of a verdict's word. */
enum feltloquat_word_number {
    FELTLOQUAT_INSIDE = 1,   /* no pick succeeds for the first driver */
    FELTLOQUAT_OUTSIDE = 2,  /* no pick succeeds for the second driver */
    FELTLOQUAT_UNDECIDED = 3 /* a pick succeeds for each */
};

/* ---- Polygons ---------------------------------------------------------------------------------------------------------------------------
 *
 * A polygon lists exactly the extreme points, each once, clockwise. A point is extreme if it is not in the hull of the other distinct
 * points. With three or more vertices, every input point lies strictly right of each side or on it. All points equal: one vertex. All in
 * line: the two ends. The starting vertex is open.
 *
 * Answers go into a lent buffer of signed 32-bit numbers, east and north per vertex. With N boxes, 8 * N numbers are needed. Numbers after
 * the last vertex up to 8 * N become 0; those beyond are unchanged. Refused by 1 to 5 for the boxes, then 7.
 */

struct feltloquat_outer_answer {
    uint32_t refused; /* 0, or enum feltloquat_cause */
    uint64_t place;
    size_t vertices; /* how many vertices the outer polygon has */
};

/* The outer polygon: the hull of all four corners of all boxes. */
struct feltloquat_outer_answer feltloquat_outer_polygon(const int32_t *boxes, size_t boxes_length, int32_t *answer, size_t answer_length);

struct feltloquat_corners_answer {
    uint32_t refused; /* 0, or enum feltloquat_cause */
    uint64_t place;
    size_t southwest; /* how many vertices the SW polygon has */
    size_t southeast;
    size_t northeast;
    size_t northwest;
};

/* The corner polygons SW, SE, NE, NW: the hulls of that one corner of every box. They stand one behind another, in the order named, each
 * in the part of the buffer that the earlier ones left free. */
struct feltloquat_corners_answer feltloquat_corner_polygons(const int32_t *boxes, size_t boxes_length, int32_t *answer, size_t answer_length);

/* ---- Verdicts ---------------------------------------------------------------------------------------------------------------------------
 *
 * Refused by 1 to 5 for the boxes, then 6 with place 1.
 */

/* An entry of the second driver's reason. It may repeat. */
struct feltloquat_entry {
    size_t number;   /* the number of a box of the list, from 1 */
    uint32_t corner; /* enum feltloquat_corner */
    uint32_t weight; /* from 0 to FELTLOQUAT_MOST_WEIGHT */
};

struct feltloquat_verdict_answer {
    uint32_t refused; /* 0, or enum feltloquat_cause */
    uint64_t place;
    uint32_t word; /* enum feltloquat_word_number */

    /* The rest are reasons where the word is undecided, and 0 where it is not. Which reasons is left to the program. */

    /* For the first driver: that corner of every box is the pick, and (east, north) is its direction, each part from -32,000 to 32,000. */
    uint32_t corner; /* enum feltloquat_corner */
    int32_t east;
    int32_t north;

    /* For the second: three entries, weights not all zero, whose weighted sum of (corner - plug) is zero. A box named with positive weight
     * picks the weighted mean of its entries; every other box picks SW. */
    struct feltloquat_entry first;
    struct feltloquat_entry second;
    struct feltloquat_entry third;
};

/* The verdict on the plug at an east and a north, with its reasons. */
struct feltloquat_verdict_answer feltloquat_verdict(const int32_t *boxes, size_t boxes_length, int32_t east, int32_t north);

struct feltloquat_word_answer {
    uint32_t refused; /* 0, or enum feltloquat_cause */
    uint64_t place;
    uint32_t word; /* enum feltloquat_word_number */
};

/* The verdict's word alone. */
struct feltloquat_word_answer feltloquat_word(const int32_t *boxes, size_t boxes_length, int32_t east, int32_t north);

/* A box as a record of four named edges. */
struct feltloquat_box {
    int32_t west;
    int32_t south;
    int32_t east;
    int32_t north;
};

/* The same verdict for boxes lent as a list of records, proved equal, reasons included; boxes_length counts records. The list-length cause, 1, cannot
 * arise. */
struct feltloquat_verdict_answer feltloquat_verdict_on_records(const struct feltloquat_box *boxes, size_t boxes_length, int32_t east, int32_t north);

/* ---- The round file ---------------------------------------------------------------------------------------------------------------------
 *
 * Each record opens with a two-byte mark, high byte first. Numbers in records are four bytes, two's complement, high byte first.
 *
 *   5B01           box: west, south, east, north
 *   5B02           plug: east, north
 *   5C00 to 5CFF   note: one length byte, then that many bytes; skipped
 *   5B00           end, with no bytes after it
 *
 * Boxes come before plugs; notes stand anywhere before the end.
 */

struct feltloquat_read_answer {
    uint32_t refused; /* 0, or enum feltloquat_cause */
    uint64_t place;
    size_t boxes; /* how many boxes the file holds: 4 numbers each */
    size_t plugs; /* how many plugs: 2 numbers each */
};

/* Fills one buffer of boxes and one of plugs, leaves the remainder of each unchanged, and judges form only. Refused by the earliest fault
 * of 8 to 11 in the file, then 7 for boxes, then 7 for plugs. A lone byte where a mark belongs is 9. A box record that stands after a plug
 * and is also cut short is 10. */
struct feltloquat_read_answer feltloquat_read_round(const uint8_t *file, size_t file_length, int32_t *boxes, size_t boxes_length, int32_t *plugs,
                                                    size_t plugs_length);

struct feltloquat_write_answer {
    uint32_t refused; /* 0, or enum feltloquat_cause */
    uint64_t place;
    size_t bytes; /* how many bytes were written */
};

/* Writes boxes, plugs and end, without notes: 18 bytes for each box, 10 for each plug, 2 for the end. Bytes after that count are unchanged.
 * Refused by 1 to 5 for the boxes, then by 1 and 6 for the plug list, then 7. A well-formed file without notes, whose boxes and plugs the
 * writer accepts, comes out of reading and writing with the same bytes. */
struct feltloquat_write_answer feltloquat_write_round(const int32_t *boxes, size_t boxes_length, const int32_t *plugs, size_t plugs_length,
                                                      uint8_t *file, size_t file_length);

/* ---- The printing program ---------------------------------------------------------------------------------------------------------------
 *
 * Writes what the printing program prints for an input to the front of `text`: one line `refused NUMBER PLACE` (12, then as the reader, then
 * as the verdict does for the boxes), or `boxes COUNT plugs COUNT` and then per plug its number and a word, or its number and `refused 6`.
 * Returns how many bytes that is; bytes after them are unchanged. No zero byte ends the text.
 *
 * Unlike the other calls, it does not refuse by a struct: what it refuses is said in `text`, which is therefore written in every case. And
 * it is not told how long `text` is: the caller owes FELTLOQUAT_TEXT_LENGTH bytes there, which are enough for every input.
 */
size_t feltloquat_print_round(const uint8_t *file, size_t file_length, uint8_t text[FELTLOQUAT_TEXT_LENGTH]);

#ifdef __cplusplus
}
#endif

#endif
