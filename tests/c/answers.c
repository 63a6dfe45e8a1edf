/*
 * Checks every field of every answer of every call for C, every number and byte of every lent buffer, and the header's constants and words.
 *
 * What each call must answer is in cases.h. write_cases.py makes it with the independent implementation of docs/SCOPE.md in oracle/, in Python;
 * nothing in it was taken from the library, and the values differ wherever an exchange of fields or parameters could hide. What docs/SCOPE.md
 * leaves open is checked by what holds of it: a polygon's start by turning the polygon, an undecided verdict's reasons by working them out.
 *
 * Each list of length 0 is lent twice: as NULL, and as a pointer. tests/c/run builds and runs this.
 */
#include <stdio.h>
#include <stdlib.h>
#include <string.h>

#include <feltloquat.h>

/* ---- Cases. Boxes are a list of so many numbers, so many times over. A room is the length of a lent buffer. ---- */

struct polygon_case {
    const char *name;
    const int32_t *boxes;
    size_t boxes_length;
    size_t times;
    size_t room;
    uint32_t refused;
    uint64_t place;
    size_t outer;            /* how many vertices */
    size_t corners[4];       /* how many vertices SW, SE, NE, NW */
    const int32_t *vertices; /* east and north of each: outer, SW, SE, NE, NW */
};

struct verdict_case {
    const char *name;
    const int32_t *boxes;
    size_t boxes_length;
    size_t times;
    int32_t east;
    int32_t north;
    uint32_t refused;
    uint64_t place;
    uint32_t word;
    int corner; /* the first driver's only corner, with the only direction but for its length; or -1 where there is a choice */
    int32_t direction_east;
    int32_t direction_north;
    size_t points; /* how many points are the second driver's only choice; or 0 where there is a choice */
    int32_t balance[3][3]; /* east, north and weight of each, the weights but for a common factor */
};

struct read_case {
    const char *name;
    const uint8_t *file;
    size_t file_length;
    size_t boxes_room;
    size_t plugs_room;
    uint32_t refused;
    uint64_t place;
    size_t boxes;
    size_t plugs;
    const int32_t *box_numbers;
    const int32_t *plug_numbers;
};

struct write_case {
    const char *name;
    const int32_t *boxes;
    size_t boxes_length;
    size_t times;
    const int32_t *plugs;
    size_t plugs_length;
    size_t room;
    uint32_t refused;
    uint64_t place;
    size_t bytes;
    uint64_t hash; /* of those bytes, 64-bit FNV-1a */
};

struct print_case {
    const char *name;
    const uint8_t *file;
    size_t file_length;
    const char *text;
};

#include "cases.h"

#define COUNT(cases) (sizeof(cases) / sizeof *(cases))

/* ---- Checks ---- */

static unsigned long checks, failures, answers;
static const char *call_name, *case_name;

static void check(int holds, const char *what) {
    checks++;
    if (!holds) {
        failures++;
        printf("%s, %s: %s\n", call_name, case_name, what);
    }
}

static void same(const char *field, long long got, long long expected) {
    checks++;
    if (got != expected) {
        failures++;
        printf("%s, %s: %s is %lld and must be %lld\n", call_name, case_name, field, got, expected);
    }
}

/* `SAME(field)`: a field of the answer is the one of the case. */
#define SAME(field) same(#field, (long long)answer.field, (long long)expected->field)

static void begin(const char *call, const char *name) {
    call_name = call;
    case_name = name;
    answers++;
}

static uint64_t hashed(const uint8_t *bytes, size_t count) {
    uint64_t value = UINT64_C(0xCBF29CE484222325);
    for (size_t i = 0; i < count; i++) {
        value = (value ^ bytes[i]) * UINT64_C(0x100000001B3);
    }
    return value;
}

/* ---- Lent lists ---- */

/* Whether lists of length 0 are NULL now. */
static int null_lists;

static void *some_memory(size_t bytes) {
    void *memory = malloc(bytes + (bytes == 0));
    if (memory == NULL) {
        printf("no memory\n");
        exit(2);
    }
    return memory;
}

/* A list, so many times over, in memory of its size, so that a memory checker sees what is read beyond it. */
static void *lent(const void *list, size_t bytes, size_t times) {
    if (bytes * times == 0 && null_lists) {
        return NULL;
    }
    char *memory = (char *)some_memory(bytes * times);
    for (size_t i = 0; bytes > 0 && i < times; i++) {
        memcpy(memory + i * bytes, list, bytes);
    }
    return memory;
}

static void returned(void *memory, const void *list, size_t bytes, size_t times) {
    for (size_t i = 0; bytes > 0 && i < times; i++) {
        check(memcmp((char *)memory + i * bytes, list, bytes) == 0, "a list that is only read has changed");
    }
    free(memory);
}

/* Buffers that are written stand between marks, and every place of them has another mark. */
enum { GUARD = 32 };

static int32_t number_mark(size_t place) {
    return -700000000 - (int32_t)place;
}

static uint8_t byte_mark(size_t place) {
    return (uint8_t)(0xA5 ^ (place * 29));
}

static int32_t *lent_numbers(size_t room) {
    if (room == 0 && null_lists) {
        return NULL;
    }
    int32_t *whole = (int32_t *)some_memory((room + 2 * GUARD) * sizeof *whole);
    for (size_t i = 0; i < room + 2 * GUARD; i++) {
        whole[i] = number_mark(i);
    }
    return whole + GUARD;
}

/* The first numbers are as expected, and every other one is its mark. */
static void returned_numbers(int32_t *numbers, size_t room, const int32_t *expected, size_t count, const char *what) {
    if (numbers == NULL) {
        return;
    }
    int32_t *whole = numbers - GUARD;
    check(count == 0 || memcmp(numbers, expected, count * sizeof *expected) == 0, what);
    int kept = 1;
    for (size_t i = 0; i < room + 2 * GUARD; i++) {
        kept = kept && ((i >= GUARD && i < GUARD + count) || whole[i] == number_mark(i));
    }
    check(kept, "a number that must stay has changed");
    free(whole);
}

static uint8_t *lent_bytes(size_t room) {
    if (room == 0 && null_lists) {
        return NULL;
    }
    uint8_t *whole = (uint8_t *)some_memory(room + 2 * GUARD);
    for (size_t i = 0; i < room + 2 * GUARD; i++) {
        whole[i] = byte_mark(i);
    }
    return whole + GUARD;
}

/* The first bytes have a hash, and every other one is its mark. */
static void returned_bytes(uint8_t *bytes, size_t room, size_t count, uint64_t hash) {
    if (bytes == NULL) {
        return;
    }
    uint8_t *whole = bytes - GUARD;
    check(hashed(bytes, count) == hash, "the bytes written");
    int kept = 1;
    for (size_t i = 0; i < room + 2 * GUARD; i++) {
        kept = kept && ((i >= GUARD && i < GUARD + count) || whole[i] == byte_mark(i));
    }
    check(kept, "a byte that must stay has changed");
    free(whole);
}

/* ---- Polygons ---- */

/* Turns a polygon so that it starts where the expected one does, if it has that vertex. */
static void turn_to(int32_t *numbers, size_t vertices, const int32_t *expected) {
    for (size_t turns = 0; turns < vertices && (numbers[0] != expected[0] || numbers[1] != expected[1]); turns++) {
        int32_t east = numbers[0], north = numbers[1];
        memmove(numbers, numbers + 2, (vertices - 1) * 2 * sizeof *numbers);
        numbers[2 * vertices - 2] = east;
        numbers[2 * vertices - 1] = north;
    }
}

/* The vertices of polygons, one behind another, then zeros up to 8 for each box, then what was there before. */
static void returned_polygons(int32_t *numbers, const struct polygon_case *expected, const int32_t *vertices, const size_t *counts, size_t polygons) {
    size_t needed = expected->refused == 0 ? 2 * expected->boxes_length * expected->times : 0;
    int32_t *listed = (int32_t *)some_memory(needed * sizeof *listed);
    size_t length = 0;
    for (size_t i = 0; i < polygons && needed > 0; i++) {
        memcpy(listed + length, vertices + length, counts[i] * 2 * sizeof *listed);
        turn_to(numbers + length, counts[i], vertices + length);
        length += 2 * counts[i];
    }
    for (size_t i = length; i < needed; i++) {
        listed[i] = 0;
    }
    returned_numbers(numbers, expected->room, listed, needed, "the vertices and the zeros after them");
    free(listed);
}

static void check_polygons(const struct polygon_case *expected) {
    size_t size = expected->boxes_length * sizeof *expected->boxes, length = expected->boxes_length * expected->times;
    int32_t *boxes = (int32_t *)lent(expected->boxes, size, expected->times);
    {
        begin("feltloquat_outer_polygon", expected->name);
        int32_t *numbers = lent_numbers(expected->room);
        struct feltloquat_outer_answer answer = feltloquat_outer_polygon(boxes, length, numbers, expected->room);
        SAME(refused);
        SAME(place);
        same("vertices", (long long)answer.vertices, (long long)expected->outer);
        returned_polygons(numbers, expected, expected->vertices, &expected->outer, 1);
    }
    {
        begin("feltloquat_corner_polygons", expected->name);
        int32_t *numbers = lent_numbers(expected->room);
        struct feltloquat_corners_answer answer = feltloquat_corner_polygons(boxes, length, numbers, expected->room);
        SAME(refused);
        SAME(place);
        same("southwest", (long long)answer.southwest, (long long)expected->corners[0]);
        same("southeast", (long long)answer.southeast, (long long)expected->corners[1]);
        same("northeast", (long long)answer.northeast, (long long)expected->corners[2]);
        same("northwest", (long long)answer.northwest, (long long)expected->corners[3]);
        const int32_t *vertices = expected->vertices == NULL ? NULL : expected->vertices + 2 * expected->outer;
        returned_polygons(numbers, expected, vertices, expected->corners, 4);
    }
    returned(boxes, expected->boxes, size, expected->times);
}

/* ---- Verdicts ---- */

/* The corner of the number of a box, its numbers being west, south, east, north. */
static void corner_of(const int32_t *box, uint32_t corner, int64_t *east, int64_t *north) {
    *east = corner == 1 || corner == 2 ? box[2] : box[0];
    *north = corner == 2 || corner == 3 ? box[3] : box[1];
}

/* The first driver's reason: no picked corner is ahead of the plug in the direction. */
static void check_direction(const struct verdict_case *expected, const struct feltloquat_verdict_answer *answer) {
    int64_t a = answer->east, b = answer->north;
    check(answer->corner <= 3, "the first driver's corner is none");
    check(a >= -LIMIT_DIRECTION && a <= LIMIT_DIRECTION && b >= -LIMIT_DIRECTION && b <= LIMIT_DIRECTION, "the direction is beyond its bounds");
    check(a != 0 || b != 0, "the direction is zero");
    for (size_t i = 0; i < expected->boxes_length; i += 4) {
        int64_t east, north;
        corner_of(expected->boxes + i, answer->corner, &east, &north);
        check(a * (east - expected->east) + b * (north - expected->north) <= 0, "a corner is ahead in the direction");
    }
    if (expected->corner >= 0) {
        same("corner", answer->corner, expected->corner);
        same("across the direction", a * expected->direction_north - b * expected->direction_east, 0);
        check(a * expected->direction_east + b * expected->direction_north > 0, "the direction is the opposite one");
    }
}

/* The second driver's reason: the weighted sum of (corner - plug) is zero. */
static void check_entries(const struct verdict_case *expected, const struct feltloquat_verdict_answer *answer) {
    const struct feltloquat_entry *entries[3] = {&answer->first, &answer->second, &answer->third};
    int64_t sum_east = 0, sum_north = 0, all = 0, given[3] = {0, 0, 0};
    for (size_t i = 0; i < 3; i++) {
        const struct feltloquat_entry *entry = entries[i];
        int64_t east, north, weight = entry->weight;
        check(entry->corner <= 3, "an entry's corner is none");
        check(weight <= LIMIT_WEIGHT, "a weight is beyond its bound");
        check(entry->number >= 1 && entry->number <= expected->boxes_length / 4 * expected->times, "an entry names no box");
        if (entry->number < 1 || entry->number > expected->boxes_length / 4 * expected->times) {
            return;
        }
        corner_of(expected->boxes + (entry->number - 1) * 4 % expected->boxes_length, entry->corner, &east, &north);
        sum_east += weight * (east - expected->east);
        sum_north += weight * (north - expected->north);
        all += weight;
        for (size_t k = 0; k < expected->points; k++) {
            if (east == expected->balance[k][0] && north == expected->balance[k][1]) {
                given[k] += weight;
            }
        }
    }
    check(all > 0, "all weights are zero");
    same("the weighted sum east", sum_east, 0);
    same("the weighted sum north", sum_north, 0);
    if (expected->points > 0) {
        same("the weight of the only points", given[0] + given[1] + given[2], all);
        for (size_t k = 0; k < expected->points; k++) {
            same("a point's weight, times another's", given[k] * expected->balance[0][2], given[0] * expected->balance[k][2]);
        }
    }
}

static void check_no_entry(const struct feltloquat_entry *entry) {
    same("an entry's number", (long long)entry->number, 0);
    same("an entry's corner", entry->corner, 0);
    same("an entry's weight", entry->weight, 0);
}

static void check_verdict_answer(const struct verdict_case *expected, struct feltloquat_verdict_answer answer) {
    SAME(refused);
    SAME(place);
    SAME(word);
    if (answer.word == 3) {
        check_direction(expected, &answer);
        check_entries(expected, &answer);
    } else {
        same("corner", answer.corner, 0);
        same("east", answer.east, 0);
        same("north", answer.north, 0);
        check_no_entry(&answer.first);
        check_no_entry(&answer.second);
        check_no_entry(&answer.third);
    }
}

static void check_equal_entries(const struct feltloquat_entry *entry, const struct feltloquat_entry *other) {
    same("an entry's number, for records", (long long)entry->number, (long long)other->number);
    same("an entry's corner, for records", entry->corner, other->corner);
    same("an entry's weight, for records", entry->weight, other->weight);
}

/* Boxes lent as records have equal answers, the reasons too. */
static void check_equal_reasons(const struct feltloquat_verdict_answer *answer, const struct feltloquat_verdict_answer *other) {
    same("corner, for records", answer->corner, other->corner);
    same("east, for records", answer->east, other->east);
    same("north, for records", answer->north, other->north);
    check_equal_entries(&answer->first, &other->first);
    check_equal_entries(&answer->second, &other->second);
    check_equal_entries(&answer->third, &other->third);
}

static void check_verdicts(const struct verdict_case *expected) {
    size_t size = expected->boxes_length * sizeof *expected->boxes, length = expected->boxes_length * expected->times;
    int32_t *boxes = (int32_t *)lent(expected->boxes, size, expected->times);
    begin("feltloquat_verdict", expected->name);
    struct feltloquat_verdict_answer verdict = feltloquat_verdict(boxes, length, expected->east, expected->north);
    check_verdict_answer(expected, verdict);
    {
        begin("feltloquat_word", expected->name);
        struct feltloquat_word_answer answer = feltloquat_word(boxes, length, expected->east, expected->north);
        SAME(refused);
        SAME(place);
        SAME(word);
    }
    if (length % 4 == 0) {
        begin("feltloquat_verdict_on_records", expected->name);
        struct feltloquat_box *records = length == 0 && null_lists ? NULL : (struct feltloquat_box *)some_memory(length / 4 * sizeof *records);
        for (size_t i = 0; i < length / 4; i++) {
            records[i].west = boxes[4 * i];
            records[i].south = boxes[4 * i + 1];
            records[i].east = boxes[4 * i + 2];
            records[i].north = boxes[4 * i + 3];
        }
        struct feltloquat_verdict_answer answer = feltloquat_verdict_on_records(records, length / 4, expected->east, expected->north);
        check_verdict_answer(expected, answer);
        check_equal_reasons(&answer, &verdict);
        for (size_t i = 0; i < length / 4; i++) {
            check(records[i].west == boxes[4 * i] && records[i].south == boxes[4 * i + 1] && records[i].east == boxes[4 * i + 2] &&
                      records[i].north == boxes[4 * i + 3],
                  "a record has changed");
        }
        free(records);
    }
    returned(boxes, expected->boxes, size, expected->times);
}

/* ---- Files ---- */

static void check_reading(const struct read_case *expected) {
    begin("feltloquat_read_round", expected->name);
    uint8_t *file = (uint8_t *)lent(expected->file, expected->file_length, 1);
    int32_t *boxes = lent_numbers(expected->boxes_room);
    int32_t *plugs = lent_numbers(expected->plugs_room);
    struct feltloquat_read_answer answer =
        feltloquat_read_round(file, expected->file_length, boxes, expected->boxes_room, plugs, expected->plugs_room);
    SAME(refused);
    SAME(place);
    SAME(boxes);
    SAME(plugs);
    returned_numbers(boxes, expected->boxes_room, expected->box_numbers, 4 * expected->boxes, "the boxes read");
    returned_numbers(plugs, expected->plugs_room, expected->plug_numbers, 2 * expected->plugs, "the plugs read");
    returned(file, expected->file, expected->file_length, 1);
}

static void check_writing(const struct write_case *expected) {
    begin("feltloquat_write_round", expected->name);
    size_t boxes_size = expected->boxes_length * sizeof *expected->boxes, plugs_size = expected->plugs_length * sizeof *expected->plugs;
    int32_t *boxes = (int32_t *)lent(expected->boxes, boxes_size, expected->times);
    int32_t *plugs = (int32_t *)lent(expected->plugs, plugs_size, 1);
    uint8_t *file = lent_bytes(expected->room);
    struct feltloquat_write_answer answer =
        feltloquat_write_round(boxes, expected->boxes_length * expected->times, plugs, expected->plugs_length, file, expected->room);
    SAME(refused);
    SAME(place);
    SAME(bytes);
    returned_bytes(file, expected->room, expected->bytes, expected->hash);
    returned(boxes, expected->boxes, boxes_size, expected->times);
    returned(plugs, expected->plugs, plugs_size, 1);
}

/* ---- The printing program ---- */

static void check_print(const char *name, const uint8_t *bytes, size_t length, size_t text_length, uint64_t hash) {
    begin("feltloquat_print_round", name);
    uint8_t *file = (uint8_t *)lent(bytes, length, 1);
    uint8_t *text = lent_bytes(FELTLOQUAT_TEXT_LENGTH);
    same("how many bytes are returned", (long long)feltloquat_print_round(file, length, text), (long long)text_length);
    returned_bytes(text, FELTLOQUAT_TEXT_LENGTH, text_length, hash);
    returned(file, bytes, length, 1);
}

static void check_text(const char *name, const uint8_t *file, size_t length, const char *text) {
    check_print(name, file, length, strlen(text), hashed((const uint8_t *)text, strlen(text)));
}

static uint8_t *put_number(uint8_t *at, int32_t number) {
    for (int shift = 24; shift >= 0; shift -= 8) {
        *at++ = (uint8_t)((uint32_t)number >> shift);
    }
    return at;
}

/* The longest input that is taken: three boxes of round B and LONGEST_PLUGS plugs; and one byte more. */
static void check_longest(void) {
    static const int32_t boxes[3][4] = {{0, 0, 2, 2}, {8, 0, 10, 2}, {8, 8, 10, 10}};
    uint8_t *file = (uint8_t *)some_memory(FELTLOQUAT_MOST_INPUT + 1), *at = file;
    for (size_t i = 0; i < 3; i++) {
        *at++ = 0x5B;
        *at++ = 0x01;
        for (size_t k = 0; k < 4; k++) {
            at = put_number(at, boxes[i][k]);
        }
    }
    for (int32_t i = 0; i < LONGEST_PLUGS; i++) {
        *at++ = 0x5B;
        *at++ = 0x02;
        at = put_number(at, i % 50 == 7 ? 16001 : i % 13 - 1);
        at = put_number(at, i % 11);
    }
    *at++ = 0x5B;
    *at++ = 0x00;
    check_print("the longest input", file, FELTLOQUAT_MOST_INPUT, LONGEST_TEXT_LENGTH, LONGEST_TEXT_HASH);
    same("the longest input's length", at - file, LIMIT_INPUT);
    *at++ = 0x00;
    check_text("one byte more", file, FELTLOQUAT_MOST_INPUT + 1, TOO_LONG_TEXT);
    free(file);
}

/* ---- The header ---- */

static void check_header(void) {
    begin("feltloquat.h", "constants");
    char version[64];
    snprintf(version, sizeof version, "%d.%d.%d", FELTLOQUAT_VERSION_MAJOR, FELTLOQUAT_VERSION_MINOR, FELTLOQUAT_VERSION_PATCH);
    check(strcmp(version, FELTLOQUAT_VERSION) == 0, "the version's numbers and its text");
    check(strcmp(version, "0.1.0") == 0, "the version");
    same("most boxes", FELTLOQUAT_MOST_BOXES, LIMIT_BOXES);
    same("span", FELTLOQUAT_SPAN, LIMIT_SPAN);
    same("most direction", FELTLOQUAT_MOST_DIRECTION, LIMIT_DIRECTION);
    same("most weight", FELTLOQUAT_MOST_WEIGHT, LIMIT_WEIGHT);
    same("most input", FELTLOQUAT_MOST_INPUT, LIMIT_INPUT);
    same("text length", FELTLOQUAT_TEXT_LENGTH, 131072);
    static const int numbers[][2] = {{FELTLOQUAT_SW, 0}, {FELTLOQUAT_SE, 1}, {FELTLOQUAT_NE, 2}, {FELTLOQUAT_NW, 3},
                                     {FELTLOQUAT_INSIDE, 1}, {FELTLOQUAT_OUTSIDE, 2}, {FELTLOQUAT_UNDECIDED, 3}};
    for (size_t i = 0; i < COUNT(numbers); i++) {
        same("the number of a corner or a word", numbers[i][0], numbers[i][1]);
    }

    begin("feltloquat_cause_words", "each cause");
    /* docs/SCOPE.md's table "Turned back", row by row from number 1, with +- for the sign. */
    static const struct {
        uint32_t cause;
        const char *words;
    } causes[] = {
        {FELTLOQUAT_LIST_LENGTH, "box list not a multiple of 4 numbers, or plug list not of 2"},
        {FELTLOQUAT_NO_BOX, "no box"},
        {FELTLOQUAT_TOO_MANY_BOXES, "more than 1,024 boxes"},
        {FELTLOQUAT_EDGE_BEYOND, "box edge beyond +-16,000"},
        {FELTLOQUAT_EDGES_REVERSED, "west over east, or south over north"},
        {FELTLOQUAT_PLUG_BEYOND, "plug beyond +-16,000"},
        {FELTLOQUAT_BUFFER_SHORT, "buffer shorter than needed"},
        {FELTLOQUAT_UNKNOWN_MARK, "unknown mark"},
        {FELTLOQUAT_CUT_SHORT, "file stops within a record, or with no end record"},
        {FELTLOQUAT_BOX_AFTER_PLUG, "box after a plug"},
        {FELTLOQUAT_BYTE_AFTER_END, "byte after the end record"},
        {FELTLOQUAT_INPUT_TOO_LONG, "program input over 65,536 bytes"},
    };
    for (uint32_t i = 0; i < COUNT(causes); i++) {
        same("the number of a cause", causes[i].cause, i + 1);
        check(strcmp(feltloquat_cause_words(i + 1), causes[i].words) == 0, causes[i].words);
    }
    static const uint32_t none[] = {0, 13, 256, UINT32_MAX};
    for (size_t i = 0; i < COUNT(none); i++) {
        check(strcmp(feltloquat_cause_words(none[i]), "") == 0, "words for a number that is no cause");
    }
}

int main(void) {
    check_header();
    for (null_lists = 0; null_lists < 2; null_lists++) {
        for (size_t i = 0; i < COUNT(polygon_cases); i++) {
            check_polygons(&polygon_cases[i]);
        }
        for (size_t i = 0; i < COUNT(verdict_cases); i++) {
            check_verdicts(&verdict_cases[i]);
        }
        for (size_t i = 0; i < COUNT(read_cases); i++) {
            check_reading(&read_cases[i]);
        }
        for (size_t i = 0; i < COUNT(write_cases); i++) {
            check_writing(&write_cases[i]);
        }
        for (size_t i = 0; i < COUNT(print_cases); i++) {
            check_text(print_cases[i].name, print_cases[i].file, print_cases[i].file_length, print_cases[i].text);
        }
        check_longest();
    }
    if (failures > 0) {
        printf("%lu of %lu checks failed\n", failures, checks);
        return 1;
    }
    printf("%lu answers, %lu checks\n", answers, checks);
    return 0;
}
