/*
 * Measures how much stack each call of feltloquat.h needs, and holds it to what the header states: no more, and no less than half of it.
 *
 * Each call runs on a thread whose stack is painted, on rounds and files of every kind and size that changes what it needs; the painted bytes that are
 * left tell how deep it went. Then the calls for one round run on threads of 64 KiB, for every number of boxes. Prints what was measured; fails if
 * anything differs. To be linked with -z now: a loader that binds a function when it is first called would be measured too.
 */
#define _DEFAULT_SOURCE
#define _XOPEN_SOURCE 700

#include "feltloquat.h"

#include <math.h>
#include <pthread.h>
#include <stdio.h>
#include <stdlib.h>
#include <string.h>
#include <sys/mman.h>

#define COUNT(list) (sizeof(list) / sizeof(list)[0])
#define LARGE_STACK (512 * 1024)
#define SMALL_STACK (64 * 1024)
#define GUARD (64 * 1024)
#define PAINT 0x5A
/* What a function may use below its stack pointer. */
#define RED_ZONE 128
#define MOST_PLUGS 6551
/* More boxes than a round has, and than a file can hold. */
#define MOST_LISTED 4000

/* What a call is made with, and what it is lent to write to. */
struct input {
    int32_t boxes[4 * MOST_LISTED];
    size_t box_numbers;
    int32_t east, north;
    int32_t plugs[2 * MOST_PLUGS];
    size_t plug_numbers;
    uint8_t file[2 * FELTLOQUAT_MOST_INPUT];
    size_t file_length;
};

static struct input input;
static int32_t answer[8 * FELTLOQUAT_MOST_BOXES];
static int32_t read_boxes[4 * MOST_LISTED], read_plugs[2 * MOST_PLUGS];
static uint8_t written[2 * FELTLOQUAT_MOST_INPUT], text[FELTLOQUAT_TEXT_LENGTH];
static struct feltloquat_box records[MOST_LISTED];
static uint32_t refused;

/* ---- The calls ---- */

static void outer_polygon(void) {
    refused = feltloquat_outer_polygon(input.boxes, input.box_numbers, answer, COUNT(answer)).refused;
}

static void corner_polygons(void) {
    refused = feltloquat_corner_polygons(input.boxes, input.box_numbers, answer, COUNT(answer)).refused;
}

static void verdict(void) {
    refused = feltloquat_verdict(input.boxes, input.box_numbers, input.east, input.north).refused;
}

static void word(void) {
    refused = feltloquat_word(input.boxes, input.box_numbers, input.east, input.north).refused;
}

static void verdict_on_records(void) {
    refused = feltloquat_verdict_on_records(records, input.box_numbers / 4, input.east, input.north).refused;
}

static void read_round(void) {
    refused = feltloquat_read_round(input.file, input.file_length, read_boxes, COUNT(read_boxes), read_plugs, COUNT(read_plugs)).refused;
}

static void write_round(void) {
    refused = feltloquat_write_round(input.boxes, input.box_numbers, input.plugs, input.plug_numbers, written, sizeof written).refused;
}

static void print_round(void) {
    refused = feltloquat_print_round(input.file, input.file_length, text) == 0;
}

struct call {
    const char *name;
    void (*make)(void);
    size_t stated;
    size_t needed; /* the most that was measured */
};

static struct call calls[] = {
    {"outer_polygon", outer_polygon, FELTLOQUAT_STACK_OUTER_POLYGON, 0},
    {"corner_polygons", corner_polygons, FELTLOQUAT_STACK_CORNER_POLYGONS, 0},
    {"verdict", verdict, FELTLOQUAT_STACK_VERDICT, 0},
    {"word", word, FELTLOQUAT_STACK_WORD, 0},
    {"verdict_on_records", verdict_on_records, FELTLOQUAT_STACK_VERDICT_ON_RECORDS, 0},
    {"read_round", read_round, FELTLOQUAT_STACK_READ_ROUND, 0},
    {"write_round", write_round, FELTLOQUAT_STACK_WRITE_ROUND, 0},
    {"print_round", print_round, FELTLOQUAT_STACK_PRINT_ROUND, 0},
};

/* The calls for one round, which run on a small thread. */
#define ROUND_CALLS 5

/* ---- Rounds and files ---- */

/* The generator of oracle/cases.py. */
static uint64_t state = 1;

static int32_t below(uint32_t limit) {
    state = (state * 1103515245 + 12345) % 2147483648u;
    return (int32_t)((state >> 16) % limit);
}

static const char *const shapes[] = {"at random", "on a circle", "in line", "one point"};

/* Boxes of a shape. */
static void make_boxes(size_t shape, size_t count) {
    for (size_t k = 0; k < count; k++) {
        int32_t *box = input.boxes + 4 * k;
        int32_t west = below(31000) - 15500, south = below(31000) - 15500, size = below(40);
        if (shape == 1) {
            /* 389 has no factor in common with 1,024: the boxes come in an order that is not the circle's. */
            double turn = 6.283185307179586 * (double)(k * 389 % count) / (double)count;
            west = (int32_t)lround(15000 * cos(turn));
            south = (int32_t)lround(15000 * sin(turn));
        } else if (shape == 2) {
            south = west;
            size = 0;
        } else if (shape == 3) {
            west = south = size = 0;
        }
        int32_t made[4] = {west, south, west + size, south + size};
        memcpy(box, made, sizeof made);
        memcpy(&records[k], made, sizeof made);
    }
    input.box_numbers = 4 * count;
}

static void make_plugs(size_t count) {
    for (size_t k = 0; k < 2 * count; k++) input.plugs[k] = below(31001) - 15500;
    input.plug_numbers = 2 * count;
}

static uint8_t *put(uint8_t *at, uint32_t mark, const int32_t *numbers, size_t count) {
    *at++ = (uint8_t)(mark >> 8);
    *at++ = (uint8_t)mark;
    for (size_t k = 0; k < count; k++)
        for (int shift = 24; shift >= 0; shift -= 8) *at++ = (uint8_t)((uint32_t)numbers[k] >> shift);
    return at;
}

/* The file of the boxes and plugs, whatever they are. */
static void make_file(void) {
    uint8_t *at = input.file;
    for (size_t k = 0; k < input.box_numbers; k += 4) at = put(at, 0x5B01, input.boxes + k, 4);
    for (size_t k = 0; k < input.plug_numbers; k += 2) at = put(at, 0x5B02, input.plugs + k, 2);
    input.file_length = (size_t)(put(at, 0x5B00, NULL, 0) - input.file);
}

/* ---- On a thread ---- */

static void stop(const char *what) {
    fprintf(stderr, "tests/c/stacks.c: %s\n", what);
    exit(1);
}

/* Runs a function on a thread with so much stack; below the stack is memory that nobody may touch. */
static void run(void *(*function)(void *), void *argument, char *low, size_t size) {
    pthread_attr_t attributes;
    pthread_t thread;
    if (pthread_attr_init(&attributes) || pthread_attr_setstack(&attributes, low, size)) stop("no stack");
    if (pthread_create(&thread, &attributes, function, argument) || pthread_join(thread, NULL)) stop("no thread");
    pthread_attr_destroy(&attributes);
}

static char *stack_of(size_t size) {
    char *low = mmap(NULL, GUARD + size, PROT_READ | PROT_WRITE, MAP_PRIVATE | MAP_ANONYMOUS, -1, 0);
    if (low == MAP_FAILED || mprotect(low, GUARD, PROT_NONE)) stop("no memory");
    return low + GUARD;
}

static char *large_stack;

/* Makes one call over painted stack, and sees how deep it went. */
static void *measure(void *argument) {
    struct call *call = (struct call *)argument;
    char *here;
    __asm__ volatile("mov %%rsp, %0" : "=r"(here));
    volatile char *at;
    for (at = large_stack; at < here - RED_ZONE; at++) *at = PAINT;
    call->make();
    for (at = large_stack; *at == PAINT;) at++;
    size_t needed = (size_t)(here - (const char *)at);
    if (call->needed < needed) call->needed = needed;
    return NULL;
}

static void measure_calls(size_t from, size_t to) {
    for (size_t k = from; k < to; k++) run(measure, &calls[k], large_stack, LARGE_STACK);
}

/* ---- What is measured ---- */

static const int32_t plugs[][2] = {{0, 0}, {3, 5}, {15000, 0}, {15990, -15990}, {16001, 0}};

/* A round on five plugs; its polygons; its file. */
static void measure_round(size_t shape, size_t count) {
    make_boxes(shape, count);
    for (size_t k = 0; k < COUNT(plugs); k++) {
        input.east = plugs[k][0];
        input.north = plugs[k][1];
        measure_calls(k == 0 ? 0 : 2, ROUND_CALLS);
    }
    make_plugs(20);
    make_file();
    measure_calls(ROUND_CALLS, COUNT(calls));
}

/* The largest files: of many boxes, of many plugs; too many boxes; too many bytes. */
static void measure_large(void) {
    for (size_t shape = 0; shape < COUNT(shapes); shape++) {
        make_boxes(shape, FELTLOQUAT_MOST_BOXES);
        make_plugs((FELTLOQUAT_MOST_INPUT - 2 - 18 * FELTLOQUAT_MOST_BOXES) / 10);
        make_file();
        measure_calls(ROUND_CALLS, COUNT(calls));
    }
    static const size_t counts[][2] = {{1, MOST_PLUGS}, {FELTLOQUAT_MOST_BOXES + 1, 10}, {3640, 0}, {MOST_LISTED, 0}, {0, MOST_PLUGS}, {0, 0}};
    for (size_t k = 0; k < COUNT(counts); k++) {
        make_boxes(0, counts[k][0]);
        make_plugs(counts[k][1]);
        make_file();
        measure_calls(0, COUNT(calls));
        /* Cut short, and with a byte too many. */
        input.file_length -= 1;
        measure_calls(ROUND_CALLS, COUNT(calls));
        input.file_length += 2;
        measure_calls(ROUND_CALLS, COUNT(calls));
    }
}

/* Boxes that are refused by 1, 4 and 5. */
static void measure_refused(void) {
    make_boxes(0, FELTLOQUAT_MOST_BOXES);
    int32_t *last = input.boxes + input.box_numbers - 4;
    last[0] = 16000;
    last[2] = -16000;
    measure_calls(0, COUNT(calls));
    last[2] = 16001;
    measure_calls(0, COUNT(calls));
    input.box_numbers -= 1;
    measure_calls(0, COUNT(calls));
}

/* ---- On a small thread ---- */

static size_t rounds_made;

/* One call on a round of every size. */
static void *every_round(void *argument) {
    const struct call *call = (const struct call *)argument;
    for (size_t shape = 0; shape < COUNT(shapes); shape++)
        for (size_t count = 1; count <= FELTLOQUAT_MOST_BOXES; count++) {
            make_boxes(shape, count);
            input.east = below(31001) - 15500;
            input.north = below(31001) - 15500;
            call->make();
            if (refused) stop("a round was refused");
            rounds_made++;
        }
    return NULL;
}

int main(void) {
    static const size_t sizes[] = {1, 2, 3, 4, 8, 16, 20, 21, 32, 33, 64, 84, 128, 256, 257, 512, 1000, 1024};
    large_stack = stack_of(LARGE_STACK);
    for (size_t shape = 0; shape < COUNT(shapes); shape++)
        for (size_t k = 0; k < COUNT(sizes); k++) measure_round(shape, sizes[k]);
    measure_large();
    measure_refused();

    int failed = 0;
    printf("stack of each call, measured and stated, in bytes:\n");
    for (size_t k = 0; k < COUNT(calls); k++) {
        const struct call *call = &calls[k];
        const char *said = call->stated < call->needed ? ": more than is stated" : 2 * call->needed < call->stated ? ": less than half of what is stated" : "";
        printf("  %-20s %7zu %7zu%s\n", call->name, call->needed, call->stated, said);
        failed |= said[0] != 0;
    }
    fflush(stdout);

    char *small_stack = stack_of(SMALL_STACK);
    for (size_t k = 0; k < ROUND_CALLS; k++) run(every_round, &calls[k], small_stack, SMALL_STACK);
    printf("%zu calls on threads of 64 KiB, with 1 to %d boxes\n", rounds_made, FELTLOQUAT_MOST_BOXES);
    return failed;
}
