/*
 * The verdicts on the plugs of round B. From the root of the repository, after `./library`:
 *   cc -Wall -I target/library/include examples/c/round_b.c target/library/libfeltloquat.a -o target/round_b && target/round_b
 * or, where a PREFIX was given and PREFIX/lib/pkgconfig is on PKG_CONFIG_PATH:
 *   cc -Wall examples/c/round_b.c $(pkg-config --cflags --libs feltloquat) -o target/round_b && target/round_b
 */
#include <stdio.h>

#include "feltloquat.h"

static const int32_t boxes[] = {0, 0, 2, 2, 8, 0, 10, 2, 8, 8, 10, 10, 0, 8, 2, 10};
static const int32_t plugs[][2] = {{5, 5}, {3, 3}, {2, 5}, {0, 0}, {10, 5}, {11, 5}, {16001, 0}};
static const char *const words[] = {"", "inside", "outside", "undecided"};
static const char *const corners[] = {"SW", "SE", "NE", "NW"};

static void print_entry(struct feltloquat_entry entry) {
    printf(" %u * %s of box %zu", entry.weight, corners[entry.corner], entry.number);
}

static void print_verdict(int32_t east, int32_t north) {
    struct feltloquat_verdict_answer answer = feltloquat_verdict(boxes, sizeof boxes / sizeof *boxes, east, north);
    printf("(%d, %d) ", east, north);
    if (answer.refused != 0) {
        printf("refused %u %llu\n", answer.refused, (unsigned long long)answer.place);
        return;
    }
    printf("%s\n", words[answer.word]);
    if (answer.word == FELTLOQUAT_UNDECIDED) {
        printf("    none of the %s corners is ahead in direction (%d, %d);", corners[answer.corner], answer.east, answer.north);
        print_entry(answer.first);
        print_entry(answer.second);
        print_entry(answer.third);
        printf(" balance\n");
    }
}

int main(void) {
    for (size_t i = 0; i < sizeof plugs / sizeof *plugs; i++) {
        print_verdict(plugs[i][0], plugs[i][1]);
    }
    return 0;
}
