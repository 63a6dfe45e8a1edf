// One call on one round, many times over, for callgrind: profile WORK SHAPE BOXES TIMES, with WORK outer, corners, verdict or outside.
#include "feltloquat.h"
#include "rounds.hpp"

#include <cstdio>
#include <cstdlib>
#include <cstring>

int main(int argc, char **argv) {
    if (argc != 5) return 2;
    int shape = 0;
    while (shape < 2 && std::strcmp(shapes[shape], argv[2])) ++shape;
    std::vector<int32_t> list, answer;
    for (const Box &b : boxes_of(shape, std::strtoul(argv[3], nullptr, 10))) list.insert(list.end(), {b.west, b.south, b.east, b.north});
    answer.resize(2 * list.size());
    unsigned long sum = 0;
    for (unsigned long k = std::strtoul(argv[4], nullptr, 10); k; --k) {
        const Plug &p = verdict_plugs[!std::strcmp(argv[1], "outside")];
        if (!std::strcmp(argv[1], "outer")) sum += feltloquat_outer_polygon(list.data(), list.size(), answer.data(), answer.size()).vertices;
        else if (!std::strcmp(argv[1], "corners")) sum += feltloquat_corner_polygons(list.data(), list.size(), answer.data(), answer.size()).southwest;
        else sum += feltloquat_verdict(list.data(), list.size(), p.first, p.second).word;
    }
    std::printf("%lu\n", sum);
}
