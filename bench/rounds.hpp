// The rounds that are measured: boxes at random, on a circle and all in line, always the same.
#pragma once

#include <cmath>
#include <cstddef>
#include <cstdint>
#include <utility>
#include <vector>

struct Box { int32_t west, south, east, north; };
using Boxes = std::vector<Box>;
using Plug = std::pair<int32_t, int32_t>;

// The generator of oracle/cases.py.
struct Generator {
    uint64_t state;
    uint32_t below(uint32_t limit) {
        state = (state * 1103515245 + 12345) % 2147483648u;
        return (state >> 16) % limit;
    }
};

static Boxes random_boxes(size_t count) {
    Generator g{1};
    Boxes boxes;
    for (size_t k = 0; k < count; ++k) {
        int32_t w = int32_t(g.below(31000)) - 15500, s = int32_t(g.below(31000)) - 15500;
        boxes.push_back({w, s, w + int32_t(g.below(400)), s + int32_t(g.below(400))});
    }
    return boxes;
}

static Boxes circle_boxes(size_t count) {
    Boxes boxes;
    Generator g{2};
    for (size_t k = 0; k < count; ++k) {
        double turn = 6.283185307179586 * double(k) / double(count);
        int32_t e = int32_t(std::lround(15000 * std::cos(turn))), n = int32_t(std::lround(15000 * std::sin(turn)));
        boxes.push_back({e, n, e + int32_t(g.below(40)), n + int32_t(g.below(40))});
    }
    // In an order that is not the circle's.
    for (size_t k = count; 1 < k; --k) std::swap(boxes[k - 1], boxes[g.below(uint32_t(k))]);
    return boxes;
}

static Boxes line_boxes(size_t count) {
    Boxes boxes;
    Generator g{3};
    for (size_t k = 0; k < count; ++k) {
        int32_t at = int32_t(g.below(30001)) - 15000;
        boxes.push_back({at, at, at, at});
    }
    return boxes;
}

static std::vector<int32_t> flat(const Boxes &boxes) {
    std::vector<int32_t> list;
    for (const Box &b : boxes) list.insert(list.end(), {b.west, b.south, b.east, b.north});
    return list;
}

static const char *const shapes[3] = {"random", "circle", "line"};

static Boxes boxes_of(int shape, size_t count) { return shape == 0 ? random_boxes(count) : shape == 1 ? circle_boxes(count) : line_boxes(count); }

// The plugs of the verdict that is measured: amid the boxes, where the pass may end early, and off them all, where it may not.
static const Plug verdict_plugs[2] = {{0, 0}, {15990, -15990}};
