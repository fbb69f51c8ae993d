// What the programs here share: the public calls, a seeded generator, and bit reversal.
#ifndef OUTSIDE_H
#define OUTSIDE_H

#include "../../include/fandrute.h"
#include <cstdint>
#include <cstdio>
#include <cstdlib>
#include <vector>

constexpr unsigned LENGTHS = 12; // N = 2^n, n from 1

using Numbers = std::vector<int32_t>; // in fixed point: points or pairs, interleaved

// splitmix64
struct Random {
    uint64_t state;

    uint64_t next() {
        uint64_t z = state += 0x9e3779b97f4a7c15;
        z = (z ^ (z >> 30)) * 0xbf58476d1ce4e5b9;
        z = (z ^ (z >> 27)) * 0x94d049bb133111eb;
        return z ^ (z >> 31);
    }

    // from low to high, both included
    int64_t between(int64_t low, int64_t high) { return low + int64_t(next() % uint64_t(high - low + 1)); }
};

// place with its n bits reversed
inline size_t reversed(size_t place, unsigned n) {
    size_t turned = 0;
    for (unsigned bit = 0; bit < n; bit++) turned |= (place >> bit & 1) << (n - 1 - bit);
    return turned;
}

// at each place what stood at the reversed one
template <class T> std::vector<T> reordered(const std::vector<T> &from, unsigned n) {
    std::vector<T> to(from.size());
    for (size_t place = 0; place < from.size(); place++) to[place] = from[reversed(place, n)];
    return to;
}

// ends the program where a call that must be done was refused
inline void done(fdr_answer answer, const char *call) {
    if (answer.number == 0) return;
    printf("%s was refused: %u at place %zu\n", call, answer.number, answer.place);
    exit(1);
}

#endif
