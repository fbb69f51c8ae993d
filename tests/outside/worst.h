// A search for scans, and for accepted tables, whose results in fixed point lie far from the steps without rounding. Nothing rests on it: what it
// finds is measured elsewhere.
//
// A part of one result is fed by N/2^L values after L stages. The rounding of such a value reaches the result through a weight: a product of halves
// and of pairs T/32,768. So no scan gets further than the sum of half the sizes of all weights ('most'). A scan is made from the result down to the
// samples: of each value, take what rounds to it with the error that helps most; it is a sum or a difference of two values, and of these one is free,
// so take the best of some.
#ifndef WORST_H
#define WORST_H

#include "outside.h"
#include <algorithm>
#include <cmath>
#include <complex>

using Complex = std::complex<double>;

struct Whole {
    long re, im;
};

// ---- accepted tables ----

static bool accepts(const Numbers &table) { return fdr_fixed_accept(table.data(), table.size()).number == 0; }

// A table that drifts outward by up to `drift` at each pair and back to its fixed points (45 degrees and the two ends), as far as sizes allow.
static Numbers drifted(unsigned n, double drift, Random &random) {
    size_t half = size_t(1) << (n - 1);
    Numbers table = {16384, 0};
    for (size_t i = 1; i < half; i++) {
        double angle = M_PI * double(i) / double(half), c = cos(angle), s = sin(angle), size = 23171 / (fabs(c) + s);
        for (double pin : {0.0, 0.25, 0.75, 1.0}) size = std::min(size, 16384 + drift * fabs(double(i) - pin * double(half)));
        long re = lround(size * c), im = lround(size * s);
        if (i == 1) {
            re += random.between(-1, 1), im += random.between(-1, 1);
        } else { // the nearest that the rule allows after the pair before
            double x = table[2 * i - 2], y = table[2 * i - 1], u = table[2], v = table[3];
            double near_re = (x * u - y * v) / 16384, near_im = (x * v + y * u) / 16384;
            re = std::clamp(re, long(ceil(near_re - 2)), long(floor(near_re + 2)));
            im = std::clamp(im, long(ceil(near_im - 2)), long(floor(near_im + 2)));
        }
        table.push_back(re);
        table.push_back(im);
    }
    return table;
}

static void shake(Numbers &table, unsigned times, Random &random) {
    for (unsigned i = 0; i < times; i++) {
        size_t at = random.between(0, table.size() - 1);
        int32_t old = table[at];
        table[at] += random.between(-2, 2);
        if (!accepts(table)) table[at] = old;
    }
}

// ---- a scan that is far from the steps without rounding, at one place ----

struct Worst {
    Numbers samples;
    double most;
};

class Search {
    const Numbers &table;
    unsigned n;
    size_t place;
    std::vector<std::vector<Complex>> weights; // [L][i]: of value i after L stages
    Random &random;

    bool difference(unsigned level) const { return place >> (n - level) & 1; }
    Complex pair(unsigned level, size_t i) const {
        size_t e = i << (level - 1);
        return Complex(table[2 * e], table[2 * e + 1]);
    }

    static double rounded(double v) { return floor(v + 0.5); }

    // what the error of the value v can do for the result, and the sum or difference that does it
    double best(unsigned level, size_t i, Whole v, Whole &from) const {
        if (level == 0) return 0;
        Complex w = weights[level][i];
        if (!difference(level)) {
            from = {2 * v.re - (w.real() > 0), 2 * v.im - (w.imag() < 0)};
            return std::max(0.0, w.real() / 2) + std::max(0.0, -w.imag() / 2);
        }
        Complex t = pair(level, i) / 32768.0, d = Complex(v.re, v.im) / t;
        double score = -1e9;
        for (double re = ceil(d.real() - 1.5); re <= d.real() + 1.5; re++)
            for (double im = ceil(d.imag() - 1.5); im <= d.imag() + 1.5; im++) {
                Complex exact(t.real() * re - t.imag() * im, t.real() * im + t.imag() * re);
                if (rounded(exact.real()) != double(v.re) || rounded(exact.imag()) != double(v.im)) continue;
                double gain = w.real() * (double(v.re) - exact.real()) - w.imag() * (double(v.im) - exact.imag());
                if (gain > score) score = gain, from = {long(re), long(im)};
            }
        return score;
    }

public:
    double most = 0;

    Search(const Numbers &t, unsigned n, size_t place, Complex start, Random &r) : table(t), n(n), place(place), weights(n + 1), random(r) {
        weights[n] = {start};
        for (unsigned level = n; level > 0; level--) {
            size_t count = weights[level].size();
            weights[level - 1].resize(2 * count);
            for (size_t i = 0; i < count; i++) {
                Complex w = weights[level][i], t = pair(level, i), on = w * (difference(level) ? t / 32768.0 : 0.5);
                bool up = !difference(level) || (std::min(fabs(t.real()), fabs(t.imag())) == 0 && std::abs(t) == 16384);
                for (double part : {w.real(), -w.imag()}) most += up ? std::max(0.0, part / 2) : fabs(part) / 2;
                weights[level - 1][i] = on;
                weights[level - 1][i + count] = difference(level) ? -on : on;
            }
        }
    }

    // `tries` for each value, and more where there are few
    Numbers scan(unsigned tries) {
        long room = 28000 / long(2 * n);
        auto near = [&](long v) { return v + long(random.between(-room, room)); };
        std::vector<Whole> values(1), from(1);
        double score = -1e9;
        for (unsigned i = 0; i < 100 * tries; i++) {
            Whole v = {near(0), near(0)}, d = {0, 0};
            double gain = best(n, 0, v, d);
            if (gain > score) score = gain, values[0] = v, from[0] = d;
        }
        for (unsigned level = n; level > 0; level--) {
            size_t count = values.size();
            std::vector<Whole> next(2 * count), next_from(2 * count);
            for (size_t i = 0; i < count; i++) {
                int sign = difference(level) ? -1 : 1;
                Whole whole = from[i];
                double most_gain = -1e9;
                for (size_t k = 0; k < (level > 1 ? tries + 100 * tries / count : 1); k++) {
                    Whole a = {near(whole.re / 2), near(whole.im / 2)}, b = {sign * (whole.re - a.re), sign * (whole.im - a.im)}, d, e;
                    double gain = best(level - 1, i, a, d) + best(level - 1, i + count, b, e);
                    if (gain <= most_gain) continue;
                    most_gain = gain;
                    next[i] = a, next[i + count] = b, next_from[i] = d, next_from[i + count] = e;
                }
            }
            values = next, from = next_from;
        }
        Numbers samples;
        for (Whole v : values)
            for (long part : {v.re, v.im}) samples.push_back(int32_t(std::clamp(part, -32767L, 32767L)));
        return samples;
    }
};

// A place of the results, and the part and direction in which to move it.
struct Start {
    size_t place;
    Complex weight;
    double most;
};

// all of them, those first that can be moved furthest
static std::vector<Start> starts(const Numbers &table, unsigned n, Random &random) {
    std::vector<Start> all;
    for (size_t place = 0; place < size_t(1) << n; place++)
        for (Complex weight : {Complex(1, 0), Complex(-1, 0), Complex(0, 1), Complex(0, -1)})
            all.push_back({place, weight, Search(table, n, place, weight, random).most});
    std::stable_sort(all.begin(), all.end(), [](const Start &a, const Start &b) { return a.most > b.most; });
    return all;
}

// changes of single numbers that leave the table accepted and let its best place be moved further
static Numbers climbed(Numbers table, unsigned n, unsigned times, Random &random) {
    Start at = starts(table, n, random)[0];
    for (unsigned i = 0; i < times; i++) {
        Numbers other = table;
        shake(other, 1 + i % 3, random);
        double most = Search(other, n, at.place, at.weight, random).most;
        if (most >= at.most) table = other, at.most = most;
    }
    return table;
}

// Our own table first, then others that are accepted: at the edge, shaken, climbed.
static std::vector<Numbers> accepted(unsigned n, unsigned times, Random &random) {
    Numbers own(size_t(1) << n);
    done(fdr_fixed_fill(own.data(), own.size()), "fill");
    std::vector<Numbers> all = {own};
    unsigned tries = 0;
    for (double drift = 3; drift > 0 && all.size() < 3; drift -= ++tries % 20 ? 0 : 0.1) {
        Numbers table = drifted(n, drift, random);
        if (accepts(table)) all.push_back(table);
    }
    for (size_t i = 0, count = all.size(); i < count; i++) {
        Numbers table = all[i];
        shake(table, times, random);
        all.push_back(table);
        all.push_back(climbed(all[i], n, times, random));
    }
    return all;
}

// `count` scans for the table
static std::vector<Worst> search(const Numbers &table, unsigned n, unsigned count, unsigned tries, Random &random) {
    std::vector<Start> all = starts(table, n, random);
    std::vector<Worst> found;
    for (unsigned i = 0; i < count; i++) {
        const Start &s = all[i % std::min<size_t>(all.size(), 4)];
        found.push_back({Search(table, n, s.place, s.weight, random).scan(tries), s.most});
    }
    return found;
}

#endif
