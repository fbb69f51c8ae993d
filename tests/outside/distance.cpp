// The transform in fixed point beside the same steps without rounding, in GMP's whole numbers, written from document 01 alone: for every length
// and schedule |2^(15n) R - U| is at most e(n), for random scans and for the worst that a search finds. Lines for a second program go to FILE:
//     n; table; samples; what the call left; what the steps without rounding leave
//     distance SEED EFFORT FILE
#include "outside.h"
#include "worst.h"
#include <gmpxx.h>

struct Big {
    mpz_class re, im;
    bool operator==(const Big &other) const { return re == other.re && im == other.im; }
};
using Bigs = std::vector<Big>;

// ---- the same steps without rounding ----

static Big sum(const Big &a, const Big &b) { return {16384 * (a.re + b.re), 16384 * (a.im + b.im)}; }

static Big turn(const Numbers &table, size_t e, const Big &a, const Big &b) {
    int re = table[2 * e], im = table[2 * e + 1];
    mpz_class x = a.re - b.re, y = a.im - b.im;
    return {re * x - im * y, re * y + im * x};
}

static void columns(Bigs &buf, const Numbers &table) {
    for (size_t c = 1, r = buf.size(); r > 1; c *= 2, r /= 2)
        for (size_t j = 0; j < c; j++)
            for (size_t i = 0; i < r / 2; i++) {
                Big a = buf[r * j + i], b = buf[r * j + i + r / 2];
                buf[r * j + i] = sum(a, b);
                buf[r * j + i + r / 2] = turn(table, c * i, a, b);
            }
}

static void shuffle(Bigs &buf, const Numbers &table) {
    size_t half = buf.size() / 2;
    for (size_t c = 1; c < buf.size(); c *= 2) {
        Bigs to(buf.size());
        for (size_t k = 0; k < half; k++) {
            to[2 * k] = sum(buf[k], buf[k + half]);
            to[2 * k + 1] = turn(table, k - k % c, buf[k], buf[k + half]);
        }
        buf = to;
    }
}

static void halves(Big *buf, size_t points, const Numbers &table, size_t stride) {
    if (points == 1) return;
    for (size_t i = 0; i < points / 2; i++) {
        Big a = buf[i], b = buf[i + points / 2];
        buf[i] = sum(a, b);
        buf[i + points / 2] = turn(table, stride * i, a, b);
    }
    halves(buf, points / 2, table, 2 * stride);
    halves(buf + points / 2, points / 2, table, 2 * stride);
}

static Bigs unrounded(unsigned schedule, const Numbers &table, const Numbers &samples) {
    Bigs buf;
    for (size_t i = 0; i < samples.size(); i += 2) buf.push_back({samples[i], samples[i + 1]});
    if (schedule == 1) columns(buf, table);
    if (schedule == 2) shuffle(buf, table);
    if (schedule == 3) halves(buf.data(), buf.size(), table, 1);
    return buf;
}

// ---- the distance ----

static unsigned wrong, compared;
static FILE *out;

static mpz_class bound(unsigned n) {
    mpz_class e = 0;
    for (unsigned s = 0; s < n; s++) e = 46342 * e + (mpz_class(1) << (15 * s + 14));
    return e;
}

static double units(const mpz_class &distance, unsigned n) { return mpq_class(distance, mpz_class(1) << (15 * n)).get_d(); }

static void put(const Numbers &numbers) {
    for (int32_t number : numbers) fprintf(out, "%d ", number);
    fprintf(out, ";");
}

// The largest distance of a part. Each is held against e(n), and what schedules 2 and 3 leave against what 1 left.
static double distance(unsigned n, const Numbers &table, const Numbers &samples) {
    mpz_class largest = 0, most = bound(n);
    Numbers first_result;
    Bigs first_exact;
    for (unsigned schedule = 1; schedule <= 3; schedule++) {
        Numbers result = samples, scratch(samples.size());
        done(fdr_fixed_transform(schedule, result.data(), result.size(), table.data(), table.size(), scratch.data(), scratch.size()), "transform");
        Bigs exact = unrounded(schedule, table, samples);
        if (schedule == 1) first_result = result, first_exact = exact;
        if ((result != first_result || !(exact == first_exact)) && wrong++ < 20) printf("DIFFERENCE: schedule %u, N = %u\n", schedule, 1u << n);
        for (size_t i = 0; i < exact.size(); i++)
            for (auto [rounded, whole] : {std::pair(result[2 * i], exact[i].re), std::pair(result[2 * i + 1], exact[i].im)}) {
                mpz_class far = abs((mpz_class(rounded) << (15 * n)) - whole);
                if (far > most && wrong++ < 20)
                    printf("TOO FAR: N = %u, schedule %u, point %zu: %f units\n", 1u << n, schedule, i, units(far, n));
                if (far > largest) largest = far;
            }
        compared++;
        if (n > 6) continue;
        fprintf(out, "%u;", n), put(table), put(samples), put(result);
        for (const Big &point : exact) gmp_fprintf(out, "%Zd %Zd ", point.re.get_mpz_t(), point.im.get_mpz_t());
        fprintf(out, "\n");
    }
    return units(largest, n);
}

static Numbers scan(unsigned n, int size, Random &random) {
    Numbers samples(size_t(2) << n);
    for (auto &part : samples) part = size < 0 ? (random.between(0, 1) ? 32767 : -32767) : random.between(-size, size);
    return samples;
}

static double at_random(unsigned n, const Numbers &table, unsigned scans, Random &random) {
    double largest = 0;
    for (unsigned i = 0; i < scans; i++) largest = std::max(largest, distance(n, table, scan(n, i % 3 ? i % 3 == 1 ? 32767 : 3 : -1, random)));
    return largest;
}

struct Row {
    double random, worst, most;
};

static Row measured(unsigned n, const Numbers &table, unsigned effort, Random &random) {
    Row row = {at_random(n, table, effort * std::max(6, 1024 >> n), random), 0, 0};
    for (const Worst &w : search(table, n, 2 * effort, 500, random)) {
        row.worst = std::max(row.worst, distance(n, table, w.samples));
        row.most = std::max(row.most, w.most);
    }
    return row;
}

int main(int, char **words) {
    Random random{strtoull(words[1], nullptr, 10)};
    unsigned effort = atoi(words[2]);
    out = fopen(words[3], "w");
    printf("GMP %s\n\n", gmp_version);
    printf("|    N |  e(n) | our table, random | worst found |  most | other tables, random | worst found |  most |\n");
    printf("|-----:|------:|------------------:|------------:|------:|---------------------:|------------:|------:|\n");
    for (unsigned n = 1; n <= LENGTHS; n++) {
        std::vector<Numbers> tables = accepted(n, 4000 * effort, random);
        Row own = measured(n, tables[0], 4 * effort, random), other = {};
        for (size_t i = 1; i < tables.size(); i++) {
            Row row = measured(n, tables[i], effort, random);
            other = {std::max(other.random, row.random), std::max(other.worst, row.worst), std::max(other.most, row.most)};
        }
        printf("| %4u | %5.2f | %17.4f | %11.4f | %5.2f | %20.4f | %11.4f | %5.2f |\n", 1u << n, units(bound(n), n), own.random, own.worst,
               own.most, other.random, other.worst, other.most);
        fflush(stdout);
    }
    fclose(out);
    printf("\n%u transforms compared; %u differences\n", compared, wrong);
    return wrong > 0;
}
