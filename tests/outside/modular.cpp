// The calls over residues beside FLINT. Reads lines "n m x" (moduli.gp). Of each it transforms three scans by every schedule and holds the results
// against the polynomial of the samples, evaluated at the powers of x; it takes random residues back by the inverse and evaluates what comes; and it
// judges the table and damaged ones by FLINT's powers. What a second program can hold against it goes to FILE:
//     [n, m, x, samples, [what each schedule left]]    [n, m, x, what the inverse left, [what it took]]    [m, table, number, place]
//     modular SEED FILE <cases
#include "outside.h"
#include <flint/nmod_poly.h>
#include <algorithm>

using Residues = std::vector<uint32_t>;

struct Case {
    unsigned n;
    uint32_t m, x;
    size_t points() const { return size_t(1) << n; }
};

struct Counts {
    unsigned moduli, prime, results, inverses, accepted, refused;
};

static unsigned wrong;
static FILE *out;

static void report(const char *what, const Case &c, size_t place) {
    if (wrong++ < 20) printf("DIFFERENCE: %s, N = %zu, m = %u, x = %u, place %zu\n", what, c.points(), c.m, c.x, place);
}

static void put(const Residues &numbers) {
    for (size_t i = 0; i < numbers.size(); i++) fprintf(out, "%c%u", i ? ',' : '[', numbers[i]);
    fprintf(out, "]");
}

static ulong power(ulong x, ulong e, ulong m) { return n_powmod2_ui_preinv(x, e, m, n_preinvert_limb(m)); }

static Residues powers(ulong x, size_t count, ulong m) {
    Residues all(count);
    for (size_t i = 0; i < count; i++) all[i] = power(x % m, i, m);
    return all;
}

// f(j) at place j, by FLINT
static Residues sums(const Residues &samples, const Case &c) {
    nmod_poly_t p;
    nmod_poly_init(p, c.m);
    for (size_t k = 0; k < samples.size(); k++) nmod_poly_set_coeff_ui(p, k, samples[k]);
    std::vector<mp_limb_t> at(c.points()), values(c.points());
    for (size_t j = 0; j < at.size(); j++) at[j] = power(c.x, j, c.m);
    nmod_poly_evaluate_nmod_vec_fast(values.data(), p, at.data(), at.size());
    nmod_poly_clear(p);
    return Residues(values.begin(), values.end());
}

// What the call leaves of the samples: way 1 to 5 is a whole schedule, 6 and 7 are schedules 1 and 2 by single stages.
static Residues left(unsigned way, const Residues &samples, const Case &c, const Residues &table) {
    Residues buf = way == 4 ? reordered(samples, c.n) : samples, scratch(buf.size(), 7);
    if (way <= 5) {
        done(fdr_modular_transform(way, buf.data(), buf.size(), c.m, table.data(), table.size(), scratch.data(), scratch.size()), "transform");
    } else {
        for (unsigned s = 0; s < c.n; s++)
            done(fdr_modular_stage(way - 5, s, buf.data(), buf.size(), c.m, table.data(), table.size(), scratch.data(), scratch.size()), "stage");
    }
    uint32_t rest = way == 2 || way == 5 || way == 7 ? 0 : 7;
    if (std::count(scratch.begin(), scratch.end(), rest) != long(scratch.size())) report("scratch", c, way);
    return buf;
}

static void compare(const char *what, const Residues &ours, const Residues &theirs, const Case &c) {
    auto at = std::mismatch(ours.begin(), ours.end(), theirs.begin());
    if (at.first != ours.end()) report(what, c, at.first - ours.begin());
}

static void transforms(const Case &c, const Residues &table, Random &random, Counts &counts) {
    Residues some(c.points()), most(c.points(), c.m - 1), one(c.points());
    for (auto &sample : some) sample = random.between(0, c.m - 1);
    one[random.between(0, c.points() - 1)] = random.between(1, c.m - 1);
    const Residues scans[] = {some, most, one};
    for (const Residues &samples : scans) {
        bool kept = &samples == scans;
        Residues theirs = sums(samples, c), turned = reordered(theirs, c.n);
        if (kept) fprintf(out, "[%u,%u,%u,", c.n, c.m, c.x), put(samples), fprintf(out, ",[");
        for (unsigned way = 1; way <= 7; way++) {
            Residues ours = left(way, samples, c, table);
            compare("transform", ours, way == 4 ? theirs : turned, c);
            counts.results++;
            if (kept && way > 1) fprintf(out, ",");
            if (kept) put(ours);
        }
        if (kept) fprintf(out, "]]\n");
        Residues back = turned;
        done(fdr_modular_inverse(back.data(), back.size(), c.m, table.data(), table.size()), "inverse");
        compare("inverse of FLINT's sums", back, samples, c);
        counts.inverses++;
    }
    Residues given(c.points());
    for (auto &residue : given) residue = random.between(0, c.m - 1);
    Residues samples = given;
    done(fdr_modular_inverse(samples.data(), samples.size(), c.m, table.data(), table.size()), "inverse");
    compare("sums of an inverse", reordered(sums(samples, c), c.n), given, c);
    counts.inverses++;
    fprintf(out, "[%u,%u,%u,", c.n, c.m, c.x), put(samples), fprintf(out, ",["), put(given), fprintf(out, "]]\n");
}

// The first place where the table is not a power of its root, or its length where the root's power is not -1; -1 when it is accepted.
static long fault(uint32_t m, const Residues &table) {
    uint32_t x = table.size() > 1 ? table[1] : m - 1;
    for (size_t i = 0; i < table.size(); i++)
        if (table[i] != power(x % m, i, m)) return i;
    return power(x % m, table.size(), m) == m - 1 ? -1 : long(table.size());
}

static void judge(const Case &c, uint32_t m, const Residues &table, Counts &counts) {
    fdr_answer answer = fdr_modular_accept(m, table.data(), table.size());
    long place = fault(m, table);
    if (place < 0 ? answer.number != 0 || answer.place != 0 : answer.number != 4 || long(answer.place) != place) report("accept", c, place);
    (place < 0 ? counts.accepted : counts.refused)++;
    fprintf(out, "[%u,", m), put(table), fprintf(out, ",%u,%zu]\n", answer.number, answer.place);
}

static void tables(const Case &c, const Residues &table, Random &random, Counts &counts) {
    size_t half = table.size();
    auto place = [&] { return size_t(random.between(0, half - 1)); };
    auto damaged = [&](size_t at, uint32_t entry) {
        Residues t = table;
        t[at] = entry;
        judge(c, c.m, t, counts);
    };
    judge(c, c.m, table, counts);
    size_t at = place();
    damaged(at, table[at] + 1);
    damaged(at, table[at] + c.m);
    damaged(place(), random.between(0, c.m - 1));
    damaged(half - 1, random.between(0, c.m - 1));
    damaged(0, random.between(0, 1) ? 0 : c.m - 1);
    Residues swapped = table;
    std::swap(swapped[place()], swapped[place()]);
    judge(c, c.m, swapped, counts);
    uint32_t any = random.between(0, c.m - 1);
    for (uint32_t x : {power(c.x, 2, c.m), power(c.x, c.points() - 1, c.m), power(c.x, half + 1, c.m), ulong(any)})
        judge(c, c.m, powers(x, half, c.m), counts);
    if (half > 1) judge(c, c.m, Residues(table.begin(), table.begin() + half / 2), counts);
    if (c.m + 2 < 1u << 31) judge(c, c.m + 2, table, counts);
}

// Our own table for a house modulus holds the powers of 3^((m-1)/N).
static void house(const Case &c, const Residues &table) {
    for (unsigned row = 0; row < 3; row++) {
        fdr_found found = fdr_house_row(row);
        done(found.answer, "house_row");
        if (found.setting.modulus != c.m || power(3, (c.m - 1) / c.points(), c.m) != c.x) continue;
        Residues filled(table.size());
        done(fdr_modular_fill(found.setting, filled.data(), filled.size()), "fill");
        compare("fill", filled, table, c);
    }
}

int main(int, char **words) {
    Random random{strtoull(words[1], nullptr, 10)};
    out = fopen(words[2], "w");
    Counts counts[LENGTHS + 1] = {};
    Case c;
    while (scanf("%u %u %u", &c.n, &c.m, &c.x) == 3) {
        Residues table = powers(c.x, c.points() / 2, c.m);
        Counts &here = counts[c.n];
        here.moduli++;
        here.prime += n_is_prime(c.m);
        house(c, table);
        transforms(c, table, random, here);
        tables(c, table, random, here);
    }
    fclose(out);
    printf("FLINT %s\n\n|    N | moduli | of them prime | results | inverses | tables accepted | refused |\n", FLINT_VERSION);
    printf("|-----:|-------:|--------------:|--------:|---------:|----------------:|--------:|\n");
    for (unsigned n = 1; n <= LENGTHS; n++)
        printf("| %4u | %6u | %13u | %7u | %8u | %15u | %7u |\n", 1u << n, counts[n].moduli, counts[n].prime, counts[n].results,
               counts[n].inverses, counts[n].accepted, counts[n].refused);
    printf("\n%u differences\n", wrong);
    return wrong > 0;
}
