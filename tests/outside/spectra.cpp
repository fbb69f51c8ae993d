// The transform in fixed point with our table beside FFTW in double precision, divided by N. The root of our table is cos + i sin, so the exponent
// is FFTW_BACKWARD's, and result j stands at the place of j with its bits reversed.
//     spectra SEED
#include "outside.h"
#include <cmath>
#include <fftw3.h>

struct Seen {
    double largest, squares, peak, first; // first: the sum of the differences of result 0
    size_t parts, scans;
    double rms() const { return sqrt(squares / double(parts)); }
};

// every part of a sample over the whole range
static Numbers noise(unsigned n, Random &random) {
    Numbers samples(size_t(2) << n);
    for (auto &part : samples) part = random.between(-32767, 32767);
    return samples;
}

// an interferogram: a burst in the middle, of six cosines that decay to both sides, the imaginary parts 0
static Numbers burst(unsigned n, Random &random) {
    size_t points = size_t(1) << n;
    std::vector<double> wave(points);
    for (int line = 0; line < 6; line++) {
        double height = double(random.between(10, 100)), turns = double(random.between(0, points / 2));
        double width = double(points) / double(random.between(8, 64));
        for (size_t k = 0; k < points; k++) {
            double off = double(k) - double(points / 2);
            wave[k] += height * exp(-fabs(off) / width) * cos(2 * M_PI * turns * off / double(points));
        }
    }
    double most = 0;
    for (double w : wave) most = std::max(most, fabs(w));
    Numbers samples(2 * points);
    for (size_t k = 0; k < points; k++) samples[2 * k] = int32_t(lround(32000 * wave[k] / most));
    return samples;
}

static void compare(unsigned n, unsigned schedule, const Numbers &table, const Numbers &samples, Seen &seen) {
    size_t points = size_t(1) << n;
    fftw_complex *spectrum = fftw_alloc_complex(points);
    fftw_plan plan = fftw_plan_dft_1d(int(points), spectrum, spectrum, FFTW_BACKWARD, FFTW_ESTIMATE);
    for (size_t k = 0; k < points; k++)
        for (int part : {0, 1}) spectrum[k][part] = samples[2 * k + part];
    fftw_execute(plan);
    Numbers buf = samples, scratch(samples.size());
    done(fdr_fixed_transform(schedule, buf.data(), buf.size(), table.data(), table.size(), scratch.data(), scratch.size()), "transform");
    for (size_t j = 0; j < points; j++)
        for (int part : {0, 1}) {
            double theirs = spectrum[j][part] / double(points), off = buf[2 * reversed(j, n) + part] - theirs;
            if (j == 0 && part == 0) seen.first += off;
            seen.largest = std::max(seen.largest, fabs(off));
            seen.squares += off * off;
            seen.peak = std::max(seen.peak, fabs(theirs));
            seen.parts++;
        }
    seen.scans++;
    fftw_destroy_plan(plan);
    fftw_free(spectrum);
}

int main(int, char **words) {
    Random random{strtoull(words[1], nullptr, 10)};
    unsigned gross = 0;
    double bound = 0; // e(n) in units
    printf("%s\n\n", fftw_version);
    printf("|    N | scans of each kind | noise: largest |    rms | result 0, mean | burst: largest |    rms | its highest part |\n");
    printf("|-----:|-------------------:|---------------:|-------:|---------------:|---------------:|-------:|-----------------:|\n");
    for (unsigned n = 1; n <= LENGTHS; n++) {
        Numbers table(size_t(1) << n);
        done(fdr_fixed_fill(table.data(), table.size()), "fill");
        Seen noises = {}, bursts = {};
        unsigned scans = std::max(100u, 100000u >> n);
        for (unsigned i = 0; i < scans; i++) {
            compare(n, 1 + i % 3, table, noise(n, random), noises);
            compare(n, 1 + i % 3, table, burst(n, random), bursts);
        }
        printf("| %4u | %18u | %14.4f | %6.4f | %14.4f | %14.4f | %6.4f | %16.1f |\n", 1u << n, scans, noises.largest, noises.rms(),
               noises.first / double(noises.scans), bursts.largest, bursts.rms(), bursts.peak);
        // the table is within half of 1/16,384 of cosine and sine, which moves a part by 2 in a stage at most
        bound = 46342 * bound / 32768 + 0.5;
        if (std::max(noises.largest, bursts.largest) > bound + 2 * n) printf("GROSS: N = %u\n", 1u << n), gross++;
    }
    return gross > 0;
}
