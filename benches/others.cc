// Transforms that nobody here wrote, behind plain C functions: NTL for sums modulo a prime, FFTW and KissFFT for spectra. What was prepared
// stands at its n.
#include <NTL/lzz_pX.h>
#include <complex>
#include <cstdint>
#include <fftw3.h>
#include <kissfft/kiss_fft.h>
#include <vector>

namespace {
struct Prepared {
    NTL::zz_pX polynomial;
    NTL::fftRep sums;
    fftw_plan plan;
    std::vector<std::complex<double>> doubles, spectrum;
    kiss_fft_cfg config;
    std::vector<kiss_fft_cpx> floats, kiss_spectrum;
};
Prepared prepared[13];
} // namespace

extern "C" {

// Residues modulo m, a prime with m - 1 a multiple of 2^n, as a polynomial, for the sums at all powers of a root that NTL chooses.
void others_residues(unsigned n, uint32_t m, const uint32_t *samples) {
    NTL::zz_p::UserFFTInit(m);
    for (long i = 0; i < 1L << n; i++)
        NTL::SetCoeff(prepared[n].polynomial, i, samples[i]);
}

void others_ntl(unsigned n) { NTL::TofftRep(prepared[n].sums, prepared[n].polynomial, n); }

// Pairs, interleaved, as doubles for FFTW and as floats for KissFFT.
void others_points(unsigned n, const int32_t *samples) {
    Prepared &p = prepared[n];
    size_t size = size_t(1) << n;
    p.doubles.resize(size);
    p.spectrum.resize(size);
    p.floats.resize(size);
    p.kiss_spectrum.resize(size);
    p.plan = fftw_plan_dft_1d(size, reinterpret_cast<fftw_complex *>(p.doubles.data()),
                              reinterpret_cast<fftw_complex *>(p.spectrum.data()), FFTW_BACKWARD, FFTW_MEASURE);
    p.config = kiss_fft_alloc(size, 1, nullptr, nullptr);
    for (size_t i = 0; i < size; i++) {
        p.doubles[i] = {double(samples[2 * i]), double(samples[2 * i + 1])};
        p.floats[i] = {float(samples[2 * i]), float(samples[2 * i + 1])};
    }
}

void others_fftw(unsigned n) { fftw_execute(prepared[n].plan); }

void others_kiss(unsigned n) { kiss_fft(prepared[n].config, prepared[n].floats.data(), prepared[n].kiss_spectrum.data()); }
}
