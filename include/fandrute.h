/*
 * Fandrute: a Fourier transform that is proved down to the code.
 *
 * Every call tests, each time, all that counts for it, and answers a number and a place. The number is 0 when the call
 * is done; else it is the first refusal, in the order given with the call, whose condition holds:
 *
 *    1  the data are not N entries (2N in fixed point) for a permitted N = 2^n, which is 2, 4, 8, .. 4,096
 *    2  the modulus is even, below 3, or above 2^31 - 1
 *    3  the table's length is not that of N; in the calls that accept or fill, not that of any permitted N
 *    4  the table is not accepted; the place is the first entry or pair at which a rule fails, N/2 for the closing rule
 *    5  a sample is at or above the modulus, or a part is outside -32,767 .. 32,767; the place is the index in buf of the
 *       first such number
 *    6  scratch is not as long as the data
 *    7  the call does not offer this schedule
 *    8  there is no such stage
 *    9  there is no such house row
 *
 * Where no place is named it is 0. A refusal changes nothing that was lent. Scratch counts for the schedules 2 and 5
 * alone: it must be as long as the data, and is all zeros after success; with any other schedule it is not touched. A
 * table is never changed except by the two calls that fill one.
 *
 * What C cannot show, and the caller owes:
 *   - a pointer to entries is aligned and leads to as many entries as the length beside it says, all of them
 *     initialised; where the length is 0 it is still aligned and not null (any object of the type will do);
 *   - a buffer that a call writes (a pointer without const) overlaps no other buffer of the call, and nobody else, no
 *     interrupt and no other device, reads or writes it meanwhile;
 *   - nobody writes a buffer that is only read (a pointer with const) while the call runs;
 *   - the caller is an x86-64 program under the System V calling convention, as the library's archive is.
 * Calls keep no state, so any number of threads may call at once, each with its own buffers; a table may be shared. They
 * take no memory but the stack: fdr_fixed_fill some 17 KiB of it, every other call less than 3 KiB.
 *
 * In the examples below `answer` is an fdr_answer.
 */
#ifndef FANDRUTE_H
#define FANDRUTE_H

#include <stddef.h>
#include <stdint.h>

#ifdef __cplusplus
extern "C" {
#endif

/* What a call answers. */
typedef struct {
    uint32_t number;
    size_t place;
} fdr_answer;

/* A modulus together with its twelve roots: the root for 2^n points stands at roots[n - 1]. */
typedef struct {
    uint32_t modulus;
    uint32_t roots[12];
} fdr_setting;

/* What a house row yields: the answer, and a setting that is all zeros where the row is refused. */
typedef struct {
    fdr_answer answer;
    fdr_setting setting;
} fdr_found;

/* ---- whole numbers modulo m ---- */

/*
 * Whether the N/2 entries of the table are accepted modulo m: 1, x, x^2, .. below m, with x^(N/2) = m - 1. The root x is
 * the second entry, or m - 1 for N = 2.
 * Refusals, in order: 2, 3, 4.
 *
 *     uint32_t table[2] = {1, 4};
 *     answer = fdr_modular_accept(5, table, 2);                // 4 at place 2: 4^2 is 1 modulo 5, not 4
 */
fdr_answer fdr_modular_accept(uint32_t m, const uint32_t *table, size_t table_len);

/*
 * Transforms the N samples in buf: f(j) = sum over k of A(k) x^(jk) modulo m. The schedules 1 (by columns), 2 (perfect
 * shuffle), 3 (by halves) and 5 (Pease) take samples in order and leave f(rev(j)) at place j, where rev reverses the n
 * bits of j; 4 (Thong T1) takes them in bit-reversed order and leaves f(j) at place j.
 * Refusals, in order: 7, 1, 2, 6, 3, 4, 5.
 *
 *     uint32_t table[2] = {1, 2}, buf[4] = {1, 2, 3, 4}, scratch[4] = {0};
 *     answer = fdr_modular_transform(2, buf, 4, 5, table, 2, scratch, 4);      // 0; buf is 0 3 4 2, scratch 0 0 0 0
 */
fdr_answer fdr_modular_transform(uint32_t schedule, uint32_t *buf, size_t buf_len, uint32_t m, const uint32_t *table,
                                 size_t table_len, uint32_t *scratch, size_t scratch_len);

/*
 * Does one stage, 0 to n - 1, of schedule 1 or 2 to the N residues in buf.
 * Refusals, in order: 7, 1, 8, 2, 6, 3, 4, 5.
 *
 *     uint32_t table[2] = {1, 2}, buf[4] = {1, 2, 3, 4}, none;
 *     answer = fdr_modular_stage(1, 0, buf, 4, 5, table, 2, &none, 0);         // 0; buf is 4 1 3 1
 */
fdr_answer fdr_modular_stage(uint32_t schedule, uint32_t stage, uint32_t *buf, size_t buf_len, uint32_t m,
                             const uint32_t *table, size_t table_len, uint32_t *scratch, size_t scratch_len);

/*
 * Takes what the schedules 1, 2, 3 and 5 leave in buf, with the table that they had, back to the samples in order.
 * Refusals, in order: 1, 2, 3, 4, 5.
 *
 *     uint32_t table[2] = {1, 2}, buf[4] = {0, 3, 4, 2};
 *     answer = fdr_modular_inverse(buf, 4, 5, table, 2);                       // 0; buf is 1 2 3 4
 */
fdr_answer fdr_modular_inverse(uint32_t *buf, size_t buf_len, uint32_t m, const uint32_t *table, size_t table_len);

/*
 * Leaves at each place of buf what stood at the place with its n bits reversed. Any numbers may stand there.
 * Refusals: 1.
 *
 *     uint32_t buf[8] = {0, 1, 2, 3, 4, 5, 6, 7};
 *     answer = fdr_modular_reverse(buf, 8);                                    // 0; buf is 0 4 2 6 1 5 3 7
 */
fdr_answer fdr_modular_reverse(uint32_t *buf, size_t buf_len);

/*
 * The setting of house row 0, 1 or 2: modulus 998244353, 469762049 or 167772161 with its roots for 2, 4, .. 4,096.
 * Refusals: 9.
 *
 *     fdr_found found = fdr_house_row(0);                                      // found.setting.modulus is 998244353
 */
fdr_found fdr_house_row(uint32_t row);

/*
 * Fills the table, N/2 entries, with the powers of the setting's root for N. The setting may come from anyone.
 * Refusals, in order: 2, 3, 4 (the root for N is not below the modulus, or its power N/2 is not -1; place N/2).
 *
 *     uint32_t table[512] = {0};
 *     answer = fdr_modular_fill(fdr_house_row(0).setting, table, 512);         // 0; a table for 1,024 points
 */
fdr_answer fdr_modular_fill(fdr_setting setting, uint32_t *table, size_t table_len);

/* ---- fixed point: pairs (real, imaginary), interleaved ---- */

/*
 * Whether the N/2 pairs T[0], T[1], .. of the table, N numbers in units of 1/16,384, are accepted: T[0] is (16,384, 0);
 * every imaginary part is at least 0, and the sizes of a pair's parts sum to at most 23,171; T[i-1] times T[1] differs from
 * 16,384 T[i] by at most 32,768 in each part, where T[N/2] stands for (-16,384, 0).
 * Refusals, in order: 3, 4.
 *
 *     int32_t table[4] = {16384, 0, 0, 16385};
 *     answer = fdr_fixed_accept(table, 4);                                     // 4 at place 2: the closing rule
 */
fdr_answer fdr_fixed_accept(const int32_t *table, size_t table_len);

/*
 * Transforms the N points in buf, 2N numbers, by schedule 1, 2 or 3. With the table that fdr_fixed_fill writes, place
 * rev(j) then holds, rounded, 1/N times the sum over k of A(k) (cos + i sin)(2 pi j k / N): a plus in the exponent, and
 * bit-reversed order. The three leave identical numbers. A part of a result may lie outside the range of samples: it is
 * within 2^22.
 * Refusals, in order: 7, 1, 6, 3, 4, 5.
 *
 *     int32_t table[2] = {16384, 0}, buf[4] = {3, -1, 2, 0}, none;
 *     answer = fdr_fixed_transform(1, buf, 4, table, 2, &none, 0);             // 0; buf is 3 0 1 0
 */
fdr_answer fdr_fixed_transform(uint32_t schedule, int32_t *buf, size_t buf_len, const int32_t *table, size_t table_len,
                               int32_t *scratch, size_t scratch_len);

/*
 * Leaves at each point of buf, 2N numbers, the point that stood at the place with its n bits reversed.
 * Refusals: 1.
 *
 *     int32_t buf[8] = {0, 1, 2, 3, 4, 5, 6, 7};
 *     answer = fdr_fixed_reverse(buf, 8);                                      // 0; buf is 0 1 4 5 2 3 6 7
 */
fdr_answer fdr_fixed_reverse(int32_t *buf, size_t buf_len);

/*
 * Fills the table, N numbers, with pairs for N points: 16,384 times cosine and sine of 2 pi i / N, to the nearest whole
 * number (this is tested; that the table is accepted is proved).
 * Refusals: 3.
 *
 *     int32_t table[1024] = {0};
 *     answer = fdr_fixed_fill(table, 1024);                                    // 0; a table for 1,024 points
 */
fdr_answer fdr_fixed_fill(int32_t *table, size_t table_len);

#ifdef __cplusplus
}
#endif

#endif
