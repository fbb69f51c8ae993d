/* The header's examples and document 01's bench values, through the calls. Prints each that fails. */
#include "fandrute.h"
#include <stdio.h>

static int held, failed;

static void hold(int so, const char *what) {
    if (so) {
        held++;
    } else {
        failed++;
        printf("fails: %s\n", what);
    }
}

static void answers(const char *what, fdr_answer found, uint32_t number, size_t place) {
    int so = found.number == number && found.place == place;
    hold(so, what);
    if (!so)
        printf("    answered %u at %zu, and %u at %zu is due\n", found.number, found.place, number, place);
}

/* The numbers of a buffer; residues are small enough here to stand as signed. */
static void left(const char *what, const void *buf, const int32_t *due, size_t count) {
    const int32_t *found = buf;
    size_t i = 0;
    while (i < count && found[i] == due[i])
        i++;
    hold(i == count, what);
    if (i < count)
        printf("    left %d at %zu, and %d is due\n", (int)found[i], i, (int)due[i]);
}

#define LEFT(what, buf, ...) left(what, buf, (int32_t[]){__VA_ARGS__}, sizeof((int32_t[]){__VA_ARGS__}) / sizeof(int32_t))

/* Each example as it stands in the header, and what its comment says. */
static void examples_modular(void) {
    fdr_answer answer;
    {
        uint32_t table[2] = {1, 4};
        answer = fdr_modular_accept(5, table, 2);
        answers("example of fdr_modular_accept", answer, 4, 2);
    }
    {
        uint32_t table[2] = {1, 2}, buf[4] = {1, 2, 3, 4}, scratch[4] = {0};
        answer = fdr_modular_transform(2, buf, 4, 5, table, 2, scratch, 4);
        answers("example of fdr_modular_transform", answer, 0, 0);
        LEFT("example of fdr_modular_transform, buf", buf, 0, 3, 4, 2);
        LEFT("example of fdr_modular_transform, scratch", scratch, 0, 0, 0, 0);
    }
    {
        uint32_t table[2] = {1, 2}, buf[4] = {1, 2, 3, 4}, none;
        answer = fdr_modular_stage(1, 0, buf, 4, 5, table, 2, &none, 0);
        answers("example of fdr_modular_stage", answer, 0, 0);
        LEFT("example of fdr_modular_stage, buf", buf, 4, 1, 3, 1);
    }
    {
        uint32_t table[2] = {1, 2}, buf[4] = {0, 3, 4, 2};
        answer = fdr_modular_inverse(buf, 4, 5, table, 2);
        answers("example of fdr_modular_inverse", answer, 0, 0);
        LEFT("example of fdr_modular_inverse, buf", buf, 1, 2, 3, 4);
    }
    {
        uint32_t buf[8] = {0, 1, 2, 3, 4, 5, 6, 7};
        answer = fdr_modular_reverse(buf, 8);
        answers("example of fdr_modular_reverse", answer, 0, 0);
        LEFT("example of fdr_modular_reverse, buf", buf, 0, 4, 2, 6, 1, 5, 3, 7);
    }
    {
        fdr_found found = fdr_house_row(0);
        answers("example of fdr_house_row", found.answer, 0, 0);
        hold(found.setting.modulus == 998244353, "example of fdr_house_row, modulus");
    }
    {
        uint32_t table[512] = {0};
        answer = fdr_modular_fill(fdr_house_row(0).setting, table, 512);
        answers("example of fdr_modular_fill", answer, 0, 0);
        answers("its table is accepted", fdr_modular_accept(998244353, table, 512), 0, 0);
    }
}

static void examples_fixed(void) {
    fdr_answer answer;
    {
        int32_t table[4] = {16384, 0, 0, 16385};
        answer = fdr_fixed_accept(table, 4);
        answers("example of fdr_fixed_accept", answer, 4, 2);
    }
    {
        int32_t table[2] = {16384, 0}, buf[4] = {3, -1, 2, 0}, none;
        answer = fdr_fixed_transform(1, buf, 4, table, 2, &none, 0);
        answers("example of fdr_fixed_transform", answer, 0, 0);
        LEFT("example of fdr_fixed_transform, buf", buf, 3, 0, 1, 0);
    }
    {
        int32_t buf[8] = {0, 1, 2, 3, 4, 5, 6, 7};
        answer = fdr_fixed_reverse(buf, 8);
        answers("example of fdr_fixed_reverse", answer, 0, 0);
        LEFT("example of fdr_fixed_reverse, buf", buf, 0, 1, 4, 5, 2, 3, 6, 7);
    }
    {
        int32_t table[1024] = {0};
        answer = fdr_fixed_fill(table, 1024);
        answers("example of fdr_fixed_fill", answer, 0, 0);
        answers("its table is accepted", fdr_fixed_accept(table, 1024), 0, 0);
    }
}

/* "m = 5, table 1 2, samples 1 2 3 4. Sums in order: 0 4 3 2. Schedules 1, 2, 3, 5 leave 0 3 4 2.", and the inverse and schedule 4. */
static void bench_transforms(void) {
    const uint32_t table[2] = {1, 2}, lone[1] = {1};
    for (uint32_t schedule = 1; schedule <= 5; schedule++) {
        uint32_t buf[4] = {1, 2, 3, 4}, scratch[4] = {9, 9, 9, 9}, two[2] = {2, 1};
        if (schedule == 4) {
            answers("1 2 3 4 reversed", fdr_modular_reverse(buf, 4), 0, 0);
            LEFT("1 3 2 4", buf, 1, 3, 2, 4);
        }
        answers("a transform", fdr_modular_transform(schedule, buf, 4, 5, table, 2, scratch, 4), 0, 0);
        if (schedule != 4) {
            LEFT("0 3 4 2", buf, 0, 3, 4, 2);
            answers("the sums in order", fdr_modular_reverse(buf, 4), 0, 0);
        }
        LEFT("0 4 3 2", buf, 0, 4, 3, 2);
        answers("m = 3", fdr_modular_transform(schedule, two, 2, 3, lone, 1, scratch, 2), 0, 0);
        LEFT("0 1", two, 0, 1);
    }
    uint32_t buf[4] = {0, 3, 4, 2};
    answers("the inverse", fdr_modular_inverse(buf, 4, 5, table, 2), 0, 0);
    LEFT("1 2 3 4", buf, 1, 2, 3, 4);
}

/* "the same after stage 0: by columns 4 1 3 1, by shuffle 4 3 1 1". No call does a stage of Pease alone. */
static void bench_stages(void) {
    const uint32_t table[2] = {1, 2};
    uint32_t columns[4] = {1, 2, 3, 4}, shuffle[4] = {1, 2, 3, 4}, scratch[4] = {9, 9, 9, 9};
    answers("stage 0 by columns", fdr_modular_stage(1, 0, columns, 4, 5, table, 2, scratch, 4), 0, 0);
    LEFT("4 1 3 1", columns, 4, 1, 3, 1);
    LEFT("scratch not touched", scratch, 9, 9, 9, 9);
    answers("stage 0 by shuffle", fdr_modular_stage(2, 0, shuffle, 4, 5, table, 2, scratch, 4), 0, 0);
    LEFT("4 3 1 1", shuffle, 4, 3, 1, 1);
    LEFT("scratch zero", scratch, 0, 0, 0, 0);
}

/* "m = 5, table 1 4 is refused 4 at place 2"; "N = 1 and 8,192 refused 1; m = 4 refused 2; sample 5 with m = 5 refused 5". */
static void bench_refusals(void) {
    static uint32_t long_buf[8192], long_scratch[8192];
    static int32_t long_points[16384];
    const uint32_t table[2] = {1, 2}, wrong[2] = {1, 4};
    uint32_t buf[4] = {1, 2, 5, 4}, scratch[4] = {9, 9, 9, 9};
    answers("table 1 4 alone", fdr_modular_accept(5, wrong, 2), 4, 2);
    answers("m = 4 alone", fdr_modular_accept(4, table, 2), 2, 0);
    for (uint32_t schedule = 1; schedule <= 5; schedule++) {
        answers("table 1 4", fdr_modular_transform(schedule, buf, 4, 5, wrong, 2, scratch, 4), 4, 2);
        answers("m = 4", fdr_modular_transform(schedule, buf, 4, 4, table, 2, scratch, 4), 2, 0);
        answers("sample 5", fdr_modular_transform(schedule, buf, 4, 5, table, 2, scratch, 4), 5, 2);
        answers("N = 1", fdr_modular_transform(schedule, buf, 1, 5, table, 2, scratch, 4), 1, 0);
        answers("N = 8,192", fdr_modular_transform(schedule, long_buf, 8192, 5, table, 2, long_scratch, 8192), 1, 0);
    }
    answers("table 1 4, a stage", fdr_modular_stage(2, 1, buf, 4, 5, wrong, 2, scratch, 4), 4, 2);
    answers("table 1 4, the inverse", fdr_modular_inverse(buf, 4, 5, wrong, 2), 4, 2);
    answers("sample 5, the inverse", fdr_modular_inverse(buf, 4, 5, table, 2), 5, 2);
    answers("N = 1, the inverse", fdr_modular_inverse(buf, 1, 5, table, 2), 1, 0);
    answers("N = 1, reversal", fdr_modular_reverse(buf, 1), 1, 0);
    answers("N = 8,192, reversal", fdr_modular_reverse(long_buf, 8192), 1, 0);
    answers("N = 1, points", fdr_fixed_reverse(long_points, 2), 1, 0);
    answers("N = 8,192, points", fdr_fixed_reverse(long_points, 16384), 1, 0);
    LEFT("a refusal changes nothing", buf, 1, 2, 5, 4);
    LEFT("nor scratch", scratch, 9, 9, 9, 9);
}

/* "fixed, N = 2, samples (3,-1) (2,0): result (3,0) (1,0)"; "32,767 accepted, 32,768 refused". */
static void bench_points(void) {
    const int32_t table[2] = {16384, 0};
    for (uint32_t schedule = 1; schedule <= 3; schedule++) {
        int32_t buf[4] = {3, -1, 2, 0}, scratch[4] = {9, 9, 9, 9};
        answers("two points", fdr_fixed_transform(schedule, buf, 4, table, 2, scratch, 4), 0, 0);
        LEFT("(3,0) (1,0)", buf, 3, 0, 1, 0);
        for (int32_t sign = -1; sign <= 1; sign += 2) {
            int32_t within[4] = {0, 0, 0, sign * 32767}, beyond[4] = {0, 0, 0, sign * 32768};
            answers("32,767", fdr_fixed_transform(schedule, within, 4, table, 2, scratch, 4), 0, 0);
            answers("32,768", fdr_fixed_transform(schedule, beyond, 4, table, 2, scratch, 4), 5, 3);
        }
    }
}

/* "Fixed tables for N = 4, second pair". */
static void bench_tables(void) {
    static const struct {
        int32_t re, im;
        uint32_t number;
        size_t place;
    } pairs[] = {{0, 16383, 0, 0}, {1, 16384, 0, 0}, {0, 16385, 4, 2}, {2, 16384, 4, 2}, {0, -16384, 4, 1}};
    for (size_t i = 0; i < sizeof pairs / sizeof *pairs; i++) {
        const int32_t table[4] = {16384, 0, pairs[i].re, pairs[i].im};
        int32_t buf[8] = {0}, none;
        answers("a second pair", fdr_fixed_accept(table, 4), pairs[i].number, pairs[i].place);
        answers("a transform with it", fdr_fixed_transform(3, buf, 8, table, 4, &none, 0), pairs[i].number, pairs[i].place);
    }
}

int main(void) {
    examples_modular();
    examples_fixed();
    bench_transforms();
    bench_stages();
    bench_refusals();
    bench_points();
    bench_tables();
    if (failed) {
        printf("%d of %d values fail\n", failed, held + failed);
        return 1;
    }
    printf("%d values hold\n", held);
    return 0;
}
