/*
 * Makes the calls of fandrute.h that records on standard input ask for. A record is words of 32 bits: the call's place in the header,
 * schedule, stage, modulus (or house row), twelve roots, the lengths of buf, table and scratch, and then these three. What it writes for
 * each: number, place (the low word first), modulus and roots of the setting that was yielded or else zeros, and the three as they are left.
 */
#include "fandrute.h"
#include <stdio.h>
#include <stdlib.h>

enum { BUF, TABLE, SCRATCH, PARTS };
enum { GUARD = 0x5a5a5a5a };

/* The words before the three parts. */
typedef struct {
    uint32_t call, schedule, stage, modulus, roots[12], lengths[PARTS];
} head;

static void stop(const char *why) {
    fprintf(stderr, "calls: %s\n", why);
    exit(1);
}

static void put(const void *words, size_t count) {
    if (fwrite(words, sizeof(uint32_t), count, stdout) != count)
        stop("standard output is closed");
}

/* Reads so many words, and lends them with a word before and one behind that no call may change. */
static uint32_t *lend(size_t count) {
    uint32_t *room = malloc((count + 2) * sizeof *room);
    if (!room)
        stop("no memory");
    if (fread(room + 1, sizeof *room, count, stdin) != count)
        stop("a record is cut");
    room[0] = room[count + 1] = GUARD;
    return room + 1;
}

static void look_beside(const uint32_t *lent, size_t count) {
    if (lent[-1] != GUARD || lent[count] != GUARD)
        stop("a word beside what was lent is changed");
}

static fdr_found make(const head *h, uint32_t *const parts[PARTS]) {
    uint32_t *buf = parts[BUF], *table = parts[TABLE], *scratch = parts[SCRATCH];
    int32_t *points = (int32_t *)buf, *pairs = (int32_t *)table, *room = (int32_t *)scratch;
    size_t buf_len = h->lengths[BUF], table_len = h->lengths[TABLE], scratch_len = h->lengths[SCRATCH];
    uint32_t m = h->modulus;
    fdr_setting setting = {.modulus = m};
    fdr_found found = {0};
    for (int i = 0; i < 12; i++)
        setting.roots[i] = h->roots[i];
    switch (h->call) {
    case 0: found.answer = fdr_modular_accept(m, table, table_len); break;
    case 1:
        found.answer = fdr_modular_transform(h->schedule, buf, buf_len, m, table, table_len, scratch, scratch_len);
        break;
    case 2:
        found.answer = fdr_modular_stage(h->schedule, h->stage, buf, buf_len, m, table, table_len, scratch, scratch_len);
        break;
    case 3: found.answer = fdr_modular_inverse(buf, buf_len, m, table, table_len); break;
    case 4: found.answer = fdr_modular_reverse(buf, buf_len); break;
    case 5: found = fdr_house_row(m); break;
    case 6: found.answer = fdr_modular_fill(setting, table, table_len); break;
    case 7: found.answer = fdr_fixed_accept(pairs, table_len); break;
    case 8:
        found.answer = fdr_fixed_transform(h->schedule, points, buf_len, pairs, table_len, room, scratch_len);
        break;
    case 9: found.answer = fdr_fixed_reverse(points, buf_len); break;
    case 10: found.answer = fdr_fixed_fill(pairs, table_len); break;
    default: stop("there is no such call");
    }
    return found;
}

int main(void) {
    head h;
    while (fread(&h, sizeof h, 1, stdin) == 1) {
        uint32_t *parts[PARTS];
        for (int i = 0; i < PARTS; i++)
            parts[i] = lend(h.lengths[i]);
        fdr_found found = make(&h, parts);
        for (int i = 0; i < PARTS; i++)
            look_beside(parts[i], h.lengths[i]);
        uint64_t place = found.answer.place;
        put((uint32_t[]){found.answer.number, (uint32_t)place, (uint32_t)(place >> 32)}, 3);
        put(&found.setting.modulus, 1);
        put(found.setting.roots, 12);
        for (int i = 0; i < PARTS; i++) {
            put(parts[i], h.lengths[i]);
            free(parts[i] - 1);
        }
    }
    return 0;
}
