/* dulvaspen_odd as C calls it: each of its refusals, and which goes first where several apply; that a refused call leaves file and report as they were, and any
 * call ids and packets and what stands behind the buffers; and in a small group every letter of every node flipped, and two nodes at once. Exits with 1 where
 * anything isn't as the header says. tools/try_c builds and runs it. */
#include "dulvaspen.h"
#include <stdio.h>
#include <string.h>

enum { REPORT = DULVASPEN_REPORT_NUMBERS, ROOM = 32768, NUMBERS = 72, NINE = 9 };
typedef struct { uint64_t n, k, d, l; } group;

static uint8_t batch[ROOM], zeros[ROOM], packets[ROOM], packets_then[ROOM], file[ROOM], file_then[ROOM];
static uint64_t ids[NUMBERS], ids_then[NUMBERS], report[NUMBERS], report_then[NUMBERS], count, held, letters; /* how many ids, and all their letters; the batch's */
static uint64_t at[17];                                                                                      /* where what node i holds begins, for a present node */
static int wrong, tried;

static void expect(int good, const char *what, uint64_t number) {
    tried++;
    if (!good) { printf("WRONG: %s: %u\n", what, (unsigned)number); wrong = 1; }
}

/* Makes the nodes from `first` down to `last` present: their ids, and what they hold of a batch. */
static void present(group g, uint64_t first, uint64_t last) {
    uint64_t size;
    count = held = 0;
    memset(ids, 0, sizeof ids);
    expect(!dulvaspen_file_letters(g.n, g.k, g.d, g.l, &letters), "file_letters", g.n);
    for (uint64_t i = 0; i < letters; i++) batch[i] = (uint8_t)(i * 131 + 17);
    for (uint64_t node = first; node >= last && node > 0; node--) {
        at[node] = held;
        ids[count++] = node;
        expect(!dulvaspen_packet_letters(g.n, g.k, g.d, g.l, node, &size), "packet_letters", node);
        expect(!dulvaspen_encode(g.n, g.k, g.d, g.l, node, batch, letters, packets + held, size), "encode", node);
        held += size;
    }
}

/* Calls with these lengths. Returns what it returned, once everything that it must not touch was found as it was. */
static uint64_t call(group g, uint64_t ids_len, uint64_t packets_len, uint64_t file_len, uint64_t report_len) {
    for (int i = 0; i < ROOM; i++) file[i] = file_then[i] = (uint8_t)(i * 7 + 1);
    for (int i = 0; i < NUMBERS; i++) report[i] = report_then[i] = (uint64_t)i * 7 + 1;
    memcpy(ids_then, ids, sizeof ids);
    memcpy(packets_then, packets, sizeof packets);
    uint64_t refusal = dulvaspen_odd(g.n, g.k, g.d, g.l, ids, ids_len, packets, packets_len, file, file_len, report, report_len);
    uint64_t f = refusal ? 0 : file_len, r = refusal ? 0 : report_len;
    expect(!memcmp(ids, ids_then, sizeof ids) && !memcmp(packets, packets_then, sizeof packets), "ids or packets were changed, returning", refusal);
    expect(!memcmp(file + f, file_then + f, ROOM - f), "file was changed, returning", refusal);
    expect(!memcmp(report + r, report_then + r, sizeof report - r * sizeof *report), "the report was changed, returning", refusal);
    return refusal;
}

static void refused(group g, uint64_t want, uint64_t ids_len, uint64_t packets_len, uint64_t file_len, uint64_t report_len) {
    uint64_t got = call(g, ids_len, packets_len, file_len, report_len);
    if (got != want) printf("[%u,%u,%u] l %u must be refused by %u: ", (unsigned)g.n, (unsigned)g.k, (unsigned)g.d, (unsigned)g.l, (unsigned)want);
    expect(got == want, "it returns", got);
}

/* The call must be fine, the present nodes of this state, one of them odd at this place (none where `odd` is 0), and the file this one. */
static void told(group g, uint64_t state, uint64_t odd, uint64_t place, const uint8_t *shared) {
    uint64_t want[REPORT] = {0}, got = call(g, count, held, letters, REPORT);
    for (uint64_t i = 0; i < count; i++) want[2 * (ids[i] - 1)] = state;
    if (odd) { want[2 * (odd - 1)] = DULVASPEN_NODE_ODD; want[2 * (odd - 1) + 1] = place; }
    expect(got == 0, "it must not be refused", got);
    expect(!memcmp(report, want, sizeof want), "another report, of node", odd);
    expect(!memcmp(file, shared, letters), "another file, of node", odd);
}

/* What is wrong with numbers and ids, with everything behind it wrong, too: a wrong id, a wrong order, other lengths. */
static void numbers(group g) {
    static const uint64_t far[] = {0, 1, 2, 16, 17, 1048577, UINT64_MAX};
    group bad = g;
    present(g, 6, 1);
    for (int i = 0; i < 7; i++) {
        bad = g;
        bad.n = far[i];
        if (far[i] != 16) refused(bad, 1, count, held - 1, letters - 1, NINE);
        bad = g;
        bad.k = far[i];
        if (far[i] != 2) refused(bad, 1, count, held - 1, letters - 1, NINE);
        bad = g;
        bad.d = far[i];
        refused(bad, 1, count, held - 1, letters - 1, NINE);
        bad = g;
        bad.l = far[i];
        if (far[i] == 0 || far[i] > DULVASPEN_MOST_LENGTH) refused(bad, 2, count, held - 1, letters - 1, NINE);
    }
    bad = g;
    bad.d = 6;
    bad.l = 0;
    refused(bad, 1, count, held, letters, REPORT); /* d is n; 1 before 2 */
    for (int i = 0; i < 6; i++) {
        present(g, 6, 1);
        bad = g;
        bad.l = 0;
        ids[i] = 7;
        refused(bad, 2, count, held, letters, REPORT); /* 2 before 3 */
        refused(g, 3, count, held, letters, REPORT);
        ids[i] = 0;
        refused(g, 3, count, held - 1, letters - 1, NINE);
        ids[i] = UINT64_MAX;
        ids[(i + 3) % 6] = 3; /* twice, or in the place of another, so that they don't fall: 3 before 4 */
        refused(g, 3, count, held, letters, REPORT);
    }
    for (int i = 0; i < 5; i++) { /* twice the same, and a pair the wrong way round: 4 before 5, 13 and 6 */
        present(g, 6, 1);
        ids[i] = ids[i + 1];
        refused(g, 4, count, held, letters, REPORT);
        refused(g, 4, (uint64_t)i + 2, held - 1, letters - 1, NINE);
        ids[i] = (uint64_t)(5 - i);
        ids[i + 1] = (uint64_t)(6 - i);
        refused(g, 4, count, held, letters, REPORT);
    }
    present(g, 6, 1);
    ids[6] = 1;
    refused(g, 4, 7, held, letters, REPORT); /* more ids than nodes can't fall; how many there are isn't 3 */
}

/* Lengths: 5 before 13, 13 before 6, and 6 for the file and for the report. */
static void lengths(group g) {
    static const uint64_t others[] = {0, 1, 31, 33, 64}; /* numbers of a report */
    for (uint64_t last = 1; last <= 7; last++) {
        present(g, 6, last); /* six nodes down to none */
        refused(g, 5, count, held + 1, letters, REPORT);
        if (held) refused(g, 5, count, held - 1, letters - 1, NINE);
        if (held) refused(g, 5, count, 0, letters, REPORT);
        if (count < g.k + 2) {
            refused(g, 13, count, held, letters, REPORT);
            refused(g, 13, count, held, letters - 1, NINE);
            refused(g, 13, count, held, letters, REPORT - 1);
            continue;
        }
        told(g, DULVASPEN_NODE_AGREEING, 0, 0, batch);
        refused(g, 6, count, held, letters - 1, REPORT);
        refused(g, 6, count, held, letters + 1, REPORT);
        refused(g, 6, count, held, 0, REPORT);
        for (int i = 0; i < 5; i++) {
            refused(g, 6, count, held, letters, others[i]);
            refused(g, 6, count, held, letters + 1, others[i]);
        }
    }
    expect(dulvaspen_odd(g.n, g.k, g.d, g.l, NULL, 0, NULL, 0, NULL, 0, NULL, 0) == 13, "no nodes, no buffers", 0);
    expect(dulvaspen_odd(g.n, g.k, g.d, g.l, NULL, 0, NULL, 0, file, letters, report, REPORT) == 13, "no nodes", 0);
}

/* Every letter of every present node flipped; then one more letter of every other node, too, which is more than can be named where k+3 are present. */
static void flipped(group g, uint64_t first, uint64_t last) {
    present(g, first, last);
    told(g, DULVASPEN_NODE_AGREEING, 0, 0, batch);
    for (uint64_t node = first; node >= last && node > 0; node--) {
        uint64_t end = node == last ? held : at[node - 1];
        for (uint64_t i = at[node]; i < end; i++) {
            packets[i] ^= (uint8_t)(1 << i % 8);
            told(g, DULVASPEN_NODE_AGREEING, node, i - at[node] + 1, batch);
            for (uint64_t other = last; other <= first && count >= g.k + 3; other++) {
                if (other == node) continue;
                packets[at[other]] ^= 255;
                told(g, DULVASPEN_NODE_UNKNOWN, 0, 0, zeros);
                packets[at[other]] ^= 255;
            }
            packets[i] ^= (uint8_t)(1 << i % 8);
        }
    }
}

int main(void) {
    static const group six = {6, 3, 4, 2}, narrow = {4, 3, 3, 2}, four = {4, 2, 2, 1}, most = {16, 14, 15, 1};
    numbers(six);
    lengths(six);
    present(narrow, 4, 1); /* k = n-1: all of them aren't enough */
    refused(narrow, 13, count, held, letters, REPORT);
    refused(narrow, 13, count, held, letters, NINE);
    flipped(four, 4, 1);
    flipped(six, 6, 1);
    flipped(six, 6, 2);
    flipped(six, 5, 1);
    present(most, 16, 1); /* a report in full */
    told(most, DULVASPEN_NODE_AGREEING, 0, 0, batch);
    packets[at[16] + 3] ^= 1;
    told(most, DULVASPEN_NODE_AGREEING, 16, 4, batch);
    packets[at[2]] ^= 1;
    told(most, DULVASPEN_NODE_UNKNOWN, 0, 0, zeros);
    present(four, 4, 1); /* the header's example */
    packets[17] ^= 1;
    told(four, DULVASPEN_NODE_AGREEING, 2, 4, batch);
    printf("%d things about dulvaspen_odd%s\n", tried, wrong ? ", and not all are as they should be" : ", all as they should be");
    return wrong;
}
