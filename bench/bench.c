/* Each call of the library beside its plain C version, on the same letters, compared. With the word `time` each is timed; with `count`, under
 * valgrind's callgrind or under bench/count.c, its instructions are counted. With the word `packets` after it, encode, recover, help and repair alone,
 * and encode and recover of previews; with `odd`, the call that tells which node is odd, alone. bench/run makes the tables. */
#include "../include/dulvaspen.h"
#include "plain.h"
/* run addition alone, of the crate bench_runs; with its report, and the report alone, of bench_counts */
extern uint64_t bench_add_run(uint8_t *into, uint64_t into_len, uint64_t at, const uint8_t *run, uint64_t run_len);
extern uint64_t bench_add_within(uint8_t *buffer, uint64_t buffer_len, uint64_t to, uint64_t from, uint64_t count);
extern uint64_t bench_add_run_counted(uint8_t *into, uint64_t into_len, uint64_t at, const uint8_t *run, uint64_t run_len);
extern uint64_t bench_add_within_counted(uint8_t *buffer, uint64_t buffer_len, uint64_t to, uint64_t from, uint64_t count);
extern uint64_t bench_count(const uint8_t *from, uint64_t from_len, uint64_t start, uint64_t count);
#include <stdio.h>
#include <stdlib.h>
#include <string.h>
#include <time.h>
#include <unistd.h>
#ifdef EMULATED /* bench/count.c counts: a mark before the call and one after it */
#define BEFORE_CALL() mark(2 * measured)
#define AFTER_CALL(NAME) do { mark(2 * measured + 1); printf("marked %llu %s\n", (unsigned long long)measured++, NAME); } while (0)
#else
#include <valgrind/callgrind.h>
#define BEFORE_CALL() CALLGRIND_ZERO_STATS
#define AFTER_CALL(NAME) CALLGRIND_DUMP_STATS_AT(NAME)
#endif

/* room for the longest sequences that are measured: 18 of them are a file of [16,4,6], and 6 with some more letters what a node holds */
enum { FILE_ROOM = 20 << 20, NODE_ROOM = 7 << 20 };
static uint8_t file[FILE_ROOM], got[FILE_ROOM], want[FILE_ROOM], in_blocks[FILE_ROOM], in_tiles[FILE_ROOM], input[FILE_ROOM], node_packets[17][NODE_ROOM], share[NODE_ROOM];
static uint64_t held[17], count_ours, count_plain, count_blocks, count_tiles, head_ours[HEAD], head_plain[HEAD], state[DULVASPEN_ARRIVING_WORDS];
static group g;
_Static_assert(HEAD == DULVASPEN_HEAD_NUMBERS, "plain C tells another head");

static void stop(const char *what, uint64_t r) { fprintf(stderr, "bench: %s went wrong (%llu)\n", what, (unsigned long long)r); exit(1); }

static double seconds(void) { struct timespec t; clock_gettime(CLOCK_MONOTONIC, &t); return (double)t.tv_sec + 1e-9 * (double)t.tv_nsec; }

static int timing;
#ifdef EMULATED
static uint64_t measured;
static void mark(uint64_t number) { if (write(1000, file, number) >= 0) stop("a mark", number); }
#endif

/* Runs CALL on a fresh copy of the input in BUFFER, once to count it, or 25 times to time it. */
#define MEASURE(NAME, WHO, BUFFER, SIZE, CALL) do { \
    uint64_t r_; char name_[96]; memcpy(BUFFER, input, SIZE); \
    snprintf(name_, sizeof name_, "%s %llu,%llu,%llu %llu %s", NAME, (unsigned long long)g.n, (unsigned long long)g.k, (unsigned long long)g.d, \
        (unsigned long long)g.l, WHO); \
    if (!timing) { BEFORE_CALL(); r_ = (CALL); AFTER_CALL(name_); } \
    else { \
        double best_ = 1e9; int i_; \
        for (i_ = 0; i_ < 25; i_++) { double t_, s_; memcpy(BUFFER, input, SIZE); s_ = seconds(); r_ = (CALL); t_ = seconds() - s_; if (t_ < best_) best_ = t_; } \
        printf("time %s %.0f\n", name_, best_ * 1e9); \
    } \
    if (r_) stop(NAME, r_); } while (0)

/* Sequences that are longer than a head of kind 1 has: beside each call a plain copy of as many bytes as it leaves or looks at. */
static int is_long(void) { return g.l > 4096; }

/* Says the sizes that the table divides by, once got and want are the same. */
static void compare(const char *name, uint64_t letters, uint64_t additions) {
    if (memcmp(got, want, letters)) stop(name, 99);
    if (is_long()) MEASURE(name, "copy", want, letters, plain_copy(want, in_blocks, letters));
    printf("size %s %llu,%llu,%llu %llu %llu %llu\n", name, (unsigned long long)g.n, (unsigned long long)g.k, (unsigned long long)g.d,
           (unsigned long long)g.l, (unsigned long long)letters, (unsigned long long)additions);
}

/* The additions of sums of several runs, which the table of these divides by: for recovery those outside the solver. */
static void summed(const char *name, uint64_t additions) {
    printf("summed %s %llu,%llu,%llu %llu %llu\n", name, (unsigned long long)g.n, (unsigned long long)g.k, (unsigned long long)g.d, (unsigned long long)g.l,
           (unsigned long long)additions);
}

/* A run of so many letters added into another buffer, and to earlier letters of its own; both with their reports; and a report alone. */
static void runs(uint64_t count) {
    uint64_t size = 3 * count + 64, at = 3, from = at + count + 5;
    g = (group){0, 0, 0, count};
    for (uint64_t i = 0; i < size; i++) input[i] = (uint8_t)(i * 59 + (i >> 8) * 7 + 1);
    MEASURE("add_run", "ours", got, size, (count_ours = bench_add_run(got, size, at, file + 1, count), 0));
    MEASURE("add_run", "plain", want, size, (count_plain = plain_add_run(want, size, at, file + 1, count), 0));
    if (count_ours != count_plain || memcmp(got, want, size)) stop("add_run", 98);
    compare("add_run", count, count);
    MEASURE("add_within", "ours", got, size, (count_ours = bench_add_within(got, size, at, from, count), 0));
    MEASURE("add_within", "plain", want, size, (count_plain = plain_add_within(want, size, at, from, count), 0));
    if (count_ours != count_plain || memcmp(got, want, size)) stop("add_within", 98);
    compare("add_within", count, count);
    MEASURE("add_run_counted", "ours", got, size, (count_ours = bench_add_run_counted(got, size, at, file + 1, count), 0));
    MEASURE("add_run_counted", "plain", want, size, (count_plain = plain_add_run_counted(want, size, at, file + 1, count), 0));
    if (count_ours != count_plain || memcmp(got, want, size)) stop("add_run_counted", 98);
    compare("add_run_counted", count, count);
    MEASURE("add_within_counted", "ours", got, size, (count_ours = bench_add_within_counted(got, size, at, from, count), 0));
    MEASURE("add_within_counted", "plain", want, size, (count_plain = plain_add_within_counted(want, size, at, from, count), 0));
    if (count_ours != count_plain || memcmp(got, want, size)) stop("add_within_counted", 98);
    compare("add_within_counted", count, count);
    MEASURE("count", "ours", got, size, (count_ours = bench_count(got, size, from, count), 0));
    MEASURE("count", "plain", want, size, (count_plain = plain_count(want, size, from, count), 0));
    if (count_ours != count_plain) stop("count", 98);
    compare("count", count, count);
}

/* Run addition must leave and answer what plain C does at every short length, wherever the runs start, and count what it counts: of letters of which a few are
 * zero, and of letters of which many are. */
static void short_runs(void) {
    for (uint64_t count = 0; count <= 400; count++)
        for (uint64_t at = 0; at < 4; at++) {
            uint64_t size = 2 * count + 16, from = at + count + 3;
            memcpy(got, input, size);
            memcpy(want, input, size);
            if (bench_add_run(got, size, at, file + at, count) != plain_add_run(want, size, at, file + at, count)) stop("add_run", count);
            if (bench_add_within(got, size, at, from, count) != plain_add_within(want, size, at, from, count)) stop("add_within", count);
            if (memcmp(got, want, size)) stop("a short run", count);
            if (bench_add_run_counted(got, size, at, file + at, count) != plain_add_run_counted(want, size, at, file + at, count)) stop("add_run_counted", count);
            for (uint64_t i = 0; i < size; i++) if (file[i + count] & 1) got[i] = want[i] = 0;
            if (bench_add_within_counted(got, size, at, from, count) != plain_add_within_counted(want, size, at, from, count)) stop("add_within_counted", count);
            if (bench_count(got, size, from, count) != plain_count(want, size, from, count)) stop("count", count);
            if (memcmp(got, want, size)) stop("a short run that is counted", count);
        }
}

/* All terms of solving, document 01's sum, whatever the letters: what the work is measured by. The shift of node i at column j is (i + more)(j - 1). */
static uint64_t all_terms(uint64_t s, uint64_t n, const uint64_t *ids, int more) {
    uint64_t count = 0;
    for (uint64_t b = 1; b <= s; b++)
        for (uint64_t a = 1; a <= s; a++) {
            uint64_t apart = (ids[b - 1] + (uint64_t)more) * (a < b ? b - a : a - b);
            if (a != b && apart < n) count += n - apart;
        }
    return count;
}

static void packets(uint64_t letters) {
    uint64_t node = g.n / 2, made = g.l * (g.k * g.d + (g.d - g.k) * g.k);
    for (uint64_t i = 1; i <= g.n; i++) {
        dulvaspen_packet_letters(g.n, g.k, g.d, g.l, i, &held[i]);
        uint64_t r = dulvaspen_encode(g.n, g.k, g.d, g.l, i, file, letters, node_packets[i], held[i]);
        if (r) stop("encode", r);
    }
    MEASURE("encode", "ours", got, held[node], dulvaspen_encode(g.n, g.k, g.d, g.l, node, file, letters, got, held[node]));
    MEASURE("encode", "plain", want, held[node], plain_encode(g, node, file, letters, want, held[node]));
    MEASURE("encode", "blocks", in_blocks, held[node], plain_encode_blocks(g, node, file, letters, in_blocks, held[node]));
    if (memcmp(got, in_blocks, held[node])) stop("encode in blocks", 98);
    compare("encode", held[node], made);
    summed("encode", made);
}

/* At odd lengths, with blocks and without, plain C in blocks and in tiles must leave what the library does: for every node, and for every helper and rank
 * of a lost one. */
static void odd_lengths(void) {
    static const uint64_t lengths[] = {1, 127, 129, 333};
    for (int i = 0; i < 4; i++) {
        uint64_t letters, length, lost = 1 + g.n / 2;
        g.l = lengths[i];
        dulvaspen_file_letters(g.n, g.k, g.d, g.l, &letters);
        dulvaspen_repair_letters(g.n, g.k, g.d, g.l, lost, &length);
        for (uint64_t h = 1; h <= g.n; h++) {
            dulvaspen_packet_letters(g.n, g.k, g.d, g.l, h, &held[h]);
            if (dulvaspen_encode(g.n, g.k, g.d, g.l, h, file, letters, got, held[h]) || plain_encode_blocks(g, h, file, letters, want, held[h])
                || memcmp(got, want, held[h])) stop("encode in blocks", g.l);
            memcpy(node_packets[h], got, held[h]);
            for (uint64_t rank = 1; rank <= g.d && h != lost; rank++)
                if (dulvaspen_help(g.n, g.k, g.d, g.l, lost, h, rank, node_packets[h], held[h], got, length)
                    || plain_help_blocks(g, lost, h, rank, node_packets[h], held[h], want, length) || memcmp(got, want, length)) stop("help in blocks", g.l);
        }
        memcpy(got, file, letters); /* any letters are some file's pieces */
        memcpy(want, file, letters);
        uint64_t ids[16];
        for (uint64_t v = 1; v <= g.k; v++) ids[v - 1] = g.n + 1 - v;
        if (dulvaspen_recover(g.n, g.k, g.d, g.l, ids, g.k, got, letters, &count_ours) || plain_recover_blocks(g, ids, g.k, want, letters, &count_blocks)
            || count_ours != count_blocks || memcmp(got, want, letters)) stop("recover in blocks", g.l);
        memcpy(want, file, letters);
        if (plain_recover_tiles(g, ids, g.k, want, letters, &count_tiles) || count_ours != count_tiles || memcmp(got, want, letters)) stop("recover in tiles", g.l);
    }
}

static void recovery(uint64_t letters) {
    uint64_t ids[16], from, to, inside = 0, outside = 0;
    for (uint64_t v = 1; v <= g.k; v++) ids[v - 1] = g.n + 1 - v;
    for (uint64_t v = 1; v <= g.k; v++)
        for (uint64_t u = v; u <= g.d; u++) {
            dulvaspen_piece(g.n, g.k, g.d, g.l, ids[v - 1], v, u, node_packets[ids[v - 1]], held[ids[v - 1]], &from);
            dulvaspen_entry(g.n, g.k, g.d, g.l, v, u, &to);
            memcpy(input + to, node_packets[ids[v - 1]] + from, g.l);
        }
    MEASURE("recover", "ours", got, letters, dulvaspen_recover(g.n, g.k, g.d, g.l, ids, g.k, got, letters, &count_ours));
    MEASURE("recover", "plain", want, letters, plain_recover(g, ids, g.k, want, letters, &count_plain));
    MEASURE("recover", "blocks", in_blocks, letters, plain_recover_blocks(g, ids, g.k, in_blocks, letters, &count_blocks));
    MEASURE("recover", "tiles", in_tiles, letters, plain_recover_tiles(g, ids, g.k, in_tiles, letters, &count_tiles));
    if (count_ours != count_plain || count_ours != count_blocks || memcmp(got, file, letters) || memcmp(in_blocks, file, letters)) stop("recover", 98);
    if (count_ours != count_tiles || memcmp(got, in_tiles, letters)) stop("recover in tiles", 98);
    for (uint64_t u = 1; u <= g.d; u++) inside += all_terms(u < g.k ? u : g.k, g.l, ids, -1);
    for (uint64_t u = 2; u <= g.d; u++)
        for (uint64_t v = 1; v < u && v <= g.k; v++)
            for (uint64_t w = 1; w <= v; w++) {
                uint64_t moved = (ids[w - 1] - 1) * (u - w);
                outside += moved < g.l ? g.l - moved : 0;
            }
    if (count_ours > inside + outside) stop("the count of recover", count_ours);
    compare("recover", letters, inside + outside);
    summed("recover", outside);
}

/* ---- which node is odd: all n nodes present, their packets one after another in in_blocks ---- */

static uint64_t falling[16], place_of[17], report[DULVASPEN_REPORT_NUMBERS]; /* the ids; where what node i holds begins, and at 0 where all ends */

/* A recovery from the pieces of the first k ids and an encoding of each node: what the call is measured by. */
static uint64_t recover_and_encode(uint64_t letters) {
    uint64_t r = dulvaspen_recover(g.n, g.k, g.d, g.l, falling, g.k, want, letters, &count_ours);
    for (uint64_t i = 1; i <= g.n; i++) r |= dulvaspen_encode(g.n, g.k, g.d, g.l, i, want, letters, in_tiles + place_of[i], held[i]);
    return r;
}

/* A call, and whether it tells what it must: all present nodes of this state, but for the odd one, if any, whose first wrong letter stands at this place. */
static void odd_call(const char *name, uint64_t letters, uint64_t state_of_all, uint64_t odd, uint64_t place) {
    MEASURE(name, "ours", got, letters, dulvaspen_odd(g.n, g.k, g.d, g.l, falling, g.n, in_blocks, place_of[0], got, letters, report, DULVASPEN_REPORT_NUMBERS));
    for (uint64_t i = 1; i <= 16; i++) {
        uint64_t is_odd = i == odd, here = i > g.n ? DULVASPEN_NODE_ABSENT : is_odd ? DULVASPEN_NODE_ODD : state_of_all;
        if (report[2 * i - 2] != here || report[2 * i - 1] != (is_odd ? place : 0)) stop(name, i);
    }
    for (uint64_t i = 0; i < letters; i++) if (got[i] != (state_of_all == DULVASPEN_NODE_UNKNOWN ? 0 : file[i])) stop(name, 98);
    printf("odd %s %llu,%llu,%llu %llu\n", name, (unsigned long long)g.n, (unsigned long long)g.k, (unsigned long long)g.d, (unsigned long long)g.l);
}

/* All agree; each of the first k ids odd in turn, in the first and in the last letter of the first and of the last piece that it sends, since a letter that
 * isn't sent is found without another recovery; the last id odd in its last letter; and two wrong: the first two, in a letter that they send, and the last
 * two in their last letters, so that each of the k+1 tries compares all letters. */
static void odd_nodes(void) {
    uint64_t letters, from, to;
    dulvaspen_file_letters(g.n, g.k, g.d, g.l, &letters);
    place_of[0] = 0;
    for (uint64_t v = 1; v <= g.n; v++) {
        uint64_t i = falling[v - 1] = g.n + 1 - v;
        dulvaspen_packet_letters(g.n, g.k, g.d, g.l, i, &held[i]);
        place_of[i] = place_of[0];
        place_of[0] += held[i];
        if (dulvaspen_encode(g.n, g.k, g.d, g.l, i, file, letters, in_blocks + place_of[i], held[i])) stop("encode", i);
        for (uint64_t u = v; v <= g.k && u <= g.d; u++) {
            if (dulvaspen_piece(g.n, g.k, g.d, g.l, i, v, u, in_blocks + place_of[i], held[i], &from) || dulvaspen_entry(g.n, g.k, g.d, g.l, v, u, &to)) stop("piece", i);
            memcpy(input + to, in_blocks + place_of[i] + from, g.l);
        }
    }
    MEASURE("odd-beside", "ours", want, letters, recover_and_encode(letters));
    if (memcmp(want, file, letters) || memcmp(in_tiles, in_blocks, place_of[0])) stop("a recovery and encodings", 98);
    odd_call("odd-all", letters, DULVASPEN_NODE_AGREEING, 0, 0);
    for (uint64_t v = 1; v <= g.k; v++)
        for (int which = 1; which <= 4; which++) {
            uint64_t i = falling[v - 1];
            char name[40];
            dulvaspen_piece(g.n, g.k, g.d, g.l, i, v, which <= 2 ? v : g.d, in_blocks + place_of[i], held[i], &from);
            if (which % 2 == 0) from += g.l - 1;
            snprintf(name, sizeof name, "odd-rank-%d-%d", (int)v, which);
            in_blocks[place_of[i] + from] ^= 1;
            odd_call(name, letters, DULVASPEN_NODE_AGREEING, i, from + 1);
            in_blocks[place_of[i] + from] ^= 1;
        }
    in_blocks[place_of[0] - 1] ^= 1;
    odd_call("odd-behind", letters, DULVASPEN_NODE_AGREEING, 1, held[1]);
    in_blocks[place_of[1] - 1] ^= 1;
    odd_call("odd-two-behind", letters, DULVASPEN_NODE_UNKNOWN, 0, 0);
    in_blocks[place_of[1] - 1] ^= 1;
    in_blocks[place_of[0] - 1] ^= 1;
    for (uint64_t v = 1; v <= 2; v++) {
        dulvaspen_piece(g.n, g.k, g.d, g.l, falling[v - 1], v, g.d, in_blocks, held[falling[v - 1]], &from);
        in_blocks[place_of[falling[v - 1]] + from] ^= 1;
    }
    odd_call("odd-two-first", letters, DULVASPEN_NODE_UNKNOWN, 0, 0);
}

static void odd_groups(void) {
    static const group compared[] = {{6, 3, 4, 64}, {6, 3, 4, 4096}, {16, 10, 12, 64}, {16, 10, 12, 4096}};
    for (int i = 0; i < 4; i++) { g = compared[i]; odd_nodes(); }
}

static void repair(void) {
    uint64_t helpers[16], lost = 1 + g.n / 2, length, u = 0;
    dulvaspen_repair_letters(g.n, g.k, g.d, g.l, lost, &length);
    for (uint64_t i = g.n; u < g.d; i--) if (i != lost) helpers[u++] = i;
    uint64_t h = helpers[0], made = 0;
    for (uint64_t j = 1; j <= g.d; j++) { /* rank 1 skips nothing: packet j, moved by t(lost,j), as far as the piece reaches */
        uint64_t lead = (lost - 1) * (j - 1), own = held[h] / g.d;
        made += lead >= length ? 0 : own < length - lead ? own : length - lead;
    }
    MEASURE("help", "ours", got, length, dulvaspen_help(g.n, g.k, g.d, g.l, lost, h, 1, node_packets[h], held[h], got, length));
    MEASURE("help", "plain", want, length, plain_help(g, lost, h, 1, node_packets[h], held[h], want, length));
    MEASURE("help", "blocks", in_blocks, length, plain_help_blocks(g, lost, h, 1, node_packets[h], held[h], in_blocks, length));
    if (memcmp(got, in_blocks, length)) stop("help in blocks", 98);
    compare("help", length, made);
    summed("help", made);
    for (u = 1; u <= g.d; u++)
        dulvaspen_help(g.n, g.k, g.d, g.l, lost, helpers[u - 1], u, node_packets[helpers[u - 1]], held[helpers[u - 1]], input + (u - 1) * length, length);
    MEASURE("repair", "ours", got, g.d * length, dulvaspen_repair(g.n, g.k, g.d, g.l, lost, helpers, g.d, got, g.d * length, &count_ours));
    MEASURE("repair", "plain", want, g.d * length, plain_repair(g, lost, helpers, g.d, want, g.d * length, &count_plain));
    MEASURE("repair", "tiles", in_tiles, g.d * length, plain_repair_tiles(g, lost, helpers, g.d, in_tiles, g.d * length, &count_tiles));
    if (count_ours != count_plain || memcmp(got, node_packets[lost], held[lost])) stop("repair", 98);
    if (count_ours != count_tiles || memcmp(got, in_tiles, g.d * length)) stop("repair in tiles", 98);
    made = all_terms(g.d, length, helpers, -1);
    if (count_ours > made) stop("the count of repair", count_ours);
    compare("repair", g.d * length, made);
}

/* Judges a share that comes in bursts of so many bytes. */
static uint64_t arrive(uint64_t bytes, uint64_t burst) {
    uint64_t words = DULVASPEN_ARRIVING_WORDS, r = dulvaspen_arriving_start(state, words);
    for (uint64_t at = 0; at < bytes; at += burst) r |= dulvaspen_arriving_take(state, words, share + at, bytes - at < burst ? bytes - at : burst);
    return r | dulvaspen_arriving_judge(state, words, head_ours, HEAD);
}

/* The judges must agree on every cut of a share and on every byte of it that is changed. */
static void damage(uint64_t bytes) {
    for (uint64_t cut = 0; cut <= bytes; cut++)
        if (dulvaspen_judge_share(share, cut, head_ours, HEAD) != plain_judge(share, cut, head_plain) || arrive(cut, 7) != plain_judge(share, cut, head_plain))
            stop("judging a cut share", cut);
    for (uint64_t at = 0; at <= bytes; at++)
        for (int change = 1; change < 256; change <<= 1) {
            share[at] ^= (uint8_t)change;
            uint64_t whole = at < bytes ? bytes : bytes + 1;
            if (dulvaspen_judge_share(share, whole, head_ours, HEAD) != plain_judge(share, whole, head_plain) || arrive(whole, 1 + at) != plain_judge(share, whole, head_plain))
                stop("judging a changed share", at);
            share[at] ^= (uint8_t)change;
        }
}

/* A share in bursts, beside the library's own judge of all its bytes. */
#define ARRIVING(NAME, BURST) do { \
    MEASURE(NAME, "ours", got, bytes, arrive(bytes, BURST)); \
    MEASURE(NAME, "judge", want, bytes, dulvaspen_judge_share(share, bytes, head_plain, HEAD)); \
    if (memcmp(head_ours, head_plain, sizeof head_ours)) stop(NAME, 98); \
    compare(NAME, bytes, 0); } while (0)

static void shares(void) {
    uint64_t node = g.n / 2, bytes;
    dulvaspen_share_bytes(g.n, g.k, g.d, g.l, node, &bytes);
    MEASURE("write", "ours", got, bytes, dulvaspen_write_share(g.n, g.k, g.d, g.l, node, 7, node_packets[node], held[node], got, bytes));
    MEASURE("write", "plain", want, bytes, plain_write(g, node, 7, node_packets[node], held[node], want, bytes));
    compare("write", bytes, 0);
    memcpy(share, got, bytes);
    MEASURE("read", "ours", got, held[node], dulvaspen_read_share(share, bytes, got, held[node], head_ours, HEAD));
    MEASURE("read", "plain", want, held[node], plain_read(share, bytes, want, held[node], head_plain));
    if (memcmp(head_ours, head_plain, sizeof head_ours)) stop("read", 98);
    compare("read", held[node], 0);
    MEASURE("judge", "ours", got, bytes, dulvaspen_judge_share(share, bytes, head_ours, HEAD));
    MEASURE("judge", "plain", want, bytes, plain_judge(share, bytes, head_plain));
    if (memcmp(head_ours, head_plain, sizeof head_ours)) stop("judge", 98);
    compare("judge", bytes, 0);
    if (is_long()) return;
    ARRIVING("arriving-at-once", bytes);
    ARRIVING("arriving-by-4096", 4096);
    ARRIVING("arriving-by-64", 64);
    ARRIVING("arriving-by-1", 1);
    if (g.l == 64) damage(bytes);
}

/* ---- previews: g.d is 0 ---- */

/* The packets of all nodes in node_packets, by the library, compared with plain C's; and in input the pieces of the k highest nodes, which stand in ids. */
static void preview_pieces(uint64_t letters, uint64_t *ids) {
    for (uint64_t i = 1; i <= g.n; i++) {
        uint64_t r = dulvaspen_preview_packet_letters(g.n, g.k, g.l, i, &held[i]);
        if (!r) r = dulvaspen_preview_encode(g.n, g.k, g.l, i, file, letters, node_packets[i], held[i]);
        if (!r) r = plain_preview_encode(g, i, file, letters, got, held[i]);
        if (!r) r = plain_preview_encode_blocks(g, i, file, letters, want, held[i]);
        if (r || memcmp(node_packets[i], got, held[i]) || memcmp(node_packets[i], want, held[i])) stop("encode of a preview", g.l);
    }
    for (uint64_t v = 1, from, to; v <= g.k; v++) {
        ids[v - 1] = g.n + 1 - v;
        uint64_t r = dulvaspen_preview_piece(g.n, g.k, g.l, ids[v - 1], v, node_packets[ids[v - 1]], held[ids[v - 1]], &from);
        if (!r) r = dulvaspen_preview_entry(g.n, g.k, g.l, v, &to);
        if (r) stop("a preview's piece", r);
        memcpy(input + to, node_packets[ids[v - 1]] + from, g.l);
    }
}

/* At odd lengths, with blocks and without, from pieces and from any letters, plain C must leave what the library does, and count what it does. */
static void odd_previews(void) {
    static const uint64_t lengths[] = {1, 2, 63, 127, 129, 333, 1000};
    uint64_t letters, ids[16];
    for (int i = 0; i < 7; i++)
        for (int honest = 0; honest < 2; honest++) {
            g.l = lengths[i];
            dulvaspen_preview_file_letters(g.n, g.k, g.l, &letters);
            preview_pieces(letters, ids);
            if (!honest) memcpy(input, file + 7, letters);
            memcpy(got, input, letters);
            memcpy(want, input, letters);
            memcpy(in_tiles, input, letters);
            if (dulvaspen_preview_recover(g.n, g.k, g.l, ids, g.k, got, letters, &count_ours) || plain_preview_recover(g, ids, g.k, want, letters, &count_plain)
                || plain_preview_recover_tiles(g, ids, g.k, in_tiles, letters, &count_tiles) || count_ours != count_plain || count_ours != count_tiles
                || memcmp(got, want, letters) || memcmp(got, in_tiles, letters) || (honest && memcmp(got, file, letters))) stop("recover of a preview", g.l);
        }
}

static void previews(void) {
    uint64_t letters, ids[16], node = g.n / 2;
    dulvaspen_preview_file_letters(g.n, g.k, g.l, &letters);
    preview_pieces(letters, ids);
    MEASURE("preview-encode", "ours", got, held[node], dulvaspen_preview_encode(g.n, g.k, g.l, node, file, letters, got, held[node]));
    MEASURE("preview-encode", "plain", want, held[node], plain_preview_encode(g, node, file, letters, want, held[node]));
    MEASURE("preview-encode", "blocks", in_blocks, held[node], plain_preview_encode_blocks(g, node, file, letters, in_blocks, held[node]));
    if (memcmp(got, in_blocks, held[node])) stop("encode of a preview in blocks", 98);
    compare("preview-encode", held[node], g.k * g.l);
    MEASURE("preview-recover", "ours", got, letters, dulvaspen_preview_recover(g.n, g.k, g.l, ids, g.k, got, letters, &count_ours));
    MEASURE("preview-recover", "plain", want, letters, plain_preview_recover(g, ids, g.k, want, letters, &count_plain));
    MEASURE("preview-recover", "tiles", in_tiles, letters, plain_preview_recover_tiles(g, ids, g.k, in_tiles, letters, &count_tiles));
    if (count_ours != count_plain || count_ours != count_tiles || memcmp(got, file, letters) || memcmp(got, in_tiles, letters)) stop("recover of a preview", 98);
    if (count_ours > all_terms(g.k, g.l, ids, 0)) stop("the count of a preview's recovery", count_ours);
    compare("preview-recover", letters, all_terms(g.k, g.l, ids, 0));
}

/* A preview's share: plain C must read from it what was written, and the judges agree on every cut of it and on every byte that is changed. */
static void preview_share(void) {
    uint64_t node = g.n / 2, bytes, r = dulvaspen_preview_share_bytes(g.n, g.k, g.l, node, &bytes);
    if (!r) r = dulvaspen_preview_write_share(g.n, g.k, g.l, node, 7, node_packets[node], held[node], share, bytes);
    if (!r) r = plain_read(share, bytes, want, held[node], head_plain);
    if (r || memcmp(want, node_packets[node], held[node]) || head_plain[2] || head_plain[6] != DULVASPEN_KIND_PREVIEW) stop("a preview's share", r);
    damage(bytes);
}

/* A group's calls, at its L. */
static void calls(int packets_alone) {
    uint64_t letters;
    dulvaspen_file_letters(g.n, g.k, g.d, g.l, &letters);
    packets(letters);
    recovery(letters);
    repair();
    if (!packets_alone) shares();
}

/* The smallest share of kind 6: the judges agree on every cut of its head and its last records, and on every byte there that is changed to any other. */
static void longer_share(void) {
    uint64_t bytes, letters = 8194;
    g = (group){3, 2, 2, 4097};
    dulvaspen_share_bytes(g.n, g.k, g.d, g.l, 1, &bytes);
    if (dulvaspen_write_share(g.n, g.k, g.d, g.l, 1, 7, file, letters, share, bytes) || plain_write(g, 1, 7, file, letters, want, bytes) || memcmp(share, want, bytes))
        stop("a longer share", bytes);
    for (uint64_t at = 0; at <= bytes; at++) {
        if (at > 80 && at + 140 < bytes) continue;
        if (dulvaspen_judge_share(share, at, head_ours, HEAD) != plain_judge(share, at, head_plain) || arrive(at, 7) != plain_judge(share, at, head_plain))
            stop("judging a cut longer share", at);
        for (int byte = 0; byte < 256; byte++) {
            uint8_t own = share[at];
            uint64_t whole = at < bytes ? bytes : bytes + 1;
            share[at] = (uint8_t)byte;
            uint64_t r = plain_judge(share, whole, head_plain);
            if (dulvaspen_judge_share(share, whole, head_ours, HEAD) != r || arrive(whole, 1 + at) != r) stop("judging a changed longer share", at);
            share[at] = own;
        }
    }
}

int main(int argc, char **argv) {
    static const group groups[] = {{6, 3, 4, 0}, {16, 4, 6, 0}, {16, 10, 12, 0}, {16, 15, 15, 0}}, of_previews[] = {{6, 3, 0, 0}, {16, 10, 0, 0}, {16, 16, 0, 0}};
    static const group longer[] = {{6, 3, 4, 65536}, {6, 3, 4, 1048576}, {16, 4, 6, 65536}, {16, 4, 6, 1048576}, {16, 15, 15, 65536}};
    static const uint64_t lengths[] = {64, 4096}, run_lengths[] = {7, 64, 100, 4096};
    int packets_alone = argc == 3 && !strcmp(argv[2], "packets"), odd_alone = argc == 3 && !strcmp(argv[2], "odd");
    if (argc != 2 + packets_alone + odd_alone || (strcmp(argv[1], "time") && strcmp(argv[1], "count"))) {
        fprintf(stderr, "bench: say time or count, and then packets, odd or nothing\n");
        return 2;
    }
    timing = !strcmp(argv[1], "time");
    for (uint64_t i = 0; i < (argc == 3 ? 1 << 20 : FILE_ROOM); i++) file[i] = (uint8_t)(i * 131 + (i >> 7) * 29 + (i >> 13));
    MEASURE("nothing", "ours", got, 0, 0);
    if (odd_alone) {
        odd_groups();
        return 0;
    }
    for (int i = 0; i < 4 && !packets_alone; i++) runs(run_lengths[i]);
    if (!packets_alone) short_runs();
    for (int i = 0; i < 4 && !packets_alone; i++) { g = groups[i]; odd_lengths(); }
    for (int i = 0; i < 4; i++)
        for (int j = 0; j < 2; j++) {
            g = groups[i];
            g.l = lengths[j];
            calls(packets_alone);
        }
    for (int i = 0; i < 5 && !packets_alone; i++) { g = longer[i]; calls(0); }
    if (!packets_alone) longer_share();
    for (int i = 0; i < 3 && !packets_alone; i++) { g = of_previews[i]; odd_previews(); }
    for (int i = 0; i < 3; i++)
        for (int j = 0; j < 2; j++) {
            g = of_previews[i];
            g.l = lengths[j];
            previews();
            if (!packets_alone && !j) preview_share();
        }
    if (!packets_alone) odd_groups();
    return 0;
}
