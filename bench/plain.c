#include "plain.h"
#include <string.h>

static uint64_t t(uint64_t i, uint64_t j) { return (i - 1) * (j - 1); }
static uint64_t least(uint64_t a, uint64_t b) { return a < b ? a : b; }
static uint64_t gap(uint64_t a, uint64_t b) { return a > b ? a - b : 0; }

/* ---- lengths and checks ---- */
static uint64_t before(uint64_t k, uint64_t u) { /* sequences in the columns before u */
    return u <= k ? u * (u - 1) / 2 : k * (k + 1) / 2 + (u - 1 - k) * k;
}
static uint64_t file_letters(group g) { return before(g.k, g.d + 1) * g.l; }
static uint64_t piece_letters(group g, uint64_t node) { return g.l + t(node, g.d); }
static uint64_t node_letters(group g, uint64_t node) { return g.d * piece_letters(g, node); }
static uint64_t entry(group g, uint64_t v, uint64_t u) { return (before(g.k, u) + v - 1) * g.l; } /* v <= u, v <= k */

static uint64_t check_group(group g) {
    if (g.n > 16 || g.k < 2 || g.k > g.d || g.d + 1 > g.n) return 1;
    return g.l < 1 || g.l > 1048576 ? 2 : 0;
}
static uint64_t check_node(group g, uint64_t node) {
    uint64_t r = check_group(g);
    return r ? r : node < 1 || node > g.n ? 3 : 0;
}
static uint64_t check_ids(group g, uint64_t wanted, const uint64_t *ids, uint64_t len) {
    if (len != wanted) return 3;
    for (uint64_t i = 0; i < len; i++) if (ids[i] < 1 || ids[i] > g.n) return 3;
    for (uint64_t i = 1; i < len; i++) if (ids[i] >= ids[i - 1]) return 4;
    return 0;
}

/* ---- packets ---- */
static void add(uint8_t *restrict to, const uint8_t *restrict from, uint64_t count) {
    for (uint64_t i = 0; i < count; i++) to[i] ^= from[i];
}

uint64_t plain_add_run(uint8_t *into, uint64_t into_len, uint64_t at, const uint8_t *run, uint64_t run_len) {
    (void)into_len;
    add(into + at, run, run_len);
    return run_len;
}

uint64_t plain_add_within(uint8_t *buffer, uint64_t buffer_len, uint64_t to, uint64_t from, uint64_t count) {
    (void)buffer_len;
    add(buffer + to, buffer + from, count);
    return count;
}

/* How many of n letters aren't zero, letter by letter. */
static uint64_t others(const uint8_t *x, uint64_t n) {
    uint64_t count = 0;
    for (uint64_t i = 0; i < n; i++) count += x[i] != 0;
    return count;
}

uint64_t plain_count(const uint8_t *x, uint64_t x_len, uint64_t start, uint64_t count) {
    (void)x_len;
    return others(x + start, count);
}

uint64_t plain_add_run_counted(uint8_t *into, uint64_t into_len, uint64_t at, const uint8_t *run, uint64_t run_len) {
    plain_add_run(into, into_len, at, run, run_len);
    return others(run, run_len);
}

uint64_t plain_add_within_counted(uint8_t *buffer, uint64_t buffer_len, uint64_t to, uint64_t from, uint64_t count) {
    plain_add_within(buffer, buffer_len, to, from, count);
    return others(buffer + from, count);
}

uint64_t plain_encode(group g, uint64_t node, const uint8_t *file, uint64_t file_len, uint8_t *packets, uint64_t packets_len) {
    uint64_t r = check_node(g, node), length = piece_letters(g, node);
    if (r) return r;
    if (file_len != file_letters(g)) return 5;
    if (packets_len != node_letters(g, node)) return 6;
    memset(packets, 0, packets_len);
    for (uint64_t j = 1; j <= g.d; j++)
        for (uint64_t u = 1; u <= (j > g.k ? g.k : g.d); u++)
            add(packets + (j - 1) * length + t(node, u), file + (u <= j ? entry(g, u, j) : entry(g, j, u)), g.l);
    return 0;
}

uint64_t plain_help(group g, uint64_t lost, uint64_t helper, uint64_t rank, const uint8_t *packets, uint64_t packets_len, uint8_t *piece,
                    uint64_t piece_len) {
    uint64_t r = check_node(g, lost), length = piece_letters(g, helper), skip = t(helper, rank);
    if (r) return r;
    if (helper < 1 || helper > g.n || rank < 1 || rank > g.d) return 3;
    if (helper == lost) return 4;
    if (packets_len != node_letters(g, helper)) return 5;
    if (piece_len != piece_letters(g, lost)) return 6;
    memset(piece, 0, piece_len);
    for (uint64_t j = 1; j <= g.d; j++) {
        const uint8_t *packet = packets + (j - 1) * length;
        uint64_t lead = t(lost, j);
        if (lead <= skip) { if (skip - lead < length) add(piece, packet + (skip - lead), least(piece_len, length - (skip - lead))); }
        else if (lead - skip < piece_len) add(piece + (lead - skip), packet, least(piece_len - (lead - skip), length));
    }
    return 0;
}

/* ---- the solver: rounds with a test of each place at both ends, and rounds without tests between them. A letter that is added is final, so it counts as
 * it is added, unless it is zero ---- */

/* Never laid into its callers, so that callgrind can tell what is spent in it. */
__attribute__((noinline)) static uint64_t solve(uint8_t *part, uint64_t s, uint64_t n, const uint64_t *ids) {
    uint64_t delay[16] = {0}, start[16][16], lead = 0, count = 0;
    for (uint64_t u = 1; u < s; u++) delay[u] = delay[u - 1] + ids[u] - 1;
    for (uint64_t u = 0; u < s; u++) {
        uint64_t late = delay[u] + gap(t(ids[u], s), t(ids[u], u + 1));
        if (late > lead) lead = late;
    }
    for (uint64_t u = 0; u < s; u++)
        for (uint64_t a = 0; a < s; a++)
            start[u][a] = a * n + gap(lead + t(ids[u], u + 1), delay[u] + t(ids[u], a + 1));
    for (uint64_t r = 1; r <= n + delay[s - 1]; r++)
        for (uint64_t u = 0; u < s; u++) {
            if (r > lead && r <= n) {
                uint64_t step = r - lead - 1;
                uint8_t sum = 0;
                count -= part[start[u][u] + step] != 0;
                for (uint64_t a = 0; a < s; a++) {
                    sum ^= part[start[u][a] + step];
                    count += part[start[u][a] + step] != 0;
                }
                part[start[u][u] + step] = sum;
                continue;
            }
            if (r <= delay[u] || r - delay[u] > n) continue;
            int64_t q = (int64_t)(r - delay[u]);
            uint8_t sum = part[u * n + q - 1];
            for (uint64_t a = 0; a < s; a++) {
                int64_t at = q + (int64_t)t(ids[u], u + 1) - (int64_t)t(ids[u], a + 1);
                if (a == u || at < 1 || at > (int64_t)n) continue;
                sum ^= part[a * n + at - 1];
                count += part[a * n + at - 1] != 0;
            }
            part[u * n + q - 1] = sum;
        }
    return count;
}

typedef uint64_t solver(uint8_t *part, uint64_t s, uint64_t n, const uint64_t *ids);

static inline uint64_t recover_by(solver *solved, group g, const uint64_t *ids, uint64_t ids_len, uint8_t *buffer, uint64_t buffer_len, uint64_t *count) {
    uint64_t r = check_group(g), made = 0;
    if (!r) r = check_ids(g, g.k, ids, ids_len);
    if (!r && buffer_len != file_letters(g)) r = 5;
    if (r) return r;
    for (uint64_t u = g.d; u > 0; u--) {
        made += solved(buffer + entry(g, 1, u), least(u, g.k), g.l, ids);
        for (uint64_t c = 1; c <= least(u - 1, g.k); c++)
            for (uint64_t w = 1; w <= c; w++) {
                uint64_t moved = t(ids[w - 1], u) - t(ids[w - 1], w);
                if (moved >= g.l) continue;
                add(buffer + entry(g, w, c) + moved, buffer + entry(g, c, u), g.l - moved);
                made += others(buffer + entry(g, c, u), g.l - moved);
            }
    }
    *count = made;
    return 0;
}

static inline uint64_t repair_by(solver *solved, group g, uint64_t lost, const uint64_t *helpers, uint64_t helpers_len, uint8_t *buffer, uint64_t buffer_len,
                                 uint64_t *count) {
    uint64_t r = check_node(g, lost);
    if (!r) r = check_ids(g, g.d, helpers, helpers_len);
    if (r) return r;
    for (uint64_t i = 0; i < helpers_len; i++) if (helpers[i] == lost) return 4;
    if (buffer_len != node_letters(g, lost)) return 5;
    *count = solved(buffer, g.d, piece_letters(g, lost), helpers);
    return 0;
}

uint64_t plain_recover(group g, const uint64_t *ids, uint64_t ids_len, uint8_t *buffer, uint64_t buffer_len, uint64_t *count) {
    return recover_by(solve, g, ids, ids_len, buffer, buffer_len, count);
}

uint64_t plain_repair(group g, uint64_t lost, const uint64_t *helpers, uint64_t helpers_len, uint8_t *buffer, uint64_t buffer_len, uint64_t *count) {
    return repair_by(solve, g, lost, helpers, helpers_len, buffer, buffer_len, count);
}

/* ---- the same in blocks: where every run of a sum has a letter, the sum is made in a local array, block by block, and laid down once; the ends
 * go run by run, and so does all of it where there is no whole block ---- */
enum { BLOCK = 128 }; /* fewer instructions than 64 */
typedef uint8_t sixteen __attribute__((vector_size(16), aligned(1), may_alias)); /* bytes one by one, gcc 12 would leave in memory */
static uint64_t blocks(uint64_t start, uint64_t end) { return gap(end, start) / BLOCK * BLOCK; } /* letters from start to end, in whole blocks */

/* to = the sum of the runs; or where on is set, to and the runs. */
static inline void sum_blocks(int on, uint8_t *restrict to, uint64_t letters, const uint8_t *const *from, uint64_t runs) {
    for (uint64_t p = 0; p < letters; p += BLOCK) {
        sixteen sum[BLOCK / 16];
        memcpy(sum, (on ? to : from[0]) + p, BLOCK);
        for (uint64_t r = !on; r < runs; r++) {
            sixteen run[BLOCK / 16];
            memcpy(run, from[r] + p, BLOCK);
            for (int i = 0; i < BLOCK / 16; i++) sum[i] ^= run[i];
        }
        memcpy(to + p, sum, BLOCK);
    }
}

/* to = the sum of the runs: laid into its caller, or a function of its own, in which gcc 12 moves fewer registers about. Each caller has the one with which
 * it takes fewer instructions. */
typedef void summer(uint8_t *restrict to, uint64_t letters, const uint8_t *const *from, uint64_t runs);
static inline void sum_here(uint8_t *restrict to, uint64_t letters, const uint8_t *const *from, uint64_t runs) { sum_blocks(0, to, letters, from, runs); }
__attribute__((noinline)) static void sum_apart(uint8_t *restrict to, uint64_t letters, const uint8_t *const *from, uint64_t runs) {
    sum_blocks(0, to, letters, from, runs);
}

/* One packet: the sum of runs of l letters, each moved right by a step more than the one before it; zeros behind it. */
static inline void lay_packet(summer *sum, uint8_t *restrict packet, uint64_t length, uint64_t step, const uint8_t **run, uint64_t runs, uint64_t l) {
    uint64_t start = step * (runs - 1), middle = blocks(start, l), stop = start + middle;
    memset(packet, 0, middle ? start : length);
    if (middle) memset(packet + stop, 0, length - stop);
    for (uint64_t u = 0, at = 0; u < runs; u++, at += step) {
        if (!middle) { add(packet + at, run[u], l); continue; }
        add(packet + at, run[u], start - at);
        add(packet + stop, run[u] + (stop - at), at + l - stop);
        run[u] += start - at;
    }
    if (middle) sum(packet + start, middle, run, runs);
}

uint64_t plain_encode_blocks(group g, uint64_t node, const uint8_t *file, uint64_t file_len, uint8_t *packets, uint64_t packets_len) {
    if (g.l < BLOCK) return plain_encode(g, node, file, file_len, packets, packets_len);
    uint64_t r = check_node(g, node), length = piece_letters(g, node);
    if (r) return r;
    if (file_len != file_letters(g)) return 5;
    if (packets_len != node_letters(g, node)) return 6;
    for (uint64_t j = 1; j <= g.d; j++, packets += length) {
        uint64_t rows = j > g.k ? g.k : g.d;
        const uint8_t *run[16];
        for (uint64_t u = 1; u <= rows; u++) run[u - 1] = file + (u <= j ? entry(g, u, j) : entry(g, j, u));
        lay_packet(sum_here, packets, length, node - 1, run, rows, g.l);
    }
    return 0;
}

uint64_t plain_help_blocks(group g, uint64_t lost, uint64_t helper, uint64_t rank, const uint8_t *packets, uint64_t packets_len, uint8_t *piece,
                           uint64_t piece_len) {
    uint64_t length = piece_letters(g, helper), skip = t(helper, rank), start = gap(t(lost, g.d), skip);
    uint64_t middle = blocks(start, least(piece_letters(g, lost), length - skip)), stop = start + middle;
    if (!middle) return plain_help(g, lost, helper, rank, packets, packets_len, piece, piece_len);
    uint64_t r = check_node(g, lost);
    if (r) return r;
    if (helper < 1 || helper > g.n || rank < 1 || rank > g.d) return 3;
    if (helper == lost) return 4;
    if (packets_len != node_letters(g, helper)) return 5;
    if (piece_len != piece_letters(g, lost)) return 6;
    const uint8_t *from[16];
    memset(piece, 0, start);
    memset(piece + stop, 0, piece_len - stop);
    for (uint64_t j = 1; j <= g.d; j++, packets += length) {
        uint64_t lead = t(lost, j), at = gap(lead, skip);
        const uint8_t *run = packets + gap(skip, lead);
        add(piece + at, run, start - at);
        add(piece + stop, run + (stop - at), least(piece_len, length + lead - skip) - stop);
        from[j - 1] = run + (start - at);
    }
    sum_apart(piece + start, middle, from, g.d);
    return 0;
}

/* Each column loses the later ones just before it is solved, in place of being lessened by each as soon as that is solved. Only what the solver counts is counted. */
static inline uint64_t recover_blocks_by(solver *solved, group g, const uint64_t *ids, uint64_t ids_len, uint8_t *buffer, uint64_t buffer_len, uint64_t *count) {
    uint64_t r = check_group(g), made = 0;
    if (!r) r = check_ids(g, g.k, ids, ids_len);
    if (!r && buffer_len != file_letters(g)) r = 5;
    if (r) return r;
    for (uint64_t v = g.d; v > 0; v--) {
        for (uint64_t w = 1; v <= g.k && w <= v; w++) {
            uint8_t *to = buffer + entry(g, w, v);
            uint64_t step = ids[w - 1] - 1, reached = least(g.d, w + (step ? (g.l - 1) / step : g.d)); /* the last column that is moved by less than L */
            if (reached <= v) continue;
            uint64_t start = step * (reached - w), middle = blocks(start, g.l), stop = start + middle;
            const uint8_t *from[16];
            for (uint64_t u = v + 1; u <= reached; u++) {
                const uint8_t *run = buffer + entry(g, v, u);
                uint64_t at = step * (u - w);
                if (!middle) { add(to + at, run, g.l - at); continue; }
                add(to + at, run, start - at);
                add(to + stop, run + (stop - at), g.l - stop);
                from[u - v - 1] = run + (start - at);
            }
            if (middle) sum_blocks(1, to + start, middle, from, reached - v);
        }
        made += solved(buffer + entry(g, 1, v), least(v, g.k), g.l, ids);
    }
    *count = made;
    return 0;
}

/* Counting in blocks, too: in a block of 128 letters a byte can count the zeros. */
static uint64_t others_in_blocks(const uint8_t *x, uint64_t n) {
    uint64_t zeros = 0, i = 0;
    for (; i + BLOCK <= n; i += BLOCK) {
        uint8_t few = 0;
        for (int j = 0; j < BLOCK; j++) few += x[i + j] == 0;
        zeros += few;
    }
    for (; i < n; i++) zeros += x[i] == 0;
    return n - zeros;
}

/* Of a sequence of n letters, `whole` of which aren't zero, those that a rank takes whose shifts lie so far apart: all but the last, or the first, so many. */
static uint64_t but_last(const uint8_t *x, uint64_t n, uint64_t whole, uint64_t apart) {
    return apart < n ? whole - others_in_blocks(x + n - apart, apart) : 0;
}

static uint64_t but_first(const uint8_t *x, uint64_t n, uint64_t whole, uint64_t apart) {
    return apart < n ? whole - others_in_blocks(x, apart) : 0;
}

/* What takes m(v,u) out of the earlier columns. */
static uint64_t taken_of(group g, const uint64_t *ids, const uint8_t *x, uint64_t whole, uint64_t v, uint64_t u) {
    uint64_t count = 0;
    for (uint64_t w = 1; v < u && w <= v; w++) count += but_last(x, g.l, whole, (ids[w - 1] - 1) * (u - w));
    return count;
}

/* All of them, over the file. Never laid into its caller, so that callgrind can tell what is spent in it. */
__attribute__((noinline)) static uint64_t count_taken(group g, const uint64_t *ids, const uint8_t *file) {
    uint64_t count = 0;
    for (uint64_t u = 2; u <= g.d; u++)
        for (uint64_t v = 1; v <= least(u - 1, g.k); v++)
            count += taken_of(g, ids, file + entry(g, v, u), others_in_blocks(file + entry(g, v, u), g.l), v, u);
    return count;
}

uint64_t plain_recover_blocks(group g, const uint64_t *ids, uint64_t ids_len, uint8_t *buffer, uint64_t buffer_len, uint64_t *count) {
    if (g.l < BLOCK) return recover_by(solve, g, ids, ids_len, buffer, buffer_len, count);
    uint64_t r = recover_blocks_by(solve, g, ids, ids_len, buffer, buffer_len, count);
    if (!r) *count += count_taken(g, ids, buffer);
    return r;
}

/* ---- the solver run by run: the rounds are cut where a rank begins or ends, and each tile is solved by Newton's interpolation over D, which moves
 * a run by one letter ---- */
enum { TILE = 2048, SHORT = 40 }; /* the most rounds of a tile; the fewest letters of a run that goes in blocks */

#define ADD_EIGHT(TO, FROM) do { \
    uint64_t a_, b_; \
    memcpy(&a_, TO, 8); memcpy(&b_, FROM, 8); \
    a_ ^= b_; \
    memcpy(TO, &a_, 8); } while (0)
#define ADD_SIXTEENS(MANY, TO, FROM) do { \
    sixteen a_[MANY], b_[MANY]; \
    memcpy(a_, TO, 16 * MANY); memcpy(b_, FROM, 16 * MANY); \
    for (int j_ = 0; j_ < MANY; j_++) a_[j_] ^= b_[j_]; \
    memcpy(TO, a_, 16 * MANY); } while (0)

/* to ^= from, from the last letter down, each block taken before it is added: the runs are apart, or `from` is the earlier one. */
static void add_falling(uint8_t *to, const uint8_t *from, uint64_t count) {
    for (; count & 7; count--) to[count - 1] ^= from[count - 1];
    if (count & 8) { count -= 8; ADD_EIGHT(to + count, from + count); }
    if (count & 16) { count -= 16; ADD_SIXTEENS(1, to + count, from + count); }
    if (count & 32) { count -= 32; ADD_SIXTEENS(2, to + count, from + count); }
    if (count & 64) { count -= 64; ADD_SIXTEENS(4, to + count, from + count); }
    while (count) { count -= 128; ADD_SIXTEENS(8, to + count, from + count); }
}

/* Divided by 1 + D^w, which is to say times 1 + D^w and divided by 1 + D^2w. Where the stride is a multiple of sixteen, a step reads what one step before it
 * stored, neither parts of two, for which the processor would have to wait. */
static void divide(uint8_t *x, uint64_t count, uint64_t w) {
    uint64_t p;
    if (count >= SHORT) {
        for (; w < count && w % 16; w += w) add_falling(x + w, x, count - w);
        for (p = w; p + 16 <= count; p += 16) ADD_SIXTEENS(1, x + p, x + p - w);
    } else p = w;
    for (; p < count; p++) x[p] ^= x[p - w];
}

/* What the other ranks take of sequence a. */
static uint64_t taken_by_others(const uint8_t *x, uint64_t n, uint64_t whole, uint64_t s, uint64_t a, const uint64_t *ids) {
    uint64_t count = 0;
    for (uint64_t b = 1; b <= s; b++) {
        if (a < b) count += but_first(x, n, whole, (ids[b - 1] - 1) * (b - a));
        if (b < a) count += but_last(x, n, whole, (ids[b - 1] - 1) * (a - b));
    }
    return count;
}

/* One tile: the `count` rounds after `done`, in which ranks lo .. hi - 1 have a letter. */
static void tile(uint8_t *part, uint64_t n, const uint64_t *ids, const uint64_t *delay, uint64_t lo, uint64_t hi, uint64_t done, uint64_t count) {
    uint8_t *run[16];
    for (uint64_t b = lo; b < hi; b++) {
        run[b] = part + b * n + done - delay[b];
        for (uint64_t a = 0; a < hi; a++) { /* what is read from before the tile */
            int64_t at = (int64_t)(done - delay[b]) + (int64_t)t(ids[b], b + 1) - (int64_t)t(ids[b], a + 1);
            int64_t skip = at < 0 ? -at : 0, end = (int64_t)least(least(n, done - delay[a]), (uint64_t)(at + (int64_t)count));
            if (a != b && at + (int64_t)count > 0 && end > at + skip) add_falling(run[b] + skip, part + a * n + at + skip, (uint64_t)(end - at - skip));
        }
    }
    for (uint64_t j = lo; j < hi; j++)
        for (uint64_t b = j + 1; b < hi; b++) {
            uint64_t lag = delay[b] - delay[j] - (ids[b] - 1) * (b - j), w = ids[j] - ids[b];
            if (lag < count) add_falling(run[b] + lag, run[j], count - lag);
            if (w < count) divide(run[b], count, w);
        }
    for (uint64_t j = hi; j-- > lo;)
        for (uint64_t b = j + 1; b < hi; b++) {
            uint64_t w = ids[j] - ids[b];
            if (w < count) add_falling(run[b - 1] + w, run[b], count - w);
        }
}

__attribute__((noinline)) static uint64_t tiles(uint8_t *part, uint64_t s, uint64_t n, const uint64_t *ids) {
    uint64_t delay[16] = {0};
    for (uint64_t u = 1; u < s; u++) delay[u] = delay[u - 1] + ids[u] - 1;
    for (uint64_t done = 0, lo = 0, hi = 0, end; done < n + delay[s - 1]; done = end) {
        while (hi < s && delay[hi] <= done) hi++;
        while (lo < hi && n + delay[lo] <= done) lo++;
        end = least(done + TILE, n + delay[lo]);
        if (hi < s) end = least(end, delay[hi]);
        tile(part, n, ids, delay, lo, hi, done, end - done);
    }
    return 0;
}

/* Counted when all is solved: whole runs can't be, since what is added isn't final. */
static uint64_t solve_tiles(uint8_t *part, uint64_t s, uint64_t n, const uint64_t *ids) {
    uint64_t count = tiles(part, s, n, ids);
    for (uint64_t a = 1; a <= s; a++, part += n) count += taken_by_others(part, n, others_in_blocks(part, n), s, a, ids);
    return count;
}

uint64_t plain_recover_tiles(group g, const uint64_t *ids, uint64_t ids_len, uint8_t *buffer, uint64_t buffer_len, uint64_t *count) {
    if (g.l < BLOCK) return recover_by(solve_tiles, g, ids, ids_len, buffer, buffer_len, count);
    uint64_t r = recover_blocks_by(tiles, g, ids, ids_len, buffer, buffer_len, count);
    for (uint64_t u = 2; !r && u <= g.d; u++)
        for (uint64_t v = 1, s = least(u, g.k); v <= s; v++) {
            const uint8_t *x = buffer + entry(g, v, u);
            uint64_t whole = others_in_blocks(x, g.l);
            *count += taken_by_others(x, g.l, whole, s, v, ids) + taken_of(g, ids, x, whole, v, u);
        }
    return r;
}

uint64_t plain_repair_tiles(group g, uint64_t lost, const uint64_t *helpers, uint64_t helpers_len, uint8_t *buffer, uint64_t buffer_len, uint64_t *count) {
    return repair_by(solve_tiles, g, lost, helpers, helpers_len, buffer, buffer_len, count);
}

/* ---- previews: the same sums and the same solvers, with other shifts. Their t(i,j) = i(j-1) is the t of node i + 1 above ---- */
static uint64_t preview_letters(group g, uint64_t node) { return g.l + t(node + 1, g.k); }

static uint64_t check_previews(group g) {
    if (g.n < 3 || g.n > 16 || g.k < 2 || g.k > g.n || g.d) return 1;
    return g.l < 1 || g.l > 4096 ? 2 : 0;
}

static uint64_t check_preview_encode(group g, uint64_t node, uint64_t file_len, uint64_t packet_len) {
    uint64_t r = check_previews(g);
    if (r) return r;
    if (node < 1 || node > g.n) return 3;
    if (file_len != g.k * g.l) return 5;
    return packet_len != preview_letters(g, node) ? 6 : 0;
}

uint64_t plain_preview_encode(group g, uint64_t node, const uint8_t *file, uint64_t file_len, uint8_t *packet, uint64_t packet_len) {
    uint64_t r = check_preview_encode(g, node, file_len, packet_len);
    if (r) return r;
    memset(packet, 0, packet_len);
    for (uint64_t u = 1; u <= g.k; u++) add(packet + t(node + 1, u), file + (u - 1) * g.l, g.l);
    return 0;
}

uint64_t plain_preview_encode_blocks(group g, uint64_t node, const uint8_t *file, uint64_t file_len, uint8_t *packet, uint64_t packet_len) {
    if (g.l < BLOCK) return plain_preview_encode(g, node, file, file_len, packet, packet_len);
    uint64_t r = check_preview_encode(g, node, file_len, packet_len);
    if (r) return r;
    const uint8_t *run[16];
    for (uint64_t u = 0; u < g.k; u++) run[u] = file + u * g.l;
    lay_packet(sum_apart, packet, packet_len, node, run, g.k, g.l);
    return 0;
}

static inline uint64_t preview_recover_by(solver *solved, group g, const uint64_t *ids, uint64_t ids_len, uint8_t *buffer, uint64_t buffer_len, uint64_t *count) {
    uint64_t next[16], r = check_previews(g);
    if (!r) r = check_ids(g, g.k, ids, ids_len);
    if (!r && buffer_len != g.k * g.l) r = 5;
    if (r) return r;
    for (uint64_t v = 0; v < g.k; v++) next[v] = ids[v] + 1;
    *count = solved(buffer, g.k, g.l, next);
    return 0;
}

uint64_t plain_preview_recover(group g, const uint64_t *ids, uint64_t ids_len, uint8_t *buffer, uint64_t buffer_len, uint64_t *count) {
    return preview_recover_by(solve, g, ids, ids_len, buffer, buffer_len, count);
}

uint64_t plain_preview_recover_tiles(group g, const uint64_t *ids, uint64_t ids_len, uint8_t *buffer, uint64_t buffer_len, uint64_t *count) {
    return preview_recover_by(solve_tiles, g, ids, ids_len, buffer, buffer_len, count);
}

/* ---- shares: block by block, with memcpy ---- */
static void put(uint8_t *to, uint64_t value, int bytes) { for (int i = 0; i < bytes; i++) to[i] = (uint8_t)(value >> 8 * i); }
static uint64_t get(const uint8_t *from, int bytes) { uint64_t v = 0; for (int i = 0; i < bytes; i++) v |= (uint64_t)from[i] << 8 * i; return v; }
static uint64_t share_bytes(uint64_t head, uint64_t letters) { return head + 65 * ((letters + 63) / 64) + 5; }
/* A head's L has two bytes, in kind 6 four. */
static uint64_t head_bytes(int kind) { return kind == 6 ? 13 : 11; }

uint64_t plain_write(group g, uint64_t node, uint32_t batch, const uint8_t *packets, uint64_t packets_len, uint8_t *share, uint64_t share_len) {
    uint64_t r = check_node(g, node), left = packets_len;
    if (r) return r;
    int kind = g.l > 4096 ? 6 : 1;
    uint64_t head = head_bytes(kind);
    if (packets_len != node_letters(g, node)) return 5;
    if (share_len != share_bytes(head, packets_len)) return 6;
    *share = (uint8_t)kind; share[1] = (uint8_t)g.n; share[2] = (uint8_t)g.k; share[3] = (uint8_t)g.d; share[4] = (uint8_t)node;
    put(share + 5, g.l, (int)head - 9); put(share + head - 4, batch, 4);
    for (share += head; left >= 64; left -= 64, packets += 64, share += 65) { *share = 2; memcpy(share + 1, packets, 64); }
    if (left) { *share = 3; memcpy(share + 1, packets, left); memset(share + 1 + left, 0, 64 - left); share += 65; }
    *share = 4; put(share + 1, packets_len, 4);
    return 0;
}

/* The head, each number tested as soon as it is in: 0, 7 where the bytes end before the head does, 8 for another kind than 1, 5 and 6, or 9. Of a kind 6
 * the first three bytes of L tell whether it is in range, and the fourth is 0. */
static uint64_t judge_head(const uint8_t *share, uint64_t len, group *g, uint64_t *node) {
    if (len < 1) return 7;
    if (share[0] != 1 && share[0] != 5 && share[0] != 6) return 8;
    int preview = share[0] == 5, longer = share[0] == 6;
    if (len < 2) return 7;
    if (share[1] < 3 || share[1] > 16) return 9;
    if (len < 3) return 7;
    if (share[2] < 2 || share[2] >= share[1] + preview) return 9;
    if (len < 4) return 7;
    if (preview ? share[3] : share[3] < share[2] || share[3] >= share[1]) return 9;
    if (len < 5) return 7;
    if (share[4] < 1 || share[4] > share[1]) return 9;
    if (len < 7 + (uint64_t)longer) return 7;
    *g = (group){share[1], share[2], share[3], get(share + 5, 2 + longer)};
    *node = share[4];
    if (longer ? g->l <= 4096 || g->l > 1048576 : g->l < 1 || g->l > 4096) return 9;
    if (longer && len > 8 && share[8]) return 9;
    return len < head_bytes(share[0]) ? 7 : 0;
}

/* 0 or 7 to 12, by documents 01 and 02 (docs/SCHEME.md, 9 and 11): letters may be any, so of a full block only the kind is looked at. */
uint64_t plain_judge(const uint8_t *share, uint64_t share_len, uint64_t *head) {
    group g;
    uint64_t node, r = judge_head(share, share_len, &g, &node);
    if (r) return r;
    uint64_t letters = g.d ? node_letters(g, node) : preview_letters(g, node), left = letters;
    uint64_t at = head_bytes(share[0]);
    for (; left >= 64; left -= 64, at += 65) {
        if (at >= share_len) return 7;
        if (share[at] != 2) return 8;
    }
    if (left) {
        if (at >= share_len) return 7;
        if (share[at] != 3) return 8;
        for (uint64_t fill = at + 1 + left; fill < least(at + 65, share_len); fill++) if (share[fill]) return 10;
        at += 65;
    }
    uint8_t last[5] = {4};
    put(last + 1, letters, 4);
    for (int i = 0; i < 5; i++, at++) {
        if (at >= share_len) return 7;
        if (share[at] != last[i]) return i ? 11 : 8;
    }
    if (at < share_len) return 12;
    head[0] = g.n; head[1] = g.k; head[2] = g.d; head[3] = node; head[4] = g.l; head[5] = get(share + head_bytes(share[0]) - 4, 4); head[6] = share[0];
    return 0;
}

uint64_t plain_read(const uint8_t *share, uint64_t share_len, uint8_t *packets, uint64_t packets_len, uint64_t *head) {
    uint64_t found[HEAD], r = plain_judge(share, share_len, found), left = packets_len;
    if (r) return r;
    group g = {found[0], found[1], found[2], found[4]};
    if (packets_len != (g.d ? node_letters(g, found[3]) : preview_letters(g, found[3]))) return 6;
    memcpy(head, found, sizeof found);
    for (share += head_bytes(share[0]); left >= 64; left -= 64, packets += 64, share += 65) memcpy(packets, share + 1, 64);
    memcpy(packets, share + 1, left);
    return 0;
}

/* ---- what memory can do ---- */
uint64_t plain_copy(uint8_t *to, const uint8_t *from, uint64_t count) {
    memcpy(to, from, count);
    return 0;
}
