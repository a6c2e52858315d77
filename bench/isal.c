/* The library beside Reed-Solomon by ISA-L, with the same n and k and the same file of B*4096 bytes: nanoseconds a file byte, best of 25. bench/run
 * makes the table. Reed-Solomon is systematic: the file is cut into k parts, the first k nodes hold these as they are, and the others n-k parities.
 * What either leaves is compared with the file and the node. */
#include "../include/dulvaspen.h"
#include <isa-l.h>
#include <stdio.h>
#include <stdlib.h>
#include <string.h>
#include <time.h>

enum { L = 4096, NODES = 16 };
static uint8_t file[1 << 20], parts[NODES][1 << 18], back[NODES][1 << 18];
static uint8_t packets[NODES + 1][1 << 17], buffer[1 << 20], pieces[1 << 20];
static uint64_t held[NODES + 1], n, k, d, letters;

static void stop(const char *what) { fprintf(stderr, "isal: %s went wrong\n", what); exit(1); }
static double seconds(void) { struct timespec t; clock_gettime(CLOCK_MONOTONIC, &t); return (double)t.tv_sec + 1e-9 * (double)t.tv_nsec; }

/* The least time of 25 runs of CALL, each after FIRST, which isn't timed, in nanoseconds a file byte. */
#define BEST(INTO, FIRST, CALL) do { \
    double s_, t_; int i_; INTO = 1e9; \
    for (i_ = 0; i_ < 25; i_++) { FIRST; s_ = seconds(); CALL; t_ = (seconds() - s_) * 1e9 / (double)letters; if (t_ < INTO) INTO = t_; } } while (0)

static void say(const char *what, const char *reed_solomon, double ours) { printf("beside %d,%d,%d %s %s %.3f\n", (int)n, (int)k, (int)d, what, reed_solomon, ours); }

/* ---- Reed-Solomon ---- */
static uint8_t matrix[NODES * NODES];
static int part; /* bytes of a part */

static void cut_file(void) {
    part = (int)((letters + k - 1) / k);
    memset(parts, 0, sizeof parts);
    for (uint64_t i = 0; i < letters; i++) parts[i / (uint64_t)part][i % (uint64_t)part] = file[i];
    gf_gen_cauchy1_matrix(matrix, (int)n, (int)k);
}

/* The first lost parts from the k nodes after them: the matrix of these turned round, its tables made, and the parts added up. */
static void decode(int lost) {
    uint8_t rows[NODES * NODES], turned[NODES * NODES], tables[32 * NODES * NODES], *from[NODES], *to[NODES];
    for (uint64_t i = 0; i < k; i++) {
        memcpy(rows + i * k, matrix + (i + (uint64_t)lost) * k, k);
        from[i] = parts[i + (uint64_t)lost];
        to[i] = back[i];
    }
    if (gf_invert_matrix(rows, turned, (int)k)) stop("turning the matrix round");
    ec_init_tables((int)k, lost, turned, tables);
    ec_encode_data(part, (int)k, lost, tables, from, to);
}

static void decoded(int lost) {
    for (int i = 0; i < lost; i++) if (memcmp(parts[i], back[i], (size_t)part)) stop("Reed-Solomon");
    memset(back, 0, sizeof back);
}

/* ---- ours ---- */
static uint64_t ids[NODES], helpers[NODES], lost_node, length;

static void encode_all(void) {
    for (uint64_t i = 1; i <= n; i++) if (dulvaspen_encode(n, k, d, L, i, file, letters, packets[i], held[i])) stop("encode");
}

static void collect(void) {
    uint64_t from, to;
    for (uint64_t v = 1; v <= k; v++) {
        ids[v - 1] = n + 1 - v;
        for (uint64_t u = v; u <= d; u++) {
            dulvaspen_piece(n, k, d, L, ids[v - 1], v, u, packets[ids[v - 1]], held[ids[v - 1]], &from);
            dulvaspen_entry(n, k, d, L, v, u, &to);
            memcpy(pieces + to, packets[ids[v - 1]] + from, L);
        }
    }
}

static void help_all(void) {
    for (uint64_t u = 1; u <= d; u++) {
        uint64_t h = helpers[u - 1];
        if (dulvaspen_help(n, k, d, L, lost_node, h, u, packets[h], held[h], buffer + (u - 1) * length, length)) stop("help");
    }
}

static void rebuild(void) {
    uint64_t count;
    if (dulvaspen_repair(n, k, d, L, lost_node, helpers, d, buffer, d * length, &count)) stop("repair");
}

static void measure(void) {
    uint64_t count, u = 0;
    int lost = (int)(k < n - k ? k : n - k);
    double theirs, ours;
    char words[32];
    uint8_t tables[32 * NODES * NODES], *from[NODES], *to[NODES];
    dulvaspen_file_letters(n, k, d, L, &letters);
    for (uint64_t i = 1; i <= n; i++) dulvaspen_packet_letters(n, k, d, L, i, &held[i]);

    cut_file();
    for (uint64_t i = 0; i < n; i++) *(i < k ? &from[i] : &to[i - k]) = parts[i];
    ec_init_tables((int)k, (int)(n - k), matrix + k * k, tables);
    BEST(theirs, (void)0, ec_encode_data(part, (int)k, (int)(n - k), tables, from, to));
    BEST(ours, (void)0, encode_all());
    snprintf(words, sizeof words, "%.3f", theirs);
    say("encode-all-n-nodes", words, ours);

    BEST(theirs, (void)0, decode(lost));
    decoded(lost);
    collect();
    BEST(ours, memcpy(buffer, pieces, letters), if (dulvaspen_recover(n, k, d, L, ids, k, buffer, letters, &count)) stop("recover"));
    if (memcmp(buffer, file, letters)) stop("recover");
    snprintf(words, sizeof words, "%.3f", theirs);
    say("recover-the-file-from-k-nodes", words, ours);

    lost_node = n / 2 + 1;
    for (uint64_t i = n; u < d; i--) if (i != lost_node) helpers[u++] = i;
    dulvaspen_repair_letters(n, k, d, L, lost_node, &length);
    BEST(theirs, (void)0, decode(1));
    decoded(1);
    BEST(ours, (void)0, { help_all(); rebuild(); });
    if (memcmp(buffer, packets[lost_node], held[lost_node])) stop("repair");
    snprintf(words, sizeof words, "%.3f", theirs);
    say("rebuild-one-node", words, ours);
    BEST(ours, help_all(), rebuild());
    say("of-that,-repair-alone", "-", ours);
    printf("beside %d,%d,%d letters-read-to-rebuild-it %d %d\n", (int)n, (int)k, (int)d, (int)k * part, (int)(d * length));
}

int main(void) {
    static const uint64_t groups[][3] = {{6, 3, 4}, {16, 10, 12}};
    printf("version %d.%d.%d\n", ISAL_MAJOR_VERSION, ISAL_MINOR_VERSION, ISAL_PATCH_VERSION);
    for (uint64_t i = 0; i < sizeof file; i++) file[i] = (uint8_t)(i * 131 + (i >> 7) * 29 + (i >> 13));
    for (int i = 0; i < 2; i++) {
        n = groups[i][0]; k = groups[i][1]; d = groups[i][2];
        measure();
    }
    return 0;
}
