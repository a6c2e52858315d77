/* A night in one screen, with six disks in memory: a batch is spread as shares, a copy stops one byte short, two disks are lost, one is
 * rebuilt from d others, and the batch is recovered from k and compared. All goes from shares: no packets are kept beside them. Prints what
 * it does; exits with 1 where anything is not as it should be. examples/spread.c does the same with files and folders. */
#include "dulvaspen.h"
#include <stdio.h>
#include <stdlib.h>
#include <string.h>

enum { N = 6, K = 3, D = 4, L = 1000, BATCH = 7 };

static uint8_t file[DULVASPEN_SHORT_FILE], buffer[DULVASPEN_SHORT_FILE], packets[DULVASPEN_SHORT_PACKETS], rebuilt[DULVASPEN_SHORT_PACKETS];
static uint8_t disk[N + 1][DULVASPEN_SHORT_SHARE]; /* disk i holds node i's share */
static uint64_t letters;                          /* of the batch */

static void must(uint64_t refusal, const char *what) {
    if (refusal) { printf("%s: refused by %u\n", what, (unsigned)refusal); exit(1); }
}

static void expect(int good, const char *what) {
    if (!good) { printf("WRONG: %s\n", what); exit(1); }
}

static uint64_t letters_of(uint64_t node) {
    uint64_t held;
    must(dulvaspen_packet_letters(N, K, D, L, node, &held), "packet_letters");
    return held;
}

static uint64_t bytes_of(uint64_t node) {
    uint64_t bytes;
    must(dulvaspen_share_bytes(N, K, D, L, node, &bytes), "share_bytes");
    return bytes;
}

/* Writes a node's packets as its share, on its disk. */
static void store(uint64_t node, const uint8_t *held) {
    must(dulvaspen_write_share(N, K, D, L, node, BATCH, held, letters_of(node), disk[node], bytes_of(node)), "write_share");
}

/* Reads a node's share from its disk into `packets`: complete, of this batch and of this node. */
static void load(uint64_t node) {
    uint64_t head[DULVASPEN_HEAD_NUMBERS];
    must(dulvaspen_read_share(disk[node], bytes_of(node), packets, letters_of(node), head, DULVASPEN_HEAD_NUMBERS), "read_share");
    expect(head[0] == N && head[1] == K && head[2] == D && head[4] == L, "a share of another group");
    expect(head[3] == node && head[5] == BATCH && head[6] == DULVASPEN_KIND_PACKETS, "a share of another node, batch or kind");
}

/* Disk 5's share less one byte, as a copy leaves it that stops short. */
static void cut(void) {
    uint64_t head[DULVASPEN_HEAD_NUMBERS];
    uint64_t judged = dulvaspen_judge_share(disk[5], bytes_of(5) - 1, head, DULVASPEN_HEAD_NUMBERS);
    printf("disk 5's share less one byte: %s\n", judged == 7 ? "unfinished" : "WRONG");
    expect(judged == 7, "a cut share is not judged unfinished");
}

/* Node 2 from 6, 4, 3 and 1. */
static void rebuild(void) {
    uint64_t helpers[D] = {6, 4, 3, 1}, piece, count;
    must(dulvaspen_repair_letters(N, K, D, L, 2, &piece), "repair_letters");
    for (uint64_t u = 1; u <= D; u++) {
        uint64_t helper = helpers[u - 1];
        load(helper);
        must(dulvaspen_help(N, K, D, L, 2, helper, u, packets, letters_of(helper), rebuilt + (u - 1) * piece, piece), "help");
    }
    must(dulvaspen_repair(N, K, D, L, 2, helpers, D, rebuilt, D * piece, &count), "repair");
    store(2, rebuilt);
    printf("disk 2 rebuilt from %d pieces of %u letters, %u letters added that are not zero\n", D, (unsigned)piece, (unsigned)count);
}

/* The batch from 4, the rebuilt 2, and 1. */
static void recover(void) {
    uint64_t ids[K] = {4, 2, 1}, from, to, count;
    for (uint64_t v = 1; v <= K; v++) {
        uint64_t node = ids[v - 1];
        load(node);
        for (uint64_t u = v; u <= D; u++) {
            must(dulvaspen_piece(N, K, D, L, node, v, u, packets, letters_of(node), &from), "piece");
            must(dulvaspen_entry(N, K, D, L, v, u, &to), "entry");
            memcpy(buffer + to, packets + from, L);
        }
    }
    must(dulvaspen_recover(N, K, D, L, ids, K, buffer, letters, &count), "recover");
    printf("batch of %u letters recovered from disks 4, 2 and 1, %u letters added that are not zero\n", (unsigned)letters, (unsigned)count);
}

int main(void) {
    must(dulvaspen_file_letters(N, K, D, L, &letters), "file_letters");
    for (uint64_t i = 0; i < letters; i++) file[i] = (uint8_t)(i * 131 + i / 7);
    for (uint64_t node = 1; node <= N; node++) {
        must(dulvaspen_encode(N, K, D, L, node, file, letters, packets, letters_of(node)), "encode");
        store(node, packets);
    }
    printf("batch of %u letters on %d disks\n", (unsigned)letters, N);
    cut();

    must(dulvaspen_encode(N, K, D, L, 2, file, letters, packets, letters_of(2)), "encode");
    memcpy(buffer, packets, letters_of(2)); /* only to compare */
    memset(disk[2], 0, sizeof disk[2]);
    memset(disk[5], 0, sizeof disk[5]);
    printf("disks 2 and 5 lost\n");
    rebuild();
    expect(!memcmp(rebuilt, buffer, letters_of(2)), "disk 2 is not what it was");
    memset(buffer, 0, sizeof buffer);
    recover();
    expect(!memcmp(buffer, file, letters), "the batch is not what it was");
    printf("both exactly as they were\n");
    return 0;
}
