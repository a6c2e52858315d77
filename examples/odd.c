/* Which disk is lying, in one screen, with six disks in memory: a batch is spread as shares, and then one disk rots. A single letter of its share is
 * flipped, and the share is complete all the same, since every letter may be any byte; a recovery that read that disk would give another batch and
 * not say so. dulvaspen_odd compares what the disks hold, names the disk and the place of the letter, and gives the batch that the others share. The
 * disk is rebuilt from d others, and all agree again. Then two disks rot, which is more than it can name, and it says that. Prints what it does;
 * exits with 1 where anything is not as it should be. */
#include "dulvaspen.h"
#include <stdio.h>
#include <stdlib.h>
#include <string.h>

enum { N = 6, K = 3, D = 4, L = 1000, BATCH = 7, HEAD = DULVASPEN_HEAD_NUMBERS, REPORT = DULVASPEN_REPORT_NUMBERS };
enum { ALL_AGREE = 0, MORE_THAN_ONE = -1 }; /* what `compare` returns, or the node that alone is odd */

static uint8_t batch[DULVASPEN_SHORT_FILE], shared[DULVASPEN_SHORT_FILE];      /* what was written, and what the disks share */
static uint8_t packets[DULVASPEN_SHORT_PACKETS], rebuilt[DULVASPEN_SHORT_PACKETS];
static uint8_t together[DULVASPEN_SHORT_TOGETHER];                             /* what all disks hold, one after another */
static uint8_t disk[N + 1][DULVASPEN_SHORT_SHARE], right[DULVASPEN_SHORT_SHARE]; /* disk i holds node i's share */
static uint64_t letters, place;                                                /* of the batch; of the odd node's first wrong letter */

static void must(uint64_t refusal, const char *what) {
    if (refusal) { printf("%s: refused by %u\n", what, (unsigned)refusal); exit(1); }
}

static void expect(int good, const char *what) {
    if (!good) { printf("WRONG: %s\n", what); exit(1); }
}

static uint64_t letters_of(uint64_t node) {
    uint64_t held;
    must(dulvaspen_packet_letters(N, K, D, L, node, &held), "packet_letters");
    return held;
}

static uint64_t bytes_of(uint64_t node) {
    uint64_t bytes;
    must(dulvaspen_share_bytes(N, K, D, L, node, &bytes), "share_bytes");
    return bytes;
}

/* Writes a node's packets as its share, on its disk. */
static void store(uint64_t node, const uint8_t *held) {
    must(dulvaspen_write_share(N, K, D, L, node, BATCH, held, letters_of(node), disk[node], bytes_of(node)), "write_share");
}

/* Reads a node's share from its disk: complete, of this batch and of this node. */
static void load(uint64_t node, uint8_t *into) {
    uint64_t head[HEAD];
    must(dulvaspen_read_share(disk[node], bytes_of(node), into, letters_of(node), head, HEAD), "read_share");
    expect(head[0] == N && head[1] == K && head[2] == D && head[4] == L, "a share of another group");
    expect(head[3] == node && head[5] == BATCH && head[6] == DULVASPEN_KIND_PACKETS, "a share of another node, batch or kind");
}

/* Flips a bit of a letter of a share, where it lies on its disk: the head has 11 bytes, and a block's kind stands before each 64 letters. The judge
 * can't notice. */
static void rot(uint64_t node, uint64_t letter) {
    uint64_t head[HEAD], before = letter - 1;
    disk[node][11 + before / 64 * 65 + 1 + before % 64] ^= 16;
    must(dulvaspen_judge_share(disk[node], bytes_of(node), head, HEAD), "judge_share");
    printf("letter %u of disk %u has rotted; its share is judged complete\n", (unsigned)letter, (unsigned)node);
}

/* Compares all disks and says what comes out. What they share stands in `shared` then, and the place of the odd disk's first wrong letter in `place`. */
static int compare(void) {
    uint64_t ids[N], report[REPORT], present = 0, held = 0, agreeing = 0;
    int odd = ALL_AGREE;
    for (uint64_t node = N; node >= 1; node--) { /* from the last down, so the ids fall */
        load(node, together + held);
        held += letters_of(node);
        ids[present++] = node;
    }
    must(dulvaspen_odd(N, K, D, L, ids, present, together, held, shared, letters, report, REPORT), "odd");
    for (uint64_t node = 1; node <= N; node++) {
        uint64_t state = report[2 * (node - 1)];
        if (state == DULVASPEN_NODE_AGREEING) agreeing++;
        if (state == DULVASPEN_NODE_ODD) { odd = (int)node; place = report[2 * (node - 1) + 1]; }
        if (state == DULVASPEN_NODE_UNKNOWN) odd = MORE_THAN_ONE;
    }
    expect(agreeing == (odd == ALL_AGREE ? present : odd == MORE_THAN_ONE ? 0 : present - 1), "the report doesn't fit together");
    if (odd == ALL_AGREE) printf("all %u disks agree\n", (unsigned)present);
    else if (odd == MORE_THAN_ONE) printf("more than one disk is wrong\n");
    else printf("disk %d alone is odd: its first wrong letter is %u; the %u others agree\n", odd, (unsigned)place, (unsigned)agreeing);
    return odd;
}

/* A disk from the d highest others, of which none is odd. */
static void rebuild(uint64_t lost) {
    uint64_t helpers[D], piece, count, u = 0;
    must(dulvaspen_repair_letters(N, K, D, L, lost, &piece), "repair_letters");
    for (uint64_t helper = N; u < D; helper--) {
        if (helper == lost) continue;
        load(helper, packets);
        helpers[u++] = helper; /* its rank is u */
        must(dulvaspen_help(N, K, D, L, lost, helper, u, packets, letters_of(helper), rebuilt + (u - 1) * piece, piece), "help");
    }
    must(dulvaspen_repair(N, K, D, L, lost, helpers, D, rebuilt, D * piece, &count), "repair");
    store(lost, rebuilt);
    printf("disk %u rebuilt from disks", (unsigned)lost);
    for (u = 0; u < D; u++) printf(" %u", (unsigned)helpers[u]);
    printf("\n");
}

int main(void) {
    must(dulvaspen_file_letters(N, K, D, L, &letters), "file_letters");
    for (uint64_t i = 0; i < letters; i++) batch[i] = (uint8_t)(i * 131 + i / 7);
    for (uint64_t node = 1; node <= N; node++) {
        must(dulvaspen_encode(N, K, D, L, node, batch, letters, packets, letters_of(node)), "encode");
        store(node, packets);
    }
    printf("batch of %u letters on %d disks\n", (unsigned)letters, N);
    expect(compare() == ALL_AGREE && !memcmp(shared, batch, letters), "not all agree on the batch");

    memcpy(right, disk[5], bytes_of(5)); /* only to compare */
    rot(5, 1234);
    expect(compare() == 5 && place == 1234, "it is letter 1234 of disk 5");
    expect(!memcmp(shared, batch, letters), "the others share another batch");
    rebuild(5);
    expect(!memcmp(disk[5], right, bytes_of(5)), "disk 5 is not what it was");
    expect(compare() == ALL_AGREE && !memcmp(shared, batch, letters), "not all agree on the batch again");

    rot(5, 1);
    rot(2, letters_of(2));
    expect(compare() == MORE_THAN_ONE, "two disks are wrong");
    for (uint64_t i = 0; i < letters; i++) expect(shared[i] == 0, "a batch that nobody shares");
    return 0;
}
