/* A preview in one screen, with six disks in memory: it is spread as shares; a copy stops one byte short, one disk still holds last night's, one is
 * lost; and the preview is read back from the three that hold a complete share of it, and compared. Previews are only read, never repaired, so a disk
 * holds one packet, little more than a third of the preview. Prints what it does; exits with 1 where anything is not as it should be. */
#include "dulvaspen.h"
#include <stdio.h>
#include <stdlib.h>
#include <string.h>

enum { N = 6, K = 3, L = 1000, BATCH = 7, HEAD = DULVASPEN_HEAD_NUMBERS };

static uint8_t preview[DULVASPEN_MOST_PREVIEW_FILE], buffer[DULVASPEN_MOST_PREVIEW_FILE], packet[DULVASPEN_MOST_PREVIEW_PACKET];
static uint8_t disk[N + 1][DULVASPEN_MOST_PREVIEW_SHARE]; /* disk i holds node i's share, */
static uint64_t held[N + 1];                              /* so many bytes of it */
static uint64_t letters;                                  /* of the preview */

static void must(uint64_t refusal, const char *what) {
    if (refusal) { printf("%s: refused by %u\n", what, (unsigned)refusal); exit(1); }
}

static void expect(int good, const char *what) {
    if (!good) { printf("WRONG: %s\n", what); exit(1); }
}

/* Encodes a node's packet and writes it as the share of this batch, on the node's disk. */
static void store(uint64_t node, uint32_t batch) {
    uint64_t size;
    must(dulvaspen_preview_packet_letters(N, K, L, node, &size), "preview_packet_letters");
    must(dulvaspen_preview_share_bytes(N, K, L, node, &held[node]), "preview_share_bytes");
    must(dulvaspen_preview_encode(N, K, L, node, preview, letters, packet, size), "preview_encode");
    must(dulvaspen_preview_write_share(N, K, L, node, batch, packet, size, disk[node], held[node]), "preview_write_share");
}

/* What a disk holds, said in a line: whether it is a complete share of this preview. The head is compared, since a share of another batch is
 * complete, too. */
static int complete(uint64_t node) {
    uint64_t head[HEAD], good, judged = dulvaspen_judge_share(disk[node], held[node], head, HEAD);
    printf("disk %u: ", (unsigned)node);
    if (judged) {
        must(dulvaspen_good_bytes(disk[node], held[node], &good), "good_bytes");
        printf("%s, %u bytes of it can stand\n", judged == 7 ? "unfinished" : "malformed", (unsigned)good);
        return 0;
    }
    int ours = head[0] == N && head[1] == K && head[3] == node && head[4] == L && head[5] == BATCH && head[6] == DULVASPEN_KIND_PREVIEW;
    printf("complete, of batch %u%s\n", (unsigned)head[5], ours ? "" : ", which isn't looked for");
    return ours;
}

/* Reads a disk's share, and puts the piece that its node sends as this rank where it belongs. */
static void collect(uint64_t node, uint64_t rank) {
    uint64_t head[HEAD], size, from, to;
    must(dulvaspen_preview_packet_letters(N, K, L, node, &size), "preview_packet_letters");
    must(dulvaspen_read_share(disk[node], held[node], packet, size, head, HEAD), "read_share");
    must(dulvaspen_preview_piece(N, K, L, node, rank, packet, size, &from), "preview_piece");
    must(dulvaspen_preview_entry(N, K, L, rank, &to), "preview_entry");
    memcpy(buffer + to, packet + from, L);
}

int main(void) {
    uint64_t ids[K], found = 0, count;
    must(dulvaspen_preview_file_letters(N, K, L, &letters), "preview_file_letters");
    for (uint64_t i = 0; i < letters; i++) preview[i] = (uint8_t)(i * 131 + i / 7);
    for (uint64_t node = 1; node <= N; node++) store(node, BATCH);
    printf("preview of %u letters on %d disks\n", (unsigned)letters, N);

    held[6]--;                          /* a copy that stopped short */
    store(4, BATCH - 1);                /* a disk that wasn't written tonight */
    memset(disk[2], 0, sizeof disk[2]); /* a disk that was lost */
    for (uint64_t node = N; node >= 1 && found < K; node--) /* from the last down, so the ids fall */
        if (complete(node)) ids[found++] = node;
    expect(found == K && ids[0] == 5 && ids[1] == 3 && ids[2] == 1, "not the disks that hold the preview");
    for (uint64_t rank = 1; rank <= K; rank++) collect(ids[rank - 1], rank);
    must(dulvaspen_preview_recover(N, K, L, ids, K, buffer, letters, &count), "preview_recover");
    printf("preview read from disks 5, 3 and 1, %u letters added that are not zero\n", (unsigned)count);
    expect(!memcmp(buffer, preview, letters), "the preview is not what it was");
    printf("exactly as it was\n");
    return 0;
}
