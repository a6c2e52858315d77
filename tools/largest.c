/* The header's macros for fixed buffers against the library: the most that any allowed numbers give, found by asking for all of them, and
 * that no more is allowed: n 17, L 1,048,577, of previews 4,097; and the same where L is at most 4,096. The words of a state: a call takes just so many, refuses any other number by 5 before anything
 * else, and leaves everything as it was. And the numbers of a head: a call fills just so many, tells both kinds apart, refuses any other number by 6
 * and leaves everything as it was. Exits with 1 where a macro is not exactly that. tools/try_c builds and runs it. */
#include "dulvaspen.h"
#include <stdio.h>
#include <string.h>

enum { SIZES = 13, SHORT = 8 };
static uint64_t most[SIZES]; /* file, packets, piece for a repair, share, all nodes' packets; of previews file, packet, share; and the first five again where L is at
                                most 4,096 */

static void keep(int which, uint64_t refusal, uint64_t value) {
    if (!refusal && most[which] < value) most[which] = value;
}

/* One of the first five, and where L is short its other one, too. */
static void keep_by(int which, uint64_t l, uint64_t refusal, uint64_t value) {
    keep(which, refusal, value);
    if (l <= DULVASPEN_SHORT_LENGTH) keep(SHORT + which, refusal, value);
}

static void ask(uint64_t n, uint64_t k, uint64_t d, uint64_t l) {
    uint64_t value = 0, together = 0, refusal;
    refusal = dulvaspen_file_letters(n, k, d, l, &value);
    keep_by(0, l, refusal, value);
    for (uint64_t node = 1; node <= n; node++) {
        refusal = dulvaspen_packet_letters(n, k, d, l, node, &value);
        keep_by(1, l, refusal, value);
        together += value;
        if (node >= k + 2) keep_by(4, l, refusal, together); /* as many as are compared */
        refusal = dulvaspen_repair_letters(n, k, d, l, node, &value);
        keep_by(2, l, refusal, value);
        refusal = dulvaspen_share_bytes(n, k, d, l, node, &value);
        keep_by(3, l, refusal, value);
    }
}

static void ask_previews(uint64_t n, uint64_t k, uint64_t l) {
    uint64_t value = 0, refusal;
    refusal = dulvaspen_preview_file_letters(n, k, l, &value);
    keep(5, refusal, value);
    for (uint64_t node = 1; node <= n; node++) {
        refusal = dulvaspen_preview_packet_letters(n, k, l, node, &value);
        keep(6, refusal, value);
        refusal = dulvaspen_preview_share_bytes(n, k, l, node, &value);
        keep(7, refusal, value);
    }
}

/* A share of two letters, which has 81 bytes, of a node's packets or of a preview's, and the head that it must have. */
enum { BYTES = 81 };
static uint8_t share[BYTES];
static const uint64_t heads[2][DULVASPEN_HEAD_NUMBERS] = {{3, 2, 2, 1, 1, 7, DULVASPEN_KIND_PACKETS}, {3, 2, 0, 1, 1, 7, DULVASPEN_KIND_PREVIEW}};

static int written(int of_preview) {
    static const uint8_t letters[2] = {1, 16};
    uint64_t bytes = 0;
    if (of_preview)
        return !dulvaspen_preview_share_bytes(3, 2, 1, 1, &bytes) && bytes == BYTES && !dulvaspen_preview_write_share(3, 2, 1, 1, 7, letters, 2, share, BYTES);
    return !dulvaspen_share_bytes(3, 2, 2, 1, 1, &bytes) && bytes == BYTES && !dulvaspen_write_share(3, 2, 2, 1, 1, 7, letters, 2, share, BYTES);
}

/* Whether every call that tells a head takes one of so many numbers, fills it as it must, and refuses another number by 6. */
static int head_of(int of_preview, uint64_t numbers) {
    uint64_t state[DULVASPEN_ARRIVING_WORDS], head[24], bytes = 9, fits = numbers == DULVASPEN_HEAD_NUMBERS, want = fits ? 0 : 6, good = 1;
    uint8_t letters[2] = {9, 9};
    if (!written(of_preview) || dulvaspen_arriving_start(state, DULVASPEN_ARRIVING_WORDS) || dulvaspen_arriving_take(state, DULVASPEN_ARRIVING_WORDS, share, BYTES)) return 0;
    for (int call = 0; call < 4; call++) {
        for (int i = 0; i < 24; i++) head[i] = 9;
        if (call == 0) good &= dulvaspen_judge_share(share, BYTES, head, numbers) == want;
        if (call == 1) good &= dulvaspen_read_share(share, BYTES, letters, 2, head, numbers) == want;
        if (call == 2) good &= dulvaspen_arriving_judge(state, DULVASPEN_ARRIVING_WORDS, head, numbers) == want;
        if (call == 3) good &= dulvaspen_arriving_head(state, DULVASPEN_ARRIVING_WORDS, head, numbers, &bytes) == want;
        for (int i = 0; i < 24; i++) good &= head[i] == (fits && i < DULVASPEN_HEAD_NUMBERS ? heads[of_preview][i] : 9);
    }
    return good && bytes == (fits ? BYTES : 9) && letters[0] == (fits ? 1 : 9) && letters[1] == (fits ? 16 : 9);
}

/* Whether the calls on a state of so many words, its words all alike, do what the header says. */
static int state_of(uint64_t words, uint64_t word) {
    uint64_t state[24], head[DULVASPEN_HEAD_NUMBERS], bytes = 9, good = 9, fits = words == DULVASPEN_ARRIVING_WORDS, held = 1;
    uint64_t numbers = fits ? DULVASPEN_HEAD_NUMBERS : DULVASPEN_HEAD_NUMBERS - 1;
    for (int i = 0; i < 24; i++) state[i] = word;
    for (int i = 0; i < DULVASPEN_HEAD_NUMBERS; i++) head[i] = 9;
    if (dulvaspen_arriving_take(state, words, (const uint8_t *)"\001", 1) != (fits ? 0 : 5)) return 0;
    if (dulvaspen_arriving_judge(state, words, head, numbers) != (fits ? word ? 8u : 7u : 5u)) return 0;
    if (dulvaspen_arriving_head(state, words, head, numbers, &bytes) != (fits ? word ? 8u : 7u : 5u)) return 0;
    if (dulvaspen_arriving_good_bytes(state, words, &good) != (fits ? 0 : 5) || good != (fits ? !word : 9)) return 0;
    for (int i = 0; i < DULVASPEN_HEAD_NUMBERS; i++) held &= head[i] == 9;
    for (int i = 0; i < 24; i++) held &= state[i] == (fits && !word && (i == 0 || i == DULVASPEN_ARRIVING_WORDS - 1) ? 1 : word); /* a byte, and its kind */
    if (!held || bytes != 9 || dulvaspen_arriving_start(state, words) != (fits ? 0 : 5)) return 0;
    for (int i = 0; i < 24; i++) held &= state[i] == (fits && i < DULVASPEN_ARRIVING_WORDS ? 0 : word);
    return held;
}

int main(void) {
    static const uint64_t said[SIZES] = {DULVASPEN_MOST_FILE, DULVASPEN_MOST_PACKETS, DULVASPEN_MOST_PIECE, DULVASPEN_MOST_SHARE, DULVASPEN_MOST_TOGETHER,
                                         DULVASPEN_MOST_PREVIEW_FILE, DULVASPEN_MOST_PREVIEW_PACKET, DULVASPEN_MOST_PREVIEW_SHARE, DULVASPEN_SHORT_FILE,
                                         DULVASPEN_SHORT_PACKETS, DULVASPEN_SHORT_PIECE, DULVASPEN_SHORT_SHARE, DULVASPEN_SHORT_TOGETHER};
    static const char *names[SIZES] = {"file", "packets", "piece", "share", "all nodes' packets", "preview", "preview's packet", "preview's share",
                                       "short file", "short packets", "short piece", "short share", "all nodes' short packets"};
    char version[24];
    int wrong = 0;
    for (uint64_t n = 0; n <= 20; n++)
        for (uint64_t k = 0; k <= 20; k++)
            for (uint64_t more = 0; more <= 20; more++) {
                uint64_t l = more <= 10 ? DULVASPEN_SHORT_LENGTH - 6 + more : DULVASPEN_MOST_LENGTH - 16 + more;
                for (uint64_t d = 0; d <= 20; d++) ask(n, k, d, l);
                ask_previews(n, k, l);
            }
    for (int i = 0; i < SIZES; i++) {
        printf("%s: the most is %u, the header says %u\n", names[i], (unsigned)most[i], (unsigned)said[i]);
        wrong |= most[i] != said[i];
    }
    for (uint64_t words = 0; words <= 24; words++)
        for (int i = 0; i < 3; i++) wrong |= !state_of(words, i == 2 ? UINT64_MAX : (uint64_t)i * 7);
    for (uint64_t numbers = 0; numbers <= 24; numbers++)
        for (int i = 0; i < 2; i++) wrong |= !head_of(i, numbers);
    printf("states of %u words and heads of %u numbers%s\n", (unsigned)DULVASPEN_ARRIVING_WORDS, (unsigned)DULVASPEN_HEAD_NUMBERS,
           wrong ? ", or something else is wrong" : " are taken, and no others");
    snprintf(version, sizeof version, "%d.%d", DULVASPEN_VERSION_MAJOR, DULVASPEN_VERSION_MINOR);
    return wrong || strcmp(version, DULVASPEN_VERSION);
}
