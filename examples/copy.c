/* Copies a share from standard input to a file and judges it while it is copied, so that nothing is read twice:
 *
 *   cc -Iinclude examples/copy.c target/staticlib/libdulvaspen.a -o copy && ./copy NAME < SHARE
 *
 * The copy gets its name only once the share is complete; until then it is NAME.part. A share that is cut keeps its NAME.part, to be gone on
 * with; at the first byte that can't stand the copy stops and is removed. Statuses: 0 complete, 1 unfinished, 3 malformed, 5 if reading or
 * writing fails. Bursts have an odd size here, to show that where the bytes are cut makes no difference. */
#include <dulvaspen.h>
#include <stdio.h>
#include <string.h>

static uint64_t state[DULVASPEN_ARRIVING_WORDS], head[DULVASPEN_HEAD_NUMBERS], whole;

/* Says whose share is coming, as soon as its head is in, and how much of it is here. */
static void say(uint64_t taken) {
    if (dulvaspen_arriving_head(state, DULVASPEN_ARRIVING_WORDS, head, DULVASPEN_HEAD_NUMBERS, &whole) == 0)
        fprintf(stderr, "node %u of [%u,%u,%u], batch %u: %u of %u bytes\n", (unsigned)head[3], (unsigned)head[0], (unsigned)head[1], (unsigned)head[2],
                (unsigned)head[5], (unsigned)taken, (unsigned)whole);
}

/* Copies until the input ends or a byte can't stand. Returns what the bytes are: 0, 7, or 8 to 12; or 5 if reading or writing fails. */
static uint64_t copy(FILE *to) {
    uint8_t burst[1021];
    uint64_t taken = 0, judged = 7;
    size_t got;
    dulvaspen_arriving_start(state, DULVASPEN_ARRIVING_WORDS);
    while (!DULVASPEN_MALFORMED(judged) && (got = fread(burst, 1, sizeof burst, stdin)) > 0) {
        if (fwrite(burst, 1, got, to) != got) return 5;
        dulvaspen_arriving_take(state, DULVASPEN_ARRIVING_WORDS, burst, got);
        judged = dulvaspen_arriving_judge(state, DULVASPEN_ARRIVING_WORDS, head, DULVASPEN_HEAD_NUMBERS);
        taken += got;
    }
    say(taken);
    return ferror(stdin) ? 5 : judged;
}

/* Says what the bytes are: of wrong ones what is wrong, and the index of the first byte that can't stand, in the judge's words. */
static void tell(uint64_t judged) {
    uint64_t good = 0;
    dulvaspen_arriving_good_bytes(state, DULVASPEN_ARRIVING_WORDS, &good);
    if (DULVASPEN_MALFORMED(judged)) printf("malformed %u at %u\n", (unsigned)judged, (unsigned)good);
    else puts(judged == 0 ? "complete" : judged == 7 ? "unfinished" : "it can't be read or written");
}

int main(int argc, char **argv) {
    char part[4096];
    FILE *to;
    if (argc != 2 || strlen(argv[1]) > sizeof part - 6) { fprintf(stderr, "usage: copy NAME < SHARE\n"); return 5; }
    snprintf(part, sizeof part, "%s.part", argv[1]);
    if (!(to = fopen(part, "wb"))) { perror(part); return 5; }
    uint64_t judged = copy(to);
    if (fclose(to)) judged = 5;
    if (judged == 0 && rename(part, argv[1])) judged = 5;
    if (DULVASPEN_MALFORMED(judged)) remove(part);
    tell(judged);
    return judged == 0 ? 0 : judged == 7 ? 1 : DULVASPEN_MALFORMED(judged) ? 3 : 5;
}
