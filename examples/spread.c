/* Files to disks and back, the whole way:
 *
 *   spread FOLDER WORK [ROOM]
 *
 * makes the folder WORK, spreads the files of FOLDER over six disks (the folders WORK/disk1 to WORK/disk6), loses two disks, rebuilds one
 * of them from four others, recovers every file from three into WORK/back and compares it with what it was. Disk 5 has room for ROOM bytes,
 * or for one byte too few where it isn't said. It says what it does, and exits with 1 where anything is wrong.
 *
 * A file goes in stripes of B*L letters, its length in the first 8 letters of the first stripe and zeros after its end. Each stripe is a
 * batch with a number of its own. A disk keeps a file's shares one after another in one file, FOLDER's name with ".share". A file of shares
 * that was cut between two of them holds complete shares only, so they are counted: when they are written, against the stripes; when they
 * are read, against each other and against the length. What this doesn't notice is a letter flipped on a disk (docs/SCHEME.md, 10).
 *
 * Files of shares are written to a name with ".part", read again, judged, and renamed only if every share is complete. */
#define _POSIX_C_SOURCE 200809L
#include "dulvaspen.h"
#include <dirent.h>
#include <errno.h>
#include <stdio.h>
#include <stdlib.h>
#include <string.h>
#include <sys/stat.h>
#include <unistd.h>

enum { N = 6, K = 3, D = 4, L = 4096, HEAD = DULVASPEN_HEAD_NUMBERS, LENGTH = 8, PATH = 4096 };

static uint8_t stripe[DULVASPEN_SHORT_FILE], packets[DULVASPEN_SHORT_PACKETS], rebuilt[DULVASPEN_SHORT_PACKETS], share[DULVASPEN_SHORT_SHARE];
static uint64_t stripe_letters, letters[N + 1], bytes[N + 1]; /* B*L; T and the share's bytes of each node */
static uint32_t next_batch;                                   /* batch numbers differ from stripe to stripe and from file to file */
static uint64_t room[N + 1];                                  /* what a disk still takes */
static const char *work, *doing = "";
static unsigned taken[N + 1];                                 /* files whose shares a disk has, all complete */
static int wrong;

/* ---- messages ---- */

static void progress(const char *name, uint64_t at, uint64_t of) {
    if (isatty(2)) fprintf(stderr, "\r%s %s: stripe %llu of %llu\033[K", doing, name, (unsigned long long)at, (unsigned long long)of);
}

static void progress_over(void) {
    if (isatty(2)) fprintf(stderr, "\r\033[K");
}

/* Something is wrong: says it, goes on with the next file, and exits with 1 at the end. */
static int fail(const char *name, const char *what) {
    progress_over();
    fprintf(stderr, "spread: %s: %s\n", name, what);
    wrong = 1;
    return 0;
}

/* A call that can't be refused unless this program is wrong. */
static void must(uint64_t refusal, const char *what) {
    if (refusal) {
        fprintf(stderr, "spread: %s: refused by %u\n", what, (unsigned)refusal);
        exit(1);
    }
}

/* ---- paths and bytes ---- */

/* WORK/FOLDER[NODE]/NAME and an ending. */
static const char *path_in(char *path, const char *folder, uint64_t node, const char *name, const char *ending) {
    char number[24] = "";
    if (node) snprintf(number, sizeof number, "%u", (unsigned)node);
    if (snprintf(path, PATH, "%s/%s%s%s%s%s", work, folder, number, *name ? "/" : "", name, ending) >= PATH) {
        fprintf(stderr, "spread: %s: the path is too long\n", name);
        exit(1);
    }
    return path;
}

static void make_folder(const char *path) {
    if (mkdir(path, 0777)) {
        fprintf(stderr, "spread: the folder %s can't be made: %s\n", path, strerror(errno));
        exit(1);
    }
}

static uint64_t length_of(FILE *file) {
    struct stat about;
    return fstat(fileno(file), &about) ? 0 : (uint64_t)about.st_size;
}

static uint64_t stripes_of(uint64_t length) { return (LENGTH + length + stripe_letters - 1) / stripe_letters; }

/* ---- shares on a disk ---- */

/* Writes as much of a share as the disk takes. That it was not all is found when the shares are judged. */
static void put_share(FILE *out, uint64_t node) {
    uint64_t count = bytes[node] < room[node] ? bytes[node] : room[node];
    room[node] -= count;
    if (out && fwrite(share, 1, (size_t)count, out) != count) room[node] = 0;
}

/* Reads one share into `packets`, judges it and answers whether it is complete and this node's, of this program's group. */
static int take_share(FILE *in, uint64_t node, uint32_t *batch) {
    uint64_t head[HEAD], got = in ? fread(share, 1, (size_t)bytes[node], in) : 0;
    if (dulvaspen_judge_share(share, got, head, HEAD)) return 0;
    if (head[0] != N || head[1] != K || head[2] != D || head[3] != node || head[4] != L) return 0;
    must(dulvaspen_read_share(share, got, packets, letters[node], head, HEAD), "read_share");
    *batch = (uint32_t)head[5];
    return 1;
}

/* Whether a file of shares holds exactly so many, each complete, of batches that follow one another from `first`. */
static int all_complete(const char *path, uint64_t node, uint32_t first, uint64_t stripes) {
    uint32_t batch;
    uint64_t s = 0;
    FILE *in = fopen(path, "rb");
    while (in && s < stripes && take_share(in, node, &batch) && batch == (uint32_t)(first + s)) s++;
    int good = in && s == stripes && fgetc(in) == EOF && !ferror(in);
    if (in) fclose(in);
    return good;
}

/* Closes a file of shares with its letters on the disk; gives it its name if all are complete, and removes it else. */
static int settle(FILE *out, const char *name, uint64_t node, uint32_t first, uint64_t stripes) {
    char part[PATH], whole[PATH];
    path_in(part, "disk", node, name, ".part");
    path_in(whole, "disk", node, name, ".share");
    int written = out && !fflush(out) && !fsync(fileno(out));
    if (out && fclose(out)) written = 0;
    if (written && all_complete(part, node, first, stripes) && !rename(part, whole)) return 1;
    unlink(part);
    return 0;
}

static FILE *open_part(const char *name, uint64_t node) {
    char path[PATH];
    return fopen(path_in(path, "disk", node, name, ".part"), "wb");
}

static FILE *open_shares(const char *name, uint64_t node) {
    char path[PATH];
    return fopen(path_in(path, "disk", node, name, ".share"), "rb");
}

/* Opens the files of shares of some nodes, and answers how many shares each has; 0 where one is missing or they aren't equally many. */
static uint64_t open_all(const char *name, const uint64_t *ids, int count, FILE **in) {
    uint64_t stripes = 0;
    int good = 1;
    for (int i = 0; i < count; i++) {
        in[i] = open_shares(name, ids[i]);
        uint64_t length = in[i] ? length_of(in[i]) : 0, shares = length / bytes[ids[i]];
        if (length % bytes[ids[i]] || !shares || (i && shares != stripes)) good = 0;
        stripes = shares;
    }
    return good ? stripes : 0;
}

static void close_all(FILE **files, int count) {
    for (int i = 0; i < count; i++)
        if (files[i]) fclose(files[i]);
}

/* ---- spreading ---- */

/* Where stripe s starts in the file, where its letters start in the stripe, and how many they are. */
static uint64_t start_in_file(uint64_t s) { return s ? s * stripe_letters - LENGTH : 0; }
static uint64_t start_in_stripe(uint64_t s) { return s ? 0 : LENGTH; }
static uint64_t count_in_stripe(uint64_t s, uint64_t length) {
    uint64_t left = length - start_in_file(s), most = stripe_letters - start_in_stripe(s);
    return left < most ? left : most;
}

/* Stripe s of a file: in the first its length, least byte first, and zeros after its end. Answers whether it could be read. */
static int read_stripe(FILE *in, uint64_t s, uint64_t length) {
    uint64_t count = count_in_stripe(s, length);
    memset(stripe, 0, (size_t)stripe_letters);
    for (int i = 0; !s && i < LENGTH; i++) stripe[i] = (uint8_t)(length >> (8 * i));
    return fread(stripe + start_in_stripe(s), 1, (size_t)count, in) == count;
}

/* Writes stripe s of a file; the first says its length. Answers whether it went. */
static int write_stripe(FILE *out, uint64_t s, uint64_t stripes, uint64_t *length) {
    for (int i = 0; !s && i < LENGTH; i++) *length |= (uint64_t)stripe[i] << (8 * i);
    if (stripes_of(*length) != stripes) return 0;
    uint64_t count = count_in_stripe(s, *length);
    return fwrite(stripe + start_in_stripe(s), 1, (size_t)count, out) == count;
}

/* Encodes the stripe for every node and puts its shares. */
static void spread_stripe(FILE **out, uint32_t batch) {
    for (uint64_t node = 1; node <= N; node++) {
        must(dulvaspen_encode(N, K, D, L, node, stripe, stripe_letters, packets, letters[node]), "encode");
        must(dulvaspen_write_share(N, K, D, L, node, batch, packets, letters[node], share, bytes[node]), "write_share");
        put_share(out[node], node);
    }
}

/* Spreads one file. Answers on how many disks it stands. */
static int spread_file(FILE *in, const char *name) {
    FILE *out[N + 1] = {0};
    uint64_t length = length_of(in), stripes = stripes_of(length);
    uint32_t first = next_batch;
    int good = 1, disks = 0;
    next_batch += (uint32_t)stripes;
    for (uint64_t node = 1; node <= N; node++) out[node] = open_part(name, node);
    for (uint64_t s = 0; s < stripes && good; s++) {
        progress(name, s + 1, stripes);
        good = read_stripe(in, s, length);
        if (good) spread_stripe(out, (uint32_t)(first + s));
    }
    if (!good || fgetc(in) != EOF) fail(name, "can't be read, or changes while it is read");
    for (uint64_t node = 1; node <= N; node++) {
        if (settle(out[node], name, node, first, stripes)) disks++, taken[node]++;
        else printf("disk %u has no complete shares of %s: not taken\n", (unsigned)node, name);
    }
    return disks;
}

/* ---- rebuilding ---- */

/* One stripe of the lost node from the next shares of its helpers: all complete, and all of one batch. */
static int rebuild_stripe(FILE **in, const uint64_t *helpers, uint64_t lost, uint32_t *batch) {
    uint64_t piece, count;
    uint32_t other;
    must(dulvaspen_repair_letters(N, K, D, L, lost, &piece), "repair_letters");
    for (int u = 0; u < D; u++) {
        if (!take_share(in[u], helpers[u], &other) || (u && other != *batch)) return 0;
        *batch = other;
        must(dulvaspen_help(N, K, D, L, lost, helpers[u], (uint64_t)u + 1, packets, letters[helpers[u]], rebuilt + (uint64_t)u * piece, piece), "help");
    }
    must(dulvaspen_repair(N, K, D, L, lost, helpers, D, rebuilt, letters[lost], &count), "repair");
    must(dulvaspen_write_share(N, K, D, L, lost, *batch, rebuilt, letters[lost], share, bytes[lost]), "write_share");
    return 1;
}

static int rebuild_file(const char *name, uint64_t lost, const uint64_t *helpers) {
    FILE *in[D] = {0}, *out = NULL;
    uint32_t first = 0, batch = 0;
    uint64_t s = 0, stripes = open_all(name, helpers, D, in);
    if (stripes) out = open_part(name, lost);
    while (s < stripes && rebuild_stripe(in, helpers, lost, &batch)) {
        progress(name, s + 1, stripes);
        if (!s) first = batch;
        put_share(out, lost);
        s++;
    }
    close_all(in, D);
    if (!stripes) return fail(name, "the helpers' shares are missing, cut, or not equally many");
    return settle(out, name, lost, first, stripes) || fail(name, "could not be rebuilt");
}

/* ---- recovering ---- */

/* One stripe from the next shares of k nodes: all complete, and all of one batch. */
static int recover_stripe(FILE **in, const uint64_t *ids, uint32_t *batch) {
    uint64_t from, to, count;
    uint32_t other;
    for (uint64_t v = 1; v <= K; v++) {
        uint64_t node = ids[v - 1];
        if (!take_share(in[v - 1], node, &other) || (v > 1 && other != *batch)) return 0;
        *batch = other;
        for (uint64_t u = v; u <= D; u++) {
            must(dulvaspen_piece(N, K, D, L, node, v, u, packets, letters[node], &from), "piece");
            must(dulvaspen_entry(N, K, D, L, v, u, &to), "entry");
            memcpy(stripe + to, packets + from, L);
        }
    }
    must(dulvaspen_recover(N, K, D, L, ids, K, stripe, stripe_letters, &count), "recover");
    return 1;
}

/* Recovers a file into WORK/back. It gets its name only when all of it is there: a half file is what all this is against. */
static int recover_file(const char *name, const uint64_t *ids) {
    char part[PATH], whole[PATH];
    FILE *in[K] = {0}, *out = fopen(path_in(part, "back", 0, name, ".part"), "wb");
    uint32_t batch = 0, first = 0;
    uint64_t length = 0, s = 0, stripes = open_all(name, ids, K, in);
    while (out && s < stripes && recover_stripe(in, ids, &batch)) {
        progress(name, s + 1, stripes);
        if (!s) first = batch;
        if (batch != (uint32_t)(first + s) || !write_stripe(out, s, stripes, &length)) break;
        s++;
    }
    close_all(in, K);
    int written = out && !fflush(out) && !fsync(fileno(out));
    if (out && fclose(out)) written = 0;
    if (stripes && s == stripes && written && !rename(part, path_in(whole, "back", 0, name, ""))) return 1;
    unlink(part);
    if (!stripes) return fail(name, "its shares are missing, cut, or not equally many");
    return fail(name, "could not be recovered: a share is cut or of another batch, or the file can't be written");
}

/* ---- the whole way ---- */

static int same(FILE *a, FILE *b) {
    int x = 0, y = 0;
    while (a && b && x == y && x != EOF) x = getc(a), y = getc(b);
    return a && b && x == y;
}

/* What is done with each file of FOLDER: three passes over them. Each answers whether it went well. */
static int spread_one(FILE *file, const char *name) { return spread_file(file, name) >= N - 1 || fail(name, "is not on five disks"); }

static int rebuild_one(FILE *file, const char *name) {
    static const uint64_t helpers[D] = {6, 4, 3, 1};
    (void)file;
    return rebuild_file(name, 2, helpers);
}

static int recover_one(FILE *file, const char *name) {
    static const uint64_t ids[K] = {4, 2, 1};
    char path[PATH];
    if (!recover_file(name, ids)) return 0;
    FILE *back = fopen(path_in(path, "back", 0, name, ""), "rb");
    int good = same(file, back) || fail(name, "came back other than it was");
    if (back) fclose(back);
    return good;
}

/* Whether this is a file of the folder, not a folder or a device; its path and length. */
static int is_file(const char *folder, const char *name, char *path, uint64_t *length) {
    struct stat about;
    if (snprintf(path, PATH, "%s/%s", folder, name) >= PATH || stat(path, &about) || !S_ISREG(about.st_mode)) return 0;
    *length = (uint64_t)about.st_size;
    return 1;
}

/* A pass over the files of the folder. Answers with how many it went well. */
static unsigned all(int (*pass)(FILE *, const char *), const char *folder) {
    char path[PATH];
    uint64_t length;
    unsigned good = 0;
    struct dirent *entry;
    DIR *names = opendir(folder);
    if (!names) return (unsigned)fail(folder, strerror(errno));
    while ((entry = readdir(names))) {
        if (!is_file(folder, entry->d_name, path, &length)) continue;
        FILE *file = fopen(path, "rb");
        good += (unsigned)(file ? pass(file, entry->d_name) : fail(entry->d_name, strerror(errno)));
        if (file) fclose(file);
    }
    closedir(names);
    progress_over();
    return good;
}

/* Loses a disk: every file of shares on it. */
static void lose(uint64_t node) {
    char folder[PATH], path[PATH];
    struct dirent *entry;
    DIR *names = opendir(path_in(folder, "disk", node, "", ""));
    while (names && (entry = readdir(names)))
        if (strcmp(entry->d_name, ".") && strcmp(entry->d_name, "..")) unlink(path_in(path, "disk", node, entry->d_name, ""));
    if (names) closedir(names);
    printf("disk %u lost\n", (unsigned)node);
}

/* Empty disks, and their lengths. */
static void begin(void) {
    char path[PATH];
    make_folder(work);
    make_folder(path_in(path, "back", 0, "", ""));
    must(dulvaspen_file_letters(N, K, D, L, &stripe_letters), "file_letters");
    for (uint64_t node = 1; node <= N; node++) {
        make_folder(path_in(path, "disk", node, "", ""));
        must(dulvaspen_packet_letters(N, K, D, L, node, &letters[node]), "packet_letters");
        must(dulvaspen_share_bytes(N, K, D, L, node, &bytes[node]), "share_bytes");
        room[node] = UINT64_MAX;
    }
}

/* The files of the folder, and the stripes that they will take. */
static unsigned look(const char *folder, uint64_t *stripes) {
    char path[PATH];
    uint64_t length;
    unsigned files = 0;
    struct dirent *entry;
    DIR *names = opendir(folder);
    if (!names) return (unsigned)fail(folder, strerror(errno));
    while ((entry = readdir(names)))
        if (is_file(folder, entry->d_name, path, &length)) files++, *stripes += stripes_of(length);
    closedir(names);
    return files;
}

int main(int count, char **words) {
    uint64_t stripes = 0;
    if (count != 3 && count != 4) {
        fprintf(stderr, "usage: spread FOLDER WORK [ROOM]\n");
        return 2;
    }
    work = words[2];
    begin();
    unsigned files = look(words[1], &stripes);
    room[5] = count == 4 ? strtoull(words[3], NULL, 10) : stripes * bytes[5] - (stripes != 0);
    int fills = room[5] < stripes * bytes[5];
    doing = "spreading";
    unsigned spread = all(spread_one, words[1]);
    printf("%u files spread over %d disks in %llu batches\n", spread, N, (unsigned long long)stripes);
    if (fills && taken[5] == files) fail("disk 5", "filled up, and shares that stopped short were taken for complete");
    lose(2);
    lose(5);
    doing = "rebuilding";
    printf("disk 2 rebuilt from disks 6, 4, 3 and 1: %u files\n", all(rebuild_one, words[1]));
    doing = "recovering";
    unsigned back = all(recover_one, words[1]);
    printf("%u files recovered from disks 4, 2 and 1, the same as they were\n", back);
    if (spread != files || back != files || next_batch != (uint32_t)stripes) fail(words[1], "not every file came back as it was");
    return wrong;
}
