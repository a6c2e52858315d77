/* Dulvaspen: a store of a shift-and-XOR product-matrix regenerating code, proved in Rattle. docs/SCHEME.md says the rules on one page.
 *
 * A batch is a file of B*L letters (bytes), B = k*d - k*(k-1)/2. Each of n nodes holds d packets, T letters in all. Any k nodes give the
 * file back, any d rebuild a lost node exactly.
 *
 *   n  nodes, 3 to 16            k, d   2 <= k <= d <= n-1            l  letters in a sequence (L), 1 to 1,048,576
 *   ids and nodes count from 1; ranks and columns count from 1
 *   rank: a node's place in the list of the k ids that are read, or of the d that help. The list falls strictly: of the nodes 4, 2 and 1
 *   node 4 has rank 1, node 2 rank 2 and node 1 rank 3
 *
 * A preview is a file of k*L letters that is only read, never repaired: the calls dulvaspen_preview_*, at the end. Each of n nodes holds one packet,
 * and any k of them give the file back; k may be n, and there is no d:
 *
 *   n  nodes, 3 to 16            k      2 <= k <= n                   l  letters in a sequence (L), 1 to 4,096
 *
 * THE BUFFERS OF ONE CALL MUST NOT OVERLAP: no letter and no number that a call is lent through one pointer may be lent to it through
 * another, too. It can't be noticed: a share that was written over the packets that it was made of is judged complete, and its letters
 * are wrong. The table below has no number for it, since each refusal is given exactly in the cases named there; and the proof is about
 * buffers that don't overlap. recover and repair work in place, in the one buffer that they are lent.
 *
 * Every call takes any numbers and any bytes. It returns 0, or the number of the refusal (why it is turned down), the lowest that applies:
 *
 *   1  n, k or d outside the ranges above, which are others for previews
 *   2  l outside its range
 *   3  an id outside 1..n, a wrong number of ids, or a rank or column out of range
 *   4  ids that don't fall strictly, or the lost node among its helpers
 *   5  a lent input, or the buffer worked on in place, not of the exact length
 *   6  a lent output not of the exact length
 *   7  share bytes that are the beginning of some share but not all of it (no bytes included)
 *   8 to 12: share bytes that are neither a share nor the beginning of one. The first byte that can't stand, after those before it, would be
 *   8  the kind of a record
 *   9  a number of the head
 *  10  one of the zeros that fill up the last block
 *  11  a byte of the total, T
 *  12  after the end
 *
 *  13  fewer than k+2 nodes, too few to say which one is odd: of dulvaspen_odd alone
 *
 * (Reading and judging a share decide 7 to 12 before 6, and dulvaspen_odd 13 before 6. dulvaspen_good_bytes tells the index of that first
 * byte.) A refused call changes nothing that it was lent: no letter of a buffer, and no number behind a pointer. Lengths are in letters, which
 * are bytes. A pointer may be anything where its length is 0; pointers to numbers must be valid. Nothing is allocated or kept, and calls on
 * different buffers may run at the same time.
 *
 * A share is a node's packets as stored bytes. Numbers are least byte first:
 *
 *   offset        bytes   what
 *   0             1       the kind of the head: 1 where L is at most 4,096, 6 where it is more; of a preview's share 5
 *   1, 2, 3, 4    1 each  n, k, d, node; in a preview's share d is 0
 *   5             2       L; 4 bytes in kind 6, so that all that follows stands two bytes later
 *   7             4       batch
 *   11            65 each for every 64 letters a full block: 2, its kind, and 64 letters; floor(T/64) of them, which may be none
 *   then          65      where 64 doesn't divide T a last block: 3, its kind, the other letters, and zeros up to 64
 *   then          5       4, the kind of the end, and T in 4 bytes
 *
 * BEFORE YOU RECOVER, REPAIR OR COMPARE, judge each share and compare the heads: n, k, d, L, batch and kind must be equal in all of them, and the
 * nodes must all differ. No call can do it, since recover, help and odd are handed letters and not shares; and packets of two batches give
 * letters of neither. The ids to hand on are the nodes of the heads, sorted so that they fall.
 *
 * A complete share says nothing of the shares that should stand beside it: where several stand in one file, a file that was cut between
 * two of them holds complete shares only. Keep how many there are, or the real length, where it is not cut with them, and count
 * (examples/spread.c keeps the length in the first letters of a file's first batch). Nor is a flipped letter noticed: every letter may be
 * any byte. dulvaspen_odd notices it where k+2 nodes or more can be compared, and names the node where it is one alone
 * (examples/odd.c; docs/SCHEME.md, 10).
 *
 * The archive is made by `tools/library` (target/staticlib/libdulvaspen.a, for x86-64 Linux):
 *
 *   cc -Iinclude examples/night.c target/staticlib/libdulvaspen.a -o night
 *
 * or, after `./install PREFIX`, with PREFIX/lib/pkgconfig in PKG_CONFIG_PATH:
 *
 *   cc examples/night.c $(pkg-config --cflags --libs dulvaspen) -o night
 */
#ifndef DULVASPEN_H
#define DULVASPEN_H

#include <stdint.h>

/* The version of this header and of the library that it was installed with. MAJOR rises where a call or a number changes its meaning, MINOR
 * where something is added. */
#define DULVASPEN_VERSION_MAJOR 5
#define DULVASPEN_VERSION_MINOR 1
#define DULVASPEN_VERSION "5.1"

/* Share bytes were found to be neither a share nor the beginning of one, whatever is wrong with them: any of the numbers 8 to 12. (In version 1
 * that was 8 alone.) */
#define DULVASPEN_MALFORMED(number) ((number) >= 8 && (number) <= 12)

/* The most that any allowed numbers give, for callers with fixed buffers. A call is still lent the exact length, so the first so many letters
 * of such a buffer. The file is that of k = d = 15; packets, piece for a repair and share are those of node 16 with d = 15; all with L = 1,048,576. */
#define DULVASPEN_MOST_NODES 16
#define DULVASPEN_MOST_LENGTH 1048576   /* L (in version 4 it was 4,096, and what follows as below) */
#define DULVASPEN_MOST_FILE 125829120   /* B*L = 120 * 1,048,576, the collector's buffer, too */
#define DULVASPEN_MOST_PACKETS 15731790 /* T = 15 * (1,048,576 + 15 * 14), a repair's buffer, too */
#define DULVASPEN_MOST_PIECE 1048786    /* L' = 1,048,576 + 15 * 14, one helper's piece */
#define DULVASPEN_MOST_SHARE 15977668   /* bytes: 13 + 65 * 245,810 + 5 */
#define DULVASPEN_MOST_TOGETHER 251683440 /* what all 16 nodes hold with d = 15, dulvaspen_odd's packets: 15 * (16 * 1,048,576 + 120 * 14) */

/* The same where L is at most 4,096, so that the head of a share is of kind 1: for callers who keep to that. A share that comes from elsewhere may
 * still have a longer L: its head tells. */
#define DULVASPEN_SHORT_LENGTH 4096     /* L */
#define DULVASPEN_SHORT_FILE 491520     /* B*L = 120 * 4,096 */
#define DULVASPEN_SHORT_PACKETS 64590   /* T = 15 * (4,096 + 15 * 14) */
#define DULVASPEN_SHORT_PIECE 4306      /* L' = 4,096 + 15 * 14 */
#define DULVASPEN_SHORT_SHARE 65666     /* bytes: 11 + 65 * 1,010 + 5 */
#define DULVASPEN_SHORT_TOGETHER 1008240 /* 15 * (16 * 4,096 + 120 * 14) */

#define DULVASPEN_HEAD_NUMBERS 7       /* n, k, d, node, L, batch, kind (in version 2 six, without the kind) */
#define DULVASPEN_ARRIVING_WORDS 9     /* the state of a share that arrives (in version 2 eight) */
#define DULVASPEN_REPORT_NUMBERS 32    /* dulvaspen_odd's report: of each of 16 nodes its state and a place */

/* The same of previews: the file of k = 16; packet and share of node 16 with k = 16; with L = 4,096. */
#define DULVASPEN_MOST_PREVIEW_FILE 65536  /* k*L = 16 * 4,096, the collector's buffer, too */
#define DULVASPEN_MOST_PREVIEW_PACKET 4336 /* T = 4,096 + 16 * 15 */
#define DULVASPEN_MOST_PREVIEW_SHARE 4436  /* bytes: 11 + 65 * 68 + 5 */

/* The kinds of head: head[6], and the first byte of a share. */
#define DULVASPEN_KIND_PACKETS 1       /* a node's packets, of the code that is repaired, where L is at most 4,096 */
#define DULVASPEN_KIND_PREVIEW 5       /* a node's packet of a preview */
#define DULVASPEN_KIND_LONGER 6        /* a node's packets where L is more than 4,096 */

/* The states of a node: report[2*(node-1)] of dulvaspen_odd. */
#define DULVASPEN_NODE_ABSENT 0        /* its id isn't among those that were handed */
#define DULVASPEN_NODE_AGREEING 1      /* it holds what the file of all gives it, or of all but the odd one */
#define DULVASPEN_NODE_UNKNOWN 2       /* more than one node is wrong, so nothing can be said of any */
#define DULVASPEN_NODE_ODD 3           /* it alone is wrong: all without it agree, and all with it don't */

#ifdef __cplusplus
extern "C" {
#endif

/* ---- lengths: what to lend ---- */

/* *letters = B*L, the letters of a file and of the collector's buffer. Refusals: 1, 2.
 * Example: n 3, k 2, d 2, l 2 gives 6. */
uint64_t dulvaspen_file_letters(uint64_t n, uint64_t k, uint64_t d, uint64_t l, uint64_t *letters);

/* *letters = T = d*(L + t(node,d)), the letters that a node holds; t(i,j) = (i-1)*(j-1). Refusals: 1, 2, 3.
 * Example: node 2 of n 3, k 2, d 2, l 2 holds 6. */
uint64_t dulvaspen_packet_letters(uint64_t n, uint64_t k, uint64_t d, uint64_t l, uint64_t node, uint64_t *letters);

/* *letters = L' = L + t(lost,d), the letters of the piece that one helper sends for the lost node. A repair's buffer has d*L'.
 * Refusals: 1, 2, 3. */
uint64_t dulvaspen_repair_letters(uint64_t n, uint64_t k, uint64_t d, uint64_t l, uint64_t lost, uint64_t *letters);

/* *bytes = the bytes of a node's share: 11, or 13 where L is more than 4,096, + 65 for each begun 64 letters + 5. Refusals: 1, 2, 3. */
uint64_t dulvaspen_share_bytes(uint64_t n, uint64_t k, uint64_t d, uint64_t l, uint64_t node, uint64_t *bytes);

/* ---- packets ---- */

/* Fills packets with the node's d packets, one after another. file_len must be B*L (else 5), packets_len T (else 6).
 * Refusals: 1, 2, 3, 5, 6. */
uint64_t dulvaspen_encode(uint64_t n, uint64_t k, uint64_t d, uint64_t l, uint64_t node, const uint8_t *file, uint64_t file_len,
                          uint8_t *packets, uint64_t packets_len);

/* ---- recovery from k nodes ---- */

/* What a node sends as rank (its place among the k ids, which fall) for a column is a part of its packets, L letters from
 * packets[*start] on. packets_len must be T (else 5); packets is not read. A rank outside 1..k or a column outside rank..d is 3.
 * Refusals: 1, 2, 3, 5. */
uint64_t dulvaspen_piece(uint64_t n, uint64_t k, uint64_t d, uint64_t l, uint64_t node, uint64_t rank, uint64_t column,
                         const uint8_t *packets, uint64_t packets_len, uint64_t *start);

/* Where the collector puts that piece: from buffer[*start] on. Refusals: 1, 2, 3.
 * Example: for v = 1..k and u = v..d copy L letters from packets + piece's start to buffer + entry's start, where packets are those of the node
 * of rank v, which is ids[v-1]: the v-th of the k ids, which fall strictly. */
uint64_t dulvaspen_entry(uint64_t n, uint64_t k, uint64_t d, uint64_t l, uint64_t rank, uint64_t column, uint64_t *start);

/* Turns the pieces in buffer into the file, in place: the one file that has those pieces, whatever their letters. ids are the k nodes,
 * strictly falling. buffer_len must be B*L (else 5). Refusals: 1, 2, 3, 4, 5.
 *
 * *count, here and of the other calls that have it, guesses disk wear: it is how many letters that aren't zero have to be added to others. Adding a zero
 * writes nothing new, so it doesn't count. It is no tally of what this code does but a number of what comes out: of the terms of the code's equations (in the
 * repository docs/SCHEME.md, 8) those whose letter isn't zero. It is 0 where all letters that come out are zero, and never above the number of all terms,
 * which it is where none of them is. (Up to version 3 it was the number of all terms.) */
uint64_t dulvaspen_recover(uint64_t n, uint64_t k, uint64_t d, uint64_t l, const uint64_t *ids, uint64_t ids_len, uint8_t *buffer,
                           uint64_t buffer_len, uint64_t *count);

/* ---- repair from d nodes ---- */

/* Fills piece with what the helper of this rank (its place among the d helpers, which fall) sends for the lost node. packets_len must be
 * the helper's T (else 5), piece_len L' (else 6). A rank outside 1..d is 3, a helper that is the lost node 4.
 * Refusals: 1, 2, 3, 4, 5, 6. */
uint64_t dulvaspen_help(uint64_t n, uint64_t k, uint64_t d, uint64_t l, uint64_t lost, uint64_t helper, uint64_t rank,
                        const uint8_t *packets, uint64_t packets_len, uint8_t *piece, uint64_t piece_len);

/* Turns the d pieces in buffer, one after another in the helpers' order, into the lost node's packets, in place. helpers are d nodes,
 * strictly falling, none of them lost. buffer_len must be d*L', which is the lost node's T (else 5). *count guesses disk wear: the letters that aren't zero
 * that have to be added, as dulvaspen_recover has it. Refusals: 1, 2, 3, 4, 5. */
uint64_t dulvaspen_repair(uint64_t n, uint64_t k, uint64_t d, uint64_t l, uint64_t lost, const uint64_t *helpers, uint64_t helpers_len,
                          uint8_t *buffer, uint64_t buffer_len, uint64_t *count);

/* ---- which node is odd: k+2 nodes or more compared with each other ---- */

/* Says of each node whether it holds what the others hold, to the letter. ids are the nodes that are present, strictly falling, k+2 of them or more
 * (else 13; any number up to n is taken, and a group with k = n-1 never has enough); packets is what they hold, their T letters each, one node after
 * another in that order. Nodes agree where some file gives all of them what they hold. One of three is said:
 *
 *   all agree              every present node is DULVASPEN_NODE_AGREEING, and file holds their file
 *   one node alone is odd  not all agree, but all without it do: it is DULVASPEN_NODE_ODD, the others are DULVASPEN_NODE_AGREEING, and file
 *                          holds the file of the others
 *   more than one is wrong every present node is DULVASPEN_NODE_UNKNOWN, and file is all zero
 *
 * report[2*(node-1)] is the state of a node, and report[2*(node-1)+1], where it is odd, the place of its first wrong letter against the file of the
 * others, from 1 through all its packets, so that it is packets[place-1] of that node; else 0. The numbers of nodes that aren't present, up to node 16,
 * are 0.
 *
 * The packets are read and not changed. Where all agree, or the odd one isn't among the first k ids, it takes one recovery and compares each node once;
 * never more than k+1 recoveries, and no room but what is lent. To have an odd node right again, rebuild it from d others: examples/odd.c.
 * It compares nodes with each other, and knows nothing of what was once written: where all but one were changed alike, that one is odd.
 *
 * packets_len must be the sum of the present nodes' T (else 5), file_len B*L and report_len 32 (else 6). An id outside 1..n is 3; how many there are isn't
 * 3 but 13. Refusals: 1, 2, 3, 4, 5, then 13, then 6.
 * Example: n 4, k 2, d 2, l 1, the ids 4, 3, 2, 1 and 2 + 4 + 6 + 8 = 20 letters, where only the last letter of node 2, the 18th of packets, was
 * flipped: 0, report is 1,0 3,4 1,0 1,0 and then 24 zeros, and file has the 3 letters of the batch. */
uint64_t dulvaspen_odd(uint64_t n, uint64_t k, uint64_t d, uint64_t l, const uint64_t *ids, uint64_t ids_len, const uint8_t *packets,
                       uint64_t packets_len, uint8_t *file, uint64_t file_len, uint64_t *report, uint64_t report_len);

/* ---- shares: a node's packets as stored bytes ---- */

/* Fills share with the share of this node and batch. packets_len must be T (else 5), share_len dulvaspen_share_bytes' (else 6).
 * Refusals: 1, 2, 3, 5, 6. */
uint64_t dulvaspen_write_share(uint64_t n, uint64_t k, uint64_t d, uint64_t l, uint64_t node, uint32_t batch, const uint8_t *packets,
                               uint64_t packets_len, uint8_t *share, uint64_t share_len);

/* Reads any bytes. Of a share, of either kind: head[0..6] = n, k, d, node, L, batch, kind, and packets holds its letters. packets_len must be T
 * and head_len 7 (else 6). Refusals: 7 to 12, then 6. To learn T first, judge the share: it is what dulvaspen_packet_letters gives for the head's
 * numbers, and for kind 5 dulvaspen_preview_packet_letters. */
uint64_t dulvaspen_read_share(const uint8_t *share, uint64_t share_len, uint8_t *packets, uint64_t packets_len, uint64_t *head,
                              uint64_t head_len);

/* Judges any bytes without copying letters: 0 and the head for a share of either kind, 7 for the beginning of one, and for neither what is wrong,
 * 8 to 12. head_len must be 7 (else 6). A share that was cut short, even by one byte, is never 0. Refusals: 7 to 12, then 6.
 * Example: a preview's share whose d isn't 0 is refused by 9, at index 3. */
uint64_t dulvaspen_judge_share(const uint8_t *share, uint64_t share_len, uint64_t *head, uint64_t head_len);

/* *bytes = how many bytes from the front can stand: all of them for a share or the beginning of one, and else the index, from 0, of the first that
 * can't. A copy can be gone on with from there. It refuses nothing and returns 0.
 * Example: a share whose L is 0 is refused by 9, and *bytes is 6: L may still become 256 while its second byte isn't there. */
uint64_t dulvaspen_good_bytes(const uint8_t *share, uint64_t share_len, uint64_t *bytes);

/* ---- a share that arrives: judged while its bytes come, in bursts of any size, keeping none of them ----
 *
 *   enum { WORDS = DULVASPEN_ARRIVING_WORDS, HEAD = DULVASPEN_HEAD_NUMBERS };
 *   uint64_t state[WORDS], head[HEAD], bytes;
 *   dulvaspen_arriving_start(state, WORDS);
 *   while ((got = read(in, burst, sizeof burst)) > 0) {
 *       dulvaspen_arriving_take(state, WORDS, burst, got);
 *       if (DULVASPEN_MALFORMED(dulvaspen_arriving_judge(state, WORDS, head, HEAD))) break;   // hopeless: stop the copy now
 *   }
 *   if (dulvaspen_arriving_judge(state, WORDS, head, HEAD) == 0) ...                          // the whole share, and its head
 *
 * The state is an array of DULVASPEN_ARRIVING_WORDS numbers that the caller owns. It is a function of all bytes so far: how they were cut
 * makes no difference, not even in the state's numbers. So it may be kept, copied, stored and gone on with elsewhere (an array of 64-bit
 * numbers, in this machine's order of bytes). What its numbers mean may change with the next MAJOR version.
 *
 * Any numbers may stand in it. Numbers to which no bytes lead are judged 8, no byte of them can stand, and taking bytes leaves them as they
 * are, so a state that was damaged or never started doesn't come alive. Each call refuses a state of another length by 5, before anything
 * else, and then leaves everything as it was. */

/* The state of no bytes. Refusal: 5. */
uint64_t dulvaspen_arriving_start(uint64_t *state, uint64_t state_len);

/* Takes the bytes that came, zero or many. It returns 0: it takes, it doesn't judge. After the first byte that can't stand, nothing is counted
 * on. Refusal: 5. */
uint64_t dulvaspen_arriving_take(uint64_t *state, uint64_t state_len, const uint8_t *bytes, uint64_t bytes_len);

/* What dulvaspen_judge_share returns for all bytes so far, and the head: 0 for a whole share, 7 for the beginning of one, 8 to 12 for neither.
 * head_len must be 7 (else 6). Refusals: 5, then 7 to 12, then 6. */
uint64_t dulvaspen_arriving_judge(const uint64_t *state, uint64_t state_len, uint64_t *head, uint64_t head_len);

/* *bytes = what dulvaspen_good_bytes gives for all bytes so far: how many of them can stand, and so the index of the first that can't, if there is
 * one. 0 for numbers to which no bytes lead. Refusal: 5. */
uint64_t dulvaspen_arriving_good_bytes(const uint64_t *state, uint64_t state_len, uint64_t *bytes);

/* Whose share is coming: as soon as the head is in and while nothing is wrong, 0, head[0..6], and *bytes = the bytes that the whole share
 * will have, complete or not. 7 while the head isn't in (its first 11 bytes), 8 to 12 as above. head_len must be 7 (else 6).
 * Refusals: 5, then 7 to 12, then 6. */
uint64_t dulvaspen_arriving_head(const uint64_t *state, uint64_t state_len, uint64_t *head, uint64_t head_len, uint64_t *bytes);

/* ---- previews: the plain k-of-n code, read and never repaired ----
 *
 * The file is k sequences of L letters, one after another. Node i holds one packet of L + t(i,k) letters: the sum of the sequences, sequence j moved
 * right by t(i,j) = i*(j-1). Here n, k and l have the ranges that are said for previews above. Their shares are judged, read and taken as they come by
 * the calls above. examples/preview.c is a preview's whole way. */

/* *letters = k*L, the letters of a preview and of the collector's buffer. Refusals: 1, 2.
 * Example: n 3, k 2, l 1 gives 2. */
uint64_t dulvaspen_preview_file_letters(uint64_t n, uint64_t k, uint64_t l, uint64_t *letters);

/* *letters = T = L + t(node,k), the letters of a node's packet. Refusals: 1, 2, 3.
 * Example: node 3 of n 3, k 2, l 1 holds 4. */
uint64_t dulvaspen_preview_packet_letters(uint64_t n, uint64_t k, uint64_t l, uint64_t node, uint64_t *letters);

/* *bytes = the bytes of a node's share: 11 + 65 for each begun 64 letters + 5. Refusals: 1, 2, 3. */
uint64_t dulvaspen_preview_share_bytes(uint64_t n, uint64_t k, uint64_t l, uint64_t node, uint64_t *bytes);

/* Fills packet with the node's packet. file_len must be k*L (else 5), packet_len T (else 6). Refusals: 1, 2, 3, 5, 6.
 * Example: n 3, k 2, l 1, the file 01 10 (hexadecimal): node 1 holds 01 10, node 2 01 00 10 and node 3 01 00 00 10. */
uint64_t dulvaspen_preview_encode(uint64_t n, uint64_t k, uint64_t l, uint64_t node, const uint8_t *file, uint64_t file_len, uint8_t *packet,
                                  uint64_t packet_len);

/* What a node sends as rank (its place among the k ids, which fall) is a part of its packet, L letters from packet[*start] on, where *start is
 * t(node,rank). packet_len must be T (else 5); packet is not read. A rank outside 1..k is 3. Refusals: 1, 2, 3, 5. */
uint64_t dulvaspen_preview_piece(uint64_t n, uint64_t k, uint64_t l, uint64_t node, uint64_t rank, const uint8_t *packet, uint64_t packet_len,
                                 uint64_t *start);

/* Where the collector puts that piece: from buffer[*start] on, *start = (rank-1)*L. A rank outside 1..k is 3. Refusals: 1, 2, 3.
 * Example: for v = 1..k copy L letters from packet + piece's start to buffer + entry's start, where packet is that of the node of rank v, which is
 * ids[v-1]: the v-th of the k ids, which fall strictly. */
uint64_t dulvaspen_preview_entry(uint64_t n, uint64_t k, uint64_t l, uint64_t rank, uint64_t *start);

/* Turns the k pieces in buffer into the preview, in place: the one file that has those pieces, whatever their letters. ids are the k nodes, strictly
 * falling. buffer_len must be k*L (else 5). *count guesses disk wear: the letters that aren't zero that have to be added, as dulvaspen_recover has it.
 * Refusals: 1, 2, 3, 4, 5. */
uint64_t dulvaspen_preview_recover(uint64_t n, uint64_t k, uint64_t l, const uint64_t *ids, uint64_t ids_len, uint8_t *buffer, uint64_t buffer_len,
                                   uint64_t *count);

/* Fills share with the share of this node and batch, of kind 5. packet_len must be T (else 5), share_len dulvaspen_preview_share_bytes' (else 6).
 * Refusals: 1, 2, 3, 5, 6. */
uint64_t dulvaspen_preview_write_share(uint64_t n, uint64_t k, uint64_t l, uint64_t node, uint32_t batch, const uint8_t *packet,
                                       uint64_t packet_len, uint8_t *share, uint64_t share_len);

#ifdef __cplusplus
}
#endif

#endif
