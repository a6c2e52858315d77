/* The store's calls as plain C would have them: the same checks, the same order of work, nothing proved. bench.c compares them with the library. */
#include <stdint.h>

typedef struct { uint64_t n, k, d, l; } group; /* d is 0 in a group of previews */
enum { HEAD = 7 };                             /* the numbers of a head: n, k, d, node, L, batch, kind */

uint64_t plain_add_run(uint8_t *into, uint64_t into_len, uint64_t at, const uint8_t *run, uint64_t run_len);
uint64_t plain_add_within(uint8_t *buffer, uint64_t buffer_len, uint64_t to, uint64_t from, uint64_t count);
/* The same with their reports, and a report alone: how many of the letters aren't zero. */
uint64_t plain_add_run_counted(uint8_t *into, uint64_t into_len, uint64_t at, const uint8_t *run, uint64_t run_len);
uint64_t plain_add_within_counted(uint8_t *buffer, uint64_t buffer_len, uint64_t to, uint64_t from, uint64_t count);
uint64_t plain_count(const uint8_t *x, uint64_t x_len, uint64_t start, uint64_t count);
uint64_t plain_encode(group g, uint64_t node, const uint8_t *file, uint64_t file_len, uint8_t *packets, uint64_t packets_len);
uint64_t plain_help(group g, uint64_t lost, uint64_t helper, uint64_t rank, const uint8_t *packets, uint64_t packets_len, uint8_t *piece,
                    uint64_t piece_len);
uint64_t plain_recover(group g, const uint64_t *ids, uint64_t ids_len, uint8_t *buffer, uint64_t buffer_len, uint64_t *count);
uint64_t plain_repair(group g, uint64_t lost, const uint64_t *helpers, uint64_t helpers_len, uint8_t *buffer, uint64_t buffer_len, uint64_t *count);
/* The same with the runs of a sum added in blocks, each laid down once: encode, help and recover. */
uint64_t plain_encode_blocks(group g, uint64_t node, const uint8_t *file, uint64_t file_len, uint8_t *packets, uint64_t packets_len);
uint64_t plain_help_blocks(group g, uint64_t lost, uint64_t helper, uint64_t rank, const uint8_t *packets, uint64_t packets_len, uint8_t *piece,
                           uint64_t piece_len);
uint64_t plain_recover_blocks(group g, const uint64_t *ids, uint64_t ids_len, uint8_t *buffer, uint64_t buffer_len, uint64_t *count);
/* The same with the solver run by run: recover, with sums in blocks, and repair. */
uint64_t plain_recover_tiles(group g, const uint64_t *ids, uint64_t ids_len, uint8_t *buffer, uint64_t buffer_len, uint64_t *count);
uint64_t plain_repair_tiles(group g, uint64_t lost, const uint64_t *helpers, uint64_t helpers_len, uint8_t *buffer, uint64_t buffer_len, uint64_t *count);
/* Previews: encode run by run and in blocks, recover letter by letter and by tiles. */
uint64_t plain_preview_encode(group g, uint64_t node, const uint8_t *file, uint64_t file_len, uint8_t *packet, uint64_t packet_len);
uint64_t plain_preview_encode_blocks(group g, uint64_t node, const uint8_t *file, uint64_t file_len, uint8_t *packet, uint64_t packet_len);
uint64_t plain_preview_recover(group g, const uint64_t *ids, uint64_t ids_len, uint8_t *buffer, uint64_t buffer_len, uint64_t *count);
uint64_t plain_preview_recover_tiles(group g, const uint64_t *ids, uint64_t ids_len, uint8_t *buffer, uint64_t buffer_len, uint64_t *count);
uint64_t plain_write(group g, uint64_t node, uint32_t batch, const uint8_t *packets, uint64_t packets_len, uint8_t *share, uint64_t share_len);
uint64_t plain_judge(const uint8_t *share, uint64_t share_len, uint64_t *head);
uint64_t plain_read(const uint8_t *share, uint64_t share_len, uint8_t *packets, uint64_t packets_len, uint64_t *head);
/* A plain copy of so many bytes. */
uint64_t plain_copy(uint8_t *to, const uint8_t *from, uint64_t count);
