/* The pages of a wall, for a host in C. Link crates/host/out/libhost.a, made by `rt lib` in crates/host. */
#ifndef WALL_PAGE_H
#define WALL_PAGE_H

#include <stddef.h>
#include <stdint.h>

/* No good wall file has more bytes. A longer one is refused, so a host may stop reading one byte later. */
#define WALL_FILE_MAX 519

/* Room for any page: a place of this size is never refused by 15. */
#define WALL_PAGE_MAX 2048

#ifdef __cplusplus
extern "C" {
#endif

/*
 * Reads the wall file of file_len bytes at file, powers the wall up, runs 2N - 1 slots on its N nodes, and
 * writes the page of one node to the front of out, where there is room for out_len bytes.
 *
 * The answer is the number of bytes that were written. What stood behind them in out stays.
 *
 * Or it is negative, and out is as it was. Without its sign it is the number of the first of these that holds:
 *   1 to 10   the file is no wall file (docs/wall-file.md)
 *   12        node is not below N
 *   15        out_len is less than the page has bytes
 *
 * Neither pointer may be null, not even where its length is 0. file must be readable over file_len bytes and
 * out writable over out_len, and the two must not overlap. Nothing else is asked: any bytes, any node and any
 * lengths may be given. The call allocates nothing, keeps nothing, and may be made from several threads. It takes
 * about 100 KiB of stack.
 */
int32_t wall_page(const uint8_t *file, size_t file_len, uint32_t node, uint8_t *out, size_t out_len);

#ifdef __cplusplus
}
#endif

#endif
