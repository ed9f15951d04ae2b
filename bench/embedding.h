/* An index of patches for C: one memory that the caller lends, commands in, answers out.
 * Every function is proved safe for any bytes; the caller owes that each pointer has the length behind it, that
 * memory, commands and answers do not overlap, and that no two calls share a memory at the same time. */
#ifndef EMBEDDING_H
#define EMBEDDING_H
#include <stddef.h>
#include <stdint.h>

/* Four channels: city block on 4 bytes, Hamming on 4, circular on 2, Chebyshev on 2; 12 bytes to a patch. */

/* How many bytes of memory an index of that many slots takes; 0 where there are more than 4,096. */
size_t embedding_bench_size(uint16_t capacity);

/* Begins an index of no patches: 0, or 12 where the capacity is above 4,096 or the memory too short. */
uint8_t embedding_bench_new(uint8_t *memory, size_t memory_len, uint16_t capacity);

/* Serves commands, writes their answers one behind another, and says how many bytes. A command for whose answer there
 * is no room is not served, nor any behind it. Bytes of the answers beyond those written are untouched. */
size_t embedding_bench_serve(uint8_t *memory, size_t memory_len, const uint8_t *commands, size_t commands_len,
                             uint8_t *answers, size_t answers_len);

/* Eight channels on 256 bytes each: the four metrics twice; 2,048 bytes to a patch. */
size_t embedding_wide_size(uint16_t capacity);
uint8_t embedding_wide_new(uint8_t *memory, size_t memory_len, uint16_t capacity);
size_t embedding_wide_serve(uint8_t *memory, size_t memory_len, const uint8_t *commands, size_t commands_len,
                            uint8_t *answers, size_t answers_len);

/* The distance of two rows of one width, 1 to 256 bytes; 4294967295 where they are no such rows. */
uint32_t embedding_city_block(const uint8_t *a, size_t a_len, const uint8_t *b, size_t b_len);
uint32_t embedding_hamming(const uint8_t *a, size_t a_len, const uint8_t *b, size_t b_len);
uint32_t embedding_circular(const uint8_t *a, size_t a_len, const uint8_t *b, size_t b_len);
uint32_t embedding_chebyshev(const uint8_t *a, size_t a_len, const uint8_t *b, size_t b_len);

#endif
