// Plain C twins of the library's operations, written from document 01. A plan is handed in as f, n, the clients' p, q,
// a and b one after the other, and the owners; a refusal's number is returned, 0 where nothing is refused.
#ifndef TWINS_H
#define TWINS_H

#include <stddef.h>
#include <stdint.h>

size_t twin_read(const uint8_t *s, size_t size, uint16_t words[32], uint8_t owners[64], size_t sizes[3]);
size_t twin_write(size_t f, size_t n, const uint16_t words[32], const uint8_t owners[static 64], uint8_t out[156]);
size_t twin_check(size_t f, size_t n, const uint16_t words[32], const uint8_t owners[static 64]);
size_t twin_figures(size_t f, size_t n, const uint16_t words[32], const uint8_t owners[static 64], size_t client,
                    size_t figure[2]);
size_t twin_judge(size_t f, size_t n, const uint16_t words[32], const uint8_t owners[static 64], size_t found[4]);
size_t twin_search(size_t f, size_t n, const uint16_t words[32], uint8_t owners[64]);
size_t twin_every_table(size_t f, size_t n, const uint16_t words[32], uint8_t owners[64]);
size_t twin_step(size_t f, size_t n, const uint16_t words[32], const uint8_t owners[static 64], uint8_t record[9],
                 const uint8_t *arrivals, size_t count, uint8_t answer[9]);
size_t twin_steps(size_t f, size_t n, const uint16_t words[32], const uint8_t owners[static 64], uint8_t record[9],
                  const uint8_t *arrivals, size_t count, uint8_t answer[9], size_t times);
size_t twin_report(const uint8_t *s, size_t size, uint8_t page[2048]);

// A second set: one walk over the frame for a client, where those above try every start and every length.
size_t twin_walk_figures(size_t f, size_t n, const uint16_t words[32], const uint8_t owners[static 64], size_t client,
                         size_t figure[2]);
size_t twin_walk_judge(size_t f, size_t n, const uint16_t words[32], const uint8_t owners[static 64], size_t found[4]);
size_t twin_walk_search(size_t f, size_t n, const uint16_t words[32], uint8_t owners[64]);

#endif
