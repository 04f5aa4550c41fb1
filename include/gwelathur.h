/*
 * Gwelathur for C callers: one backplane link that up to eight drives share by time slots.
 *
 * A plan is handed in as the bytes of its plan file, `plan` and `size`. docs/FORMAT.md describes the file,
 * docs/RULES.md what slots, latencies, waits and verdicts are. Every function takes any bytes and any numbers. All but
 * the two that write text return 0, or the number of the first refusal that applies; those of reading the plan come
 * first:
 *
 *      1  the file ends where a kind byte is due, or inside a body     10  an owner exceeds n
 *      2  the kind byte is reserved                                    11  a place past f is not 255
 *      3  the kind is known but not due here                           12  the lent output is shorter than the file
 *      4  bytes follow the end record                                  13  the client asked about is not 1 to n
 *      5  f is not 1 to 64                                             14  that client owns no slot
 *      6  n is not 1 to 8                                              15  the waiting number is not 1 to 255
 *      7  a client number is not the next one                          16  search with f > 8 or n > 4
 *      8  p is 0, q is 0 or p > q                                      17  the arbiter's position is not below f
 *      9  b is 0                                                       18  the arrivals list does not have n entries
 *
 * After a refusal every lent number is 0, but for the offset of gwelathur_read, which says where; a lent output is
 * untouched, and an arbiter's record is unchanged. 0 may be an answer, too, a verdict's 0 is GWELATHUR_OK: what a call
 * returns is to be looked at first.
 *
 * What a caller must see to: no pointer is null, not even one whose size is 0; the memory behind a pointer is as long
 * as the number after it (size, room, count) or its array says; and what is lent to be written to overlaps nothing else
 * that is handed in.
 *
 * The library is compiled for x86-64 alone. It has no data of its own, keeps nothing between calls and allocates
 * nothing, so any function may run at the same time in several threads and handlers. It asks for memcpy and memset. A
 * call takes some 1,100 bytes of stack at most, gwelathur_search 9,600, and 540 where it refuses. docs/C.md has the
 * numbers of each function, and the commands that measure them.
 */
#ifndef GWELATHUR_H
#define GWELATHUR_H

#include <stddef.h>
#include <stdint.h>

/* An array of at least this many bytes, which C can say in a parameter and C++ cannot. */
#ifdef __cplusplus
#define GWELATHUR_BYTES(count) count
extern "C" {
#else
#define GWELATHUR_BYTES(count) static count
#endif

/* The bytes of the longest plan file. */
#define GWELATHUR_LONGEST 156

/* The bytes of an arbiter's record, and of a step's answer. */
#define GWELATHUR_RECORD 9

/* The bytes of a page that is lent for a text; the longest text is shorter. */
#define GWELATHUR_PAGE 2048

/* What judging says of a client. */
enum { GWELATHUR_OK = 0, GWELATHUR_RATE = 1, GWELATHUR_LATE = 2 };

/*
 * Reads and checks a plan. Refuses 1 to 11. *offset: where the refused record begins in the file; where a kind byte is
 * missing, size; where bytes follow the end, the first of them; 0 where nothing is refused.
 */
size_t gwelathur_read(const uint8_t *plan, size_t size, size_t *offset);

/* A client's figures. Refuses 1 to 11, 13, 14. *slots: m, its slots in the frame; *scaled: L, its latency times m. */
size_t gwelathur_figures(const uint8_t *plan, size_t size, size_t client, size_t *slots, size_t *scaled);

/*
 * A client's wait for that many waiting requests. Refuses 1 to 11, 13, 14, 15. *wait: within how many slots, the
 * present one counted, the last of them is served.
 */
size_t gwelathur_wait(const uint8_t *plan, size_t size, size_t client, size_t waiting, size_t *wait);

/* A client's wait, asked without a number: that for one request. Refuses 1 to 11, 13, 14. *wait: as above. */
size_t gwelathur_default_wait(const uint8_t *plan, size_t size, size_t client, size_t *wait);

/*
 * Judges a plan. Refuses 1 to 11. *client: 0 where the plan is accepted, else the first client that is not ok;
 * *verdict: its verdict, GWELATHUR_OK where the plan is accepted; *start, *length: if it is late, the first stretch of
 * slots that shows it, else 0 and 0. Warning: in a refusal all four are 0, as they are where the plan is accepted.
 */
size_t gwelathur_judge(const uint8_t *plan, size_t size, size_t *client, size_t *verdict, size_t *start,
                       size_t *length);

/*
 * A client's verdict. Refuses 1 to 11, 13. *verdict: GWELATHUR_OK, GWELATHUR_RATE or GWELATHUR_LATE; a client without
 * slots lacks rate. Warning: in a refusal it is 0, which is GWELATHUR_OK.
 */
size_t gwelathur_verdict(const uint8_t *plan, size_t size, size_t client, size_t *verdict);

/*
 * Searches for the best table with the plan's frame and requirements; its owners are checked, as all of the file is,
 * and else not looked at. Refuses 1 to 11, 16. out: the first *length bytes are the file of the plan with that table,
 * all past them as before. *length: size, or 0 where no table is accepted; out is then untouched.
 */
size_t gwelathur_search(const uint8_t *plan, size_t size, uint8_t out[GWELATHUR_BYTES(GWELATHUR_LONGEST)],
                        size_t *length);

/*
 * Reads a plan and writes it back. Refuses 1 to 11, and 12 where room is less than size. out: the first *length bytes
 * are the file's own, all past them as before.
 */
size_t gwelathur_write(const uint8_t *plan, size_t size, uint8_t *out, size_t room, size_t *length);

/*
 * One step of the arbiter, one slot. Refuses 1 to 11, 17, 18. record: the position in the frame, then the pending
 * counts of clients 1 to 8; changed in place, the counts past n kept. arrivals: the requests of clients 1 to n, count
 * of them. answer: the client served, or 0, then how many requests of clients 1 to 8 were turned away; all 0 in a
 * refusal.
 */
size_t gwelathur_step(const uint8_t *plan, size_t size, uint8_t record[GWELATHUR_BYTES(GWELATHUR_RECORD)],
                      const uint8_t *arrivals, size_t count, uint8_t answer[GWELATHUR_BYTES(GWELATHUR_RECORD)]);

/*
 * The report of a plan as text, a refused read its one line. Returns the text's length, which is within the page: the
 * text is the first bytes of the page, all past it as before; no zero byte ends it.
 */
size_t gwelathur_report(const uint8_t *plan, size_t size, uint8_t page[GWELATHUR_BYTES(GWELATHUR_PAGE)]);

/* The homing listing of a plan as text, in the same way. */
size_t gwelathur_homing(const uint8_t *plan, size_t size, uint8_t page[GWELATHUR_BYTES(GWELATHUR_PAGE)]);

#undef GWELATHUR_BYTES
#ifdef __cplusplus
}
#endif

#endif
