// Measures how much stack each function of include/gwelathur.h takes: the stack below the caller is painted, the
// function called, and from the far end the bytes are sought that are no longer as painted. Prints a line a function,
// the most over the plans below; docs/C.md has them.
#include <stddef.h>
#include <stdint.h>
#include <stdio.h>

#include "gwelathur.h"

enum { PAINTED = 16384, PAINT = 0xA5 };

// The eight bytes of a client's requirements, each below 256; eight slots of one owner.
#define NEEDS(p, q, a, b) 0, p, 0, q, 0, a, 0, b
#define EIGHT(owner) 3, owner, owner, owner, owner, owner, owner, owner, owner

// f 64 and eight clients, the first with L 1,024; f 9, the last row not full; a search that comes to its last place; a
// file that is cut short.
static const uint8_t longest[] = {
    1, 64, 8, 2, 1, NEEDS(1, 2, 32, 1), 2, 2, NEEDS(1, 9, 63, 1), 2, 3, NEEDS(1, 9, 63, 1), 2, 4, NEEDS(1, 9, 63, 1),
    2, 5, NEEDS(1, 9, 63, 1), 2, 6, NEEDS(1, 9, 63, 1), 2, 7, NEEDS(1, 9, 63, 1), 2, 8, NEEDS(1, 9, 63, 1),
    EIGHT(1), EIGHT(1), EIGHT(1), EIGHT(1), EIGHT(2), EIGHT(4), EIGHT(6), EIGHT(8), 9};
static const uint8_t uneven[] = {1, 9, 1, 2, 1, NEEDS(1, 9, 8, 1), EIGHT(0), 3, 1, 255, 255, 255, 255, 255, 255, 255,
                                 9};
static const uint8_t searched[] = {1, 8, 4, 2, 1, NEEDS(1, 8, 18, 3), 2, 2, NEEDS(2, 8, 29, 6), 2, 3,
                                   NEEDS(2, 8, 7, 2), 2, 4, NEEDS(1, 8, 13, 3), 3, 1, 2, 3, 1, 4, 2, 3, 4, 9};
static const uint8_t cut[] = {1, 64, 8, 2, 1, 0};

// What is measured, in the header's order.
enum { READ, FIGURES, WAIT, DEFAULT_WAIT, JUDGE, VERDICT, SEARCH, REFUSED, WRITE, STEP, REPORT, HOMING, ROWS };
static const char *const names[ROWS] = {"read",   "figures", "wait",   "default_wait", "judge",  "verdict",
                                        "search", "search, refused", "write", "step", "report", "homing"};
static size_t most[ROWS];

// The stack pointer of paint's caller, and the far end of what was painted.
static size_t top, end;

// Paints what lies below the caller.
__attribute__((noinline)) static void paint(void)
{
    volatile uint8_t room[PAINTED];
    for (size_t i = 0; i < PAINTED; i++)
        room[i] = PAINT;
    top = (size_t)__builtin_frame_address(0) + 2 * sizeof(void *);
    end = (size_t)room;
}

// Keeps the greatest distance of a byte that is no longer as painted.
__attribute__((noinline)) static void keep(size_t row)
{
    const volatile uint8_t *at = (const volatile uint8_t *)end;
    while (*at == PAINT)
        at++;
    if (top - (size_t)at > most[row])
        most[row] = top - (size_t)at;
}

// Every function, called from here.
static void measure(const uint8_t *plan, size_t size)
{
    uint8_t out[GWELATHUR_LONGEST], record[GWELATHUR_RECORD] = {0}, answer[GWELATHUR_RECORD], page[GWELATHUR_PAGE];
    static const uint8_t arrivals[8] = {255, 255, 255, 255, 255, 255, 255, 255};
    size_t a, b, c, d;
    paint(), gwelathur_read(plan, size, &a), keep(READ);
    paint(), gwelathur_figures(plan, size, 1, &a, &b), keep(FIGURES);
    paint(), gwelathur_wait(plan, size, 1, 255, &a), keep(WAIT);
    paint(), gwelathur_default_wait(plan, size, 1, &a), keep(DEFAULT_WAIT);
    paint(), gwelathur_judge(plan, size, &a, &b, &c, &d), keep(JUDGE);
    paint(), gwelathur_verdict(plan, size, 1, &a), keep(VERDICT);
    paint(), d = gwelathur_search(plan, size, out, &a), keep(d ? REFUSED : SEARCH);
    paint(), gwelathur_write(plan, size, out, sizeof out, &a), keep(WRITE);
    paint(), gwelathur_step(plan, size, record, arrivals, plan[2], answer), keep(STEP);
    paint(), gwelathur_report(plan, size, page), keep(REPORT);
    paint(), gwelathur_homing(plan, size, page), keep(HOMING);
}

// Every function on every plan.
static void measure_all(void)
{
    measure(longest, sizeof longest);
    measure(uneven, sizeof uneven);
    measure(searched, sizeof searched);
    measure(cut, sizeof cut);
}

// Measures twice, since at the first call of memcpy and memset the dynamic linker may look for them, on this stack.
int main(void)
{
    measure_all();
    for (size_t row = 0; row < ROWS; row++)
        most[row] = 0;
    measure_all();
    for (size_t row = 0; row < ROWS; row++)
        printf("gwelathur_%s: %zu bytes\n", names[row], most[row]);
    return 0;
}
