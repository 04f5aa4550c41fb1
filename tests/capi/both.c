// Calls every function of include/gwelathur.h once, in words that are C11, C17 and C++17 alike, so that the header is
// tried in each. The plan is that of examples/scribing.plan; the replies are document 01's, worked out by hand.
#include <stddef.h>
#include <stdint.h>
#include <stdio.h>
#include <string.h>

#include "gwelathur.h"

static const uint8_t plan[] = {1, 8, 2, 2, 1, 0, 1, 0, 2, 0, 2, 0, 1, 2, 2, 0, 1,
                               0, 4, 0, 3, 0, 1, 3, 1, 1, 1, 2, 0, 1, 0, 2, 9};
static const uint8_t found[] = {3, 0, 1, 1, 2, 0, 1, 1, 2, 9};
static const char report[] = "client slots scaled wait verdict\n1 4 12 5 late\n2 2 6 7 ok\nrefused 1 late\n";
static const char homing[] = "1 5\n2 7\n";

static int differences;

// Says which call did not give what it should.
static void expect(int as_it_should, const char *call)
{
    if (!as_it_should) {
        printf("%s differs\n", call);
        differences++;
    }
}

// Reading, figures, waits and verdicts.
static void ask(void)
{
    size_t one = 9, two = 9;
    expect(gwelathur_read(plan, sizeof plan, &one) == 0 && one == 0, "gwelathur_read");
    expect(gwelathur_figures(plan, sizeof plan, 1, &one, &two) == 0 && one == 4 && two == 12, "gwelathur_figures");
    expect(gwelathur_wait(plan, sizeof plan, 1, 3, &one) == 0 && one == 9, "gwelathur_wait");
    expect(gwelathur_default_wait(plan, sizeof plan, 1, &one) == 0 && one == 5, "gwelathur_default_wait");
    expect(gwelathur_verdict(plan, sizeof plan, 2, &one) == 0 && one == GWELATHUR_OK, "gwelathur_verdict");
}

// Judging, searching, writing.
static void judge(void)
{
    uint8_t out[GWELATHUR_LONGEST];
    size_t client, verdict, start, length;
    expect(gwelathur_judge(plan, sizeof plan, &client, &verdict, &start, &length) == 0 && client == 1 &&
               verdict == GWELATHUR_LATE && start == 3 && length == 5, "gwelathur_judge");
    expect(gwelathur_search(plan, sizeof plan, out, &length) == 0 && length == sizeof plan &&
               memcmp(out, plan, 23) == 0 && memcmp(out + 23, found, sizeof found) == 0, "gwelathur_search");
    expect(gwelathur_write(plan, sizeof plan, out, sizeof out, &length) == 0 && length == sizeof plan &&
               memcmp(out, plan, sizeof plan) == 0, "gwelathur_write");
}

// The arbiter's step: document 01's example 13.
static void step(void)
{
    static const uint8_t next[GWELATHUR_RECORD] = {1, 254}, served[GWELATHUR_RECORD] = {1, 1}, arrivals[] = {1, 0};
    uint8_t record[GWELATHUR_RECORD] = {0, 255}, answer[GWELATHUR_RECORD];
    expect(gwelathur_step(plan, sizeof plan, record, arrivals, sizeof arrivals, answer) == 0 &&
               memcmp(record, next, sizeof next) == 0 && memcmp(answer, served, sizeof served) == 0, "gwelathur_step");
}

// The texts.
static void list(void)
{
    uint8_t page[GWELATHUR_PAGE];
    expect(gwelathur_report(plan, sizeof plan, page) == strlen(report) && memcmp(page, report, strlen(report)) == 0,
           "gwelathur_report");
    expect(gwelathur_homing(plan, sizeof plan, page) == strlen(homing) && memcmp(page, homing, strlen(homing)) == 0,
           "gwelathur_homing");
}

int main(void)
{
    ask();
    judge();
    step();
    list();
    return differences != 0;
}
