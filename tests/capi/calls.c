// Calls every function of include/gwelathur.h on good and on bad input and compares each reply with the one that
// document 01 asks for. The expected replies were worked out from the document; none was taken from the library.
#include <stddef.h>
#include <stdint.h>
#include <stdio.h>
#include <string.h>

#include "gwelathur.h"

// A plan file.
struct file {
    const uint8_t *at;
    size_t size;
};

// A file by its bytes; the entries of a table; a number beyond all limits whose low half is 1.
#define BYTES(...) {(const uint8_t[]){__VA_ARGS__}, sizeof((const uint8_t[]){__VA_ARGS__})}
#define ENTRIES(table) (sizeof(table) / sizeof(table)[0])
#define VAST (((size_t)1 << (8 * sizeof(size_t) - 1)) + 1)

// Records of plan files: a client's, eight slots of one owner, eight in turn, the end; and a place past f.
#define CLIENT(number, p, q, a, b) \
    2, number, (p) >> 8, (p) & 255, (q) >> 8, (q) & 255, (a) >> 8, (a) & 255, (b) >> 8, (b) & 255
#define EIGHT(owner) 3, owner, owner, owner, owner, owner, owner, owner, owner
#define TURN 3, 1, 2, 3, 4, 5, 6, 7, 8
#define END 9
#define X 255

// The records of the report's plan in document 01, byte for byte; they begin at 0, 3, 13, 23 and 32.
#define HEAD 1, 8, 2
#define ONE 2, 1, 0, 1, 0, 2, 0, 2, 0, 1
#define TWO 2, 2, 0, 1, 0, 4, 0, 3, 0, 1
#define TABLE 3, 1, 1, 1, 2, 0, 1, 0, 2

// The report's plan, and the other good plans of examples/.
static const struct file scribing = BYTES(HEAD, ONE, TWO, TABLE, END);
static const struct file accepted = BYTES(HEAD, ONE, TWO, 3, 0, 1, 1, 2, 0, 1, 1, 2, END);
static const struct file bunches = BYTES(1, 16, 1, CLIENT(1, 1, 2, 4, 1), 3, 1, 1, 1, 1, 1, 1, 0, 0,
                                         3, 0, 0, 1, 1, 0, 0, 0, 0, END);

// The bench examples P1 to P8, P4 being P7, with requirements where document 01 leaves them open.
static const struct file p1 = BYTES(1, 6, 1, CLIENT(1, 1, 3, 4, 1), 3, 1, 1, 0, 0, 0, 0, X, X, END);
static const struct file p2 = BYTES(1, 6, 1, CLIENT(1, 1, 3, 2, 1), 3, 1, 0, 0, 1, 0, 0, X, X, END);
static const struct file p3 = BYTES(1, 1, 1, CLIENT(1, 65535, 65535, 0, 65535), 3, 1, X, X, X, X, X, X, X, END);
static const struct file p5 = BYTES(1, 21, 1, CLIENT(1, 4, 7, 345, 46), EIGHT(1), 3, 1, 1, 0, 0, 0, 1, 0, 0,
                                    3, 0, 1, 0, 0, 0, X, X, X, END);
static const struct file p6 = BYTES(1, 64, 1, CLIENT(1, 1, 64, 63, 1), 3, 1, 0, 0, 0, 0, 0, 0, 0, EIGHT(0), EIGHT(0),
                                    EIGHT(0), EIGHT(0), EIGHT(0), EIGHT(0), EIGHT(0), END);
static const struct file p7 = BYTES(1, 8, 1, CLIENT(1, 1, 2, 3, 1), 3, 1, 1, 1, 0, 0, 1, 0, 0, END);
static const struct file p8 = BYTES(1, 8, 1, CLIENT(1, 1, 2, 299, 100), 3, 1, 1, 1, 0, 0, 1, 0, 0, END);

// P5 with a little more rate or a little less latency than it has, 12/21 and 90/12.
static const struct file p5_rate = BYTES(1, 21, 1, CLIENT(1, 4001, 7000, 345, 46), EIGHT(1), 3, 1, 1, 0, 0, 0, 1, 0, 0,
                                         3, 0, 1, 0, 0, 0, X, X, X, END);
static const struct file p5_late = BYTES(1, 21, 1, CLIENT(1, 4, 7, 344, 46), EIGHT(1), 3, 1, 1, 0, 0, 0, 1, 0, 0,
                                         3, 0, 1, 0, 0, 0, X, X, X, END);

// P8 that lacks rate as well; the document's second slip, f 6 with slots 1 and 2, late by latency 3 and by latency 0.
static const struct file both = BYTES(1, 8, 1, CLIENT(1, 5, 8, 299, 100), 3, 1, 1, 1, 0, 0, 1, 0, 0, END);
static const struct file round_late = BYTES(1, 6, 1, CLIENT(1, 1, 3, 3, 1), 3, 0, 1, 1, 0, 0, 0, X, X, END);
static const struct file zero_late = BYTES(1, 6, 1, CLIENT(1, 1, 3, 0, 1), 3, 0, 1, 1, 0, 0, 0, X, X, END);

// A second client without slots, after one that is ok; after one that is late; a frame without any owner.
static const struct file slotless = BYTES(HEAD, ONE, TWO, 3, 0, 1, 1, 0, 0, 1, 1, 0, END);
static const struct file late_first = BYTES(HEAD, ONE, TWO, 3, 1, 1, 1, 0, 0, 1, 0, 0, END);
static const struct file idle = BYTES(1, 8, 1, CLIENT(1, 1, 65535, 65535, 1), EIGHT(0), END);

// The largest scaled latency, 32 consecutive slots of 64; the longest file, eight clients in turn.
static const struct file half = BYTES(1, 64, 1, CLIENT(1, 1, 2, 31, 1), EIGHT(1), EIGHT(1), EIGHT(1), EIGHT(1),
                                      EIGHT(0), EIGHT(0), EIGHT(0), EIGHT(0), END);
static const struct file longest = BYTES(
    1, 64, 8, CLIENT(1, 1, 8, 7, 1), CLIENT(2, 1, 8, 7, 1), CLIENT(3, 1, 8, 7, 1), CLIENT(4, 1, 8, 7, 1),
    CLIENT(5, 1, 8, 7, 1), CLIENT(6, 1, 8, 7, 1), CLIENT(7, 1, 8, 7, 1), CLIENT(8, 1, 8, 7, 1),
    TURN, TURN, TURN, TURN, TURN, TURN, TURN, TURN, END);

// What lent memory holds before a call; how many bytes on either side of it are looked at as well; where a step's
// answer is lent, after its record.
enum { FILL = 170, EDGE = 16, ANSWER = EDGE + GWELATHUR_RECORD + EDGE };

// The case at work, the function called and the size of its file; the calls made and the differences found so far.
static struct {
    const char *shows, *call;
    size_t size, calls, differences;
} now;

// The numbers lent to a call, from 1 on, with one at either end that no call is given; what they are to be after it.
static size_t lent[6], wanted[ENTRIES(lent)];

// The memory lent to a call, with its edges; what it is to be after it.
static uint8_t memory[EDGE + GWELATHUR_PAGE + EDGE], wanted_memory[sizeof memory];

// Begins a call: fills all that may be lent, and expects it to stay so.
static void begin(const char *call, const struct file *file)
{
    now.call = call;
    now.size = file->size;
    now.calls++;
    memset(lent, FILL, sizeof lent);
    memset(wanted, FILL, sizeof wanted);
    memset(memory, FILL, sizeof memory);
    memset(wanted_memory, FILL, sizeof wanted_memory);
}

// Says in one line what differs and where, unless nothing does.
static void expect(const char *what, long place, size_t got, size_t expected)
{
    if (got == expected)
        return;
    printf("tests/capi: %s: %s of %zu bytes: %s[%ld] is %zu, expected %zu\n", now.shows, now.call, now.size, what,
           place, got, expected);
    now.differences++;
}

// Ends a call: compares what it returned, every lent number and the lent memory up to its first difference.
static void end(size_t returned, size_t expected)
{
    size_t place = 0;
    expect("result", 0, returned, expected);
    for (size_t i = 0; i < ENTRIES(lent); i++)
        expect("lent", (long)i, lent[i], wanted[i]);
    while (place < sizeof memory - 1 && memory[place] == wanted_memory[place])
        place++;
    expect("memory", (long)place - EDGE, memory[place], wanted_memory[place]);
}

// Calls gwelathur_read.
static void try_read(const struct file *file, size_t refusal, size_t offset)
{
    begin("gwelathur_read", file);
    wanted[1] = offset;
    end(gwelathur_read(file->at, file->size, &lent[1]), refusal);
}

// Calls gwelathur_figures.
static void try_figures(const struct file *file, size_t client, size_t refusal, size_t slots, size_t scaled)
{
    begin("gwelathur_figures", file);
    wanted[1] = slots;
    wanted[2] = scaled;
    end(gwelathur_figures(file->at, file->size, client, &lent[1], &lent[2]), refusal);
}

// Calls gwelathur_wait.
static void try_wait(const struct file *file, size_t client, size_t waiting, size_t refusal, size_t wait)
{
    begin("gwelathur_wait", file);
    wanted[1] = wait;
    end(gwelathur_wait(file->at, file->size, client, waiting, &lent[1]), refusal);
}

// Calls gwelathur_default_wait.
static void try_default_wait(const struct file *file, size_t client, size_t refusal, size_t wait)
{
    begin("gwelathur_default_wait", file);
    wanted[1] = wait;
    end(gwelathur_default_wait(file->at, file->size, client, &lent[1]), refusal);
}

// What judging names: all 0 for an accepted plan and in a refusal.
struct judged {
    size_t client, verdict, start, length;
};

// Calls gwelathur_judge.
static void try_judge(const struct file *file, size_t refusal, struct judged judged)
{
    begin("gwelathur_judge", file);
    wanted[1] = judged.client;
    wanted[2] = judged.verdict;
    wanted[3] = judged.start;
    wanted[4] = judged.length;
    end(gwelathur_judge(file->at, file->size, &lent[1], &lent[2], &lent[3], &lent[4]), refusal);
}

// Calls gwelathur_verdict.
static void try_verdict(const struct file *file, size_t client, size_t refusal, size_t verdict)
{
    begin("gwelathur_verdict", file);
    wanted[1] = verdict;
    end(gwelathur_verdict(file->at, file->size, client, &lent[1]), refusal);
}

// Calls gwelathur_search; a found file of no bytes stands for none and for a refusal.
static void try_search(const struct file *file, size_t refusal, struct file found)
{
    begin("gwelathur_search", file);
    wanted[1] = found.size;
    for (size_t i = 0; i < found.size; i++)
        wanted_memory[EDGE + i] = found.at[i];
    end(gwelathur_search(file->at, file->size, memory + EDGE, &lent[1]), refusal);
}

// Calls gwelathur_write; what it writes is the file itself.
static void try_write(const struct file *file, size_t room, size_t refusal)
{
    begin("gwelathur_write", file);
    wanted[1] = refusal ? 0 : file->size;
    for (size_t i = 0; i < wanted[1]; i++)
        wanted_memory[EDGE + i] = file->at[i];
    end(gwelathur_write(file->at, file->size, memory + EDGE, room, &lent[1]), refusal);
}

// A step: the arrivals and how many are handed in, then the record before and after it, and its answer.
struct step {
    size_t count;
    uint8_t arrivals[9], before[GWELATHUR_RECORD], after[GWELATHUR_RECORD], answer[GWELATHUR_RECORD];
};

// Calls gwelathur_step.
static void try_step(const struct file *file, size_t refusal, const struct step *step)
{
    begin("gwelathur_step", file);
    memcpy(memory + EDGE, step->before, GWELATHUR_RECORD);
    memcpy(wanted_memory + EDGE, step->after, GWELATHUR_RECORD);
    memcpy(wanted_memory + ANSWER, step->answer, GWELATHUR_RECORD);
    end(gwelathur_step(file->at, file->size, memory + EDGE, step->arrivals, step->count, memory + ANSWER), refusal);
}

// Calls gwelathur_report.
static void try_report(const struct file *file, const char *text)
{
    begin("gwelathur_report", file);
    memcpy(wanted_memory + EDGE, text, strlen(text));
    end(gwelathur_report(file->at, file->size, memory + EDGE), strlen(text));
}

// Calls gwelathur_homing.
static void try_homing(const struct file *file, const char *text)
{
    begin("gwelathur_homing", file);
    memcpy(wanted_memory + EDGE, text, strlen(text));
    end(gwelathur_homing(file->at, file->size, memory + EDGE), strlen(text));
}

// The report's plan with 4,967 bytes after it.
static const uint8_t far_too_long[5000] = {HEAD, ONE, TWO, TABLE, END};

// Bad files: what each shows, its refusal number and offset.
static const struct {
    const char *shows;
    size_t refusal, offset;
    struct file file;
} bad[] = {
    {"the file ends after the head", 1, 3, BYTES(HEAD)},
    {"the file ends inside a client", 1, 3, BYTES(HEAD, 2, 1, 0, 1)},
    {"the file ends before its end record", 1, 32, BYTES(HEAD, ONE, TWO, TABLE)},
    {"kind 0 is reserved", 2, 0, BYTES(0, 8, 2, ONE, TWO, TABLE, END)},
    {"kind 4 is reserved", 2, 0, BYTES(4, 8, 2, ONE, TWO, TABLE, END)},
    {"kind 8 is reserved, where client 2 is due", 2, 13, BYTES(HEAD, ONE, 8)},
    {"kind 10 is reserved, where the end is due", 2, 32, BYTES(HEAD, ONE, TWO, TABLE, 10)},
    {"kind 16 is reserved, where the table is due", 2, 23, BYTES(HEAD, ONE, TWO, 16)},
    {"kind 255 is reserved, where the second table is due", 2, 32, BYTES(1, 9, 2, ONE, TWO, TABLE, 255)},
    {"a client is not due at the start", 3, 0, BYTES(ONE)},
    {"a table is not due at the start", 3, 0, BYTES(TABLE)},
    {"the end is not due at the start", 3, 0, BYTES(END)},
    {"a second head", 3, 3, BYTES(HEAD, HEAD, ONE, TWO, TABLE, END)},
    {"a table before client 2", 3, 13, BYTES(HEAD, ONE, TABLE, TWO, END)},
    {"a client too many", 3, 23, BYTES(HEAD, ONE, TWO, CLIENT(3, 1, 4, 3, 1), TABLE, END)},
    {"the end before the table", 3, 23, BYTES(HEAD, ONE, TWO, END)},
    {"a table too many", 3, 32, BYTES(HEAD, ONE, TWO, TABLE, TABLE, END)},
    {"a byte after the end", 4, 33, BYTES(HEAD, ONE, TWO, TABLE, END, 0)},
    {"a second end", 4, 33, BYTES(HEAD, ONE, TWO, TABLE, END, END)},
    {"more bytes after the end than the programs read", 4, 33, {far_too_long, sizeof far_too_long}},
    {"f is 0", 5, 0, BYTES(1, 0, 2, ONE, TWO, TABLE, END)},
    {"f is 65", 5, 0, BYTES(1, 65, 2, ONE, TWO, TABLE, END)},
    {"n is 0", 6, 0, BYTES(1, 8, 0, TABLE, END)},
    {"n is 9", 6, 0, BYTES(1, 8, 9, ONE, TWO, TABLE, END)},
    {"client 2 comes first", 7, 3, BYTES(HEAD, TWO, ONE, TABLE, END)},
    {"client 1 comes twice", 7, 13, BYTES(HEAD, ONE, ONE, TABLE, END)},
    {"client 0", 7, 3, BYTES(HEAD, CLIENT(0, 1, 2, 2, 1), TWO, TABLE, END)},
    {"p is 0", 8, 3, BYTES(HEAD, CLIENT(1, 0, 2, 2, 1), TWO, TABLE, END)},
    {"p and q are 0", 8, 13, BYTES(HEAD, ONE, CLIENT(2, 0, 0, 3, 1), TABLE, END)},
    {"q is 0", 8, 13, BYTES(HEAD, ONE, CLIENT(2, 1, 0, 3, 1), TABLE, END)},
    {"p exceeds q, by the high byte", 8, 3, BYTES(HEAD, CLIENT(1, 256, 255, 2, 1), TWO, TABLE, END)},
    {"p exceeds q by one", 8, 3, BYTES(HEAD, CLIENT(1, 65535, 65534, 2, 1), TWO, TABLE, END)},
    {"b is 0", 9, 3, BYTES(HEAD, CLIENT(1, 1, 2, 2, 0), TWO, TABLE, END)},
    {"a and b are 0", 9, 13, BYTES(HEAD, ONE, CLIENT(2, 1, 4, 0, 0), TABLE, END)},
    {"owner n + 1", 10, 23, BYTES(HEAD, ONE, TWO, 3, 1, 1, 1, 3, 0, 1, 0, 2, END)},
    {"owner 255 in the last slot", 10, 23, BYTES(HEAD, ONE, TWO, 3, 1, 1, 1, 2, 0, 1, 0, X, END)},
    {"owner n + 1 in the second table", 10, 32, BYTES(1, 9, 2, ONE, TWO, TABLE, 3, 3, X, X, X, X, X, X, X, END)},
    {"a place past f is 2", 11, 23, BYTES(1, 7, 2, ONE, TWO, TABLE, END)},
    {"a place past f is 0", 11, 32, BYTES(1, 9, 2, ONE, TWO, TABLE, 3, 0, 0, X, X, X, X, X, X, END)},
    {"a place past f is 254", 11, 32, BYTES(1, 9, 2, ONE, TWO, TABLE, 3, 0, X, X, X, X, X, X, 254, END)},
    {"2 before 1: a reserved kind ends the file", 2, 3, BYTES(HEAD, 255)},
    {"3 before 1: a kind not due has no body", 3, 3, BYTES(HEAD, 3)},
    {"1 before 5: the head is short and f is 0", 1, 0, BYTES(1, 0)},
    {"1 before 7: the client is short and its number wrong", 1, 3, BYTES(HEAD, 2, 2)},
    {"1 before 10: the table is short and an owner too high", 1, 23, BYTES(HEAD, ONE, TWO, 3, 3)},
    {"5 before 6: neither f nor n is good", 5, 0, BYTES(1, 65, 9)},
    {"7 before 8 and 9: nothing of the client is good", 7, 3, BYTES(HEAD, CLIENT(2, 0, 0, 0, 0), TWO, TABLE, END)},
    {"8 before 9: neither fraction is good", 8, 3, BYTES(HEAD, CLIENT(1, 3, 2, 2, 0), TWO, TABLE, END)},
    {"9 of client 1 before 8 of client 2", 9, 3, BYTES(HEAD, CLIENT(1, 1, 2, 2, 0), CLIENT(2, 0, 4, 3, 1), TABLE, END)},
    {"8 before 10: client 2 and an owner", 8, 13, BYTES(HEAD, ONE, CLIENT(2, 5, 4, 3, 1), EIGHT(3), END)},
    {"10 before 11: an owner, then a place past f", 10, 23, BYTES(1, 7, 2, ONE, TWO, 3, 3, 1, 1, 2, 0, 1, 0, 0, END)},
    {"11 before 1: a place past f, then no end", 11, 23, BYTES(1, 7, 2, ONE, TWO, TABLE)},
    {"2 before 4: two bytes in the end's place", 2, 32, BYTES(HEAD, ONE, TWO, TABLE, 0, END)},
    {"2 before 14: client 2 has no slot, no end", 2, 32, BYTES(HEAD, ONE, TWO, 3, 1, 1, 1, 0, 0, 1, 0, 0, 8)},
    {"3 before 16: f is 9 and has one table", 3, 32, BYTES(1, 9, 2, ONE, TWO, TABLE, END)},
    {"3 before 16: n is 5 with two clients", 3, 23, BYTES(1, 8, 5, ONE, TWO, TABLE, END)},
};

// The report's plan cut short, the other bytes still behind it: from which size to which, and the offset of refusal 1.
static const struct {
    const char *shows;
    size_t from, to, offset;
} cuts[] = {
    {"cut to nothing", 0, 0, 0},
    {"cut inside the head", 1, 2, 0},
    {"cut before client 1", 3, 3, 3},
    {"cut inside client 1", 4, 12, 3},
    {"cut before client 2", 13, 13, 13},
    {"cut inside client 2", 14, 22, 13},
    {"cut before the table", 23, 23, 23},
    {"cut inside the table", 24, 31, 23},
    {"cut before the end", 32, 32, 32},
};

// Pending counts past two clients, which are kept.
#define KEPT 3, 4, 5, 6, 7, 8

// Steps on a bad file: without a fault of their own, with a bad position, without arrivals, with both faults.
static const struct step refused_steps[] = {
    {2, {1, 1}, {0, 1, 2, KEPT}, {0, 1, 2, KEPT}, {0}},
    {2, {1, 1}, {255, 1, 2, KEPT}, {255, 1, 2, KEPT}, {0}},
    {0, {1, 1}, {0, 1, 2, KEPT}, {0, 1, 2, KEPT}, {0}},
    {0, {1, 1}, {255, 1, 2, KEPT}, {255, 1, 2, KEPT}, {0}},
};

// Hands a bad file to the functions that ask about a client: none, one with slots in most files, a second one.
static void refuse_clients(const struct file *file, size_t refusal)
{
    for (size_t client = 0; client <= 2; client++) {
        try_figures(file, client, refusal, 0, 0);
        try_wait(file, client, 0, refusal, 0);
        try_wait(file, client, 1, refusal, 0);
        try_default_wait(file, client, refusal, 0);
        try_verdict(file, client, refusal, 0);
    }
}

// Hands a bad file to every function: each gives the reading refusal first, whatever else is good or bad.
static void refuse(const struct file *file, size_t refusal, size_t offset)
{
    char text[32];
    snprintf(text, sizeof text, "refusal %zu at %zu\n", refusal, offset);
    try_read(file, refusal, offset);
    try_judge(file, refusal, (struct judged){0});
    try_search(file, refusal, (struct file){0});
    try_write(file, 0, refusal);
    try_write(file, GWELATHUR_PAGE, refusal);
    try_report(file, text);
    try_homing(file, text);
    refuse_clients(file, refusal);
    for (size_t i = 0; i < ENTRIES(refused_steps); i++)
        try_step(file, refusal, &refused_steps[i]);
}

// All bad files and all cuts, through every function.
static void run_bad(void)
{
    for (size_t i = 0; i < ENTRIES(bad); i++) {
        now.shows = bad[i].shows;
        refuse(&bad[i].file, bad[i].refusal, bad[i].offset);
    }
    for (size_t i = 0; i < ENTRIES(cuts); i++) {
        now.shows = cuts[i].shows;
        for (size_t size = cuts[i].from; size <= cuts[i].to; size++)
            refuse(&(struct file){scribing.at, size}, 1, cuts[i].offset);
    }
}

// Good files: all are read, and written back into any room that suffices.
static const struct {
    const char *shows;
    const struct file *file;
    size_t size;
} good[] = {
    {"the report's plan, 4 + 10 x 2 + 9 x 1", &scribing, 33},
    {"two bunches, 4 + 10 x 1 + 9 x 2", &bunches, 32},
    {"places past f, f 6", &p1, 23},
    {"the largest numbers in the shortest file", &p3, 23},
    {"places past f, f 21", &p5, 41},
    {"a frame without owners", &idle, 23},
    {"the longest file", &longest, GWELATHUR_LONGEST},
};

// The good files: read; written into no room, one byte less than the file, just its size, one more and a page.
static void run_good(void)
{
    for (size_t i = 0; i < ENTRIES(good); i++) {
        now.shows = good[i].shows;
        try_read(good[i].file, 0, 0);
        try_write(good[i].file, 0, 12);
        try_write(good[i].file, good[i].size - 1, 12);
        try_write(good[i].file, good[i].size, 0);
        try_write(good[i].file, good[i].size + 1, 0);
        try_write(good[i].file, GWELATHUR_PAGE, 0);
    }
}

// Figures: what a case shows, the plan and the client asked about; the refusal, m and L.
static const struct {
    const char *shows;
    const struct file *file;
    size_t client, refusal, slots, scaled;
} figures[] = {
    {"P1", &p1, 1, 0, 2, 8},
    {"P2", &p2, 1, 0, 2, 4},
    {"P3", &p3, 1, 0, 1, 0},
    {"P4", &p7, 1, 0, 4, 12},
    {"P5", &p5, 1, 0, 12, 90},
    {"P6", &p6, 1, 0, 1, 63},
    {"stretches go round the frame's end", &round_late, 1, 0, 2, 8},
    {"the report's client 1", &scribing, 1, 0, 4, 12},
    {"the report's client 2", &scribing, 2, 0, 2, 6},
    {"two bunches", &bunches, 1, 0, 8, 48},
    {"the largest L", &half, 1, 0, 32, 1024},
    {"the last of eight clients", &longest, 8, 0, 8, 56},
    {"client 0", &scribing, 0, 13, 0, 0},
    {"client n + 1", &scribing, 3, 13, 0, 0},
    {"client 9", &longest, 9, 13, 0, 0},
    {"client 257", &scribing, 257, 13, 0, 0},
    {"a vast client", &scribing, VAST, 13, 0, 0},
    {"a client without slots", &slotless, 2, 14, 0, 0},
    {"13 before 14, a frame without owners", &idle, 2, 13, 0, 0},
};

// Waits: what a case shows, the plan, the client and the waiting number asked about; the refusal and the wait.
static const struct {
    const char *shows;
    const struct file *file;
    size_t client, waiting, refusal, wait;
} waits[] = {
    {"P3", &p3, 1, 1, 0, 1},
    {"P3 for 255", &p3, 1, 255, 0, 255},
    {"P4", &p7, 1, 1, 0, 5},
    {"P5 for 1, (90 + 21) / 12 rounded up", &p5, 1, 1, 0, 10},
    {"P5 for 2, (90 + 42) / 12 without rest", &p5, 1, 2, 0, 11},
    {"P5 for 3, (90 + 63) / 12 rounded up", &p5, 1, 3, 0, 13},
    {"P6 for 1", &p6, 1, 1, 0, 127},
    {"P6 for 255", &p6, 1, 255, 0, 16383},
    {"the report's client 1", &scribing, 1, 1, 0, 5},
    {"the report's client 2", &scribing, 2, 1, 0, 7},
    {"the report's client 1 for 255, (12 + 2040) / 4", &scribing, 1, 255, 0, 513},
    {"the report's client 2 for 255, (6 + 2040) / 2", &scribing, 2, 255, 0, 1023},
    {"none waiting", &scribing, 1, 0, 15, 0},
    {"256 waiting", &scribing, 1, 256, 15, 0},
    {"257 waiting", &scribing, 1, 257, 15, 0},
    {"vastly many waiting", &scribing, 1, VAST, 15, 0},
    {"client 0", &scribing, 0, 1, 13, 0},
    {"client n + 1", &scribing, 3, 1, 13, 0},
    {"a vast client", &scribing, VAST, 1, 13, 0},
    {"a client without slots", &slotless, 2, 1, 14, 0},
    {"13 before 15", &scribing, 3, 0, 13, 0},
    {"13 before 14 and 15", &idle, 0, 256, 13, 0},
    {"14 before 15, none waiting", &idle, 1, 0, 14, 0},
    {"14 before 15, 256 waiting", &slotless, 2, 256, 14, 0},
};

// Default waits: what a case shows, the plan and the client asked about; the refusal and the wait.
static const struct {
    const char *shows;
    const struct file *file;
    size_t client, refusal, wait;
} default_waits[] = {
    {"P1, (8 + 6) / 2", &p1, 1, 0, 7},
    {"P2, (4 + 6) / 2", &p2, 1, 0, 5},
    {"P3", &p3, 1, 0, 1},
    {"P5, (90 + 21) / 12 rounded up", &p5, 1, 0, 10},
    {"P6, 63 + 64", &p6, 1, 0, 127},
    {"the report's client 1", &scribing, 1, 0, 5},
    {"the report's client 2", &scribing, 2, 0, 7},
    {"the last of eight clients, (56 + 64) / 8", &longest, 8, 0, 15},
    {"client 0", &scribing, 0, 13, 0},
    {"client n + 1", &scribing, 3, 13, 0},
    {"a vast client", &scribing, VAST, 13, 0},
    {"a client without slots", &slotless, 2, 14, 0},
    {"13 before 14", &idle, 2, 13, 0},
};

// The tables of figures, waits and default waits.
static void run_figures(void)
{
    for (size_t i = 0; i < ENTRIES(figures); i++) {
        now.shows = figures[i].shows;
        try_figures(figures[i].file, figures[i].client, figures[i].refusal, figures[i].slots, figures[i].scaled);
    }
    for (size_t i = 0; i < ENTRIES(waits); i++) {
        now.shows = waits[i].shows;
        try_wait(waits[i].file, waits[i].client, waits[i].waiting, waits[i].refusal, waits[i].wait);
    }
    for (size_t i = 0; i < ENTRIES(default_waits); i++) {
        now.shows = default_waits[i].shows;
        try_default_wait(default_waits[i].file, default_waits[i].client, default_waits[i].refusal,
                         default_waits[i].wait);
    }
}

// Verdicts: what a case shows, the plan and the client asked about; the refusal and the verdict.
static const struct {
    const char *shows;
    const struct file *file;
    size_t client, refusal, verdict;
} verdicts[] = {
    {"P7", &p7, 1, 0, GWELATHUR_OK},
    {"P8", &p8, 1, 0, GWELATHUR_LATE},
    {"P8, more rate required than it has", &both, 1, 0, GWELATHUR_RATE},
    {"P1 with its own rate and latency", &p1, 1, 0, GWELATHUR_OK},
    {"P2 with its own rate and latency", &p2, 1, 0, GWELATHUR_OK},
    {"P3 with rate 65535/65535 and latency 0/65535", &p3, 1, 0, GWELATHUR_OK},
    {"P5 with its own rate and latency", &p5, 1, 0, GWELATHUR_OK},
    {"P5, rate 4001/7000", &p5_rate, 1, 0, GWELATHUR_RATE},
    {"P5, latency 344/46", &p5_late, 1, 0, GWELATHUR_LATE},
    {"P6 with its own rate and latency", &p6, 1, 0, GWELATHUR_OK},
    {"the report's client 1", &scribing, 1, 0, GWELATHUR_LATE},
    {"the report's client 2", &scribing, 2, 0, GWELATHUR_OK},
    {"a client without slots", &slotless, 2, 0, GWELATHUR_RATE},
    {"a frame without owners", &idle, 1, 0, GWELATHUR_RATE},
    {"the last of eight clients", &longest, 8, 0, GWELATHUR_OK},
    {"client 0", &scribing, 0, 13, 0},
    {"client n + 1", &scribing, 3, 13, 0},
    {"client 9", &longest, 9, 13, 0},
    {"a vast client", &scribing, VAST, 13, 0},
};

// Judged plans: what a case shows, the plan, and what judging names.
static const struct {
    const char *shows;
    const struct file *file;
    struct judged judged;
} judgements[] = {
    {"P7", &p7, {0, GWELATHUR_OK, 0, 0}},
    {"P8, from the report's slots", &p8, {1, GWELATHUR_LATE, 3, 5}},
    {"P8 with too little rate: rate before late", &both, {1, GWELATHUR_RATE, 0, 0}},
    {"the report's plan", &scribing, {1, GWELATHUR_LATE, 3, 5}},
    {"the accepted example", &accepted, {0, GWELATHUR_OK, 0, 0}},
    {"two bunches: start 5 is before the worst one, 6", &bunches, {1, GWELATHUR_LATE, 5, 11}},
    {"a stretch that goes round the frame's end", &round_late, {1, GWELATHUR_LATE, 3, 4}},
    {"the first slot is late already", &zero_late, {1, GWELATHUR_LATE, 0, 1}},
    {"the second client lacks rate", &slotless, {2, GWELATHUR_RATE, 0, 0}},
    {"client 1 late before client 2 without rate", &late_first, {1, GWELATHUR_LATE, 3, 5}},
    {"a frame without owners", &idle, {1, GWELATHUR_RATE, 0, 0}},
    {"the largest L", &half, {1, GWELATHUR_LATE, 32, 32}},
    {"the longest file", &longest, {0, GWELATHUR_OK, 0, 0}},
};

// The tables of verdicts and judged plans.
static void run_judgements(void)
{
    for (size_t i = 0; i < ENTRIES(verdicts); i++) {
        now.shows = verdicts[i].shows;
        try_verdict(verdicts[i].file, verdicts[i].client, verdicts[i].refusal, verdicts[i].verdict);
    }
    for (size_t i = 0; i < ENTRIES(judgements); i++) {
        now.shows = judgements[i].shows;
        try_judge(judgements[i].file, 0, judgements[i].judged);
    }
}

// Heads of searched plans: f 3 and two clients alike; f 4 and one; f 4 and two; f 8 and one; f 8 and four alike.
#define THREE(q, a, b) 1, 3, 2, CLIENT(1, 1, q, a, b), CLIENT(2, 1, q, a, b)
#define FOUR 1, 4, 1, CLIENT(1, 1, 2, 1, 1)
#define MIXED 1, 4, 2, CLIENT(1, 1, 2, 1, 1), CLIENT(2, 1, 4, 3, 1)
#define FULL 1, 8, 1, CLIENT(1, 1, 1, 0, 1)
#define ALIKE 1, 8, 4, CLIENT(1, 1, 8, 7, 1), CLIENT(2, 1, 8, 7, 1), CLIENT(3, 1, 8, 7, 1), CLIENT(4, 1, 8, 7, 1)

// Searches: what a case shows and the refusal; the plan; the found plan, no bytes where there is none.
static const struct {
    const char *shows;
    size_t refusal;
    struct file file, found;
} searches[] = {
    {"P9", 0, BYTES(THREE(3, 2, 1), 3, 0, 0, 0, X, X, X, X, X, END),
     BYTES(THREE(3, 2, 1), 3, 0, 1, 2, X, X, X, X, X, END)},
    {"P9 with owners that are good already", 0, BYTES(THREE(3, 2, 1), 3, 2, 1, 0, X, X, X, X, X, END),
     BYTES(THREE(3, 2, 1), 3, 0, 1, 2, X, X, X, X, X, END)},
    {"P9 with one owner for all", 0, BYTES(THREE(3, 2, 1), 3, 2, 2, 2, X, X, X, X, X, END),
     BYTES(THREE(3, 2, 1), 3, 0, 1, 2, X, X, X, X, X, END)},
    {"P10", 0, BYTES(THREE(3, 3, 2), 3, 0, 1, 2, X, X, X, X, X, END), {0}},
    {"11", 0, BYTES(THREE(2, 2, 1), 3, 1, 2, 1, X, X, X, X, X, END), {0}},
    {"12", 0, BYTES(FOUR, 3, 0, 0, 0, 0, X, X, X, X, END), BYTES(FOUR, 3, 0, 1, 0, 1, X, X, X, X, END)},
    {"12 with every slot owned", 0, BYTES(FOUR, 3, 1, 1, 1, 1, X, X, X, X, END),
     BYTES(FOUR, 3, 0, 1, 0, 1, X, X, X, X, END)},
    {"12 and a second client between", 0, BYTES(MIXED, 3, 1, 2, 1, 0, X, X, X, X, END),
     BYTES(MIXED, 3, 0, 1, 2, 1, X, X, X, X, END)},
    {"every slot is needed", 0, BYTES(FULL, EIGHT(0), END), BYTES(FULL, EIGHT(1), END)},
    {"f 8 and n 4 are searched", 0, BYTES(ALIKE, EIGHT(4), END), BYTES(ALIKE, 3, 0, 0, 0, 0, 1, 2, 3, 4, END)},
    {"f 9", 16, BYTES(1, 9, 1, CLIENT(1, 1, 9, 8, 1), EIGHT(0), 3, 1, X, X, X, X, X, X, X, END), {0}},
    {"n 5", 16, BYTES(1, 8, 5, CLIENT(1, 1, 8, 7, 1), CLIENT(2, 1, 8, 7, 1), CLIENT(3, 1, 8, 7, 1),
                      CLIENT(4, 1, 8, 7, 1), CLIENT(5, 1, 8, 7, 1), 3, 0, 0, 0, 1, 2, 3, 4, 5, END), {0}},
};

// Has the file that was just found read back and judged by the interface itself, and finds it again from itself.
static void try_found(struct file expected)
{
    uint8_t copy[GWELATHUR_LONGEST];
    struct file found = {copy, expected.size};
    memcpy(copy, memory + EDGE, expected.size);
    try_read(&found, 0, 0);
    try_judge(&found, 0, (struct judged){0});
    try_search(&found, 0, expected);
}

// The table of searches.
static void run_searches(void)
{
    for (size_t i = 0; i < ENTRIES(searches); i++) {
        now.shows = searches[i].shows;
        try_search(&searches[i].file, searches[i].refusal, searches[i].found);
        if (searches[i].found.size > 0)
            try_found(searches[i].found);
    }
    now.shows = "the longest file, f 64 and n 8";
    try_search(&longest, 16, (struct file){0});
}

// Steps: what a case shows, the plan and the refusal; the step.
static const struct {
    const char *shows;
    const struct file *file;
    size_t refusal;
    struct step step;
} steps[] = {
    {"13, a full queue turns one away", &scribing, 0,
     {2, {1, 0}, {0, 255, 0, KEPT}, {1, 254, 0, KEPT}, {1, 1}}},
    {"the room freed by service is used again", &scribing, 0,
     {2, {1, 0}, {1, 254, 0, KEPT}, {2, 254, 0, KEPT}, {1, 0}}},
    {"arrivals are turned away before service", &scribing, 0,
     {2, {3, 0}, {2, 254, 0, KEPT}, {3, 254, 0, KEPT}, {1, 2}}},
    {"both queues full, each counts its own", &scribing, 0,
     {2, {10, 255}, {3, 250, 255, KEPT}, {4, 255, 254, KEPT}, {2, 5, 255}}},
    {"an idle slot serves nobody", &scribing, 0, {2, {1, 2}, {4, 5, 6, KEPT}, {5, 6, 8, KEPT}, {0}}},
    {"a request that has just come is served", &scribing, 0, {2, {1, 0}, {5, 0, 0, KEPT}, {6, 0, 0, KEPT}, {1}}},
    {"an unused slot is not handed on", &scribing, 0, {2, {0, 0}, {3, 9, 0, KEPT}, {4, 9, 0, KEPT}, {0}}},
    {"the position wraps after a service", &scribing, 0, {2, {0, 0}, {7, 1, 1, KEPT}, {0, 1, 0, KEPT}, {2}}},
    {"the position wraps in an unused slot", &scribing, 0, {2, {0, 0}, {7, 1, 0, KEPT}, {0, 1, 0, KEPT}, {0}}},
    {"a frame of one slot wraps at once", &p3, 0,
     {1, {1}, {0, 0, 255, 255, 255, 255, 255, 255, 255}, {0, 0, 255, 255, 255, 255, 255, 255, 255}, {1}}},
    {"f 64 and n 8, the position wraps", &longest, 0,
     {8, {1, 2, 3, 4, 5, 6, 7, 8}, {63, 255, 254, 253, 252, 251, 250, 249, 248},
      {0, 255, 255, 255, 255, 255, 255, 255, 254}, {8, 1, 1, 1, 1, 1, 1, 1, 1}}},
    {"position f", &scribing, 17, {2, {1, 1}, {8, 1, 1, KEPT}, {8, 1, 1, KEPT}, {0}}},
    {"position 255", &scribing, 17, {2, {1, 1}, {255, 1, 1, KEPT}, {255, 1, 1, KEPT}, {0}}},
    {"position 64 in the longest frame", &longest, 17, {8, {1}, {64, 1, 1, KEPT}, {64, 1, 1, KEPT}, {0}}},
    {"no arrivals", &scribing, 18, {0, {1, 1}, {0, 1, 1, KEPT}, {0, 1, 1, KEPT}, {0}}},
    {"n - 1 arrivals", &scribing, 18, {1, {1, 1}, {7, 1, 1, KEPT}, {7, 1, 1, KEPT}, {0}}},
    {"n + 1 arrivals", &scribing, 18, {3, {1, 1, 1}, {0, 1, 1, KEPT}, {0, 1, 1, KEPT}, {0}}},
    {"9 arrivals for 8 clients", &longest, 18, {9, {1}, {0, 1, 1, KEPT}, {0, 1, 1, KEPT}, {0}}},
    {"17 before 18", &scribing, 17, {3, {1, 1, 1}, {8, 1, 1, KEPT}, {8, 1, 1, KEPT}, {0}}},
};

// The table of steps.
static void run_steps(void)
{
    for (size_t i = 0; i < ENTRIES(steps); i++) {
        now.shows = steps[i].shows;
        try_step(steps[i].file, steps[i].refusal, &steps[i].step);
    }
}

// The first line of a report.
#define HEADER "client slots scaled wait verdict\n"

// Texts: what a case shows and the plan; its report and its homing listing.
static const struct {
    const char *shows;
    const struct file *file;
    const char *report, *homing;
} texts[] = {
    {"the report's plan", &scribing, HEADER "1 4 12 5 late\n2 2 6 7 ok\nrefused 1 late\n", "1 5\n2 7\n"},
    {"the accepted example", &accepted, HEADER "1 4 8 4 ok\n2 2 6 7 ok\naccepted\n", "1 4\n2 7\n"},
    {"two bunches", &bunches, HEADER "1 8 48 8 late\nrefused 1 late\n", "1 8\n"},
    {"a client without slots", &slotless, HEADER "1 4 8 4 ok\n2 0 - - rate\nrefused 2 rate\n", "1 4\n2 -\n"},
    {"late before rate", &late_first, HEADER "1 4 12 5 late\n2 0 - - rate\nrefused 1 late\n", "1 5\n2 -\n"},
    {"a scaled latency of 0", &p3, HEADER "1 1 0 1 ok\naccepted\n", "1 1\n"},
    {"a wait of three digits", &p6, HEADER "1 1 63 127 ok\naccepted\n", "1 127\n"},
    {"a scaled latency of four digits", &half, HEADER "1 32 1024 34 late\nrefused 1 late\n", "1 34\n"},
    {"eight clients", &longest,
     HEADER "1 8 56 15 ok\n2 8 56 15 ok\n3 8 56 15 ok\n4 8 56 15 ok\n"
            "5 8 56 15 ok\n6 8 56 15 ok\n7 8 56 15 ok\n8 8 56 15 ok\naccepted\n",
     "1 15\n2 15\n3 15\n4 15\n5 15\n6 15\n7 15\n8 15\n"},
};

// The table of texts.
static void run_texts(void)
{
    for (size_t i = 0; i < ENTRIES(texts); i++) {
        now.shows = texts[i].shows;
        try_report(texts[i].file, texts[i].report);
        try_homing(texts[i].file, texts[i].homing);
    }
}

// Runs all tables and says how many calls they made.
int main(void)
{
    run_bad();
    run_good();
    run_figures();
    run_judgements();
    run_searches();
    run_steps();
    run_texts();
    if (now.differences > 0)
        return 1;
    printf("tests/capi: %zu calls, no difference\n", now.calls);
    return 0;
}
