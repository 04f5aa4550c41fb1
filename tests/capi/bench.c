// Answers bench cases (docs/BENCH.md) through the C interface alone: reads them from standard input and writes the
// replies to standard output.
#include <stddef.h>
#include <stdint.h>
#include <stdio.h>
#include <string.h>

#include "gwelathur.h"

// The bytes of a case, and of its stream, its lent output and its arrivals at most; where the parts of a case begin.
enum { CASE = 256, STREAM = 251, OUTPUT = 200, ARRIVALS = 16 };
enum { AT_X = 1, AT_K = 3, AT_F = 5, AT_N = 7, AT_CLIENTS = 9, AT_OWNERS = 73, AT_PENDING = 137, AT_ARRIVALS = 145 };

// A plan file.
struct file {
    uint8_t at[GWELATHUR_LONGEST];
    size_t size;
};

// The lesser of two numbers.
static size_t least(size_t one, size_t other)
{
    return one < other ? one : other;
}

// A number of two bytes, the high byte first.
static size_t two(const uint8_t *at)
{
    return (size_t)at[0] << 8 | at[1];
}

// The plan of a case as a plan file; the head alone where f or n is refused.
static struct file encode(const uint8_t *given, const uint8_t *owners)
{
    size_t f = two(given + AT_F), n = two(given + AT_N);
    struct file file = {{1, (uint8_t)least(f, 255), (uint8_t)least(n, 255)}, 3};
    if (f < 1 || f > 64 || n < 1 || n > 8)
        return file;
    for (size_t client = 0; client < n; client++) {
        file.at[file.size++] = 2;
        file.at[file.size++] = (uint8_t)(client + 1);
        memcpy(file.at + file.size, given + AT_CLIENTS + 8 * client, 8);
        file.size += 8;
    }
    for (size_t slot = 0; slot < (f + 7) / 8 * 8; slot++) {
        if (slot % 8 == 0)
            file.at[file.size++] = 3;
        file.at[file.size++] = slot < f ? owners[slot] : 255;
    }
    file.at[file.size++] = 9;
    return file;
}

// Writes numbers, each after a space.
static void put_bytes(const uint8_t *bytes, size_t count)
{
    for (size_t i = 0; i < count; i++)
        printf(" %u", (unsigned)bytes[i]);
}

// The owner of a slot in a good plan file.
static uint8_t owner(const uint8_t *file, size_t slot)
{
    return file[3 + 10 * (size_t)file[2] + 9 * (slot / 8) + 1 + slot % 8];
}

// Op 1: the plan of a stream, decoded from what is written back, or the refusal and its offset.
static void put_read(const uint8_t *stream, size_t size)
{
    uint8_t out[GWELATHUR_LONGEST];
    size_t offset, length;
    size_t refusal = gwelathur_read(stream, size, &offset);
    if (refusal == 0)
        refusal = gwelathur_write(stream, size, out, sizeof out, &length);
    if (refusal != 0) {
        printf("refusal %zu at %zu\n", refusal, offset);
        return;
    }
    printf("plan %u %u", (unsigned)out[1], (unsigned)out[2]);
    for (size_t client = 0; client < out[2]; client++)
        for (size_t part = 0; part < 8; part += 2)
            printf(" %zu", two(out + 3 + 10 * client + 2 + part));
    for (size_t slot = 0; slot < out[1]; slot++)
        printf(" %u", (unsigned)owner(out, slot));
    printf("\n");
}

// Op 2: writing into a lent output of x bytes, 200 at most.
static void put_written(const struct file *plan, size_t x)
{
    uint8_t out[OUTPUT];
    size_t length;
    memset(out, 170, sizeof out);
    size_t refusal = gwelathur_write(plan->at, plan->size, out, least(x, OUTPUT), &length);
    if (refusal == 0)
        printf("ok");
    else
        printf("refusal %zu", refusal);
    put_bytes(out, least(x, OUTPUT));
    printf("\n");
}

// Op 3: the figures of client x.
static void put_figures(const struct file *plan, size_t x)
{
    size_t slots, scaled;
    size_t refusal = gwelathur_figures(plan->at, plan->size, x, &slots, &scaled);
    if (refusal == 0)
        printf("%zu %zu\n", slots, scaled);
    else
        printf("refusal %zu\n", refusal);
}

// Ops 4 and 5: a wait.
static void put_wait(size_t refusal, size_t wait)
{
    if (refusal == 0)
        printf("%zu\n", wait);
    else
        printf("refusal %zu\n", refusal);
}

// Whether the verdicts of clients 1 to n agree with judging: ok up to the named client, and there the named verdict.
static int agrees(const struct file *plan, size_t refusal, size_t client, size_t verdict)
{
    size_t n = least(plan->at[2], 8);
    size_t last = client == 0 ? n : client;
    for (size_t i = 1; i <= n; i++) {
        size_t found;
        if (gwelathur_verdict(plan->at, plan->size, i, &found) != refusal)
            return 0;
        if (i <= last && found != (i == client ? verdict : GWELATHUR_OK))
            return 0;
    }
    return verdict <= GWELATHUR_LATE && (client == 0) == (verdict == GWELATHUR_OK);
}

// Op 6: judging. Returns 1 where a client's verdict contradicts it.
static int put_judged(const struct file *plan)
{
    static const char *const words[] = {"ok", "rate", "late"};
    size_t client, verdict, start, length;
    size_t refusal = gwelathur_judge(plan->at, plan->size, &client, &verdict, &start, &length);
    if (!agrees(plan, refusal, client, verdict)) {
        fprintf(stderr, "gwelathur_verdict contradicts gwelathur_judge: refusal %zu, client %zu, verdict %zu\n",
                refusal, client, verdict);
        return 1;
    }
    if (refusal != 0)
        printf("refusal %zu\n", refusal);
    else if (client == 0)
        printf("accepted\n");
    else
        printf("%zu %s %zu %zu\n", client, words[verdict], start, length);
    return 0;
}

// Op 7: the owners of the found table.
static void put_found(const struct file *plan)
{
    uint8_t out[GWELATHUR_LONGEST];
    size_t length;
    size_t refusal = gwelathur_search(plan->at, plan->size, out, &length);
    if (refusal != 0) {
        printf("refusal %zu\n", refusal);
        return;
    }
    if (length == 0) {
        printf("none\n");
        return;
    }
    for (size_t slot = 0; slot < out[1]; slot++)
        printf(slot == 0 ? "%u" : " %u", (unsigned)owner(out, slot));
    printf("\n");
}

// Ops 8 and 9: a step. A position above 255, which is refused as 255 is, is written back as it was given.
static void put_step(const struct file *plan, const uint8_t *given)
{
    size_t x = two(given + AT_X), count = least(two(given + AT_K), ARRIVALS);
    uint8_t record[GWELATHUR_RECORD] = {(uint8_t)least(x, 255)}, answer[GWELATHUR_RECORD];
    memcpy(record + 1, given + AT_PENDING, 8);
    size_t refusal = gwelathur_step(plan->at, plan->size, record, given + AT_ARRIVALS, count, answer);
    if (refusal == 0) {
        printf("%u", (unsigned)answer[0]);
        put_bytes(answer + 1, 8);
    } else {
        printf("refusal %zu", refusal);
    }
    printf(" : %zu", x > 255 ? x : record[0]);
    put_bytes(record + 1, 8);
    printf("\n");
}

// Ops 10 and 11: the report or the homing listing of a stream.
static void put_text(int report, const uint8_t *stream, size_t size)
{
    uint8_t page[GWELATHUR_PAGE];
    size_t length = report ? gwelathur_report(stream, size, page) : gwelathur_homing(stream, size, page);
    fwrite(page, 1, length, stdout);
}

// Answers one case. Returns 1 where two replies contradict each other.
static int answer_case(const uint8_t *given)
{
    static const uint8_t idle[64];
    const uint8_t *stream = given + AT_F;
    size_t x = two(given + AT_X), k = two(given + AT_K), size = least(x, STREAM), wait, refusal;
    struct file plan = encode(given, given[0] == 7 ? idle : given + AT_OWNERS);
    switch (given[0]) {
    case 1: put_read(stream, size); break;
    case 2: put_written(&plan, x); break;
    case 3: put_figures(&plan, x); break;
    case 4:
        refusal = gwelathur_wait(plan.at, plan.size, x, k, &wait);
        put_wait(refusal, wait);
        break;
    case 5:
        refusal = gwelathur_default_wait(plan.at, plan.size, x, &wait);
        put_wait(refusal, wait);
        break;
    case 6: return put_judged(&plan);
    case 7: put_found(&plan); break;
    case 8:
    case 9: put_step(&plan, given); break;
    case 10:
    case 11: put_text(given[0] == 10, stream, size); break;
    default: printf("op?\n");
    }
    return 0;
}

// Answers the cases of standard input; a last piece shorter than a case is ignored.
int main(void)
{
    uint8_t given[CASE];
    while (fread(given, 1, sizeof given, stdin) == sizeof given)
        if (answer_case(given) != 0)
            return 1;
    return 0;
}
