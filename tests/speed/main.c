// Compares the library's operations with their plain C twins on random inputs, then times both side by side. It prints
// ratios, ours to the twin's, and never a time.
#include "twins.h"

#include <stdio.h>
#include <string.h>
#include <time.h>

enum { BATCH = 256, ROUNDS = 31, PLANS = 4000, STEPS = 1000, PAGE = 2048 };
enum { ROUND_TICKS = CLOCKS_PER_SEC / 250 };

size_t speed_read(const uint8_t *s, size_t size, uint16_t words[32], uint8_t owners[64], size_t sizes[3]);
size_t speed_write(size_t f, size_t n, const uint16_t words[32], const uint8_t owners[64], uint8_t out[156]);
size_t speed_check(size_t f, size_t n, const uint16_t words[32], const uint8_t owners[64]);
size_t speed_figures(size_t f, size_t n, const uint16_t words[32], const uint8_t owners[64], size_t client,
                     size_t figure[2]);
size_t speed_judge(size_t f, size_t n, const uint16_t words[32], const uint8_t owners[64], size_t found[4]);
size_t speed_search(size_t f, size_t n, const uint16_t words[32], uint8_t owners[64]);
size_t speed_step(size_t f, size_t n, const uint16_t words[32], const uint8_t owners[64], uint8_t record[9],
                  const uint8_t *arrivals, size_t count, uint8_t answer[9]);
size_t speed_steps(size_t f, size_t n, const uint16_t words[32], const uint8_t owners[64], uint8_t record[9],
                   const uint8_t *arrivals, size_t count, uint8_t answer[9], size_t times);
size_t speed_report(const uint8_t *s, size_t size, uint8_t page[PAGE]);

// One set of operations: the library's or the twins.
struct operations {
    size_t (*read)(const uint8_t *, size_t, uint16_t *, uint8_t *, size_t *);
    size_t (*write)(size_t, size_t, const uint16_t *, const uint8_t *, uint8_t *);
    size_t (*check)(size_t, size_t, const uint16_t *, const uint8_t *);
    size_t (*figures)(size_t, size_t, const uint16_t *, const uint8_t *, size_t, size_t *);
    size_t (*judge)(size_t, size_t, const uint16_t *, const uint8_t *, size_t *);
    size_t (*search)(size_t, size_t, const uint16_t *, uint8_t *);
    size_t (*step)(size_t, size_t, const uint16_t *, const uint8_t *, uint8_t *, const uint8_t *, size_t, uint8_t *);
    size_t (*steps)(size_t, size_t, const uint16_t *, const uint8_t *, uint8_t *, const uint8_t *, size_t, uint8_t *,
                    size_t);
    size_t (*report)(const uint8_t *, size_t, uint8_t *);
};

static const struct operations ours = {speed_read,   speed_write, speed_check, speed_figures, speed_judge,
                                       speed_search, speed_step,  speed_steps, speed_report};
static const struct operations twins = {twin_read,   twin_write, twin_check, twin_figures, twin_judge,
                                        twin_search, twin_step,  twin_steps, twin_report};
static const struct operations every_table = {.search = twin_every_table};
static const struct operations one_walk = {.figures = twin_walk_figures, .judge = twin_walk_judge,
                                           .search = twin_walk_search};

// What an operation is given; the arrays of the plan begin on cache lines, so that no access is split by chance.
struct input {
    _Alignas(64) uint16_t words[32];
    uint8_t owners[64], stream[160], record[9], arrivals[16];
    size_t f, n, client, size, count, times;
};

// What an operation gives back, laid out likewise.
struct output {
    _Alignas(64) uint16_t words[32];
    uint8_t owners[64], stream[156], record[9], answer[9], page[PAGE];
    size_t number, sizes[4];
};

typedef void run(const struct operations *, const struct input *, struct output *);
typedef void make(struct input *);

static uint64_t seed = 88172645463325252u;
static struct input batch[BATCH];
static struct output outputs[2];
static volatile size_t used;

// A number below the limit, by xorshift.
static size_t below(size_t limit)
{
    seed ^= seed << 13;
    seed ^= seed >> 7;
    seed ^= seed << 17;
    return (seed >> 11) % limit;
}

// Reads.
static void run_read(const struct operations *with, const struct input *in, struct output *out)
{
    out->number = with->read(in->stream, in->size, out->words, out->owners, out->sizes);
}

// Writes.
static void run_write(const struct operations *with, const struct input *in, struct output *out)
{
    out->number = with->write(in->f, in->n, in->words, in->owners, out->stream);
}

// Checks.
static void run_check(const struct operations *with, const struct input *in, struct output *out)
{
    out->number = with->check(in->f, in->n, in->words, in->owners);
}

// Asks for a client's figures.
static void run_figures(const struct operations *with, const struct input *in, struct output *out)
{
    out->number = with->figures(in->f, in->n, in->words, in->owners, in->client, out->sizes);
}

// Judges.
static void run_judge(const struct operations *with, const struct input *in, struct output *out)
{
    out->number = with->judge(in->f, in->n, in->words, in->owners, out->sizes);
}

// Searches.
static void run_search(const struct operations *with, const struct input *in, struct output *out)
{
    out->number = with->search(in->f, in->n, in->words, out->owners);
}

// Takes one step from a fresh record.
static void run_step(const struct operations *with, const struct input *in, struct output *out)
{
    memcpy(out->record, in->record, sizeof out->record);
    out->number = with->step(in->f, in->n, in->words, in->owners, out->record, in->arrivals, in->count, out->answer);
}

// Takes many steps from a fresh record.
static void run_steps(const struct operations *with, const struct input *in, struct output *out)
{
    memcpy(out->record, in->record, sizeof out->record);
    out->number = with->steps(in->f, in->n, in->words, in->owners, out->record, in->arrivals, in->count, out->answer,
                              in->times);
}

// Reports.
static void run_report(const struct operations *with, const struct input *in, struct output *out)
{
    out->number = with->report(in->stream, in->size, out->page);
}

// Makes a random valid plan with its stream, an arbiter's record and arrivals; places past f and n hold anything.
static void make_plan(struct input *in, size_t f, size_t n)
{
    in->f = f;
    in->n = n;
    for (size_t i = 0; i < 32; i += 4) {
        size_t most = below(2) ? 65535 : 12;
        in->words[i + 1] = (uint16_t)(1 + below(most));
        in->words[i] = (uint16_t)(1 + below(in->words[i + 1]));
        in->words[i + 2] = (uint16_t)below(most + 1);
        in->words[i + 3] = (uint16_t)(1 + below(most));
    }
    for (size_t i = 0; i < 64; i++)
        in->owners[i] = (uint8_t)below(i < f ? n + 1 : 256);
    size_t most = below(2) ? 256 : 3;
    for (size_t i = 0; i < 16; i++)
        in->arrivals[i] = (uint8_t)below(most);
    for (size_t i = 0; i < 9; i++)
        in->record[i] = (uint8_t)below(i ? 256 : f);
    in->client = 1 + below(n);
    in->count = n;
    in->times = STEPS;
    in->size = twin_write(f, n, in->words, in->owners, in->stream);
}

// Makes a random valid plan in which every client owns a slot.
static void make_owned(struct input *in, size_t f, size_t n)
{
    size_t owning;
    do {
        make_plan(in, f, n);
        owning = 0;
        for (size_t client = 1; client <= n; client++) {
            size_t figure[2];
            owning += twin_figures(f, n, in->words, in->owners, client, figure) == 0;
        }
    } while (owning < n);
}

// Asks of each client that owns a slot just what the table gives it.
static void suit(struct input *in)
{
    for (size_t i = 0; i < in->n; i++) {
        uint16_t *need = in->words + 4 * i;
        size_t figure[2];
        if (twin_figures(in->f, in->n, in->words, in->owners, i + 1, figure) == 0) {
            need[0] = need[3] = (uint16_t)figure[0];
            need[1] = (uint16_t)in->f;
            need[2] = (uint16_t)figure[1];
        }
    }
    in->size = twin_write(in->f, in->n, in->words, in->owners, in->stream);
}

// Makes a plan of any size.
static void make_mixed(struct input *in)
{
    size_t f = 1 + below(64);
    make_plan(in, f, 1 + below(8));
}

// Makes a plan of the greatest size.
static void make_full(struct input *in)
{
    make_owned(in, 64, 8);
}

// Makes a plan of 64 slots and two clients.
static void make_two(struct input *in)
{
    make_owned(in, 64, 2);
}

// Makes a plan of eight slots and two clients.
static void make_short(struct input *in)
{
    make_owned(in, 8, 2);
}

// Makes a plan of the greatest size that is accepted.
static void make_accepted(struct input *in)
{
    make_full(in);
    suit(in);
}

// Makes a plan of the greatest size in which the last client alone is late.
static void make_late(struct input *in)
{
    make_accepted(in);
    in->words[30]--;
}

// Damages a stream in one place.
static void damage(struct input *in)
{
    size_t at = below(in->size), kind = below(5);
    if (kind == 0) {
        in->size = at;
    } else if (kind == 1) {
        in->stream[in->size++] = (uint8_t)below(16);
    } else if (kind == 2) {
        in->size--;
        memmove(in->stream + at, in->stream + at + 1, in->size - at);
    } else {
        in->stream[at] = (uint8_t)below(kind == 3 ? 256 : 12);
    }
}

// Makes a damaged stream of any size.
static void make_damaged(struct input *in)
{
    uint16_t words[32];
    uint8_t owners[64];
    size_t sizes[3];
    do {
        make_mixed(in);
        damage(in);
    } while (twin_read(in->stream, in->size, words, owners, sizes) == 0);
}

// Makes the search for four clients at f 8 with these requirements.
static void make_search(struct input *in, const uint16_t words[16])
{
    make_plan(in, 8, 4);
    memcpy(in->words, words, 16 * sizeof *words);
}

// Makes the hardest search without an answer among 60,000 random ones that the needs at the root do not settle.
static void make_none(struct input *in)
{
    make_search(in, (const uint16_t[16]){1, 8, 35, 5, 1, 8, 5, 2, 2, 8, 11, 3, 1, 8, 3, 1});
}

// Makes a search in which each client is content with any one slot.
static void make_easy(struct input *in)
{
    make_search(in, (const uint16_t[16]){1, 8, 7, 1, 1, 8, 7, 1, 1, 8, 7, 1, 1, 8, 7, 1});
}

// Makes the hardest search whose answer owns all eight slots among 60,000 random ones: 1 2 3 1 4 2 3 4.
static void make_all(struct input *in)
{
    make_search(in, (const uint16_t[16]){1, 8, 18, 3, 2, 8, 29, 6, 2, 8, 7, 2, 1, 8, 13, 3});
}

// Spoils one or two numbers of an input.
static void spoil(struct input *in)
{
    static const size_t wild[] = {0, 9, 65, 255, 256, 257, (size_t)1 << 32 | 1, (size_t)1 << 63, ~(size_t)0};
    for (size_t i = below(2) + 1; i > 0; i--) {
        size_t value = wild[below(sizeof wild / sizeof *wild)];
        switch (below(9)) {
        case 0: in->f = value; break;
        case 1: in->n = value; break;
        case 2: in->words[4 * below(8)] = 0; break;
        case 3: in->words[4 * below(8) + 1] = (uint16_t)below(3); break;
        case 4: in->words[4 * below(8) + 3] = 0; break;
        case 5: in->owners[below(64)] = (uint8_t)(in->n + below(3)); break;
        case 6: in->client = value; break;
        case 7: in->record[0] = (uint8_t)(in->f + below(3)); break;
        default: in->count = below(10);
        }
    }
}

// Whether two sets of operations give the same for this input.
static int same(const char *name, run *operation, const struct operations *other, const struct input *in)
{
    memset(outputs, 0xA5, sizeof outputs);
    operation(&ours, in, &outputs[0]);
    operation(other, in, &outputs[1]);
    if (memcmp(&outputs[0], &outputs[1], sizeof outputs[0]) == 0)
        return 1;
    printf("%s differs: f %zu, n %zu, client %zu, size %zu; ours %zu, the twin's %zu\n", name, in->f, in->n, in->client,
           in->size, outputs[0].number, outputs[1].number);
    return 0;
}

// Whether all operations give the same for this input, the search left out.
static int all_same(const struct input *in)
{
    return same("read", run_read, &twins, in) && same("write", run_write, &twins, in) &&
           same("check", run_check, &twins, in) && same("figures", run_figures, &twins, in) &&
           same("judge", run_judge, &twins, in) && same("step", run_step, &twins, in) &&
           same("steps", run_steps, &twins, in) && same("report", run_report, &twins, in) &&
           same("figures in one walk", run_figures, &one_walk, in) &&
           same("judge in one walk", run_judge, &one_walk, in);
}

// Whether the searches that fill trees give the same for this input.
static int searches_same(const struct input *in)
{
    return same("search", run_search, &twins, in) && same("search in one walk", run_search, &one_walk, in);
}

// Whether a random plan of this size is treated the same: as it is, asked just what it gives, late, damaged, spoiled.
static int same_plan(size_t f, size_t n)
{
    struct input in;
    make_plan(&in, f, n);
    in.times = below(600);
    if (!all_same(&in))
        return 0;
    suit(&in);
    if (!all_same(&in))
        return 0;
    uint16_t *latency = &in.words[4 * below(n) + 2];
    *latency = (uint16_t)(*latency - (*latency > 0));
    if (!all_same(&in))
        return 0;
    damage(&in);
    if (!same("read", run_read, &twins, &in) || !same("report", run_report, &twins, &in))
        return 0;
    spoil(&in);
    return all_same(&in) && searches_same(&in);
}

// Whether a random search is treated the same, by all three twins.
static int same_search(void)
{
    struct input in;
    size_t f = 1 + below(9), n = 1 + below(5);
    make_plan(&in, f, n);
    for (size_t i = 0; i < n; i++) {
        in.words[4 * i + 1] = (uint16_t)(1 + below(10));
        in.words[4 * i] = 1;
        in.words[4 * i + 2] = (uint16_t)below(20);
        in.words[4 * i + 3] = (uint16_t)(1 + below(4));
    }
    return searches_same(&in) && (f * n > 12 || same("search", run_search, &every_table, &in));
}

// Whether everything is treated the same.
static int compare(void)
{
    static make *const searches[] = {make_none, make_easy, make_all};
    int equal = 1;
    for (size_t i = 0; equal && i < PLANS; i++) {
        size_t f = i % 4 ? 1 + below(64) : 64, n = i % 4 ? 1 + below(8) : 8;
        equal = same_plan(f, n) && same_search();
    }
    for (size_t i = 0; equal && i < 3; i++) {
        struct input in;
        searches[i](&in);
        equal = searches_same(&in) && same("search", run_search, &every_table, &in);
    }
    return equal;
}

// One line of the table: what is timed, on how many inputs, and the ratio of whose times.
struct row {
    const char *name;
    run *operation;
    make *inputs;
    size_t count;
    const struct operations *over, *under;
};

static const struct row rows[] = {
    {"read, valid, f 64 n 8", run_read, make_full, BATCH, &ours, &twins},
    {"read, valid, mixed", run_read, make_mixed, BATCH, &ours, &twins},
    {"read, damaged, mixed", run_read, make_damaged, BATCH, &ours, &twins},
    {"write, f 64 n 8", run_write, make_full, BATCH, &ours, &twins},
    {"plan check, f 64 n 8", run_check, make_full, BATCH, &ours, &twins},
    {"figures of one client, f 64 n 8", run_figures, make_full, BATCH, &ours, &twins},
    {"figures of one client, f 8 n 2", run_figures, make_short, BATCH, &ours, &twins},
    {"judge, accepted, f 64 n 8", run_judge, make_accepted, BATCH, &ours, &twins},
    {"judge, last client late, f 64 n 8", run_judge, make_late, BATCH, &ours, &twins},
    {"search, f 8 n 4, none", run_search, make_none, 1, &ours, &twins},
    {"search, f 8 n 4, easy", run_search, make_easy, 1, &ours, &twins},
    {"search, f 8 n 4, all slots needed", run_search, make_all, 1, &ours, &twins},
    {"step, plan checked, f 64 n 8", run_step, make_full, BATCH, &ours, &twins},
    {"inner step, f 64 n 8", run_steps, make_full, BATCH, &ours, &twins},
    {"inner step, f 64 n 2", run_steps, make_two, BATCH, &ours, &twins},
    {"report, f 64 n 8", run_report, make_full, BATCH, &ours, &twins},
    {"report, accepted, f 64 n 8", run_report, make_accepted, BATCH, &ours, &twins},
    {"report, f 8 n 2", run_report, make_short, BATCH, &ours, &twins},
    {"every table / our search, none", run_search, make_none, 1, &every_table, &ours},
    {"every table / our search, easy", run_search, make_easy, 1, &every_table, &ours},
    {"every table / our search, all slots needed", run_search, make_all, 1, &every_table, &ours},
    {"figures / one walk, f 64 n 8", run_figures, make_full, BATCH, &ours, &one_walk},
    {"judge / one walk, accepted, f 64 n 8", run_judge, make_accepted, BATCH, &ours, &one_walk},
    {"judge / one walk, last late, f 64 n 8", run_judge, make_late, BATCH, &ours, &one_walk},
    {"search / one walk, none", run_search, make_none, 1, &ours, &one_walk},
    {"search / one walk, easy", run_search, make_easy, 1, &ours, &one_walk},
    {"search / one walk, all slots needed", run_search, make_all, 1, &ours, &one_walk},
};

// The ticks that so many repeats over the batch take.
static clock_t ticks(const struct row *row, const struct operations *with, size_t repeats)
{
    size_t sum = 0;
    clock_t start = clock();
    for (size_t r = 0; r < repeats; r++) {
        for (size_t i = 0; i < row->count; i++) {
            row->operation(with, &batch[i], &outputs[0]);
            sum += outputs[0].number;
        }
    }
    clock_t end = clock();
    used = sum;
    return end - start;
}

// The repeats that make a round long enough for the clock.
static size_t calibrate(const struct row *row, const struct operations *with)
{
    size_t repeats = 1;
    while (ticks(row, with, repeats) < ROUND_TICKS)
        repeats *= 2;
    return repeats;
}

// Puts a ratio where it belongs among those before it.
static void insert(double *ratios, size_t count, double ratio)
{
    size_t i = count;
    for (; i > 0 && ratios[i - 1] > ratio; i--)
        ratios[i] = ratios[i - 1];
    ratios[i] = ratio;
}

// Times one row in alternation and prints the median of the ratios, and their first and third quartile.
static void measure(const struct row *row)
{
    double ratios[ROUNDS];
    for (size_t i = 0; i < row->count; i++)
        row->inputs(&batch[i]);
    size_t over = calibrate(row, row->over), under = calibrate(row, row->under);
    for (size_t i = 0; i < ROUNDS; i++) {
        double above = (double)ticks(row, row->over, over) / (double)over;
        double beneath = (double)ticks(row, row->under, under) / (double)under;
        insert(ratios, i, above / beneath);
    }
    double median = ratios[ROUNDS / 2], first = ratios[ROUNDS / 4], third = ratios[ROUNDS - 1 - ROUNDS / 4];
    printf("%-44s%9.2f%9.2f%9.2f\n", row->name, median, first, third);
}

// Compares, then times.
int main(void)
{
    if (!compare())
        return 1;
    printf("%-44s%9s%9s%9s\n", "ours / twin", "median", "1st q.", "3rd q.");
    for (size_t i = 0; i < sizeof rows / sizeof *rows; i++)
        measure(&rows[i]);
    return 0;
}
