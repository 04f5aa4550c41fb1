// Plain C twins of the library's operations, written from document 01 and from nothing else.
#include "twins.h"

#include <string.h>

enum { HEADER = 1, CLIENT = 2, SLOTS = 3, END = 9 };
enum { OK, RATE, LATE };

// Ways to find a client's L, to judge it, and to fill its tree: by every stretch, or in one walk.
typedef size_t scale(size_t f, const uint8_t *owners, size_t client, size_t m);
typedef int judge(size_t f, const uint8_t *owners, size_t client, const uint16_t need[4], size_t stretch[2]);
typedef void fill(size_t f, const uint16_t need[4], uint8_t needs[512]);

static const uint8_t body_length[16] = {[HEADER] = 2, [CLIENT] = 9, [SLOTS] = 8, [END] = 0};

// The number of two bytes, the high byte first.
static uint16_t word_at(const uint8_t *s)
{
    return (uint16_t)(s[0] << 8 | s[1]);
}

// The refusal of a client's requirements: 8, 9, or 0.
static size_t check_client(const uint16_t need[4])
{
    if (need[0] == 0 || need[1] == 0 || need[0] > need[1])
        return 8;
    return need[3] == 0 ? 9 : 0;
}

// The refusal of all but the owners: 5, 6, then 8 and 9 client by client.
static size_t check_needs(size_t f, size_t n, const uint16_t words[32])
{
    if (f < 1 || f > 64)
        return 5;
    if (n < 1 || n > 8)
        return 6;
    for (size_t i = 0; i < n; i++) {
        size_t number = check_client(words + 4 * i);
        if (number)
            return number;
    }
    return 0;
}

// Checks a plan.
size_t twin_check(size_t f, size_t n, const uint16_t words[32], const uint8_t owners[static 64])
{
    size_t number = check_needs(f, n, words);
    if (number)
        return number;
    for (size_t i = 0; i < f; i++)
        if (owners[i] > n)
            return 10;
    return 0;
}

// The refusal of the record at this offset before its fields are looked at: 1, 2, 3, or 0.
static size_t check_record(const uint8_t *s, size_t size, size_t at, uint8_t due)
{
    if (at >= size)
        return 1;
    uint8_t kind = s[at];
    if (kind != HEADER && kind != CLIENT && kind != SLOTS && kind != END)
        return 2;
    if (kind != due)
        return 3;
    return size - at - 1 < body_length[kind] ? 1 : 0;
}

// Reads the body of a client's record.
static size_t read_client(const uint8_t *body, size_t i, uint16_t need[4])
{
    if (body[0] != i + 1)
        return 7;
    for (size_t k = 0; k < 4; k++)
        need[k] = word_at(body + 1 + 2 * k);
    return check_client(need);
}

// Reads the owners of eight slots.
static size_t read_slots(const uint8_t *body, size_t f, size_t n, size_t slot, uint8_t owners[64])
{
    for (size_t k = 0; k < 8; k++) {
        if (slot + k < f) {
            if (body[k] > n)
                return 10;
            owners[slot + k] = body[k];
        } else if (body[k] != 255) {
            return 11;
        }
    }
    return 0;
}

// Reads the header's record.
static size_t read_header(const uint8_t *s, size_t size, size_t sizes[3])
{
    size_t number = check_record(s, size, 0, HEADER);
    if (number)
        return number;
    sizes[0] = s[1];
    sizes[1] = s[2];
    if (s[1] < 1 || s[1] > 64)
        return 5;
    return s[2] < 1 || s[2] > 8 ? 6 : 0;
}

// Reads record by record into places that hold 0, and leaves in sizes[2] the offset it came to.
static size_t read_records(const uint8_t *s, size_t size, uint16_t words[32], uint8_t owners[64], size_t sizes[3])
{
    size_t *at = &sizes[2];
    size_t number = read_header(s, size, sizes);
    if (number)
        return number;
    size_t f = sizes[0], n = sizes[1];
    *at = 3;
    for (size_t i = 0; i < n; i++, *at += 10) {
        number = check_record(s, size, *at, CLIENT);
        if (!number)
            number = read_client(s + *at + 1, i, words + 4 * i);
        if (number)
            return number;
    }
    for (size_t slot = 0; slot < f; slot += 8, *at += 9) {
        number = check_record(s, size, *at, SLOTS);
        if (!number)
            number = read_slots(s + *at + 1, f, n, slot, owners);
        if (number)
            return number;
    }
    number = check_record(s, size, *at, END);
    if (number)
        return number;
    *at += 1;
    return *at < size ? 4 : 0;
}

// Reads a stream: the plan's clients and owners, and f, n and the refusal's offset.
size_t twin_read(const uint8_t *s, size_t size, uint16_t words[32], uint8_t owners[64], size_t sizes[3])
{
    memset(words, 0, 32 * sizeof *words);
    memset(owners, 0, 64);
    memset(sizes, 0, 3 * sizeof *sizes);
    size_t number = read_records(s, size, words, owners, sizes);
    if (number) {
        memset(words, 0, 32 * sizeof *words);
        memset(owners, 0, 64);
        sizes[0] = sizes[1] = 0;
    } else {
        sizes[2] = 0;
    }
    return number;
}

// Writes a client's record.
static uint8_t *write_client(uint8_t *out, size_t i, const uint16_t need[4])
{
    *out++ = CLIENT;
    *out++ = (uint8_t)(i + 1);
    for (size_t k = 0; k < 4; k++) {
        *out++ = (uint8_t)(need[k] >> 8);
        *out++ = (uint8_t)need[k];
    }
    return out;
}

// Writes a stream: its length, or 0.
size_t twin_write(size_t f, size_t n, const uint16_t words[32], const uint8_t owners[static 64], uint8_t out[156])
{
    if (twin_check(f, n, words, owners))
        return 0;
    uint8_t *end = out;
    *end++ = HEADER;
    *end++ = (uint8_t)f;
    *end++ = (uint8_t)n;
    for (size_t i = 0; i < n; i++)
        end = write_client(end, i, words + 4 * i);
    for (size_t slot = 0; slot < f; slot += 8) {
        *end++ = SLOTS;
        for (size_t k = slot; k < slot + 8; k++)
            *end++ = k < f ? owners[k] : 255;
    }
    *end++ = END;
    return (size_t)(end - out);
}

// A client's slots in the frame.
static size_t slots_of(size_t f, const uint8_t *owners, size_t client)
{
    size_t m = 0;
    for (size_t i = 0; i < f; i++)
        m += owners[i] == client;
    return m;
}

// A client's scaled latency: the largest m * j - f * w over every start and every length j below f.
static size_t scaled_of(size_t f, const uint8_t *owners, size_t client, size_t m)
{
    int most = 0;
    for (size_t start = 0; start < f; start++) {
        int w = 0;
        size_t slot = start;
        for (size_t j = 0; j < f; j++) {
            int value = (int)m * (int)j - (int)f * w;
            if (value > most)
                most = value;
            w += owners[slot] == client;
            slot = slot + 1 == f ? 0 : slot + 1;
        }
    }
    return (size_t)most;
}

// A client's m and L, L found so.
static size_t figures_with(scale *each, size_t f, size_t n, const uint16_t words[32], const uint8_t owners[static 64],
                           size_t client, size_t figure[2])
{
    figure[0] = figure[1] = 0;
    size_t number = twin_check(f, n, words, owners);
    if (number)
        return number;
    if (client < 1 || client > n)
        return 13;
    size_t m = slots_of(f, owners, client);
    if (m == 0)
        return 14;
    figure[0] = m;
    figure[1] = each(f, owners, client, m);
    return 0;
}

// A client's m and L, every stretch tried.
size_t twin_figures(size_t f, size_t n, const uint16_t words[32], const uint8_t owners[static 64], size_t client,
                    size_t figure[2])
{
    return figures_with(scaled_of, f, n, words, owners, client, figure);
}

// Whether a client with m slots has enough rate.
static int has_rate(size_t f, size_t m, const uint16_t need[4])
{
    return m * need[1] >= need[0] * f;
}

// Judges one client: its verdict, and the first stretch that shows it late.
static int judge_client(size_t f, const uint8_t *owners, size_t client, const uint16_t need[4], size_t stretch[2])
{
    size_t m = slots_of(f, owners, client);
    if (!has_rate(f, m, need))
        return RATE;
    int b = need[3], limit = need[2] * (int)m;
    for (size_t start = 0; start < f; start++) {
        int w = 0;
        size_t slot = start;
        for (size_t j = 0; j < f; j++) {
            if (((int)m * (int)j - (int)f * w) * b > limit) {
                stretch[0] = start;
                stretch[1] = j;
                return LATE;
            }
            w += owners[slot] == client;
            slot = slot + 1 == f ? 0 : slot + 1;
        }
    }
    return OK;
}

// Whether a client is ok, every stretch tried.
static int is_ok(size_t f, const uint8_t *owners, size_t client, const uint16_t need[4])
{
    size_t stretch[2];
    return judge_client(f, owners, client, need, stretch) == OK;
}

// Judges a plan, each client so: client, verdict (0 ok, 1 rate, 2 late), start, length.
static size_t judge_with(judge *each, size_t f, size_t n, const uint16_t words[32], const uint8_t owners[static 64],
                         size_t found[4])
{
    memset(found, 0, 4 * sizeof *found);
    size_t number = twin_check(f, n, words, owners);
    if (number)
        return number;
    for (size_t i = 0; i < n; i++) {
        int verdict = each(f, owners, i + 1, words + 4 * i, found + 2);
        if (verdict != OK) {
            found[0] = i + 1;
            found[1] = (size_t)verdict;
            return 0;
        }
    }
    return 0;
}

// Judges a plan, every stretch tried.
size_t twin_judge(size_t f, size_t n, const uint16_t words[32], const uint8_t owners[static 64], size_t found[4])
{
    return judge_with(judge_client, f, n, words, owners, found);
}

// A search: each client's tree of needs, the table so far, and the best table found.
struct search {
    size_t f, n, fewest;
    uint8_t needs[4][512];
    uint8_t table[8];
    uint8_t *best;
};

// Fills a client's tree above its leaves: how many more slots it needs.
static void fill_above(size_t sets, uint8_t needs[512])
{
    for (size_t x = sets - 1; x > 0; x--) {
        uint8_t without = needs[2 * x], with = (uint8_t)(needs[2 * x + 1] + 1);
        needs[x] = without < with ? without : with;
    }
}

// Fills a client's tree: at the leaves 0 where that whole set of slots is ok, every stretch of it tried.
static void fill_needs(size_t f, const uint16_t need[4], uint8_t needs[512])
{
    size_t sets = (size_t)1 << f;
    for (size_t set = 0; set < sets; set++) {
        uint8_t owned[8];
        for (size_t i = 0; i < f; i++)
            owned[i] = set >> (f - 1 - i) & 1;
        needs[sets + set] = is_ok(f, owned, 1, need) ? 0 : 9;
    }
    fill_above(sets, needs);
}

// Goes through the tables below this branch in dictionary order; node[c] is where client c + 1 stands in its tree.
static void explore(struct search *search, size_t slot, size_t given, const size_t node[4])
{
    size_t more = 0;
    for (size_t c = 0; c < search->n; c++)
        more += search->needs[c][node[c]];
    if (more > search->f - slot || given + more >= search->fewest)
        return;
    if (slot == search->f) {
        search->fewest = given;
        memcpy(search->best, search->table, search->f);
        return;
    }
    for (size_t owner = 0; owner <= search->n; owner++) {
        size_t next[4];
        for (size_t c = 0; c < search->n; c++)
            next[c] = 2 * node[c] + (c + 1 == owner);
        search->table[slot] = (uint8_t)owner;
        explore(search, slot + 1, given + (owner > 0), next);
    }
}

// The refusal of a search: that of the requirements, then 16.
static size_t check_search(size_t f, size_t n, const uint16_t words[32])
{
    size_t number = check_needs(f, n, words);
    if (number)
        return number;
    return f > 8 || n > 4 ? 16 : 0;
}

// Searches, each tree filled so: 0 where a table is found, 1 for none, else the refusal's number, which is above 1.
static size_t search_with(fill *each, size_t f, size_t n, const uint16_t words[32], uint8_t owners[64])
{
    memset(owners, 0, 64);
    size_t number = check_search(f, n, words);
    if (number)
        return number;
    struct search search;
    search.f = f;
    search.n = n;
    search.fewest = f + 1;
    search.best = owners;
    for (size_t c = 0; c < n; c++)
        each(f, words + 4 * c, search.needs[c]);
    explore(&search, 0, 0, (const size_t[4]){1, 1, 1, 1});
    return search.fewest > f;
}

// Searches, every stretch of every set of slots tried.
size_t twin_search(size_t f, size_t n, const uint16_t words[32], uint8_t owners[64])
{
    return search_with(fill_needs, f, n, words, owners);
}

// Moves on to the next table in dictionary order; 0 after the last.
static int next_table(size_t f, size_t n, uint8_t table[8])
{
    for (size_t i = f; i > 0; i--) {
        if (table[i - 1] < n) {
            table[i - 1]++;
            return 1;
        }
        table[i - 1] = 0;
    }
    return 0;
}

// Whether every client is ok.
static int accepted(size_t f, size_t n, const uint16_t words[32], const uint8_t *owners)
{
    for (size_t i = 0; i < n; i++)
        if (!is_ok(f, owners, i + 1, words + 4 * i))
            return 0;
    return 1;
}

// Searches by judging every table there is; answers as twin_search does.
size_t twin_every_table(size_t f, size_t n, const uint16_t words[32], uint8_t owners[64])
{
    memset(owners, 0, 64);
    size_t number = check_search(f, n, words);
    if (number)
        return number;
    uint8_t table[8] = {0};
    size_t fewest = f + 1;
    do {
        if (accepted(f, n, words, table) && f - slots_of(f, table, 0) < fewest) {
            fewest = f - slots_of(f, table, 0);
            memcpy(owners, table, f);
        }
    } while (next_table(f, n, table));
    return fewest > f;
}

// The refusal of a step: the plan's, then 17 and 18.
static size_t check_step(size_t f, size_t n, const uint16_t words[32], const uint8_t owners[static 64], size_t position,
                         size_t count)
{
    size_t number = twin_check(f, n, words, owners);
    if (number)
        return number;
    if (position >= f)
        return 17;
    return count != n ? 18 : 0;
}

// One slot of an arbiter that is known to be in order.
static void advance(size_t f, size_t n, const uint8_t owners[static 64], uint8_t record[9], const uint8_t *arrivals,
                    uint8_t answer[9])
{
    uint8_t *pending = record + 1, *turned = answer + 1;
    memset(answer, 0, 9);
    for (size_t i = 0; i < n; i++) {
        int room = 255 - pending[i];
        int taken = arrivals[i] < room ? arrivals[i] : room;
        pending[i] = (uint8_t)(pending[i] + taken);
        turned[i] = (uint8_t)(arrivals[i] - taken);
    }
    uint8_t owner = owners[record[0]];
    if (owner > 0 && pending[owner - 1] > 0) {
        pending[owner - 1]--;
        answer[0] = owner;
    }
    record[0] = record[0] + 1u == f ? 0 : (uint8_t)(record[0] + 1);
}

// One step, the plan checked: the answer is the client served and eight turned-away counts.
size_t twin_step(size_t f, size_t n, const uint16_t words[32], const uint8_t owners[static 64], uint8_t record[9],
                 const uint8_t *arrivals, size_t count, uint8_t answer[9])
{
    size_t number = check_step(f, n, words, owners, record[0], count);
    if (number) {
        memset(answer, 0, 9);
        return number;
    }
    advance(f, n, owners, record, arrivals, answer);
    return 0;
}

// The plan checked once, then this many steps, at least one, with the same arrivals: the last step's answer.
size_t twin_steps(size_t f, size_t n, const uint16_t words[32], const uint8_t owners[static 64], uint8_t record[9],
                  const uint8_t *arrivals, size_t count, uint8_t answer[9], size_t times)
{
    size_t number = check_step(f, n, words, owners, record[0], count);
    if (number)
        return number;
    advance(f, n, owners, record, arrivals, answer);
    for (size_t i = 1; i < times; i++)
        advance(f, n, owners, record, arrivals, answer);
    return 0;
}

// Puts a text at the end of the page.
static uint8_t *put_text(uint8_t *end, const char *text)
{
    while (*text)
        *end++ = (uint8_t)*text++;
    return end;
}

// Puts a number in decimal at the end of the page.
static uint8_t *put_number(uint8_t *end, size_t number)
{
    if (number >= 10)
        end = put_number(end, number / 10);
    *end++ = (uint8_t)('0' + number % 10);
    return end;
}

// Puts a space and a number.
static uint8_t *put_field(uint8_t *end, size_t number)
{
    *end++ = ' ';
    return put_number(end, number);
}

// Puts a client's line, and leaves its verdict.
static uint8_t *put_client(uint8_t *end, size_t f, const uint8_t owners[static 64], size_t client,
                           const uint16_t need[4], int *verdict)
{
    static const char *const closings[] = {" ok\n", " rate\n", " late\n"};
    size_t m = slots_of(f, owners, client);
    end = put_field(put_number(end, client), m);
    *verdict = RATE;
    if (m == 0) {
        end = put_text(end, " - -");
    } else {
        size_t scaled = scaled_of(f, owners, client, m);
        end = put_field(put_field(end, scaled), (scaled + f + m - 1) / m);
        if (has_rate(f, m, need))
            *verdict = scaled * need[3] > need[2] * m ? LATE : OK;
    }
    return put_text(end, closings[*verdict]);
}

// Puts the lines of a plan.
static uint8_t *put_plan(uint8_t *end, size_t f, size_t n, const uint16_t words[32], const uint8_t owners[static 64])
{
    size_t failing = 0;
    int fault = OK;
    end = put_text(end, "client slots scaled wait verdict\n");
    for (size_t i = 0; i < n; i++) {
        int verdict;
        end = put_client(end, f, owners, i + 1, words + 4 * i, &verdict);
        if (fault == OK && verdict != OK) {
            failing = i + 1;
            fault = verdict;
        }
    }
    if (fault == OK)
        return put_text(end, "accepted\n");
    end = put_field(put_text(end, "refused"), failing);
    return put_text(end, fault == RATE ? " rate\n" : " late\n");
}

// The report of a stream: the text's length.
size_t twin_report(const uint8_t *s, size_t size, uint8_t page[2048])
{
    uint16_t words[32];
    uint8_t owners[64], *end;
    size_t sizes[3];
    size_t number = twin_read(s, size, words, owners, sizes);
    if (number) {
        end = put_field(put_text(page, "refusal"), number);
        end = put_text(put_field(put_text(end, " at"), sizes[2]), "\n");
    } else {
        end = put_plan(page, sizes[0], sizes[1], words, owners);
    }
    return (size_t)(end - page);
}

// L in one walk over D(x), m * x - f * (the client's slots among the first x): a stretch's value is one D less another.
static size_t walk_scaled(size_t f, const uint8_t *owners, size_t client, size_t m)
{
    int d = 0, most = 0, least = 0;
    for (size_t slot = 0; slot < f; slot++) {
        d += (int)m - (owners[slot] == client ? (int)f : 0);
        if (d > most)
            most = d;
        if (d < least)
            least = d;
    }
    return (size_t)(most - least);
}

// A client's m and L in one walk.
size_t twin_walk_figures(size_t f, size_t n, const uint16_t words[32], const uint8_t owners[static 64], size_t client,
                         size_t figure[2])
{
    return figures_with(walk_scaled, f, n, words, owners, client, figure);
}

// Judges one client in one walk; its stretches are tried only where it fails.
static int walk_client(size_t f, const uint8_t *owners, size_t client, const uint16_t need[4], size_t stretch[2])
{
    size_t m = slots_of(f, owners, client);
    if (has_rate(f, m, need) && walk_scaled(f, owners, client, m) * need[3] <= need[2] * m)
        return OK;
    return judge_client(f, owners, client, need, stretch);
}

// Judges a plan, one walk a client.
size_t twin_walk_judge(size_t f, size_t n, const uint16_t words[32], const uint8_t owners[static 64], size_t found[4])
{
    return judge_with(walk_client, f, n, words, owners, found);
}

// Whether a client is ok that owns this set of slots, a bit each, in one walk.
static int walk_set(size_t f, size_t set, const uint16_t need[4])
{
    int m = __builtin_popcount((unsigned)set), d = 0, most = 0, least = 0;
    if (!has_rate(f, (size_t)m, need))
        return 0;
    for (size_t slot = 0; slot < f; slot++) {
        d += m - (set >> slot & 1 ? (int)f : 0);
        most = d > most ? d : most;
        least = d < least ? d : least;
    }
    return (most - least) * need[3] <= need[2] * m;
}

// Fills a client's tree, one walk a set of slots; L is the same for a set and its mirror image.
static void walk_needs(size_t f, const uint16_t need[4], uint8_t needs[512])
{
    size_t sets = (size_t)1 << f;
    for (size_t set = 0; set < sets; set++)
        needs[sets + set] = walk_set(f, set, need) ? 0 : 9;
    fill_above(sets, needs);
}

// Searches, one walk a set of slots.
size_t twin_walk_search(size_t f, size_t n, const uint16_t words[32], uint8_t owners[64])
{
    return search_with(walk_needs, f, n, words, owners);
}
