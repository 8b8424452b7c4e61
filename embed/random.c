/* Random calls, each held to a plain list of pairs that is gone through from top to bottom. Usage: random [SEED] */
#include "drecerunya.h"
#include "lend.h"

#include <stdio.h>

enum { MOST = 4095, MOST_CHANGES = 64, FILL = 0xAA, LONGEST_BOOK = 5 + 8 * MOST };

struct pair {
    uint32_t x, y;
};

/* The plain list. */
static struct pair stored[MOST];
static size_t pairs;

/* What is lent: a pool with room for `room` pairs, its cells before the call, cells for a list, bytes for a book, an answer. */
static uint32_t *pool, *before, *out, *answer;
static uint8_t *bytes;
static size_t len, room;

static uint64_t seed, state;
static unsigned long calls;

static void hold(int ok, const char *what)
{
    if (ok)
        return;
    fprintf(stderr, "random: seed %llu, call %lu: %s\n", (unsigned long long)seed, calls, what);
    exit(1);
}

/* ---- numbers */

static uint64_t next(void)
{
    uint64_t z = state += UINT64_C(0x9E3779B97F4A7C15);
    z = (z ^ (z >> 30)) * UINT64_C(0xBF58476D1CE4E5B9);
    z = (z ^ (z >> 27)) * UINT64_C(0x94D049BB133111EB);
    return z ^ (z >> 31);
}

static uint32_t below(size_t n) { return (uint32_t)(next() % n); }

/* A number at a limit, at a middle or beside one, at a stored x or beside one, small, or any. */
static uint32_t any_x(void)
{
    static const uint32_t limits[] = {0, 1, 2147483647, 2147483648u, 2147483649u, 4294967294u, 4294967295u};
    switch (below(6)) {
    case 0:
        return limits[below(sizeof limits / sizeof limits[0])];
    case 1: {
        uint32_t parts = below(32);
        return (uint32_t)(next() >> 32 >> parts << parts) + below(3) - 1;
    }
    case 2:
    case 3:
        return pairs == 0 ? below(3) : stored[below(pairs)].x + below(3) - 1;
    case 4:
        return below(100);
    default:
        return (uint32_t)next();
    }
}

/* Few different y, so that many are equal; now and then a limit or any. */
static uint32_t any_y(void)
{
    uint32_t kind = below(8);
    if (kind == 0)
        return (uint32_t)next();
    if (kind == 1)
        return 0 - below(2);
    return below(10);
}

/* A slot or a number of a strip; now and then one that is too large. */
static uint32_t any_slot(void)
{
    static const uint32_t limits[] = {0, 65535, 65536, 4294967295u, 32768};
    switch (below(10)) {
    case 0:
        return limits[below(sizeof limits / sizeof limits[0])];
    case 1:
        return below(65536);
    default:
        return below(60);
    }
}

/* ---- the plain list */

static int smaller_x(struct pair p, struct pair q) { return p.x < q.x; }
static int larger_x(struct pair p, struct pair q) { return p.x > q.x; }
static int beats(struct pair p, struct pair q) { return p.y < q.y || (p.y == q.y && p.x < q.x); }

/* What a question asks for, by its numbers; the pair of a strip is read as the strip. */
static int within(struct pair p, const uint32_t *n) { return n[0] <= p.x && p.x <= n[1] && p.y <= n[2]; }
static int within_x(struct pair p, const uint32_t *n) { return n[0] <= p.x && p.x <= n[1]; }
static int covers(struct pair p, const uint32_t *n) { return p.y <= n[0] && n[0] <= p.x / 65536; }
static int covers_by(struct pair p, const uint32_t *n) { return covers(p, n) && p.x / 65536 <= n[1]; }
static int meets(struct pair p, const uint32_t *n) { return p.y <= n[1] && n[0] <= p.x / 65536; }
static int contains(struct pair p, const uint32_t *n) { return p.y <= n[0] && n[1] <= p.x / 65536; }
static int ends_in(struct pair p, const uint32_t *n) { return n[0] <= p.x / 65536 && p.x / 65536 <= n[1]; }

static size_t place_of(uint32_t x)
{
    size_t i = 0;
    while (i < pairs && stored[i].x != x)
        i++;
    return i;
}

static void put(struct pair p) { stored[pairs++] = p; }
static void take_out(uint32_t x) { stored[place_of(x)] = stored[--pairs]; }

/* ---- what every call is held to */

static void begin(void)
{
    memcpy(before, pool, len * sizeof *pool);
    memset(answer, FILL, 5 * sizeof *answer);
    memset(out, FILL, 2 * MOST * sizeof *out);
}

static int pool_stands(void) { return memcmp(before, pool, len * sizeof *pool) == 0; }

static int stays_filled(const void *from, size_t count)
{
    const uint8_t *byte = (const uint8_t *)from;
    while (count > 0 && *byte == FILL)
        byte++, count--;
    return count == 0;
}

static uint32_t check(size_t length)
{
    calls++;
    return drecerunya_check(pool, length);
}

/* What a call gave, and the answer that it wrote; of the visits each kind of call says more. */
static void told(uint32_t gave, uint32_t code, uint32_t x, uint32_t y, uint32_t count)
{
    calls++;
    hold(gave == code, "the code");
    hold(answer[0] == code, "the code in the answer");
    hold(answer[1] == x && answer[2] == y, "x and y");
    hold(answer[3] == count, "the count");
    hold(margins_stand(answer, 5 * sizeof *answer) && margins_stand(pool, len * sizeof *pool) &&
             margins_stand(out, 2 * MOST * sizeof *out) && margins_stand(bytes, LONGEST_BOOK),
         "a write outside what was lent");
}

/* ---- changes */

struct change {
    struct pair p;
    int gained;
};

static struct change journal[MOST_CHANGES];
static size_t journaled;

/* A pair is a strip's where start ≤ end, both within 65535. */
static int is_strip(struct pair p) { return p.y <= p.x / 65536; }

static void change(struct pair p, int gains, int as_strip)
{
    uint32_t end = p.x / 65536, number = p.x % 65536, code, gave;
    size_t at = place_of(p.x);
    if (gains)
        code = at < pairs ? DRECERUNYA_TAKEN : pairs == room ? DRECERUNYA_FULL : DRECERUNYA_DONE;
    else
        code = at == pairs ? DRECERUNYA_MISSING : stored[at].y != p.y ? DRECERUNYA_OTHER : DRECERUNYA_DONE;
    begin();
    if (gains)
        gave = as_strip ? drecerunya_open(pool, len, p.y, end, number, answer) : drecerunya_insert(pool, len, p.x, p.y, answer);
    else
        gave = as_strip ? drecerunya_close(pool, len, p.y, end, number, answer) : drecerunya_delete(pool, len, p.x, p.y, answer);
    told(gave, code, 0, 0, 0);
    hold(answer[4] == 0, "a change has visits");
    if (code != DRECERUNYA_DONE) {
        hold(pool_stands(), "a refused change changed the pool");
        return;
    }
    if (gains)
        put(p);
    else
        take_out(p.x);
    hold(pool[3] == pairs, "the number of pairs");
    journal[journaled].p = p;
    journal[journaled++].gained = gains;
}

static struct pair any_pair(void)
{
    struct pair p = {any_x(), any_y()};
    if (below(3) == 0)
        p.x = below(60) * 65536 + below(4);
    if (pairs > 0 && below(4) == 0)
        p = stored[below(pairs)];
    return p;
}

/* Strips that are none are refused before the pool is asked for them. */
static void no_strip(void)
{
    uint32_t start = any_slot(), end = any_slot(), number = any_slot();
    int gains = (int)below(2);
    if (start <= end && end <= 65535 && number <= 65535) {
        struct pair p = {end * 65536 + number, start};
        change(p, gains, 1);
        return;
    }
    begin();
    told(gains ? drecerunya_open(pool, len, start, end, number, answer) : drecerunya_close(pool, len, start, end, number, answer),
         DRECERUNYA_NO_STRIP, 0, 0, 0);
    hold(answer[4] == 0 && pool_stands(), "a refused strip");
}

/* Takes back what was changed since the cells were kept, last first: every cell is as it was. */
static void take_back(const uint32_t *kept)
{
    struct change done[MOST_CHANGES];
    size_t last = journaled;
    memcpy(done, journal, last * sizeof *done);
    while (last > 0) {
        struct change c = done[--last];
        journaled = 0;
        change(c.p, !c.gained, is_strip(c.p) && below(2) == 0);
        hold(journaled == 1, "a change is not taken back");
    }
    hold(memcmp(kept, pool, len * sizeof *pool) == 0, "the cells after taking back");
}

/* ---- questions */

static uint32_t strip_refusal(uint32_t u, uint32_t v)
{
    return u > 65535 || v > 65535 ? DRECERUNYA_NO_STRIP : v < u ? DRECERUNYA_BACKWARDS : DRECERUNYA_DONE;
}

/* A question for one pair: the closest of those asked for, or the code that refuses it. */
static void found(uint32_t gave, uint32_t refusal, int asked(struct pair, const uint32_t *), int closer(struct pair, struct pair),
                  const uint32_t *n)
{
    const struct pair *best = NULL;
    for (size_t i = 0; i < pairs; i++)
        if (asked(stored[i], n) && (best == NULL || closer(stored[i], *best)))
            best = stored + i;
    hold(pool_stands(), "a question changed the pool");
    if (refusal != DRECERUNYA_DONE) {
        told(gave, refusal, 0, 0, 0);
        hold(answer[4] == 0, "a refusal has visits");
        return;
    }
    if (best == NULL)
        told(gave, DRECERUNYA_NOTHING, 0, 0, 0);
    else
        told(gave, DRECERUNYA_DONE, best->x, best->y, 0);
    hold(answer[4] <= 127 && answer[4] <= pairs, "too many visits");
    hold(best == NULL || answer[4] > 0, "found without a visit");
}

static void ask(void)
{
    uint32_t n[3] = {any_x(), any_x(), any_y()}, u[2] = {any_slot(), any_slot()};
    uint32_t backwards = n[0] > n[1] ? DRECERUNYA_BACKWARDS : DRECERUNYA_DONE;
    begin();
    switch (below(6)) {
    case 0:
        found(drecerunya_smallest_x(pool, len, n[0], n[1], n[2], answer), backwards, within, smaller_x, n);
        return;
    case 1:
        found(drecerunya_largest_x(pool, len, n[0], n[1], n[2], answer), backwards, within, larger_x, n);
        return;
    case 2:
        found(drecerunya_smallest_y(pool, len, n[0], n[1], answer), backwards, within_x, beats, n);
        return;
    case 3:
        found(drecerunya_first_to_end(pool, len, u[0], answer), strip_refusal(u[0], u[0]), covers, smaller_x, u);
        return;
    case 4:
        found(drecerunya_last_to_end(pool, len, u[0], u[1], answer), strip_refusal(u[0], u[1]), covers_by, larger_x, u);
        return;
    default:
        found(drecerunya_earliest_start(pool, len, u[0], u[1], answer), strip_refusal(u[0], u[1]), ends_in, beats, u);
    }
}

/* The four lists, by number. */
static uint32_t list(uint32_t kind, const uint32_t *n, size_t out_len)
{
    begin();
    switch (kind) {
    case 0:
        return drecerunya_listing(pool, len, n[0], n[1], n[2], out, out_len, answer);
    case 1:
        return drecerunya_list_covers(pool, len, n[0], out, out_len, answer);
    case 2:
        return drecerunya_list_meets(pool, len, n[0], n[1], out, out_len, answer);
    default:
        return drecerunya_list_contains(pool, len, n[0], n[1], out, out_len, answer);
    }
}

/* Lists once with room for all, once with room for some: each match once, and the first ones. */
static void ask_list(void)
{
    static int (*const asked[])(struct pair, const uint32_t *) = {within, covers, meets, contains};
    static uint32_t all[2 * MOST];
    uint32_t kind = below(4), n[3] = {any_slot(), any_slot(), 0}, matches = 0;
    uint32_t refusal = strip_refusal(n[0], kind == 1 ? n[0] : n[1]);
    if (kind == 0) {
        n[0] = any_x(), n[1] = any_x(), n[2] = any_y();
        refusal = n[0] > n[1] ? DRECERUNYA_BACKWARDS : DRECERUNYA_DONE;
    }
    uint32_t gave = list(kind, n, 2 * MOST);
    hold(pool_stands(), "a list changed the pool");
    if (refusal != DRECERUNYA_DONE) {
        told(gave, refusal, 0, 0, 0);
        hold(answer[4] == 0 && stays_filled(out, 2 * MOST * sizeof *out), "a refused list");
        return;
    }
    for (size_t i = 0; i < pairs; i++)
        matches += (uint32_t)asked[kind](stored[i], n);
    told(gave, DRECERUNYA_DONE, 0, 0, matches);
    hold(answer[4] <= 127 + 2 * matches && answer[4] <= pairs, "too many visits");
    hold(stays_filled(out + 2 * matches, (2 * MOST - 2 * matches) * sizeof *out), "cells behind the list");
    for (uint32_t i = 0; i < matches; i++) {
        size_t at = place_of(out[2 * i]);
        hold(at < pairs && stored[at].y == out[2 * i + 1] && asked[kind](stored[at], n), "a pair that does not match");
        for (uint32_t j = matches < 100 ? 0 : i; j < i; j++)
            hold(out[2 * j] != out[2 * i], "a pair listed twice");
    }
    memcpy(all, out, 2 * matches * sizeof *all);
    uint32_t some = below(matches + 2), fit = some < matches ? some : matches;
    gave = list(kind, n, 2 * some + below(2));
    told(gave, some < matches ? DRECERUNYA_MORE : DRECERUNYA_DONE, 0, 0, fit);
    hold(pool_stands() && memcmp(all, out, 2 * fit * sizeof *out) == 0, "the first ones");
    hold(stays_filled(out + 2 * fit, (2 * MOST - 2 * fit) * sizeof *out), "cells behind the room");
    hold(answer[4] <= 127 + 2 * fit, "too many visits");
}

/* ---- the book */

static int by_x(const void *p, const void *q)
{
    uint32_t x = ((const struct pair *)p)->x, y = ((const struct pair *)q)->x;
    return (x > y) - (x < y);
}

static uint8_t *put_number(uint8_t *at, uint32_t n)
{
    for (int shift = 24; shift >= 0; shift -= 8)
        *at++ = (uint8_t)(n >> shift);
    return at;
}

static void save(void)
{
    static uint8_t book[LONGEST_BOOK];
    size_t whole = DRECERUNYA_BOOK_BYTES(pairs), lent = below(3) == 0 ? below(whole) : whole + below(LONGEST_BOOK - whole + 1);
    qsort(stored, pairs, sizeof *stored, by_x);
    uint8_t *at = put_number(book, (uint32_t)(1 + 8 * pairs));
    *at++ = 1;
    for (size_t i = 0; i < pairs; i++)
        at = put_number(put_number(at, stored[i].x), stored[i].y);
    begin();
    memset(bytes, FILL, LONGEST_BOOK);
    uint32_t code = lent < whole ? DRECERUNYA_SHORT : DRECERUNYA_DONE;
    told(drecerunya_save(pool, len, bytes, lent, answer), code, 0, 0, 0);
    hold(answer[4] == 0 && pool_stands(), "saving");
    if (code != DRECERUNYA_DONE)
        whole = 0;
    hold(memcmp(bytes, book, whole) == 0, "the book");
    hold(stays_filled(bytes + whole, LONGEST_BOOK - whole), "the bytes behind the book");
}

/* ---- cells that are no sound pool */

/* A call that refuses by the pool alone, and leaves all as it stood. */
static void refused(uint32_t gave, uint32_t code)
{
    told(gave, code, 0, 0, 0);
    hold(answer[4] == 0 && pool_stands() && stays_filled(out, 2 * MOST * sizeof *out), "a refusal left something changed");
    begin();
}

static void all_refused(size_t length, uint32_t code)
{
    uint32_t x = any_x(), u = any_slot(), v = any_slot();
    hold(check(length) == code, "the check's code");
    begin();
    refused(drecerunya_insert(pool, length, x, u, answer), code);
    refused(drecerunya_delete(pool, length, x, u, answer), code);
    refused(drecerunya_smallest_x(pool, length, x, u, v, answer), code);
    refused(drecerunya_largest_x(pool, length, x, u, v, answer), code);
    refused(drecerunya_smallest_y(pool, length, x, u, answer), code);
    refused(drecerunya_listing(pool, length, x, u, v, out, 2 * MOST, answer), code);
    refused(drecerunya_open(pool, length, u, v, x, answer), code);
    refused(drecerunya_close(pool, length, u, v, x, answer), code);
    refused(drecerunya_first_to_end(pool, length, u, answer), code);
    refused(drecerunya_last_to_end(pool, length, u, v, answer), code);
    refused(drecerunya_list_covers(pool, length, u, out, 2 * MOST, answer), code);
    refused(drecerunya_list_meets(pool, length, u, v, out, 2 * MOST, answer), code);
    refused(drecerunya_list_contains(pool, length, u, v, out, 2 * MOST, answer), code);
    refused(drecerunya_earliest_start(pool, length, u, v, answer), code);
    memset(bytes, FILL, LONGEST_BOOK);
    refused(drecerunya_save(pool, length, bytes, LONGEST_BOOK, answer), code);
    hold(stays_filled(bytes, LONGEST_BOOK), "a refused saving");
}

/* One cell is damaged and mended again. Some cells may hold other numbers in a sound pool; then there is nothing to see. */
static void damage(void)
{
    size_t at = below(3) == 0 ? below(4) : below(len);
    uint32_t was = pool[at];
    pool[at] = below(2) == 0 ? below(room + 2) : any_x();
    uint32_t code = check(len);
    hold(code == DRECERUNYA_DONE || code == DRECERUNYA_UNSOUND, "the check's code");
    hold(at > 3 || pool[at] == was || code == DRECERUNYA_UNSOUND, "a damaged header said sound");
    if (code == DRECERUNYA_UNSOUND)
        all_refused(len, code);
    pool[at] = was;
}

static void wrong_length(void)
{
    static const size_t lengths[] = {0, 1, 3, 4, 5, 7};
    size_t length = below(2) == 0 ? lengths[below(sizeof lengths / sizeof lengths[0])] : len - 1 - below(3);
    all_refused(length, DRECERUNYA_LENGTH);
    calls++;
    hold(drecerunya_set_up(pool, length) == DRECERUNYA_LENGTH && pool_stands(), "setting up a wrong length");
}

/* ---- the run */

static void fresh_pool(size_t slots)
{
    give_back(pool);
    give_back(before);
    room = slots;
    len = DRECERUNYA_CELLS(slots);
    pool = lend(len * sizeof *pool, (int)below(256));
    before = lend(len * sizeof *pool, 0);
    pairs = 0;
    calls++;
    hold(drecerunya_set_up(pool, len) == DRECERUNYA_DONE, "setting up");
    hold(pool[0] == 1 && pool[1] == 0 && pool[2] == 1 && pool[3] == 0, "a fresh header");
    for (size_t i = 1; i <= slots; i++)
        hold(pool[4 * i] == 0 && pool[4 * i + 1] == 0 && pool[4 * i + 2] == 4294967295u && pool[4 * i + 3] == (i < slots ? i + 1 : 0),
             "a fresh slot");
}

static void fill(void)
{
    while (pairs < room) {
        struct pair p = {below(2) == 0 ? any_x() : (uint32_t)next(), any_y()};
        journaled = 0;
        change(p, 1, 0);
    }
    journaled = 0;
}

/* So many steps on a pool of so many slots, mostly gaining and then mostly losing; each stretch of changes may be taken back. */
static void run(size_t slots, unsigned long steps, int full)
{
    static uint32_t kept[4 * (MOST + 1)];
    fresh_pool(slots);
    journaled = 0;
    if (full)
        fill();
    memcpy(kept, pool, len * sizeof *pool);
    for (unsigned long step = 0; step < steps; step++) {
        struct pair p = any_pair();
        uint32_t kind = below(20), gains = step < steps / 3 * 2 ? 9 : 3;
        if (journaled == MOST_CHANGES || (kind == 0 && below(10) == 0)) {
            if (below(2) == 0)
                take_back(kept);
            journaled = 0;
            memcpy(kept, pool, len * sizeof *pool);
        } else if (kind < 12)
            change(p, kind < gains, is_strip(p) && below(2) == 0);
        else if (kind < 13)
            no_strip();
        else if (kind < 16)
            ask();
        else if (kind < 18)
            ask_list();
        else if (kind < 19)
            save();
        else if (below(3) == 0)
            damage();
        else if (below(3) == 0)
            wrong_length();
        hold(step % 16 != 0 || check(len) == DRECERUNYA_DONE, "the pool is not sound");
    }
}

int main(int count, char **words)
{
    static const struct {
        size_t slots;
        unsigned long steps;
        int full;
    } runs[] = {{1, 4000, 0},  {2, 4000, 0},  {3, 4000, 0},   {4, 4000, 0},   {7, 6000, 0},    {12, 6000, 0},   {16, 8000, 0},
                {40, 8000, 0}, {64, 8000, 0}, {255, 8000, 0}, {255, 8000, 1}, {1023, 8000, 0}, {1023, 8000, 1}, {4095, 8000, 1}};
    seed = count > 1 ? strtoull(words[1], NULL, 10) : 1;
    state = seed;
    out = lend(2 * MOST * sizeof *out, FILL);
    bytes = lend(LONGEST_BOOK, FILL);
    answer = lend(5 * sizeof *answer, FILL);
    for (size_t i = 0; i < sizeof runs / sizeof runs[0]; i++)
        run(runs[i].slots, runs[i].steps, runs[i].full);
    printf("%lu\n", calls);
    return 0;
}
