/* Replays files of calls (calls/README.md) and compares every answer, every lent cell and byte, and the pool's checksum. */
#include "drecerunya.h"
#include "lend.h"

#include <inttypes.h>
#include <stdio.h>

enum { LONGEST = 1 << 20, MOST_NUMBERS = 3, FILL = 0xAA };

static uint32_t *pool;
static size_t len;
static uint32_t *out;  /* the lent cells of a list */
static uint8_t *bytes; /* the lent bytes of a book */
static size_t lent;
static uint32_t *answer;

static uint32_t set_up(const uint32_t *n) { (void)n; return drecerunya_set_up(pool, len); }
static uint32_t check(const uint32_t *n) { (void)n; return drecerunya_check(pool, len); }
static uint32_t insert(const uint32_t *n) { return drecerunya_insert(pool, len, n[0], n[1], answer); }
static uint32_t delete(const uint32_t *n) { return drecerunya_delete(pool, len, n[0], n[1], answer); }
static uint32_t smallest_x(const uint32_t *n) { return drecerunya_smallest_x(pool, len, n[0], n[1], n[2], answer); }
static uint32_t largest_x(const uint32_t *n) { return drecerunya_largest_x(pool, len, n[0], n[1], n[2], answer); }
static uint32_t smallest_y(const uint32_t *n) { return drecerunya_smallest_y(pool, len, n[0], n[1], answer); }
static uint32_t listing(const uint32_t *n) { return drecerunya_listing(pool, len, n[0], n[1], n[2], out, lent, answer); }
static uint32_t open(const uint32_t *n) { return drecerunya_open(pool, len, n[0], n[1], n[2], answer); }
static uint32_t close(const uint32_t *n) { return drecerunya_close(pool, len, n[0], n[1], n[2], answer); }
static uint32_t first_to_end(const uint32_t *n) { return drecerunya_first_to_end(pool, len, n[0], answer); }
static uint32_t last_to_end(const uint32_t *n) { return drecerunya_last_to_end(pool, len, n[0], n[1], answer); }
static uint32_t list_covers(const uint32_t *n) { return drecerunya_list_covers(pool, len, n[0], out, lent, answer); }
static uint32_t list_meets(const uint32_t *n) { return drecerunya_list_meets(pool, len, n[0], n[1], out, lent, answer); }
static uint32_t list_contains(const uint32_t *n) { return drecerunya_list_contains(pool, len, n[0], n[1], out, lent, answer); }
static uint32_t earliest_start(const uint32_t *n) { return drecerunya_earliest_start(pool, len, n[0], n[1], answer); }
static uint32_t save(const uint32_t *n) { (void)n; return drecerunya_save(pool, len, bytes, lent, answer); }

enum lends { NO_SLICE, CELLS, BYTES };

/* A call of the files: its word, what it lends, how many numbers it takes, whether it writes an answer, and how often it was made. */
static struct call {
    const char *word;
    enum lends lends;
    int takes;
    int answers;
    uint32_t (*run)(const uint32_t *n);
    unsigned long made;
} calls[] = {
    {"setup", NO_SLICE, 0, 0, set_up, 0},
    {"check", NO_SLICE, 0, 0, check, 0},
    {"insert", NO_SLICE, 2, 1, insert, 0},
    {"delete", NO_SLICE, 2, 1, delete, 0},
    {"smallestx", NO_SLICE, 3, 1, smallest_x, 0},
    {"largestx", NO_SLICE, 3, 1, largest_x, 0},
    {"smallesty", NO_SLICE, 2, 1, smallest_y, 0},
    {"listing", CELLS, 3, 1, listing, 0},
    {"open", NO_SLICE, 3, 1, open, 0},
    {"close", NO_SLICE, 3, 1, close, 0},
    {"first", NO_SLICE, 1, 1, first_to_end, 0},
    {"last", NO_SLICE, 2, 1, last_to_end, 0},
    {"covers", CELLS, 1, 1, list_covers, 0},
    {"meets", CELLS, 2, 1, list_meets, 0},
    {"contains", CELLS, 2, 1, list_contains, 0},
    {"earliest", NO_SLICE, 2, 1, earliest_start, 0},
    {"save", BYTES, 0, 1, save, 0},
};
enum { CALLS = sizeof calls / sizeof calls[0] };

static const char *file;
static unsigned long line_number;
static FILE *from;
static char line[LONGEST], got[LONGEST];
static int muted;

static void stop(const char *what)
{
    fprintf(stderr, "%s:%lu: %s\n", file, line_number, what);
    exit(1);
}

/* The next line that is neither empty nor a comment, without its newline; 0 at the end of the file. */
static int next_line(void)
{
    do {
        if (fgets(line, sizeof line, from) == NULL)
            return 0;
        line_number++;
        size_t end = strcspn(line, "\n");
        if (line[end] == 0 && !feof(from))
            stop("the line is too long");
        line[end] = 0;
    } while (line[0] == 0 || line[0] == '#');
    return 1;
}

/* The numbers after a line's first word. */
static int numbers_of(const char *text, uint32_t *into, int most)
{
    int count = 0;
    const char *at = strchr(text, ' ');
    while (at != NULL) {
        char *end;
        unsigned long long n = strtoull(at + 1, &end, 10);
        if (end == at + 1 || (*end != ' ' && *end != 0) || n > UINT32_MAX || count == most)
            stop("not the numbers of this call");
        into[count++] = (uint32_t)n;
        at = *end == ' ' ? end : NULL;
    }
    return count;
}

/* FNV-1a of the pool's cells, each as four bytes, the lowest first. */
static uint64_t checksum(void)
{
    uint64_t sum = UINT64_C(0xcbf29ce484222325);
    for (size_t i = 0; i < len; i++)
        for (int shift = 0; shift < 32; shift += 8)
            sum = (sum ^ (pool[i] >> shift & 0xFF)) * UINT64_C(0x100000001b3);
    return sum;
}

/* The next line must be what was got. */
static void compare(const char *what)
{
    if (!next_line())
        stop("the file ends before an answer");
    if (strcmp(line, got) != 0) {
        fprintf(stderr, "%s:%lu: %s\nexpected %s\ngot      %s\n", file, line_number, what, line, got);
        exit(1);
    }
}

static void compare_cells(const char *what, const uint32_t *cells, size_t count)
{
    char *at = got + sprintf(got, count == 0 ? "> -" : ">");
    for (size_t i = 0; i < count; i++)
        at += sprintf(at, " %" PRIu32, cells[i]);
    compare(what);
}

static void compare_bytes(const char *what)
{
    char *at = got + sprintf(got, lent == 0 ? "> -" : "> ");
    for (size_t i = 0; i < lent; i++)
        at += sprintf(at, "%02x", bytes[i]);
    compare(what);
}

static void lend_pool(const uint32_t *n)
{
    give_back(pool);
    len = n[0];
    pool = lend(len * sizeof *pool, 0);
    for (size_t i = 0; i < len; i++)
        pool[i] = n[1];
}

/* Makes one call, and compares its answer and what it leaves. */
static void make(struct call *call)
{
    uint32_t n[MOST_NUMBERS + 1];
    int lends = call->lends != NO_SLICE;
    if (numbers_of(line, n, call->takes + lends) != call->takes + lends)
        stop("too few numbers for this call");
    lent = lends ? n[0] : 0;
    out = lend(lent * sizeof *out, FILL);
    bytes = lend(lent, FILL);
    answer = lend(5 * sizeof *answer, FILL);

    uint32_t code = call->run(n + lends);
    call->made++;
    if (!margins_stand(pool, len * sizeof *pool) || !margins_stand(out, lent * sizeof *out) || !margins_stand(bytes, lent) ||
        !margins_stand(answer, 5 * sizeof *answer))
        stop("the call wrote outside what it was lent");
    if (!call->answers) {
        memset(answer, 0, 5 * sizeof *answer);
        answer[0] = code;
    }
    if (code != answer[0])
        stop("the code given is not the code in the answer");
    char sum[17] = "-";
    if (!muted)
        sprintf(sum, "%016" PRIx64, checksum());
    sprintf(got, "= %" PRIu32 " %" PRIu32 " %" PRIu32 " %" PRIu32 " %" PRIu32 " %s", answer[0], answer[1], answer[2], answer[3], answer[4],
            sum);
    compare(call->word);
    if (call->lends == CELLS)
        compare_cells(call->word, out, lent);
    if (call->lends == BYTES)
        compare_bytes(call->word);
    give_back(out);
    give_back(bytes);
    give_back(answer);
}

/* Does what a line says. */
static void take(void)
{
    uint32_t n[2];
    size_t word = strcspn(line, " ");
    for (struct call *call = calls; call < calls + CALLS; call++)
        if (strlen(call->word) == word && strncmp(line, call->word, word) == 0) {
            make(call);
            return;
        }
    if (strcmp(line, "mute") == 0)
        muted = 1;
    else if (strcmp(line, "unmute") == 0)
        muted = 0;
    else if (strcmp(line, "cells") == 0)
        compare_cells("cells", pool, len);
    else if (strncmp(line, "pool ", 5) == 0 && numbers_of(line, n, 2) == 2)
        lend_pool(n);
    else if (strncmp(line, "poke ", 5) == 0 && numbers_of(line, n, 2) == 2 && n[0] < len)
        pool[n[0]] = n[1];
    else
        stop("not a line of a file of calls");
}

static void replay(const char *name)
{
    file = name;
    line_number = 0;
    muted = 0;
    len = 0;
    from = fopen(name, "r");
    if (from == NULL)
        stop("cannot be read");
    if (!next_line() || strcmp(line, "calls 1") != 0 || !next_line() || strcmp(line, "upto 0") != 0)
        stop("does not start with 'calls 1' and 'upto 0'");
    while (next_line())
        take();
    fclose(from);
}

int main(int count, char **names)
{
    unsigned long made = 0;
    pool = lend(0, 0);
    for (int i = 1; i < count; i++)
        replay(names[i]);
    for (struct call *call = calls; call < calls + CALLS; call++) {
        if (call->made == 0) {
            fprintf(stderr, "no file has the call %s\n", call->word);
            return 1;
        }
        made += call->made;
    }
    printf("%lu\n", made);
    return 0;
}
