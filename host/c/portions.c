/* Nights read in portions, for host/portions: each file is read as a whole, in one portion, and cut; every cut has to leave the
 * same words and the same tables, cell by cell, past what was filled too, over a pattern.
 *
 *   portions every FILE..           at every place into two portions, and byte by byte
 *   portions random SEED FILE..     at random places into many portions, zero bytes among them; and writes what the whole came to
 *                                   into FILE.read, for judge.py's reading to be compared with
 *
 * Each file is one item; the last line is 'N passed, M failed'. */
#include "../romaludiv.h"

#include <stdio.h>
#include <stdlib.h>
#include <string.h>

/* What the text program of document 01 holds. */
enum { BODIES = 64, CONTACTS = 64, STEPS = 256 };

/* What every byte of the tables is before a reading. */
enum { PATTERN = 0xa5 };

struct tables {
    uint32_t bodies[BODIES * ROMALUDIV_BODY_WIDTH];
    uint32_t floats[CONTACTS * ROMALUDIV_FLOATS_WIDTH];
    uint16_t numbers[CONTACTS * ROMALUDIV_NUMBERS_WIDTH];
    uint16_t steps[STEPS * ROMALUDIV_STEP_WIDTH];
};

struct reading {
    size_t words[ROMALUDIV_READER_WORDS];
    uint8_t line[ROMALUDIV_MOST_IN_LINE];
    struct tables tables;
};

struct text {
    const char *name;
    uint8_t *bytes;
    size_t len;
};

#define LENGTH(table) (sizeof(table) / sizeof *(table))
#define LENT(t)                                                                                                        \
    (t)->bodies, LENGTH((t)->bodies), (t)->numbers, LENGTH((t)->numbers), (t)->floats, LENGTH((t)->floats),            \
        (t)->steps, LENGTH((t)->steps)

static void begin(struct reading *r) {
    memset(r, PATTERN, sizeof *r);
    romaludiv_begin(r->words);
}

static void portion(struct reading *r, const uint8_t *bytes, size_t len) {
    romaludiv_portion(r->words, r->line, bytes, len, LENT(&r->tables));
}

static void end(struct reading *r) {
    romaludiv_end(r->words, r->line, LENT(&r->tables));
}

/* All words and all cells; but how many bytes were held of a bad line hangs on the cut, and says nothing. */
static int same(const struct reading *r, const struct reading *whole) {
    for (size_t i = 0; i < ROMALUDIV_READER_WORDS; i++)
        if (r->words[i] != whole->words[i] && (i != ROMALUDIV_READER_LEN || whole->words[ROMALUDIV_READER_BAD] == 0))
            return 0;
    return memcmp(&r->tables, &whole->tables, sizeof r->tables) == 0;
}

static int all_pattern(const void *cells, size_t from, size_t to) {
    const uint8_t *bytes = cells;
    for (size_t i = from; i < to; i++)
        if (bytes[i] != PATTERN)
            return 0;
    return 1;
}

/* Past what was filled no cell was written. */
static int rest_untouched(const struct reading *r) {
    const struct tables *t = &r->tables;
    const size_t *filled = r->words;
    return all_pattern(t->bodies, 4 * filled[ROMALUDIV_READER_BODIES], sizeof t->bodies) &&
           all_pattern(t->numbers, 2 * filled[ROMALUDIV_READER_NUMBERS], sizeof t->numbers) &&
           all_pattern(t->floats, 4 * filled[ROMALUDIV_READER_FLOATS], sizeof t->floats) &&
           all_pattern(t->steps, 2 * filled[ROMALUDIV_READER_STEPS], sizeof t->steps);
}

/* The whole text in one portion, and its end; a second end and a portion after it have to change nothing. */
static int read_whole(const struct text *x, struct reading *whole) {
    static struct reading again;
    begin(whole);
    portion(whole, x->bytes, x->len);
    end(whole);
    again = *whole;
    end(&again);
    portion(&again, x->bytes, x->len);
    end(&again);
    return rest_untouched(whole) && same(&again, whole);
}

static int in_two(const struct text *x, size_t at, const struct reading *whole) {
    static struct reading r;
    begin(&r);
    portion(&r, x->bytes, at);
    portion(&r, x->bytes + at, x->len - at);
    end(&r);
    return same(&r, whole);
}

static int by_bytes(const struct text *x, const struct reading *whole) {
    static struct reading r;
    begin(&r);
    for (size_t i = 0; i < x->len; i++)
        portion(&r, x->bytes + i, 1);
    end(&r);
    return same(&r, whole);
}

static int every(const struct text *x) {
    static struct reading whole;
    int good = read_whole(x, &whole) && by_bytes(x, &whole);
    for (size_t at = 0; good && at <= x->len; at++)
        if (!in_two(x, at, &whole)) {
            printf("%s: cut at byte %lu it comes to something else\n", x->name, (unsigned long)at);
            good = 0;
        }
    return good;
}

/* The numbers of xorshift64: the same on every machine. */
static uint64_t state;

static size_t random_below(size_t n) {
    state ^= state << 13;
    state ^= state >> 7;
    state ^= state << 17;
    return (size_t)(state >> 11) % n;
}

/* A portion is of 0 to `most` bytes, so there are many, and some are empty. */
static int at_random(const struct text *x, size_t most, const struct reading *whole) {
    static struct reading r;
    size_t at = 0;
    begin(&r);
    while (at < x->len) {
        size_t len = random_below(most + 1);
        if (len > x->len - at)
            len = x->len - at;
        portion(&r, x->bytes + at, len);
        at += len;
    }
    end(&r);
    return same(&r, whole);
}

/* What a reading came to, in the lines that fuzz/readings.py makes of judge.py's. */
static int write_down(const struct text *x, const struct reading *r) {
    static char name[4096];
    const size_t *w = r->words;
    const struct tables *t = &r->tables;
    FILE *out;
    snprintf(name, sizeof name, "%s.read", x->name);
    if ((out = fopen(name, "w")) == NULL)
        return 0;
    if (w[ROMALUDIV_READER_BAD] != 0)
        fprintf(out, "X %lu %lu\n", (unsigned long)w[ROMALUDIV_READER_NUMBER], (unsigned long)w[ROMALUDIV_READER_REASON]);
    for (size_t i = 0; i < w[ROMALUDIV_READER_BODIES]; i++)
        fprintf(out, "b %08lx\n", (unsigned long)t->bodies[i]);
    for (size_t i = 0; i < w[ROMALUDIV_READER_NUMBERS]; i++)
        fprintf(out, "n %u\n", (unsigned)t->numbers[i]);
    for (size_t i = 0; i < w[ROMALUDIV_READER_FLOATS]; i++)
        fprintf(out, "f %08lx\n", (unsigned long)t->floats[i]);
    for (size_t i = 0; i < w[ROMALUDIV_READER_STEPS]; i++)
        fprintf(out, "s %u\n", (unsigned)t->steps[i]);
    return fclose(out) == 0;
}

static int randomly(const struct text *x) {
    static const size_t most[] = {1, 2, 5, 12, 40, 170, 1000, 9000};
    static struct reading whole;
    int good = read_whole(x, &whole) && write_down(x, &whole);
    for (size_t i = 0; good && i < LENGTH(most); i++)
        good = at_random(x, most[i], &whole);
    return good;
}

static int load(const char *name, struct text *x) {
    static uint8_t bytes[1 << 20];
    FILE *in = fopen(name, "rb");
    if (in == NULL)
        return 0;
    x->name = name;
    x->bytes = bytes;
    x->len = fread(bytes, 1, sizeof bytes, in);
    return fclose(in) == 0 && x->len < sizeof bytes;
}

int main(int argc, char **argv) {
    int from = 2, passed = 0, failed = 0;
    int random = argc > 2 && strcmp(argv[1], "random") == 0;
    if (random) {
        state = 88172645463325252u + strtoul(argv[2], NULL, 10);
        from = 3;
    } else if (argc < 2 || strcmp(argv[1], "every") != 0)
        return 2;
    for (int i = from; i < argc; i++) {
        struct text x;
        if (load(argv[i], &x) && (random ? randomly(&x) : every(&x)))
            passed++;
        else {
            failed++;
            printf("%s: NOT as in one portion\n", argv[i]);
        }
    }
    printf("%d passed, %d failed\n", passed, failed);
    return failed != 0;
}
