// Two libraries beside each other: beside THEN.so NOW.so STEPS SEED. The same random calls to both, until STEPS steps are done; every
// output is compared bit for bit, the bits of a NaN that was handed in too. Prints what the calls and steps were answered.
#include <dlfcn.h>
#include <math.h>
#include <stdint.h>
#include <stdio.h>
#include <stdlib.h>
#include <string.h>

typedef uint16_t (*call_t)(float *, size_t, const uint16_t *, size_t, float *, size_t, const uint16_t *, size_t, uint16_t *, size_t,
                           size_t, size_t *, size_t *);

enum { BODIES = 12, CONTACTS = 300, STEPS = 60, FLOATS = 45, POINT = 18, FLOOR = 65535 };

static uint64_t state;
static uint64_t next(void) { return state ^= state << 13, state ^= state >> 7, state ^= state << 17; }
static unsigned below(unsigned n) { return (unsigned)(next() >> 33) % n; }

// numbers at the edges of a u16 and of what is compared with it
static uint16_t edge(void) {
    const uint16_t odd[] = {5, 255, 256, 4095, 32767, 32768, 65534, 65535};
    return odd[below(8)];
}

// 0 tame, 1 a few wild numbers, 2 many
static unsigned wild;
static int huge;

static float any_bits(void) {
    uint32_t bits = (uint32_t)next();
    float x;
    memcpy(&x, &bits, sizeof x);
    return x;
}

static float number(void) {
    const float odd[] = {NAN, INFINITY, -INFINITY, 3e38f, -3e38f, 1e20f, -1e20f, 1e-45f};
    if (wild == 0 || below(1000) >= (wild == 1 ? 6 : 120))
        return below(20) ? ((int)below(2000001) - 1000000) / 500000.0f : below(2) ? 0.0f : -0.0f;
    unsigned which = below(9);
    return which < 8 ? odd[which] : any_bits();
}

// hardly ever below zero
static float size(void) { return below(wild == 2 ? 30 : 400) ? fabsf(number()) : number(); }

static void point(float *p, int keep, unsigned one, unsigned two) {
    p[5] = size(), p[7] = size(), p[17] = size();
    p[8] = below(100) ? (below(3) ? 1.0f : 0.9f) : number();
    if (huge && below(2)) p[5] = fabsf(number()) * 1e37f;
    if (huge && below(2)) p[7] = fabsf(number()) * 1e30f;
    if (huge && below(4) == 0) p[15] = number() * 1e38f;
    if (keep && one == FLOOR) p[2] = p[12] = 0;
    if (keep && two == FLOOR) p[3] = p[13] = 0;
}

static void contact(uint16_t *n, float *f, unsigned bodies) {
    unsigned one = below(bodies), two = below(bodies);
    if (below(3) == 0) two = FLOOR;
    else if (below(5) == 0) one = FLOOR;
    if (below(60) == 0) one = below(bodies + 3);
    if (below(60) == 0) two = one;
    if (below(200) == 0) one = edge();
    if (below(200) == 0) two = edge();
    n[0] = (uint16_t)one, n[1] = (uint16_t)two, n[2] = (uint16_t)(below(40) ? 1 + below(2) : below(4));
    int keep = below(50) != 0;
    for (int i = 0; i < FLOATS; i++) f[i] = number();
    for (int i = 2; i < 7; i++) f[i] = size();
    f[8] = below(50) ? (below(8) ? 1.0f : 0.0f) : number();
    if (huge && below(2)) f[7] = number() * 1e30f;
    if (keep && one == FLOOR) f[2] = f[3] = 0;
    if (keep && two == FLOOR) f[4] = f[5] = below(2) ? 0.0f : -0.0f;
    point(f + 9, keep, one, two), point(f + 9 + POINT, keep, one, two);
}

struct side {
    float bodies[BODIES * 3], floats[CONTACTS * FLOATS];
    uint16_t numbers[CONTACTS * 3], steps[STEPS * 2], room[STEPS * 2 + 4];
    size_t done, refused;
    uint16_t refusal;
};

static int same(const struct side *x, const struct side *y) {
    return x->refusal == y->refusal && x->done == y->done && x->refused == y->refused && !memcmp(x->room, y->room, sizeof x->room) &&
           !memcmp(x->numbers, y->numbers, sizeof x->numbers) && !memcmp(x->steps, y->steps, sizeof x->steps) &&
           !memcmp(x->bodies, y->bodies, sizeof x->bodies) && !memcmp(x->floats, y->floats, sizeof x->floats);
}

static call_t load(const char *path) {
    void *library = dlopen(path, RTLD_NOW);
    if (!library) fprintf(stderr, "beside: %s\n", dlerror()), exit(2);
    return (call_t)(intptr_t)dlsym(library, "romaludiv_call");
}

int main(int words, char **word) {
    if (words != 5) return 2;
    static struct side start, sides[2];
    call_t call[2] = {load(word[1]), load(word[2])};
    unsigned long wanted = strtoul(word[3], 0, 10), calls = 0, steps = 0, whole[5] = {0}, answer[11] = {0};
    state = strtoull(word[4], 0, 10) * 2654435761u + 88172645463325252u;
    for (; steps < wanted; calls++) {
        wild = below(3), huge = below(8) == 0;
        unsigned bodies = 1 + below(BODIES), contacts = 1 + (below(40) ? below(12) : 250 + below(CONTACTS - 250)), list = 1 + below(STEPS);
        memset(&start, 0, sizeof start), memset(start.room, 0xab, sizeof start.room);
        for (unsigned i = 0; i < bodies * 3; i++) start.bodies[i] = huge && below(3) == 0 ? (below(2) ? 1.7e38f : -1e30f) : number();
        for (unsigned k = 0; k < contacts; k++) contact(start.numbers + k * 3, start.floats + k * FLOATS, bodies);
        for (unsigned i = 0; i < list; i++) {
            start.steps[2 * i] = below(5000) ? (uint16_t)below(contacts) : below(2) ? (uint16_t)contacts : edge();
            start.steps[2 * i + 1] = below(5000) ? (uint16_t)below(5) : edge();
        }
        unsigned room = below(500) ? 2 * list : 2 * below(list + 1) + below(4), cut = below(800) ? 4 : below(4);
        size_t budget = below(4) ? list : below(list + 3);
        for (int s = 0; s < 2; s++) {
            struct side *x = &sides[s];
            *x = start;
            x->refusal = call[s](x->bodies, bodies * 3 - (cut == 0), x->numbers, contacts * 3 - (cut == 1), x->floats,
                                 contacts * FLOATS - (cut == 2), x->steps, list * 2 - (cut == 3), x->room, room, budget, &x->done, &x->refused);
        }
        int well = same(&sides[0], &sides[1]) && sides[0].refusal <= 4 && sides[0].done <= list;
        for (size_t i = 0; well && sides[0].refusal == 0 && i < sides[0].done; i++) well = sides[0].room[2 * i] <= 10;
        if (!well) {
            printf("beside: call %lu of seed %s differs, or is answered what no call is\n%lu passed, 1 failed\n", calls, word[4], calls);
            return 1;
        }
        whole[sides[0].refusal]++;
        for (size_t i = 0; sides[0].refusal == 0 && i < sides[0].done; i++) answer[sides[0].room[2 * i]]++, steps++;
    }
    printf("beside: calls answered 0 to 4:");
    for (int i = 0; i < 5; i++) printf(" %lu", whole[i]);
    printf("; %lu steps, answered 0 to 10:", steps);
    for (int i = 0; i < 11; i++) printf(" %lu", answer[i]);
    printf("\n%lu passed, 0 failed\n", calls);
}
