/* A night from a slow pipe, in C: the text is read in portions as they come, then its steps are done and the loads printed. A bad
 * line is told at once, without waiting for the rest. host/rust/examples/pipe.rs does and prints the same.
 *
 *   host/library && cc -O2 host/c/pipe.c target/host/libromaludiv.a -o pipe && ./pipe <examples/two-points.txt
 */
#define _POSIX_C_SOURCE 200809L
#include "../romaludiv.h"

#include <stdio.h>
#include <string.h>
#include <unistd.h>

/* As much as document 01's text program holds. */
enum { BODIES = 64, CONTACTS = 64, STEPS = 256 };

/* The reader, and the tables as bits. */
static size_t words[ROMALUDIV_READER_WORDS];
static uint8_t line[ROMALUDIV_MOST_IN_LINE];
static uint32_t body_bits[BODIES * ROMALUDIV_BODY_WIDTH];
static uint16_t numbers[CONTACTS * ROMALUDIV_NUMBERS_WIDTH];
static uint32_t float_bits[CONTACTS * ROMALUDIV_FLOATS_WIDTH];
static uint16_t steps[STEPS * ROMALUDIV_STEP_WIDTH];

/* The tables as floats, and the answers. */
static float bodies[BODIES * ROMALUDIV_BODY_WIDTH];
static float floats[CONTACTS * ROMALUDIV_FLOATS_WIDTH];
static uint16_t room[STEPS * ROMALUDIV_ANSWER_WIDTH];

#define LENGTH(table) (sizeof(table) / sizeof *(table))

static void portion(const uint8_t *text, size_t len) {
    romaludiv_portion(words, line, text, len, body_bits, LENGTH(body_bits), numbers, LENGTH(numbers),
                      float_bits, LENGTH(float_bits), steps, LENGTH(steps));
}

static void end(void) {
    romaludiv_end(words, line, body_bits, LENGTH(body_bits), numbers, LENGTH(numbers), float_bits, LENGTH(float_bits),
                  steps, LENGTH(steps));
}

/* Reads standard input until it ends or a line is bad. read(2) answers what has come; fread would wait for a full buffer. */
static int read_night(void) {
    static uint8_t came[512];
    ssize_t len;
    romaludiv_begin(words);
    while ((len = read(STDIN_FILENO, came, sizeof came)) > 0) {
        portion(came, (size_t)len);
        if (words[ROMALUDIV_READER_BAD] != 0)
            return 1;
    }
    end();
    return len == 0;
}

/* A float and its bits are of one size; memcpy is C's way to go from the one to the other. */
static uint16_t run(size_t *done, size_t *refused) {
    size_t filled_bodies = words[ROMALUDIV_READER_BODIES], filled_floats = words[ROMALUDIV_READER_FLOATS];
    memcpy(bodies, body_bits, filled_bodies * sizeof *bodies);
    memcpy(floats, float_bits, filled_floats * sizeof *floats);
    return romaludiv_call(bodies, filled_bodies, numbers, words[ROMALUDIV_READER_NUMBERS], floats, filled_floats,
                          steps, words[ROMALUDIV_READER_STEPS], room, LENGTH(room), STEPS, done, refused);
}

/* Every C library writes a NaN in its own way. */
static void print_float(const char *name, float x, const char *after) {
    uint32_t bits;
    memcpy(&bits, &x, sizeof bits);
    if (x == x)
        printf("%s %.6f (%08x)%s", name, x, (unsigned)bits, after);
    else
        printf("%s NaN (%08x)%s", name, (unsigned)bits, after);
}

static void print_point(size_t contact, char name, const float *point) {
    printf("contact %u, point %c: ", (unsigned)contact, name);
    print_float("load", point[ROMALUDIV_NORMAL + ROMALUDIV_IMPULSE], ", ");
    print_float("rub", point[ROMALUDIV_TANGENT + ROMALUDIV_IMPULSE], "\n");
}

/* A contact whose count is not 1 or 2 has no points. */
static void print_contact(size_t contact) {
    const float *row = floats + contact * ROMALUDIV_FLOATS_WIDTH;
    unsigned count = numbers[contact * ROMALUDIV_NUMBERS_WIDTH + 2];
    if (count == 1 || count == 2)
        print_point(contact, 'a', row + ROMALUDIV_POINT_A);
    if (count == 2)
        print_point(contact, 'b', row + ROMALUDIV_POINT_B);
}

int main(void) {
    size_t done, refused, contacts;
    uint16_t number;
    if (!read_night())
        return 2; /* the pipe broke */
    if (words[ROMALUDIV_READER_BAD] != 0) {
        printf("line %lu is bad with %u\n", (unsigned long)words[ROMALUDIV_READER_NUMBER],
               (unsigned)words[ROMALUDIV_READER_REASON]);
        return 1;
    }
    contacts = words[ROMALUDIV_READER_NUMBERS] / ROMALUDIV_NUMBERS_WIDTH;
    printf("read %u bodies, %u contacts, %u steps\n",
           (unsigned)words[ROMALUDIV_READER_BODIES] / ROMALUDIV_BODY_WIDTH, (unsigned)contacts,
           (unsigned)words[ROMALUDIV_READER_STEPS] / ROMALUDIV_STEP_WIDTH);
    if ((number = run(&done, &refused)) != 0) {
        printf("the list is refused with %u\n", (unsigned)number);
        return 1;
    }
    for (size_t contact = 0; contact < contacts; contact++)
        print_contact(contact);
    printf("done %u, refused %u\n", (unsigned)done, (unsigned)refused);
    return 0;
}
