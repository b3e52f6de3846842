/* A night in C: one foot comes down on the floor with heel and toe. Its steps are a warm start, a pair and friction; one
 * more step is wrong by mistake, and is refused alone. host/rust/examples/night.rs is the same night and prints the same.
 *
 *   host/library && cc -O2 host/c/night.c target/host/libromaludiv.a -o night && ./night
 */
#include "../romaludiv.h"

#include <stdio.h>
#include <string.h>

static float bodies[] = {0.03f, -0.3f, 0.5f}; /* it falls, slides and turns */

static const uint16_t numbers[] = {
    0, ROMALUDIV_FLOOR, 2, /* contact 0: the foot on the floor, heel and toe */
    0, ROMALUDIV_FLOOR, 1, /* contact 1: the same foot, the heel alone */
};

static float floats[2 * ROMALUDIV_FLOATS_WIDTH]; /* all zero; main sets what is not */

static const uint16_t steps[] = {
    0, ROMALUDIV_WARM_START, 0, ROMALUDIV_PAIR, 0, ROMALUDIV_FRICTION_STEP,
    1, ROMALUDIV_PAIR, /* wrong: a pair needs two points */
};

enum { STEPS = sizeof steps / sizeof *steps / ROMALUDIV_STEP_WIDTH };

static uint16_t room[STEPS * ROMALUDIV_ANSWER_WIDTH];

/* Fills in a point of inverse mass 0.012 and inverse inertia 20, whose arm is 0.1 to one side; load is last night's. */
static void set_point(float *point, float side, float load) {
    float *normal = point + ROMALUDIV_NORMAL;
    float *tangent = point + ROMALUDIV_TANGENT;
    normal[ROMALUDIV_TORQUE1] = side * 0.1f;
    normal[ROMALUDIV_II1] = side * 2.0f;
    normal[ROMALUDIV_IMPULSE] = load;
    normal[ROMALUDIV_R] = 4.717f;
    normal[ROMALUDIV_CFM] = 1.0f;
    tangent[ROMALUDIV_TORQUE1] = 0.05f;
    tangent[ROMALUDIV_II1] = 1.0f;
    tangent[ROMALUDIV_R] = 16.13f;
}

static void set_contact(float *row) {
    row[ROMALUDIV_DIR_Y] = 1.0f;
    row[ROMALUDIV_IM1_X] = row[ROMALUDIV_IM1_Y] = 0.012f;
    row[ROMALUDIV_FRICTION] = 0.6f;
    row[ROMALUDIV_K12] = -0.188f;
    row[ROMALUDIV_FLAG] = 1.0f;
    set_point(row + ROMALUDIV_POINT_A, -1.0f, 1.0f);
    set_point(row + ROMALUDIV_POINT_B, 1.0f, 0.5f);
}

static void print_float(const char *name, float x, const char *end) {
    uint32_t bits;
    memcpy(&bits, &x, sizeof bits);
    printf("%s %.6f (%08x)%s", name, x, (unsigned)bits, end);
}

static void print_point(const char *name, const float *point) {
    printf("%s: ", name);
    print_float("load", point[ROMALUDIV_NORMAL + ROMALUDIV_IMPULSE], ", ");
    print_float("rub", point[ROMALUDIV_TANGENT + ROMALUDIV_IMPULSE], "\n");
}

static void print_answer(size_t i) {
    const uint16_t *answer = room + i * ROMALUDIV_ANSWER_WIDTH;
    const uint16_t *step = steps + i * ROMALUDIV_STEP_WIDTH;
    printf("step %u: contact %u, kind %u: ", (unsigned)i, (unsigned)step[0], (unsigned)step[1]);
    if (answer[0] != 0)
        printf("refused with %u\n", (unsigned)answer[0]);
    else
        printf("done, branch %u\n", (unsigned)answer[1]);
}

/* Lengths are in elements, so it is whole arrays that are lent here. */
static uint16_t run(const uint16_t *list, size_t list_len, size_t *done, size_t *refused) {
    return romaludiv_call(bodies, sizeof bodies / sizeof *bodies, numbers, sizeof numbers / sizeof *numbers,
                          floats, sizeof floats / sizeof *floats, list, list_len,
                          room, sizeof room / sizeof *room, STEPS, done, refused);
}

int main(void) {
    static const uint16_t wrong[] = {0, ROMALUDIV_NORMAL_STEP, 2, ROMALUDIV_NORMAL_STEP}; /* no contact 2 */
    size_t done, refused;
    set_contact(floats);
    set_contact(floats + ROMALUDIV_FLOATS_WIDTH);
    if (run(steps, sizeof steps / sizeof *steps, &done, &refused) != 0)
        return 1;
    for (size_t i = 0; i < done; i++)
        print_answer(i);
    printf("done %u, refused %u\n", (unsigned)done, (unsigned)refused);
    print_float("foot: x", bodies[0], ", ");
    print_float("y", bodies[1], ", ");
    print_float("w", bodies[2], "\n");
    print_point("heel", floats + ROMALUDIV_POINT_A);
    print_point("toe", floats + ROMALUDIV_POINT_B);
    printf("a list that names contact 2: refused with %u\n",
           (unsigned)run(wrong, sizeof wrong / sizeof *wrong, &done, &refused));
    return done != 0 || refused != 0; /* of a refused call both are 0 */
}
