/* The calls of the static library libromaludiv.a, for programs in C and C++ (C99 is enough): romaludiv_call does a list of
 * steps; romaludiv_begin, romaludiv_portion and romaludiv_end read a text that arrives in portions.
 *
 * What the functions do is proved for every input: exactly what document 01, the exact rules, says, and of portions what
 * request E8 says. (In the proof of romaludiv_call there is one NaN. That a NaN which no done step writes keeps its payload is tested.) This file is not proved. It says how the tables lie in memory, and what the caller owes, which nothing in the library can test. */
#ifndef ROMALUDIV_H
#define ROMALUDIV_H

#include <stddef.h>
#include <stdint.h>

/* The largest tables. A larger one refuses the call with 1. The room for answers may be of any size. */
#define ROMALUDIV_LARGEST_BODIES 4096
#define ROMALUDIV_LARGEST_CONTACTS 16384
#define ROMALUDIV_LARGEST_STEPS 65536

/* The body number that is the floor: it rests and is never written. */
#define ROMALUDIV_FLOOR 65535

/* Elements in a row of each stretch. Every length that is passed is counted in elements, not in rows or bytes. */
#define ROMALUDIV_BODY_WIDTH 3      /* bodies:  velocity x, y, angular w */
#define ROMALUDIV_NUMBERS_WIDTH 3   /* numbers: body1, body2, count, of one contact */
#define ROMALUDIV_FLOATS_WIDTH 45   /* floats:  head, point a, point b, of one contact */
#define ROMALUDIV_STEP_WIDTH 2      /* steps:   contact, kind */
#define ROMALUDIV_ANSWER_WIDTH 2    /* room:    number, branch */

/* Where a contact's floats stand in its row. The head: */
#define ROMALUDIV_DIR_X 0
#define ROMALUDIV_DIR_Y 1
#define ROMALUDIV_IM1_X 2
#define ROMALUDIV_IM1_Y 3
#define ROMALUDIV_IM2_X 4
#define ROMALUDIV_IM2_Y 5
#define ROMALUDIV_FRICTION 6
#define ROMALUDIV_K12 7
#define ROMALUDIV_FLAG 8
/* The two points begin at */
#define ROMALUDIV_POINT_A 9
#define ROMALUDIV_POINT_B 27
/* A point's two parts begin, counted from the point's beginning, at */
#define ROMALUDIV_NORMAL 0
#define ROMALUDIV_TANGENT 10
/* and in either part, counted from the part's beginning, stand */
#define ROMALUDIV_TORQUE1 0
#define ROMALUDIV_TORQUE2 1
#define ROMALUDIV_II1 2
#define ROMALUDIV_II2 3
#define ROMALUDIV_RHS 4
#define ROMALUDIV_IMPULSE 5
#define ROMALUDIV_ACCUMULATOR 6
#define ROMALUDIV_R 7
/* and in the normal part alone */
#define ROMALUDIV_CFM 8
#define ROMALUDIV_SEED 9
/* So the load of point b of contact k, its normal impulse, is
 *   floats[k * ROMALUDIV_FLOATS_WIDTH + ROMALUDIV_POINT_B + ROMALUDIV_NORMAL + ROMALUDIV_IMPULSE]
 * No load pulls (proved): after the call it is what it was, or 0 or above. */

/* The kinds of a step. */
#define ROMALUDIV_WARM_START 0
#define ROMALUDIV_NORMAL_STEP 1
#define ROMALUDIV_FRICTION_STEP 2
#define ROMALUDIV_RESTITUTION 3
#define ROMALUDIV_PAIR 4

/* Numbers that refuse. 1 to 4 refuse the whole call: they are the function's result, nothing is written to bodies,
 * floats and room, and done and refused are 0. 5 to 10 refuse one step: they stand in the room as its answer, the step
 * changes no body and no contact, and the list goes on. Where several hold, the lowest is given.
 *
 *    1  a table is above its largest size, a stretch is no whole number of rows, or numbers and floats differ in rows
 *    2  some step, past the budget too, names a contact that is not in the table
 *    3  some kind, past the budget too, is above 4
 *    4  the room has fewer rows than the list
 *    5  a body number is neither in the table nor the floor, or both are equal
 *    6  count is not 1 or 2
 *    7  kind 4 and count 1
 *    8  a float of the contact (head, and points below count) or a velocity of its bodies is not finite
 *    9  im, friction, r or a normal impulse is below 0; cfm is not in (0, 1]; a floor side has im or ii other than 0
 *   10  a velocity or an impulse to be written is not finite
 *
 * An answer's branch is 0, but for a done kind 4: 1 both, 2 a only, 3 b only, 4 none, 5 previous kept, 6 degraded. */

/* What the caller of romaludiv_call owes. If one of these does not hold, nothing is promised: neither the result, nor that the call
 * keeps to its memory.
 *
 *  - Each pointer is valid for as many elements as its length says: bodies, floats and room to read and write, numbers
 *    and steps to read. It is not null and it is aligned for its type, also where the length is 0. Every element has
 *    been given a value before, also those that no rule looks at, as point b's where count is 1.
 *  - None of bodies, floats and room overlaps another stretch. (numbers and steps are only read, so these two may.)
 *  - done and refused point to two different size_t that lie in none of the stretches. Both are always written.
 *  - While the call runs no other thread writes any of this, or reads what the call writes. Calls on tables that have
 *    nothing in common may run at the same time: the library keeps nothing of its own.
 *  - The stack has room: the call takes about 17 KB of it, for a flag for each contact that a call may have.
 *  - Floats are rounded to nearest, ties to even, and subnormal numbers are kept: no flush-to-zero and no
 *    denormals-are-zero. That is how a program starts; options such as -ffast-math may change it at the start of the
 *    whole program, also where only the linker was given them. */
#ifdef __cplusplus
extern "C" {
#endif

/* Does the first min(budget, steps_len / 2) steps of the list in order, unless the whole call is refused. The result is
 * 0, or the number from 1 to 4 that refuses it. *done is how many steps were done, *refused how many of these were
 * refused. Room past the steps done is not touched. */
uint16_t romaludiv_call(
    float *bodies, size_t bodies_len,
    const uint16_t *numbers, size_t numbers_len,
    float *floats, size_t floats_len,
    const uint16_t *steps, size_t steps_len,
    uint16_t *room, size_t room_len,
    size_t budget,
    size_t *done,
    size_t *refused);

/* A text in portions.
 *
 * A night's text (document 01, "Text form") is read into four tables as it arrives, cut anywhere: the tables, the bad line
 * and its number are the same for every way of cutting (proved). Rows and widths are those above, with one difference: bodies
 * and floats hold the bits of floats, as the text does. memcpy makes floats of them for romaludiv_call; host/c/pipe.c shows
 * it. The tables' lengths are the room: a line for which there is none is bad. Only romaludiv_call asks for whole rows.
 *
 * Between the calls the host keeps a reader, which is so many words and the bytes of the line that has not ended. Any words
 * and bytes are a reader, so none of them does harm: */
#define ROMALUDIV_READER_WORDS 10
#define ROMALUDIV_MOST_IN_LINE 160 /* the longest good line, without its byte 10 */
/* Where the words stand: */
#define ROMALUDIV_READER_OVER 0    /* not 0: the end was announced */
#define ROMALUDIV_READER_BAD 1     /* not 0: a line was bad */
#define ROMALUDIV_READER_REASON 2  /* why it was; a word above 255 counts as 255 */
#define ROMALUDIV_READER_NUMBER 3  /* the bad line's number, from 1; else that of the line that has not ended */
#define ROMALUDIV_READER_PLACE 4   /* the place in the order of lines; a word above 6 counts as 6 */
#define ROMALUDIV_READER_BODIES 5  /* how many elements of bodies are filled, from the front */
#define ROMALUDIV_READER_NUMBERS 6 /* of numbers */
#define ROMALUDIV_READER_FLOATS 7  /* of floats */
#define ROMALUDIV_READER_STEPS 8   /* of steps */
#define ROMALUDIV_READER_LEN 9     /* how many bytes line holds of the line that has not ended; of a bad one it says nothing */
/* Places: 0 among the bodies; 1 to 4 in a contact, before its N, T, N, T; 5 after a contact; 6 among the steps.
 *
 * Reasons: 1 over 160 bytes, 2 no known letter, 3 letter out of order or a contact cut short by the end, 4 field count or
 * field form, 5 table full. A bad line is told as soon as it is known, by its byte 10, its byte 161 or the end: look at
 * ROMALUDIV_READER_BAD after each call. What the lines before it said stays in the tables; it and all that follows write
 * to no element. After each portion and end the four counts are at most the tables' lengths, whatever they were before
 * (proved); elements past them are as they were.
 *
 * What the caller owes, as above:
 *
 *  - words is valid for ROMALUDIV_READER_WORDS elements, line for ROMALUDIV_MOST_IN_LINE, text and the tables for as many as
 *    their lengths say; to read, and to write where they are not const. None is null and each is aligned for its type, also
 *    where the length is 0. Every element has been given a value before, the reader's too: any value, as 0.
 *  - What is not const overlaps nothing else of the call. No other thread interferes. The stack has 2 KB left.
 *  - For what E8 promises of a whole text: a reader goes on with the words and the line that the last call left, and with
 *    the same tables of the same lengths. */

/* A reader that has read nothing. */
void romaludiv_begin(size_t *words);

/* Takes a portion of any length, zero bytes too. After the announced end and after a bad line it changes no element, and what
 * the reader says stays. */
void romaludiv_portion(
    size_t *words,
    uint8_t *line,
    const uint8_t *text, size_t text_len,
    uint32_t *bodies, size_t bodies_len,
    uint16_t *numbers, size_t numbers_len,
    uint32_t *floats, size_t floats_len,
    uint16_t *steps, size_t steps_len);

/* Announces the end: the last line may lack its byte 10. A second announcement gives the same answer. */
void romaludiv_end(
    size_t *words,
    const uint8_t *line,
    uint32_t *bodies, size_t bodies_len,
    uint16_t *numbers, size_t numbers_len,
    uint32_t *floats, size_t floats_len,
    uint16_t *steps, size_t steps_len);

#ifdef __cplusplus
}
#endif

#endif
