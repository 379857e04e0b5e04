/* old_plans FILE: plans of one level act as before.
 *
 * FILE has recorded runs of another model from when a word had one level and a
 * task with children could not move; a record is that of vectors.c. The library
 * gets them as they are. A plan with a second byte that is not zero was refused
 * by 3 then and may be accepted now: such a record is passed over. Of every
 * other the answer is the recorded one, and the trace too, but for three zeros
 * behind each word, its levels 1 to 3. A move that was answered 17 is answered
 * otherwise now, so that a trace is compared up to its first 17. */
#include <stdio.h>
#include <stdlib.h>
#include <string.h>

#include "../include/mortarsedge.h"

enum { HEADER = 7, ROOM = 1 << 20 };

static size_t number_at(const uint8_t *p)
{
    return (size_t)p[0] + 256 * (size_t)p[1];
}

/* Whether a plan that was refused by 3 has a second byte that may be a level. */
static bool has_levels(const uint8_t *plan, size_t length)
{
    size_t first = 4 + 4 * number_at(plan);
    for (size_t at = first; at + 4 <= length; at += 4)
        if (plan[at] >= MORTARSEDGE_INSTRUCTION_SET && plan[at] <= MORTARSEDGE_INSTRUCTION_ADD && plan[at + 1] != 0)
            return true;
    return false;
}

/* The recorded text with three zeros behind each word: the lines of four numbers. Returns its length. */
static size_t widen(const uint8_t *text, size_t length, uint8_t *wide)
{
    size_t filled = 0, spaces = 0;
    for (size_t i = 0; i < length; i++) {
        if (text[i] == '\n' && spaces == 3) {
            memcpy(wide + filled, " 0 0 0", 6);
            filled += 6;
        }
        spaces = text[i] == '\n' ? 0 : spaces + (text[i] == ' ');
        wide[filled++] = text[i];
    }
    return filled;
}

/* Where the first line begins that says 17 of a step; the length, if there is none. */
static size_t before_17(const uint8_t *text, size_t length)
{
    size_t line = 0, spaces = 0;
    for (size_t i = 0; i < length; i++) {
        spaces += text[i] == ' ';
        if (text[i] != '\n')
            continue;
        if (spaces == 1 && text[line] <= '9' && i >= 3 && memcmp(text + i - 3, " 17", 3) == 0)
            return line;
        line = i + 1;
        spaces = 0;
    }
    return length;
}

/* What the library makes of the record's files, as the trace program prints it. Returns its length. */
static size_t run(const uint8_t *p, size_t plan, size_t steps, uint8_t *out)
{
    uint64_t answer = mortarsedge_run(p[0], p + HEADER, plan, p + HEADER + plan, steps, out, MORTARSEDGE_OUTPUT_ENOUGH);
    uint32_t number = mortarsedge_number(answer);
    if (number == MORTARSEDGE_ACCEPTED)
        return mortarsedge_filled(answer);
    return (size_t)sprintf((char *)out, "refused %u\n", (unsigned)number);
}

static uint8_t file[ROOM];

int main(int argc, char **argv)
{
    static uint8_t out[MORTARSEDGE_OUTPUT_ENOUGH], expected[MORTARSEDGE_OUTPUT_ENOUGH];
    static const char refused[] = "refused 3\n";
    unsigned same = 0, cut = 0, passed_over = 0;
    FILE *stream = argc == 2 ? fopen(argv[1], "rb") : NULL;
    if (stream == NULL) {
        fprintf(stderr, "usage: old_plans FILE\n");
        return 2;
    }
    size_t length = fread(file, 1, sizeof file, stream), at = 0;
    fclose(stream);
    while (length - at >= HEADER) {
        const uint8_t *p = file + at;
        size_t plan = number_at(p + 1), steps = number_at(p + 3), text = number_at(p + 5);
        if (length - at - HEADER < plan + steps + text)
            break;
        const uint8_t *recorded = p + HEADER + plan + steps;
        at += HEADER + plan + steps + text;
        if (text == sizeof refused - 1 && memcmp(recorded, refused, text) == 0 && has_levels(p + HEADER, plan)) {
            passed_over++;
            continue;
        }
        size_t wide = widen(recorded, text, expected), most = before_17(expected, wide);
        size_t filled = run(p, plan, steps, out);
        if ((most == wide ? filled != wide : filled < most) || memcmp(out, expected, most) != 0) {
            fprintf(stderr, "old_plans: record %u differs\n", same + cut + passed_over + 1);
            return 1;
        }
        same += most == wide;
        cut += most < wide;
    }
    if (at != length || same == 0) {
        fprintf(stderr, "old_plans: %s ends within a record, or has none\n", argv[1]);
        return 1;
    }
    printf("old plans: %u runs as before, %u up to 17, %u passed over\n", same, cut, passed_over);
    return 0;
}
