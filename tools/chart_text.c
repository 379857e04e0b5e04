/* A chart for a terminal: a line a step. Lanes have a column for each bar; behind them each letter has a column from its
 * post to its delivery. */
#include <stdlib.h>
#include <string.h>

#include "chart.h"

enum { CELL = 3 };

/* Columns of letters: who uses them from row to row. */
struct tracks {
    uint32_t count;
    uint32_t *of; /* by arrow */
};

static void place_tracks(const struct chart *chart, struct tracks *tracks)
{
    uint32_t until[MAX_MAIL + 1] = {0}; /* by track: the row up to which it is used */
    tracks->count = 0;
    tracks->of = memory(NULL, (chart->arrows + 1) * sizeof tracks->of[0]);
    for (uint32_t i = 0; i < chart->arrows; i++) {
        const struct arrow *arrow = &chart->arrow[i];
        uint32_t track = 0;
        while (track < MAX_MAIL && until[track] >= arrow->posted)
            track++;
        until[track] = arrow->delivered == 0 ? UINT32_MAX : arrow->delivered;
        tracks->of[i] = track;
        if (track + 1 > tracks->count)
            tracks->count = track + 1;
    }
}

static size_t step_width(const struct chart *chart)
{
    size_t width = strlen("start");
    for (uint32_t i = 1; i <= chart->steps; i++)
        if (strlen(chart->row[i].step) > width)
            width = strlen(chart->row[i].step);
    return width;
}

static char state_sign(uint8_t state)
{
    return state == SENDING ? 's' : state == RECEIVING ? 'r' : state == WAITING ? 'w' : '|';
}

/* The cells of all lanes at a row, blank first. */
static void draw_lanes(const struct chart *chart, uint32_t row, const uint32_t *lane, char *cells)
{
    for (uint32_t i = 0; i < chart->phases; i++) {
        const struct phase *phase = &chart->phase[i];
        const struct stay *stay = &chart->stay[phase->stay];
        if (phase->from <= row && (row < phase->to || (row == phase->to && row > chart->steps)))
            cells[lane[stay->desk] + CELL * stay->slot + 1] = state_sign(phase->state);
    }
    for (uint32_t i = 0; i < chart->stays; i++) {
        const struct stay *stay = &chart->stay[i];
        char *cell = cells + lane[stay->desk] + CELL * stay->slot;
        bool acts = row > 0 && chart->row[row].answer == MORTARSEDGE_ACCEPTED && chart->row[row].at.desk == stay->desk
            && chart->row[row].at.task == stay->task && stay->from <= row && row <= stay->to;
        if (row > chart->steps || (stay->from != row && stay->to != row && !acts))
            continue;
        cell[0] = stay->task > 9 ? (char)('0' + stay->task / 10) : ' ';
        cell[1] = (char)('0' + stay->task % 10);
        cell[2] = stay->from == row ? '+' : stay->to == row ? '-' : '*';
    }
}

static char letter_sign(const struct arrow *arrow)
{
    return arrow->forward ? 'F' : " OACWEM"[arrow->letter.kind];
}

static void draw_letters(const struct chart *chart, uint32_t row, const struct tracks *tracks, char *cells)
{
    for (uint32_t i = 0; i < chart->arrows; i++) {
        const struct arrow *arrow = &chart->arrow[i];
        char *cell = cells + 2 * tracks->of[i];
        if (arrow->posted == row)
            *cell = letter_sign(arrow);
        else if (arrow->delivered == row && row > 0)
            *cell = 'v';
        else if (arrow->posted < row && (arrow->delivered == 0 || row < arrow->delivered))
            *cell = '|';
    }
}

/* No line ends with spaces. */
static void end_line(struct text *to)
{
    while (to->length > 0 && to->bytes[to->length - 1] == ' ')
        to->length--;
    text_add(to, "\n", 1);
}

struct drawing {
    const struct chart *chart;
    struct tracks tracks;
    size_t step_width;
    uint32_t lane[MAX_DESKS + 1], lanes; /* columns */
};

static void put_row(const struct drawing *drawing, uint32_t row, struct text *to)
{
    char lanes[MAX_DESKS * (CELL * (MAX_TASKS + 1) + 4)], letters[2 * MAX_MAIL + 2];
    memset(lanes, ' ', sizeof lanes);
    memset(letters, ' ', sizeof letters);
    for (uint32_t d = 1; d <= drawing->chart->desks; d++)
        lanes[drawing->lane[d] - 2] = ':';
    draw_lanes(drawing->chart, row, drawing->lane, lanes);
    draw_letters(drawing->chart, row, &drawing->tracks, letters);
    text_add(to, lanes, drawing->lanes);
    text_put(to, ": ");
    text_add(to, letters, 2 * drawing->tracks.count);
}

static void put_step_row(const struct drawing *drawing, uint32_t number, struct text *to)
{
    const struct row *row = &drawing->chart->row[number];
    text_put(to, "%4u %-*s ", number, (int)drawing->step_width, row->step);
    if (row->answer != MORTARSEDGE_ACCEPTED)
        text_put(to, "!%-3u", row->answer);
    else
        text_put(to, row->over ? "^   " : "    ");
    put_row(drawing, number, to);
    text_put(to, " ");
    if (row->received != NULL)
        text_put(to, "[%s] ", row->received);
    text_put(to, "%s\n", row->outcome);
}

static void put_heading(const struct drawing *drawing, struct text *to)
{
    size_t start = to->length;
    for (uint32_t d = 1; d <= drawing->chart->desks; d++) {
        size_t column = 10 + drawing->step_width + drawing->lane[d] - 2;
        while (to->length - start < column)
            text_add(to, " ", 1);
        text_put(to, ": desk %u", d);
    }
    while (to->length - start < 10 + drawing->step_width + drawing->lanes)
        text_add(to, " ", 1);
    text_put(to, ": letters\n");
}

void chart_text(const struct chart *chart, struct text *to)
{
    struct drawing drawing = {.chart = chart, .step_width = step_width(chart)};
    uint32_t column = 0;
    place_tracks(chart, &drawing.tracks);
    for (uint32_t d = 1; d <= chart->desks; d++) {
        uint32_t width = CELL * chart->slots[d] + 3;
        drawing.lane[d] = column + 2;
        column += width < 10 ? 10 : width;
    }
    drawing.lanes = column;
    text_put(to, "Bars: | ready, s sending, r receiving, w waiting; NN+ is born or arrives, NN- leaves or is done, NN* acts.\n"
                 "Letters: O offer, F forwarded, A advert, C call, W word, E ended, M mover; v delivered.\n"
                 "Steps: !NN refused, ^ a sum went over the top, [..] a word was received.\n\n");
    for (uint32_t row = 0; row <= chart->steps; row++) {
        if (row % 40 == 0)
            put_heading(&drawing, to);
        if (row > 0)
            put_step_row(&drawing, row, to);
        else {
            text_put(to, "%4s %-*s     ", "", (int)drawing.step_width, "start");
            put_row(&drawing, 0, to);
            end_line(to);
        }
    }
    text_put(to, "%4s %-*s     ", "", (int)drawing.step_width, "end");
    put_row(&drawing, chart->steps + 1, to);
    text_put(to, " ");
    chart_end_words(chart, to);
    text_put(to, "\n");
    free(drawing.tracks.of);
}
