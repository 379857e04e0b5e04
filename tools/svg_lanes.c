/* Lanes with their names, and the bars of tasks in them. */
#include "svg.h"

static void name_desks(const struct svg *svg, uint32_t y, const char *class)
{
    for (uint32_t d = 1; d <= svg->chart->desks; d++) {
        char name[16] = "desk ";
        name[5] = (char)('0' + d);
        svg_words(svg, svg->lane[d] + EDGE, y, class, name);
    }
}

void svg_lanes(const struct svg *svg)
{
    const struct chart *chart = svg->chart;
    uint32_t top = svg_y(0) - 20, bottom = svg_y(chart->steps + 1) + 6;
    for (uint32_t d = 1; d <= chart->desks; d++)
        text_put(svg->to, "<rect x=\"%u\" y=\"%u\" width=\"%u\" height=\"%u\" fill=\"%s\"/>\n", svg->lane[d], top,
                 svg->lane[d + 1] - svg->lane[d], bottom - top, d % 2 == 1 ? "#f4f6f8" : "#eaeef2");
    name_desks(svg, svg_y(0) - 6, "desk");
    for (uint32_t row = 1; row <= chart->steps; row++) {
        bool refused = chart->row[row].answer != MORTARSEDGE_ACCEPTED;
        text_put(svg->to, "<path d=\"M%u %u H%u\" stroke=\"%s\"/>\n", refused ? svg->answers : svg->lane[1], svg_y(row),
                 svg->lane[chart->desks + 1], refused ? "#e8a0aa" : "#d3dae0");
    }
}

static void put_task_number(const struct svg *svg, uint32_t x, uint32_t y, const char *class, uint32_t task)
{
    struct text number = {NULL, 0, 0};
    text_put(&number, "%u", task);
    svg_words(svg, x, y, class, number.bytes);
    text_free(&number);
}

static uint32_t bar_x(const struct svg *svg, const struct stay *stay)
{
    return svg_x(svg, (struct spot_at){stay->desk, stay->task, stay->slot});
}

void svg_names_again(const struct svg *svg)
{
    const struct chart *chart = svg->chart;
    for (uint32_t row = BAND_ROWS; row < chart->steps; row += BAND_ROWS) {
        name_desks(svg, svg_y(row) + ROW - 4, "again haloed");
        for (uint32_t i = 0; i < chart->stays; i++)
            if (chart->stay[i].from < row && row + 1 < chart->stay[i].to)
                put_task_number(svg, bar_x(svg, &chart->stay[i]), svg_y(row) + ROW + 9, "task haloed", chart->stay[i].task);
    }
}

static const char *state_class(uint8_t state)
{
    return state == SENDING ? "sending" : state == RECEIVING ? "receiving" : state == WAITING ? "waiting" : "ready";
}

static void put_phase(const struct svg *svg, const struct phase *phase)
{
    const struct stay *stay = &svg->chart->stay[phase->stay];
    uint32_t x = bar_x(svg, stay);
    text_put(svg->to, "<rect class=\"bar %s\" x=\"%u\" y=\"%u\" width=\"%d\" height=\"%u\"><title>", state_class(phase->state),
             x - BAR / 2, svg_y(phase->from), BAR, svg_y(phase->to) - svg_y(phase->from));
    put_task(svg->to, svg->chart->names, stay->task);
    text_put(svg->to, ", %s, at desk %u</title></rect>\n", state_class(phase->state), stay->desk);
}

void svg_bars(const struct svg *svg)
{
    const struct chart *chart = svg->chart;
    for (uint32_t i = 0; i < chart->phases; i++)
        put_phase(svg, &chart->phase[i]);
    for (uint32_t i = 0; i < chart->stays; i++) {
        const struct stay *stay = &chart->stay[i];
        uint32_t x = bar_x(svg, stay);
        put_task_number(svg, x - BAR, svg_y(stay->from) + 12, "task", stay->task);
        if (stay->done)
            text_put(svg->to, "<path d=\"M%u %u h%d\" stroke=\"#222\" stroke-width=\"3\"/>\n", x - BAR / 2 - 3,
                     svg_y(stay->to) + 1, BAR + 6);
    }
}
