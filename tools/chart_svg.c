/* A chart as SVG: time goes down, a lane for each desk, so that a long run is scrolled as a page is. */
#include <string.h>

#include "svg.h"

static uint32_t widest(const struct chart *chart, char *const *(*words)(const struct row *))
{
    size_t most = 0;
    for (uint32_t i = 1; i <= chart->steps; i++) {
        const char *text = *words(&chart->row[i]);
        if (text != NULL && strlen(text) > most)
            most = strlen(text);
    }
    return (uint32_t)most;
}

static char *const *step_words(const struct row *row)
{
    return &row->step;
}

static char *const *received_words(const struct row *row)
{
    return &row->received;
}

static char *const *outcome_words(const struct row *row)
{
    return &row->outcome;
}

void svg_lay_out(struct svg *svg)
{
    const struct chart *chart = svg->chart;
    uint32_t received = widest(chart, received_words), outcomes = widest(chart, outcome_words);
    svg->answers = 56 + svg_width(widest(chart, step_words)) + 16;
    uint32_t x = svg->answers + 46;
    for (uint32_t d = 1; d <= chart->desks; d++) {
        uint32_t width = EDGE + SLOT * chart->slots[d] + 10;
        svg->lane[d] = x;
        x += width < LEAST_LANE ? LEAST_LANE : width;
    }
    svg->lane[chart->desks + 1] = x;
    svg->received = x + 14;
    svg->outcomes = svg->received + (received == 0 ? 0 : svg_width(received) + 26);
    svg->width = svg->outcomes + svg_width(outcomes < 40 ? 40 : outcomes) + 30;
    if (svg->width < 960)
        svg->width = 960;
    svg->height = svg_y(chart->steps + 1) + 2 * ROW;
}

uint32_t svg_width(uint32_t letters)
{
    return GLYPHS * letters / 10;
}

uint32_t svg_y(uint32_t row)
{
    return TOP + ROW * row + (row == 0 ? 0 : BAND * ((row - 1) / BAND_ROWS));
}

uint32_t svg_x(const struct svg *svg, struct spot_at at)
{
    if (at.task == 0)
        return svg->lane[at.desk] + EDGE / 3;
    return svg->lane[at.desk] + EDGE + SLOT * at.slot + SLOT / 2;
}

void svg_escaped(struct text *to, const char *words)
{
    for (; *words != '\0'; words++)
        switch (*words) {
        case '&':
            text_put(to, "&amp;");
            break;
        case '<':
            text_put(to, "&lt;");
            break;
        case '>':
            text_put(to, "&gt;");
            break;
        default:
            text_add(to, words, 1);
            break;
        }
}

void svg_words(const struct svg *svg, uint32_t x, uint32_t y, const char *class, const char *words)
{
    text_put(svg->to, "<text x=\"%u\" y=\"%u\" class=\"%s\">", x, y, class);
    svg_escaped(svg->to, words);
    text_put(svg->to, "</text>\n");
}

void chart_svg(const struct chart *chart, struct text *to)
{
    struct svg svg = {.chart = chart, .to = to};
    svg_lay_out(&svg);
    svg_head(&svg);
    svg_lanes(&svg);
    svg_bars(&svg);
    svg_arrows(&svg);
    svg_names_again(&svg);
    svg_rows(&svg);
    text_put(to, "</svg>\n");
}
