/* What stands beside the lanes, and the marks of steps in them. */
#include "svg.h"

static void put_number(const struct svg *svg, uint32_t row)
{
    struct text number = {NULL, 0, 0};
    text_put(&number, "%u", row);
    svg_words(svg, 46, svg_y(row) + 4, "number", number.bytes);
    text_free(&number);
}

static void put_refusal(const struct svg *svg, uint32_t row)
{
    struct text number = {NULL, 0, 0};
    text_put(&number, "%u", svg->chart->row[row].answer);
    text_put(svg->to, "<rect x=\"%u\" y=\"%u\" width=\"28\" height=\"18\" rx=\"4\" fill=\"#b00020\"/>\n", svg->answers,
             svg_y(row) - 9);
    svg_words(svg, svg->answers + 14, svg_y(row) + 4, "refusal", number.bytes);
    text_free(&number);
}

/* The point in the lane where a step happens. */
static void put_mark(const struct svg *svg, uint32_t number)
{
    const struct row *row = &svg->chart->row[number];
    uint32_t x = svg_x(svg, row->at), y = svg_y(number);
    if (row->answer != MORTARSEDGE_ACCEPTED)
        text_put(svg->to, "<path d=\"M%u %u l8 8 m0 -8 l-8 8\" stroke=\"#b00020\" stroke-width=\"2.4\"/>\n", x - 4, y - 4);
    else if (row->over)
        text_put(svg->to, "<path d=\"M%u %u l7 -12 l7 12 z\" fill=\"#b00020\"/>\n", x - 7, y + 6);
    else if (row->received != NULL)
        text_put(svg->to, "<circle cx=\"%u\" cy=\"%u\" r=\"5\" fill=\"#009e73\" stroke=\"#fff\"/>\n", x, y);
    else
        text_put(svg->to, "<circle cx=\"%u\" cy=\"%u\" r=\"3.2\" fill=\"#333\"/>\n", x, y);
}

static void put_row(const struct svg *svg, uint32_t number)
{
    const struct row *row = &svg->chart->row[number];
    bool refused = row->answer != MORTARSEDGE_ACCEPTED;
    put_number(svg, number);
    svg_words(svg, 56, svg_y(number) + 4, refused ? "refused" : "step", row->step);
    if (refused)
        put_refusal(svg, number);
    if (row->at.desk != 0)
        put_mark(svg, number);
    if (row->received != NULL)
        svg_words(svg, svg->received, svg_y(number) + 4, "got", row->received);
    svg_words(svg, svg->outcomes, svg_y(number) + 4, refused ? "refused" : "outcome", row->outcome);
}

/* Rest is a double line; without it the line is broken. */
static void put_end(const struct svg *svg)
{
    struct text words = {NULL, 0, 0};
    uint32_t y = svg_y(svg->chart->steps + 1);
    chart_end_words(svg->chart, &words);
    if (svg->chart->at_rest)
        text_put(svg->to, "<path d=\"M16 %u H%u M16 %u H%u\" stroke=\"#333\" stroke-width=\"1.5\"/>\n", y + 6, svg->width - 16,
                 y + 10, svg->width - 16);
    else
        text_put(svg->to, "<path d=\"M16 %u H%u\" stroke=\"#b06000\" stroke-width=\"2\" stroke-dasharray=\"9 6\"/>\n", y + 8,
                 svg->width - 16);
    svg_words(svg, 56, y + 26, "desk", words.bytes);
    text_free(&words);
}

void svg_rows(const struct svg *svg)
{
    for (uint32_t row = 1; row <= svg->chart->steps; row++)
        put_row(svg, row);
    put_end(svg);
}
