/* The picture's style and its legend. */
#include "svg.h"

/* Each kind of letter has its colour and its line, so that they are told apart without colours too. */
static const struct {
    const char *class, *colour, *width, *dashes;
} lines[] = {
    {"offer", "#0072b2", "1.6", "none"},     {"forward", "#0072b2", "1.6", "7 3"}, {"advert", "#56b4e9", "1.4", "2 3"},
    {"call", "#d55e00", "1.6", "10 2 2 2"},  {"word", "#009e73", "3", "none"},     {"ended", "#666666", "1.4", "5 4"},
    {"mover", "#9b4f96", "2.4", "1 2.5"},
};

enum { LINES = sizeof lines / sizeof lines[0] };

static void put_style(struct text *to)
{
    text_put(to, "<style>\n"
                 "text { font: 12px 'DejaVu Sans Mono', Menlo, Consolas, monospace; fill: #222; white-space: pre; }\n"
                 ".number { text-anchor: end; fill: #777; }\n"
                 ".desk { font-weight: bold; }\n"
                 ".again { fill: #888; font-size: 11px; }\n"
                 ".task { font-size: 11px; font-weight: bold; text-anchor: middle; }\n"
                 ".letter { font-size: 10px; } .left { text-anchor: end; }\n"
                 ".letter, .haloed { paint-order: stroke; stroke: #fff; stroke-width: 3px; }\n"
                 ".refusal { fill: #fff; font-weight: bold; text-anchor: middle; }\n"
                 ".refused { fill: #b00020; }\n"
                 ".got { fill: #00674b; font-weight: bold; }\n"
                 ".ready { fill: #9ecae1; } .sending { fill: #fdae6b; }\n"
                 ".receiving { fill: #a1d99b; } .waiting { fill: #d9d9d9; }\n"
                 ".bar { stroke: #555; stroke-width: 0.8; }\n"
                 ".arrow { fill: none; }\n");
    for (size_t i = 0; i < LINES; i++)
        text_put(to, ".%s { stroke: %s; stroke-width: %s; stroke-dasharray: %s; } .tip-%s { fill: %s; }\n", lines[i].class,
                 lines[i].colour, lines[i].width, lines[i].dashes, lines[i].class, lines[i].colour);
    text_put(to, "</style>\n<defs>\n");
    for (size_t i = 0; i < LINES; i++)
        text_put(to, "<marker id=\"%s\" viewBox=\"0 0 10 10\" refX=\"9\" refY=\"5\" markerUnits=\"userSpaceOnUse\" "
                     "markerWidth=\"11\" markerHeight=\"11\" orient=\"auto\">"
                     "<path class=\"tip-%s\" d=\"M0 0 L10 5 L0 10 z\"/></marker>\n",
                 lines[i].class, lines[i].class);
    text_put(to, "</defs>\n");
}

static void put_legend(const struct svg *svg)
{
    static const char *const states[] = {"ready", "sending", "receiving", "waiting"};
    uint32_t x = 20;
    for (size_t i = 0; i < LINES; i++, x += 118) {
        text_put(svg->to, "<path class=\"arrow %s\" d=\"M%u 44 H%u\" marker-end=\"url(#%s)\"/>\n", lines[i].class, x, x + 44,
                 lines[i].class);
        svg_words(svg, x + 50, 48, "again", lines[i].class);
    }
    x = 20;
    for (size_t i = 0; i < 4; i++, x += 118) {
        text_put(svg->to, "<rect class=\"bar %s\" x=\"%u\" y=\"58\" width=\"12\" height=\"14\"/>\n", states[i], x);
        svg_words(svg, x + 18, 69, "again", states[i]);
    }
    text_put(svg->to, "<rect x=\"%u\" y=\"58\" width=\"24\" height=\"15\" rx=\"4\" fill=\"#b00020\"/>\n", x);
    svg_words(svg, x + 30, 69, "again", "refused, with its number");
    text_put(svg->to, "<path d=\"M%u 71 l7 -12 l7 12 z\" fill=\"#b00020\"/>\n", x + 220);
    svg_words(svg, x + 240, 69, "again", "went over the top");
    text_put(svg->to, "<path d=\"M%u 65 h18\" stroke=\"#222\" stroke-width=\"3\"/>\n", x + 380);
    svg_words(svg, x + 404, 69, "again", "done");
}

/* "Tasks: 1 main, 2 lamp", where tasks have names. */
static void put_roster(const struct svg *svg)
{
    const char *between = "tasks: ";
    struct text words = {NULL, 0, 0};
    for (uint32_t t = 1; t <= svg->chart->tasks; t++)
        if (svg->chart->names->task[t] != NULL) {
            text_put(&words, "%s%u %s", between, t, svg->chart->names->task[t]);
            between = ", ";
        }
    if (words.length > 0)
        svg_words(svg, 20, 88, "again", words.bytes);
    text_free(&words);
}

void svg_head(const struct svg *svg)
{
    struct text title = {NULL, 0, 0};
    text_put(&title, "%u step%s on %u desk%s, ", svg->chart->steps, svg->chart->steps == 1 ? "" : "s", svg->chart->desks,
             svg->chart->desks == 1 ? "" : "s");
    chart_end_words(svg->chart, &title);
    text_put(svg->to, "<?xml version=\"1.0\" encoding=\"UTF-8\"?>\n"
                      "<svg xmlns=\"http://www.w3.org/2000/svg\" width=\"%u\" height=\"%u\" viewBox=\"0 0 %u %u\">\n<title>",
             svg->width, svg->height, svg->width, svg->height);
    svg_escaped(svg->to, title.bytes);
    text_put(svg->to, "</title>\n");
    put_style(svg->to);
    text_put(svg->to, "<rect width=\"%u\" height=\"%u\" fill=\"#fff\"/>\n", svg->width, svg->height);
    svg_words(svg, 20, 24, "desk", title.bytes);
    put_legend(svg);
    put_roster(svg);
    text_free(&title);
}
