/* How a chart is drawn as SVG: where things stand, and pieces of the picture. */
#ifndef SVG_H
#define SVG_H

#include "chart.h"

/* In pixels. Rows go down, lanes across. */
enum {
    ROW = 24,     /* from row to row */
    BAND = 20,    /* further room where the desks are named again */
    BAND_ROWS = 20, /* so often */
    EDGE = 30,    /* from a lane's left side to its first bar */
    SLOT = 34,    /* from bar to bar */
    BAR = 12,     /* a bar's width */
    LEAST_LANE = 110,
    GLYPHS = 73,  /* ten letters of the text */
    TOP = 118     /* the legend, and the names of the desks */
};

struct svg {
    const struct chart *chart;
    struct text *to;
    uint32_t lane[MAX_DESKS + 2]; /* left sides; behind the last lane, the next column */
    uint32_t answers, received, outcomes; /* columns */
    uint32_t width, height;
};

/* The columns, from the texts that they hold. */
void svg_lay_out(struct svg *svg);

/* The height of a row's middle. */
uint32_t svg_y(uint32_t row);

/* A point of a lane. */
uint32_t svg_x(const struct svg *svg, struct spot_at at);

/* Text at a place: of a class of the picture's style. */
void svg_words(const struct svg *svg, uint32_t x, uint32_t y, const char *class, const char *words);

/* Words with &, < and > escaped. */
void svg_escaped(struct text *to, const char *words);

/* The width of so many letters. */
uint32_t svg_width(uint32_t letters);

/* The name of an arrow's class: `offer`, or `forward`. */
const char *arrow_class(const struct arrow *arrow);

void svg_head(const struct svg *svg);
void svg_lanes(const struct svg *svg);
void svg_names_again(const struct svg *svg); /* of desks and tasks, so that they are known after scrolling */
void svg_bars(const struct svg *svg);
void svg_arrows(const struct svg *svg);
void svg_rows(const struct svg *svg);

#endif
