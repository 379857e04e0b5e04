/* Letters as arrows from post to delivery. One that is under way at the end goes to the last row, and ends in a ring. */
#include "letters.h"
#include "svg.h"

const char *arrow_class(const struct arrow *arrow)
{
    return arrow->forward && arrow->letter.kind == OFFER ? "forward" : kind_name(arrow->letter.kind);
}

/* "offer 1", "ended 2". */
static void put_label(const struct arrow *arrow, struct text *to)
{
    text_put(to, "%s", kind_name(arrow->letter.kind));
    if (arrow->letter.kind == OFFER)
        text_put(to, " %u", arrow->letter.number);
    else if (arrow->letter.kind == ENDED || arrow->letter.kind == MOVER)
        text_put(to, " %u", arrow->letter.subject);
    if (arrow->forward)
        text_put(to, " forwarded");
}

struct ends {
    uint32_t x1, y1, x2, y2;
};

/* Straight between lanes; within a lane, and from edge to edge, a bow. */
static void put_path(const struct arrow *arrow, const struct ends *ends, struct text *to)
{
    text_put(to, "<path class=\"arrow %s\" d=\"M%u %u ", arrow_class(arrow), ends->x1, ends->y1);
    if (arrow->from.desk == arrow->to.desk)
        text_put(to, "C%u %u %u %u %u %u", ends->x1 + 40, ends->y1 + 10, ends->x2 + 40, ends->y2 - 10, ends->x2, ends->y2);
    else
        text_put(to, "L%u %u", ends->x2, ends->y2);
    if (arrow->delivered != 0)
        text_put(to, "\" marker-end=\"url(#%s)", arrow_class(arrow));
    text_put(to, "\"><title>");
}

/* The label stands at the arrow, a little way from the post: of a long one so near that it is below the post's row. */
static void put_label_at(const struct svg *svg, const struct arrow *arrow, const struct ends *ends)
{
    struct text label = {NULL, 0, 0};
    uint32_t height = ends->y2 - ends->y1, down = height / 3 < 14 ? height / 3 : 14;
    bool left = ends->x2 < ends->x1;
    uint32_t across = height == 0 ? 0 : (left ? ends->x1 - ends->x2 : ends->x2 - ends->x1) * down / height;
    put_label(arrow, &label);
    svg_words(svg, left ? ends->x1 - across - 4 : ends->x1 + across + 4, ends->y1 + down + 3,
              left ? "letter left" : "letter", label.bytes);
    text_free(&label);
}

/* Of adverts that left together the first has a label. */
static void put_arrow(const struct svg *svg, const struct arrow *arrow, bool is_further)
{
    uint32_t last = arrow->delivered == 0 ? svg->chart->steps + 1 : arrow->delivered;
    struct ends ends = {svg_x(svg, arrow->from), svg_y(arrow->posted), svg_x(svg, arrow->to), svg_y(last)};
    put_path(arrow, &ends, svg->to);
    put_letter(svg->to, svg->chart->names, &arrow->letter);
    text_put(svg->to, "</title></path>\n");
    if (arrow->delivered == 0)
        text_put(svg->to, "<circle cx=\"%u\" cy=\"%u\" r=\"4\" class=\"%s\" fill=\"#fff\"/>\n", ends.x2, ends.y2,
                 arrow_class(arrow));
    if (!is_further)
        put_label_at(svg, arrow, &ends);
}

void svg_arrows(const struct svg *svg)
{
    for (uint32_t i = 0; i < svg->chart->arrows; i++) {
        const struct arrow *arrow = &svg->chart->arrow[i];
        put_arrow(svg, arrow, i > 0 && arrow->letter.kind == ADVERT && arrow[-1].posted == arrow->posted);
    }
}
