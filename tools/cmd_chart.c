/* chart: a run as a picture. */
#include "chart.h"
#include "command.h"

static struct show show;
static struct witness witness;
static struct chart chart;

int command_chart(const struct call *call)
{
    struct text picture = {NULL, 0, 0};
    int status = read_show(call, false, &show);
    if (status == ACCEPTED)
        status = witness_run(&witness, &show);
    if (status == ACCEPTED)
        status = chart_make(&witness, &chart);
    if (status == ACCEPTED) {
        if ((call->options & OPTION_TEXT) != 0)
            chart_text(&chart, &picture);
        else
            chart_svg(&chart, &picture);
        status = file_write(call->output, picture.bytes, picture.length);
    }
    chart_free(&chart);
    text_free(&picture);
    show_free(&show);
    return status;
}
