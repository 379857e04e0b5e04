#include "xml.h"

#include <string.h>

enum { DEPTH = 32, NAME = 32 };

struct reader {
    const char *at, *end;
    char open[DEPTH][NAME + 1]; /* elements that are open */
    size_t depth;
    bool had_root;
};

static bool take(struct reader *r, const char *text)
{
    size_t length = strlen(text);
    if ((size_t)(r->end - r->at) < length || memcmp(r->at, text, length) != 0)
        return false;
    r->at += length;
    return true;
}

static bool take_name(struct reader *r, char name[NAME + 1])
{
    static const char letters[] = "abcdefghijklmnopqrstuvwxyzABCDEFGHIJKLMNOPQRSTUVWXYZ-:0123456789";
    size_t length = 0;
    while (r->at < r->end && *r->at != '\0' && strchr(letters, *r->at) != NULL && length < NAME)
        name[length++] = *r->at++;
    name[length] = '\0';
    return length > 0 && (name[0] < '0' || name[0] > '9');
}

static void skip_spaces(struct reader *r)
{
    while (r->at < r->end && (*r->at == ' ' || *r->at == '\n'))
        r->at++;
}

/* Text up to a stop: printable ASCII, no <, each & an entity. */
static bool take_text(struct reader *r, char stop)
{
    while (r->at < r->end && *r->at != stop && *r->at != '<') {
        if (*r->at == '&') {
            if (!take(r, "&amp;") && !take(r, "&lt;") && !take(r, "&gt;") && !take(r, "&quot;") && !take(r, "&apos;"))
                return false;
        } else if ((*r->at < ' ' && *r->at != '\n') || *r->at == 127) {
            return false;
        } else {
            r->at++;
        }
    }
    return r->at < r->end;
}

static bool take_attributes(struct reader *r)
{
    char name[NAME + 1];
    for (;;) {
        const char *before = r->at;
        skip_spaces(r);
        if (r->at == r->end)
            return false;
        if (*r->at == '>' || *r->at == '/' || *r->at == '?')
            return true;
        if (before == r->at || !take_name(r, name) || !take(r, "=\"") || !take_text(r, '"') || !take(r, "\""))
            return false;
    }
}

static bool take_close(struct reader *r)
{
    char name[NAME + 1];
    if (r->depth == 0 || !take_name(r, name) || !take(r, ">"))
        return false;
    return strcmp(name, r->open[--r->depth]) == 0;
}

static bool take_open(struct reader *r)
{
    if (r->depth == DEPTH || (r->depth == 0 && r->had_root) || !take_name(r, r->open[r->depth]) || !take_attributes(r))
        return false;
    r->had_root = true;
    if (take(r, "/>"))
        return true;
    r->depth++;
    return take(r, ">");
}

bool xml_is_well_formed(const char *bytes, size_t length)
{
    struct reader r = {.at = bytes, .end = bytes + length};
    if (take(&r, "<?xml") && !(take_attributes(&r) && take(&r, "?>")))
        return false;
    for (;;) {
        if (r.depth == 0)
            skip_spaces(&r);
        else if (!take_text(&r, '<'))
            return false;
        if (r.at == r.end)
            return r.depth == 0 && r.had_root;
        if (take(&r, "</") ? !take_close(&r) : !(take(&r, "<") && take_open(&r)))
            return false;
    }
}
