#include "file.h"

#include <errno.h>
#include <stdio.h>
#include <stdlib.h>
#include <string.h>

#include "say.h"
#include "text.h"

/* The room doubles until all is read, or it is too much. */
static int read_all(FILE *from, struct file *file)
{
    size_t room = 16 * 1024, got;
    errno = 0;
    do {
        room = room < FILE_LIMIT ? 2 * room : FILE_LIMIT + 1;
        file->bytes = memory(file->bytes, room);
        got = fread(file->bytes + file->length, 1, room - file->length, from);
        file->length += got;
    } while (file->length == room && room <= FILE_LIMIT);
    if (ferror(from))
        return fail(file->name, "%s", strerror(errno));
    return file->length > FILE_LIMIT ? fail(file->name, "over 1,048,576 bytes") : ACCEPTED;
}

int file_read(const char *name, struct file *file)
{
    bool standard = strcmp(name, "-") == 0;
    *file = (struct file){standard ? "standard input" : name, NULL, 0};
    errno = 0;
    FILE *from = standard ? stdin : fopen(name, "rb");
    if (from == NULL)
        return fail(name, "%s", strerror(errno));
    int status = read_all(from, file);
    if (!standard)
        fclose(from);
    if (status != ACCEPTED)
        file_free(file);
    return status;
}

void file_free(struct file *file)
{
    free(file->bytes);
    file->bytes = NULL;
    file->length = 0;
}

bool file_is_text(const struct file *file)
{
    return file->length > 0 && memchr(file->bytes, 0, file->length) == NULL;
}
