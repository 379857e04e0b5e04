#include "file.h"

#include <errno.h>
#include <stdio.h>
#include <stdlib.h>
#include <string.h>

static bool fail(const char *name, const char *why)
{
    fprintf(stderr, "driver: %s: %s\n", name, why);
    return false;
}

static bool read_all(FILE *from, const char *name, struct file *file)
{
    file->length = fread(file->bytes, 1, FILE_LIMIT + 1, from);
    if (ferror(from))
        return fail(name, strerror(errno));
    if (file->length > FILE_LIMIT)
        return fail(name, "over 1,048,576 bytes");
    return true;
}

bool file_load(const char *name, struct file *file)
{
    errno = 0;
    FILE *from = fopen(name, "rb");
    if (from == NULL)
        return fail(name, strerror(errno));
    file->bytes = malloc(FILE_LIMIT + 1);
    bool loaded = file->bytes == NULL ? fail(name, "no memory") : read_all(from, name, file);
    fclose(from);
    if (!loaded)
        file_free(file);
    return loaded;
}

void file_free(struct file *file)
{
    free(file->bytes);
    file->bytes = NULL;
    file->length = 0;
}
