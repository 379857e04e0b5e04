/* A whole file, read into memory. */
#include "whole_file.h"

#include <stdio.h>
#include <stdlib.h>

uint8_t *read_whole(const char *name, size_t *length)
{
    FILE *file = fopen(name, "rb");
    uint8_t *bytes = NULL;
    if (file == NULL)
        return NULL;
    long size = fseek(file, 0, SEEK_END) == 0 ? ftell(file) : -1;
    if (size >= 0)
        bytes = malloc((size_t)size + 1);
    rewind(file);
    if (bytes != NULL) {
        *length = fread(bytes, 1, (size_t)size, file);
        if (*length != (size_t)size) {
            free(bytes);
            bytes = NULL;
        }
    }
    fclose(file);
    return bytes;
}
