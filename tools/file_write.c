#define _XOPEN_SOURCE 700
#include <errno.h>
#include <stdio.h>
#include <stdlib.h>
#include <string.h>
#include <sys/stat.h>
#include <unistd.h>

#include "file.h"
#include "say.h"
#include "text.h"

static int write_stream(FILE *to, const char *name, const void *bytes, size_t length)
{
    errno = 0;
    bool written = length == 0 || fwrite(bytes, 1, length, to) == length;
    written = fflush(to) == 0 && written;
    return written ? ACCEPTED : fail(name, "%s", errno == 0 ? "cannot be written" : strerror(errno));
}

/* A device or a pipe: there is nothing to put in its place. */
static int write_through(const char *name, const void *bytes, size_t length)
{
    FILE *to = fopen(name, "wb");
    if (to == NULL)
        return fail(name, "%s", strerror(errno));
    int status = write_stream(to, name, bytes, length);
    fclose(to);
    return status;
}

static bool write_all(int to, const char *bytes, size_t length)
{
    while (length > 0) {
        ssize_t written = write(to, bytes, length);
        if (written < 0 && errno == EINTR)
            continue;
        if (written <= 0)
            return false;
        bytes += written;
        length -= (size_t)written;
    }
    return true;
}

/* The mode of a new file. */
static mode_t usual_mode(void)
{
    mode_t mask = umask(0);
    umask(mask);
    return 0666 & ~mask;
}

/* Written beside, then renamed. What was there stays until all is written. */
static int write_beside(const char *name, mode_t mode, const void *bytes, size_t length)
{
    struct text beside = {NULL, 0, 0};
    int status = ACCEPTED;
    text_put(&beside, "%s.XXXXXX", name);
    int to = mkstemp(beside.bytes);
    if (to < 0) {
        status = fail(name, "%s", strerror(errno));
    } else {
        bool written = write_all(to, bytes, length) && fchmod(to, mode) == 0 && fsync(to) == 0;
        written = close(to) == 0 && written;
        if (!written || rename(beside.bytes, name) != 0) {
            status = fail(name, "%s", strerror(errno));
            unlink(beside.bytes);
        }
    }
    text_free(&beside);
    return status;
}

int file_write(const char *name, const void *bytes, size_t length)
{
    struct stat there;
    if (strcmp(name, "-") == 0)
        return write_stream(stdout, "standard output", bytes, length);
    if (stat(name, &there) != 0)
        return write_beside(name, usual_mode(), bytes, length);
    if (!S_ISREG(there.st_mode)) /* a directory is not opened */
        return write_through(name, bytes, length);
    char *real = realpath(name, NULL); /* a link stays a link */
    if (real == NULL)
        return fail(name, "%s", strerror(errno));
    int status = write_beside(real, there.st_mode & 07777, bytes, length);
    free(real);
    return status;
}
