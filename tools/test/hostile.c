/* hostile SEED COUNT [loud]: each subcommand on COUNT pairs of hostile files, in one process, under the compiler's
 * checks. Each call has to return 0, 1 or 2; a call that does not accept leaves its output as it was, and no file beside it. */
#define _XOPEN_SOURCE 700
#include <dirent.h>
#include <stdio.h>
#include <stdlib.h>
#include <string.h>
#include <unistd.h>

#include "../file.h"
#include "../say.h"
#include "junk.h"
#include "xml.h"

int command_main(int argc, char **argv); /* main of tools/main.c */

static char folder[64]; /* in memory if there is such a place: files are then written without a disk */
static int told;        /* standard output; the commands' own goes nowhere */
static unsigned count[3]; /* calls, by status */

static void fault(const char *what, const char *command, uint64_t index)
{
    dprintf(told, "hostile: %s, %s %llu\n", what, command, (unsigned long long)index);
    exit(1);
}

static void put_file(const char *name, const struct text *text)
{
    FILE *to = fopen(name, "wb");
    if (to == NULL || fwrite(text->length == 0 ? "" : text->bytes, 1, text->length, to) != text->length || fclose(to) != 0)
        fault("a file cannot be written", name, 0);
}

/* The output is what it was. */
static bool is_old(void)
{
    char bytes[8] = "";
    FILE *from = fopen("out", "rb");
    size_t length = from == NULL ? 0 : fread(bytes, 1, sizeof bytes, from);
    if (from != NULL)
        fclose(from);
    return length == 4 && memcmp(bytes, "old\n", 4) == 0;
}

static void check_svg(uint64_t index)
{
    struct file file;
    if (file_read("out", &file) != ACCEPTED)
        return; /* a chart of over a megabyte is not read here */
    if (!xml_is_well_formed((const char *)file.bytes, file.length))
        fault("no XML", "chart", index);
    file_free(&file);
}

/* One call, its words in a string. */
static void call(const char *words, uint64_t index)
{
    static const struct text old = {(char *)"old\n", 4, 0};
    char copy[128], name[] = "mortarsedge", *word[16] = {name};
    int argc = 1;
    snprintf(copy, sizeof copy, "%s", words);
    for (char *at = strtok(copy, " "); at != NULL; at = strtok(NULL, " "))
        word[argc++] = at;
    put_file("out", &old);
    int status = command_main(argc, word);
    if (status < 0 || status > 2)
        fault("status", words, index);
    count[status]++;
    if (status != ACCEPTED && strncmp(words, "finish", 6) != 0 && !is_old())
        fault("a refused call has written", words, index);
    if (status == ACCEPTED && strncmp(words, "chart -o", 8) == 0)
        check_svg(index);
}

static void call_all(struct random *r, uint64_t index)
{
    static const char *const all[] = {
        "check %u plan", "check --bytes %u plan", "run -o out %u plan steps", "run --explain -o out %u plan steps",
        "run --bytes -o out %u plan steps", "finish -o out plan", "finish --explain -o out plan", "convert -o out plan",
        "view -o out %u plan steps", "view --along --explain -o out %u plan steps", "view --tablet --quiet -o out %u plan steps",
        "logs steps plan", "logs steps steps", "plan -o out plan", "plan --repeats -o out plan", "unplan -o out plan",
        "steps -o out %u plan steps", "unsteps -o out %u plan steps", "unsteps --positions -o out %u plan steps",
        "panel -o out %u plan steps", "dispatch -o out %u plan", "dispatch --text -o out %u plan", "chart -o out %u plan steps",
        "chart --text -o out %u plan steps", "chart -o out %u steps plan"};
    uint32_t desks = random_from(r, 1, 6);
    for (size_t i = 0; i < sizeof all / sizeof all[0]; i++) {
        char words[128];
#pragma GCC diagnostic push
#pragma GCC diagnostic ignored "-Wformat-nonliteral"
        snprintf(words, sizeof words, all[i], desks);
#pragma GCC diagnostic pop
        call(words, index);
    }
}

/* Nothing but the three files is left. */
static void check_folder(void)
{
    DIR *here = opendir(".");
    unsigned files = 0;
    for (struct dirent *entry = here == NULL ? NULL : readdir(here); entry != NULL; entry = readdir(here))
        files += entry->d_name[0] != '.';
    if (here != NULL)
        closedir(here);
    if (files != 3)
        fault("files are left", "all", files);
    if (remove("plan") != 0 || remove("steps") != 0 || remove("out") != 0 || rmdir(folder) != 0)
        fault("the folder is left", folder, 0);
}

int main(int argc, char **argv)
{
    struct text plan = {NULL, 0, 0}, steps = {NULL, 0, 0};
    bool quiet = argc == 3;
    if (argc != 3 && argc != 4) {
        fprintf(stderr, "usage: hostile SEED COUNT [loud]\n");
        return 2;
    }
    told = dup(1);
    strcpy(folder, access("/dev/shm", W_OK) == 0 ? "/dev/shm/mortarsedge.XXXXXX" : "/tmp/mortarsedge.XXXXXX");
    if (told < 0 || mkdtemp(folder) == NULL || chdir(folder) != 0
        || (quiet && (freopen("/dev/null", "w", stdout) == NULL || freopen("/dev/null", "w", stderr) == NULL)))
        return 2;
    struct random r = {strtoull(argv[1], NULL, 10)};
    uint64_t pairs = strtoull(argv[2], NULL, 10);
    for (uint64_t index = 0; index < pairs; index++) {
        make_junk(&r, &plan, &steps);
        put_file("plan", &plan);
        put_file("steps", &steps);
        text_free(&plan);
        text_free(&steps);
        call_all(&r, index);
    }
    check_folder();
    dprintf(told, "hostile: %llu pairs of files, %u calls accepted, %u refused, %u failed\n", (unsigned long long)pairs, count[0],
            count[1], count[2]);
    return 0;
}
