/* mortarsedge: the library's functions on files, plans and steps as text, and pictures of runs.
 *
 * The command is not proved. Every answer that it gives comes from the proved library. */
#include <stdio.h>
#include <string.h>

#include "command.h"

static const struct command commands[] = {
    {"check", "DESKS PLAN", "may this plan be started on so many desks?", OPTION_BYTES, command_check},
    {"run", "DESKS PLAN STEPS", "run steps, and write the trace; or, explained, each step in words",
     OPTION_OUTPUT | OPTION_EXPLAIN | OPTION_QUIET | OPTION_BYTES, command_run},
    {"finish", "PLAN", "will this plan finish, and after how many instructions?",
     OPTION_OUTPUT | OPTION_EXPLAIN | OPTION_BYTES, command_finish},
    {"convert", "PLAN", "write a plan file with its repeats written out", OPTION_OUTPUT, command_convert},
    {"logs", "SENT RECEIVED", "hold a sender's log against a receiver's", 0, command_logs},
    {"plan", "TEXT", "write a plan file from its text", OPTION_OUTPUT | OPTION_REPEATS, command_plan},
    {"unplan", "PLAN", "write a plan's text from its file", OPTION_OUTPUT, command_unplan},
    {"steps", "DESKS PLAN TEXT", "write a step file from its text", OPTION_OUTPUT | OPTION_BYTES, command_steps},
    {"unsteps", "DESKS PLAN STEPS", "write steps as text from their file",
     OPTION_OUTPUT | OPTION_POSITIONS | OPTION_BYTES, command_unsteps},
    {"dispatch", "DESKS PLAN", "write the steps that the dispatchers of the desks choose, until rest",
     OPTION_OUTPUT | OPTION_TEXT | OPTION_BYTES, command_dispatch},
    {"panel", "DESKS PLAN STEPS", "what can be pressed after these steps: how many steps would get each answer",
     OPTION_OUTPUT | OPTION_EXPLAIN | OPTION_BYTES, command_panel},
    {"view", "DESKS PLAN STEPS", "what is shown of each task after these steps, or along them",
     OPTION_OUTPUT | OPTION_ALONG | OPTION_TABLET | OPTION_EXPLAIN | OPTION_QUIET | OPTION_BYTES, command_view},
    {"chart", "DESKS PLAN STEPS", "draw a run, as SVG or for a terminal", OPTION_OUTPUT | OPTION_TEXT | OPTION_BYTES,
     command_chart},
};

enum { COMMANDS = sizeof commands / sizeof commands[0] };

static const struct {
    const char *word, *what;
    enum option option;
} options[] = {
    {"-o", "is written, whole or not at all, instead of standard output", OPTION_OUTPUT},
    {"--explain", "in words", OPTION_EXPLAIN},
    {"--quiet", "nothing is said of refused steps", OPTION_QUIET},
    {"--text", "as text: a chart for a terminal, steps in their notation", OPTION_TEXT},
    {"--bytes", "PLAN and STEPS are bytes, also where no byte of them is zero", OPTION_BYTES},
    {"--repeats", "the new edition, with its repeats", OPTION_REPEATS},
    {"--positions", "letters by their positions", OPTION_POSITIONS},
    {"--along", "after the start and each step, the tasks whose view it changed", OPTION_ALONG},
    {"--tablet", "what tablets show: number, state, desk and place", OPTION_TABLET},
};

enum { OPTIONS = sizeof options / sizeof options[0] };

static void tell_command(FILE *to, const struct command *command)
{
    fprintf(to, "usage: mortarsedge %s", command->name);
    for (size_t i = 0; i < OPTIONS; i++)
        if ((command->options & options[i].option) != 0)
            fprintf(to, options[i].option == OPTION_OUTPUT ? " [%s FILE]" : " [%s]", options[i].word);
    fprintf(to, " %s\n%s\n", command->arguments, command->what);
    for (size_t i = 0; i < OPTIONS; i++)
        if ((command->options & options[i].option) != 0)
            fprintf(to, "  %s %-*s %s\n", options[i].word, (int)(11 - strlen(options[i].word)),
                    options[i].option == OPTION_OUTPUT ? "FILE" : "", options[i].what);
}

static void tell_all(FILE *to)
{
    fprintf(to, "usage: mortarsedge COMMAND ..\n\n");
    for (size_t i = 0; i < COMMANDS; i++)
        fprintf(to, "  %-8s %-17s %s\n", commands[i].name, commands[i].arguments, commands[i].what);
    fprintf(to, "\nDESKS is a number, and 1 to 6 are accepted. PLAN and STEPS are files of bytes, or texts;\n"
                "- is standard input.\n"
                "Exit status: 0 accepted or yes; 1 refused or no; 2 wrong usage, a file that cannot be read or written, a text\n"
                "that is none.\n"
                "`mortarsedge COMMAND --help` tells more, and so do the manual pages mortarsedge(1) and plan(5).\n"
                "This command is not proved. Every answer comes from the proved library.\n");
}

static int misuse(const struct command *command, const char *what, const char *word)
{
    fprintf(stderr, "mortarsedge: %s%s%s\n", what, word[0] == '\0' ? "" : ": ", word);
    if (command == NULL)
        tell_all(stderr);
    else
        tell_command(stderr, command);
    return FAILED;
}

/* The option that a word is, of those that a command knows; 0 if none. */
static unsigned option_of(const struct command *command, const char *word)
{
    if (strcmp(word, "-q") == 0)
        word = "--quiet";
    for (size_t i = 0; i < OPTIONS; i++)
        if (strcmp(word, options[i].word) == 0)
            return command->options & options[i].option;
    return 0;
}

static uint32_t words_of(const char *text)
{
    uint32_t words = 1;
    for (; *text != '\0'; text++)
        words += *text == ' ';
    return words;
}

/* One to nine digits: the library is to say whether there can be so many. */
static bool take_desks(const char *text, uint32_t *desks)
{
    size_t length = strlen(text);
    *desks = 0;
    if (length < 1 || length > 9 || strspn(text, "0123456789") != length)
        return false;
    for (; *text != '\0'; text++)
        *desks = 10 * *desks + (uint32_t)(*text - '0');
    return true;
}

/* The arguments are there: a number of desks, and standard input at most once. */
static int check_call(const struct command *command, struct call *call, uint32_t count)
{
    uint32_t inputs = 0;
    if (count != words_of(command->arguments))
        return misuse(command, count < words_of(command->arguments) ? "an argument is missing" : "too many arguments", "");
    if (strncmp(command->arguments, "DESKS", 5) == 0 && !take_desks(call->argument[0], &call->desks))
        return misuse(command, "no number of desks", call->argument[0]);
    for (uint32_t i = 0; i < count; i++)
        inputs += strcmp(call->argument[i], "-") == 0;
    if (inputs > 1)
        return misuse(command, "standard input can be read once", "");
    return ACCEPTED;
}

static int call_command(const struct command *command, int words, char **word)
{
    struct call call = {.output = "-"};
    uint32_t count = 0;
    bool only_arguments = false;
    for (int i = 0; i < words; i++) {
        unsigned option = only_arguments ? 0 : option_of(command, word[i]);
        if (!only_arguments && strcmp(word[i], "--help") == 0) {
            tell_command(stdout, command);
            return ACCEPTED;
        }
        if (!only_arguments && strcmp(word[i], "--") == 0) {
            only_arguments = true;
        } else if (option == OPTION_OUTPUT) {
            if (++i == words)
                return misuse(command, "-o without a file", "");
            call.output = word[i];
        } else if (option != 0) {
            call.options |= option;
        } else if (!only_arguments && word[i][0] == '-' && word[i][1] != '\0') {
            return misuse(command, "unknown option", word[i]);
        } else {
            if (count < MOST_ARGUMENTS)
                call.argument[count] = word[i];
            count++;
        }
    }
    int status = check_call(command, &call, count);
    return status == ACCEPTED ? command->run(&call) : status;
}

int main(int argc, char **argv)
{
    if (argc < 2)
        return misuse(NULL, "no command", "");
    if (strcmp(argv[1], "--help") == 0 || strcmp(argv[1], "help") == 0) {
        tell_all(stdout);
        return fflush(stdout) == 0 ? ACCEPTED : FAILED;
    }
    for (size_t i = 0; i < COMMANDS; i++)
        if (strcmp(argv[1], commands[i].name) == 0)
            return call_command(&commands[i], argc - 2, argv + 2);
    return misuse(NULL, "no such command", argv[1]);
}
