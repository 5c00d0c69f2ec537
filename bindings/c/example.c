/*
 * Expands a plate and prints its entries and the tools used as hitlist does.
 *
 *     example         a line of three holes, and a stop
 *     example FILE    the program text in a file
 *     example -       the program text on standard input
 *
 * The decimal point setting is 1, as that of hitlist. With -0 in front,
 *
 *     example -0 FILE
 *
 * it is 0: a length or an angle without a point counts whole millimetres or
 * degrees.
 *
 * It ends with 0 if the text is accepted, with 1 if it is refused, and with 2
 * if it can't be read or the list can't be written. README.md has the commands
 * that build it.
 */
#include <errno.h>
#include <inttypes.h>
#include <stdio.h>
#include <string.h>

#include "tolkjirp.h"

/* Places for 4,096 entries, and room for one byte more than a text may have. */
#define LIST_LENGTH (4096 * TOLKJIRP_NUMBERS_PER_ENTRY)
#define TEXT_LENGTH (TOLKJIRP_LONGEST_TEXT + 1)

enum status { IS_ACCEPTED = 0, IS_REFUSED = 1, HAS_FAILED = 2 };

static const char plate[] =
    "G92 X600. Y600.\n"
    "G90 X100. Y100. T2\n"
    "G28 I10. J45. K2\n"
    "M00\n"
    "G50\n";

static uint8_t text[TEXT_LENGTH];
static int32_t list[LIST_LENGTH];
static struct tolkjirp_tool tally[TOLKJIRP_TOOLS];

/* Says what failed, and why. */
static enum status fail(const char *what)
{
    fprintf(stderr, "example: %s: %s\n", what, strerror(errno));
    return HAS_FAILED;
}

/* The letter that stands for a mode. */
static char mode_letter(int32_t mode)
{
    switch (mode) {
    case TOLKJIRP_PUNCH:
        return 'P';
    case TOLKJIRP_NIBBLE:
        return 'N';
    case TOLKJIRP_STOP:
        return 'S';
    default: /* TOLKJIRP_OPTIONAL_STOP */
        return 'O';
    }
}

static void print_entries(uint64_t count)
{
    printf("ENTRIES %" PRIu64 "\n", count);
    for (uint64_t index = 0; index < count; index++) {
        const int32_t *entry = list + TOLKJIRP_NUMBERS_PER_ENTRY * index;
        printf("%" PRIu64 " %" PRId32 " %" PRId32 " %" PRId32 " %c\n",
               index + 1, entry[0], entry[1], entry[2], mode_letter(entry[3]));
    }
}

/* Prints a line for each tool that makes hits. */
static void print_tools(void)
{
    for (int number = 1; number <= TOLKJIRP_TOOLS; number++) {
        const struct tolkjirp_tool *tool = &tally[number - 1];
        if (tool->hits > 0)
            printf("%d %" PRIu64 " %" PRIu64 " %" PRIu64 "\n",
                   number, tool->hits, tool->first, tool->last);
    }
}

static void print_refusal(uint64_t refusal, uint64_t line)
{
    printf("REFUSED %" PRIu64 " LINE %" PRIu64 "\n", refusal, line);
    fprintf(stderr, "example: %s\n", tolkjirp_refusal_text(refusal));
}

/* Expands the first bytes of the text and prints the answer. */
static enum status expand(int32_t setting, size_t length)
{
    uint64_t answer[3];

    tolkjirp_expand(setting, text, length, list, LIST_LENGTH, tally, answer);
    if (answer[TOLKJIRP_REFUSAL] == TOLKJIRP_ACCEPTED) {
        print_entries(answer[TOLKJIRP_COUNT]);
        print_tools();
    } else {
        print_refusal(answer[TOLKJIRP_REFUSAL], answer[TOLKJIRP_LINE]);
    }
    if (fflush(stdout) != 0 || ferror(stdout))
        return fail("the list is cut short");
    return answer[TOLKJIRP_REFUSAL] == TOLKJIRP_ACCEPTED ? IS_ACCEPTED
                                                         : IS_REFUSED;
}

/* Expands what a file has. */
static enum status expand_file(int32_t setting, FILE *file, const char *name)
{
    size_t length = fread(text, 1, sizeof text, file);

    if (ferror(file))
        return fail(name);
    return expand(setting, length);
}

/* Expands what the file of a name has. */
static enum status expand_named(int32_t setting, const char *name)
{
    FILE *file = fopen(name, "rb");
    enum status status;

    if (file == NULL)
        return fail(name);
    status = expand_file(setting, file, name);
    fclose(file);
    return status;
}

int main(int argc, char **argv)
{
    int32_t setting = TOLKJIRP_HUNDREDTHS;
    int next = 1;

    if (argc > 1 && strcmp(argv[1], "-0") == 0) {
        setting = TOLKJIRP_MILLIMETRES;
        next = 2;
    }
    if (argc == next) {
        memcpy(text, plate, sizeof plate - 1);
        return expand(setting, sizeof plate - 1);
    }
    if (argc == next + 1 && strcmp(argv[next], "-") == 0)
        return expand_file(setting, stdin, "standard input");
    if (argc == next + 1 && argv[next][0] != '-')
        return expand_named(setting, argv[next]);
    fprintf(stderr, "usage: example [-0] [FILE]   (- for standard input)\n");
    return HAS_FAILED;
}
