/* The waiting screen in C: reads a tag file, and says of each stack which kit it holds whole first, and how many kits were compared, those
 * without tags included, which are whole in no stack.
 * Ends with 0 for a list, 1 for a refusal, 2 where reading, writing or memory failed.
 * Usage: waiting FILE */
#include <errno.h>
#include <inttypes.h>
#include <stdio.h>
#include <stdlib.h>
#include <string.h>

#include "kitfinder.h"

enum { SETS = KITFINDER_MAX_SETS, ENTRIES = KITFINDER_MAX_ENTRIES };

/* Lists that hold every file within the limits. */
static uint8_t tags[KITFINDER_TAG_BYTES * KITFINDER_MAX_ITEMS];
static uint16_t kit_numbers[SETS], kit_items[ENTRIES], stack_numbers[SETS], stack_items[ENTRIES];
static uint32_t kit_ends[SETS], stack_ends[SETS];

static void fail(const char *what, const char *why)
{
    fprintf(stderr, "waiting: %s: %s\n", what, why);
    exit(2);
}

/* A whole file, and its length. */
static uint8_t *read_file(const char *name, size_t *length)
{
    FILE *input = fopen(name, "rb");
    if (!input)
        fail(name, strerror(errno));
    uint8_t *file = NULL;
    size_t room = 0, got = 0;
    *length = 0;
    do {
        *length += got;
        if (*length == room && !(file = realloc(file, room = 2 * room + 65536)))
            fail("memory", strerror(errno));
    } while ((got = fread(file + *length, 1, room - *length, input)) > 0);
    if (ferror(input))
        fail(name, strerror(errno));
    fclose(input);
    return file;
}

/* Ends the program where an answer is a refusal. */
static void need_accepted(const uint64_t *answer)
{
    if (!answer[0])
        return;
    fprintf(stderr, "waiting: refused with %" PRIu64 ": %s", answer[0], kitfinder_refusal_name(answer[0]));
    if (answer[0] <= KITFINDER_TOO_MANY)
        fprintf(stderr, ", at byte %" PRIu64, answer[1]);
    fprintf(stderr, "\n");
    exit(1);
}

int main(int argc, char **argv)
{
    if (argc != 2)
        fail("usage", "waiting FILE");
    size_t length;
    uint8_t *file = read_file(argv[1], &length);
    uint64_t loaded[KITFINDER_LOAD_ANSWER];
    kitfinder_load(file, length, tags, sizeof tags, kit_numbers, SETS, kit_ends, SETS, kit_items, ENTRIES, stack_numbers, SETS,
                   stack_ends, SETS, stack_items, ENTRIES, loaded);
    free(file);
    need_accepted(loaded);
    size_t kits = loaded[3], stacks = loaded[4], kit_entries = loaded[5];
    uint32_t t = (uint32_t)loaded[7];

    for (size_t s = 0; s < stacks; s++) {
        size_t start = s ? stack_ends[s - 1] : 0;
        uint64_t first[KITFINDER_FIRST_ANSWER];
        kitfinder_first(t, kit_ends, kits, kit_items, kit_entries, stack_items + start, stack_ends[s] - start, first);
        need_accepted(first);
        printf("stack %u: ", stack_numbers[s]);
        if (first[3])
            printf("kit %u is whole", kit_numbers[first[4]]);
        else
            printf("no kit is whole");
        printf(", kits compared: %" PRIu64 "\n", first[5]);
    }
    if (fflush(stdout) || ferror(stdout))
        fail("the list", "was not written");
    return 0;
}
