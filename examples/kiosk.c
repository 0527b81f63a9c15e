/* A kiosk in C: reads a tag file of any size, orders its tags, joins kits and stacks, and prints each kit that a stack holds whole; a
 * kit without tags never is.
 * A wide kiosk has two pads: with the file of the second, stacks of one number are pooled.
 * Where reads were repeats, it tells the installer how many, on standard error.
 * Ends with 0 for a list, 1 for a refusal, 2 where reading, writing or memory failed.
 * Usage: kiosk FILE [SECOND] */
#include <errno.h>
#include <inttypes.h>
#include <stdio.h>
#include <stdlib.h>
#include <string.h>

#include "kitfinder.h"

enum { SETS = KITFINDER_MAX_SETS, ENTRIES = KITFINDER_MAX_ENTRIES };

/* Lists that hold every file within the limits. */
static uint8_t tags[KITFINDER_TAG_BYTES * KITFINDER_MAX_ITEMS];
static uint16_t kit_numbers[SETS], kit_items[ENTRIES], stack_numbers[SETS], stack_items[ENTRIES];
static uint32_t kit_ends[SETS], stack_ends[SETS];
static uint16_t ranks[KITFINDER_MAX_ITEMS];

static void fail(const char *what, const char *why)
{
    fprintf(stderr, "kiosk: %s: %s\n", what, why);
    exit(2);
}

static void *allocate(void *before, size_t bytes)
{
    void *memory = realloc(before, bytes);
    if (!memory)
        fail("memory", strerror(errno));
    return memory;
}

/* A whole file, and its length. */
static uint8_t *read_file(const char *name, size_t *length)
{
    FILE *input = fopen(name, "rb");
    if (!input)
        fail(name, strerror(errno));
    size_t room = 1 << 16;
    uint8_t *file = allocate(NULL, room);
    *length = 0;
    for (size_t got; (got = fread(file + *length, 1, room - *length, input)) > 0;) {
        *length += got;
        if (*length == room)
            file = allocate(file, room *= 2);
    }
    if (ferror(input))
        fail(name, strerror(errno));
    fclose(input);
    return file;
}

/* Ends the program where an answer is a refusal. */
static void need_accepted(const uint64_t *answer)
{
    if (!answer[0])
        return;
    fprintf(stderr, "kiosk: refused with %" PRIu64 ": %s", answer[0], kitfinder_refusal_name(answer[0]));
    if (answer[0] <= KITFINDER_TOO_MANY || answer[0] == KITFINDER_OVERLONG)
        fprintf(stderr, ", at byte %" PRIu64, answer[1]);
    fprintf(stderr, "\n");
    exit(1);
}

/* Loads the file of one pad. */
static void load(const char *name, uint64_t loaded[KITFINDER_LOAD_ANSWER])
{
    size_t length;
    uint8_t *file = read_file(name, &length);
    kitfinder_load(file, length, tags, sizeof tags, kit_numbers, SETS, kit_ends, SETS, kit_items, ENTRIES, stack_numbers, SETS,
                   stack_ends, SETS, stack_items, ENTRIES, loaded);
    free(file);
}

/* Loads the files of two pads: the kits of the first, the stacks of both. */
static void load_pooled(const char *first_name, const char *second_name, uint64_t loaded[KITFINDER_LOAD_POOLED_ANSWER])
{
    size_t first_length, second_length;
    uint8_t *first = read_file(first_name, &first_length);
    uint8_t *second = read_file(second_name, &second_length);
    kitfinder_load_pooled(first, first_length, second, second_length, tags, sizeof tags, kit_numbers, SETS, kit_ends, SETS, kit_items,
                          ENTRIES, stack_numbers, SETS, stack_ends, SETS, stack_items, ENTRIES, loaded);
    free(first);
    free(second);
}

int main(int argc, char **argv)
{
    if (argc != 2 && argc != 3)
        fail("usage", "kiosk FILE [SECOND]");
    uint64_t loaded[KITFINDER_LOAD_POOLED_ANSWER]; /* as many words as of kitfinder_load */
    if (argc == 2)
        load(argv[1], loaded);
    else
        load_pooled(argv[1], argv[2], loaded);
    need_accepted(loaded);
    if (loaded[8] + loaded[9] > 0)
        fprintf(stderr, "kiosk: repeated reads: %" PRIu64 " of kits, %" PRIu64 " of stacks\n", loaded[8], loaded[9]);
    size_t kits = loaded[3], stacks = loaded[4], kit_entries = loaded[5], stack_entries = loaded[6];
    uint32_t t = (uint32_t)loaded[7];

    uint64_t ordered[KITFINDER_ORDER_ANSWER];
    kitfinder_order(t, kit_ends, kits, kit_items, kit_entries, stack_ends, stacks, stack_items, stack_entries, 0, ranks, t, ordered);
    need_accepted(ordered);

    size_t words = kitfinder_work_words(t, kit_ends, kits, stack_ends, stacks);
    size_t places = kitfinder_pair_places(kits, stacks);
    uint32_t *work = allocate(NULL, words * sizeof *work);
    uint16_t *pairs = allocate(NULL, (places + 1) * sizeof *pairs);
    uint64_t joined[KITFINDER_JOIN_ANSWER];
    kitfinder_join(t, kit_ends, kits, kit_items, kit_entries, stack_ends, stacks, stack_items, stack_entries, 2, ranks, t, UINT32_MAX,
                   KITFINDER_MERGE, 0, 0, 0, 0, work, words, pairs, places, joined);
    free(work);
    need_accepted(joined);
    for (size_t i = 0; i < joined[3]; i++)
        printf("kit %u is whole in stack %u\n", kit_numbers[pairs[2 * i]], stack_numbers[pairs[2 * i + 1]]);
    free(pairs);
    if (fflush(stdout) || ferror(stdout))
        fail("the list", "was not written");
    return 0;
}
