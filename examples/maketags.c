/* Makes a tag file from text. A line is a record: the letter K for a kit or S for a stack, a space, its number, and for each tag a
 * space and 24 hexadecimal digits; a kit without tags is whole in no stack. What it writes is what the loader accepts: a line that it
 * does not is named, and nothing is written.
 * Usage: maketags <TEXT >FILE */
#include <inttypes.h>
#include <stdio.h>
#include <stdlib.h>
#include <string.h>

#include "kitfinder.h"

static uint8_t *file;
static size_t length, room;

static void fail(const char *what)
{
    fprintf(stderr, "maketags: %s\n", what);
    exit(2);
}

static void fail_at(size_t line, const char *what)
{
    fprintf(stderr, "maketags: line %zu: %s\n", line, what);
    exit(1);
}

static void put(uint8_t byte)
{
    if (length == room) {
        room = room ? 2 * room : 4096;
        file = realloc(file, room);
        if (!file)
            fail("no memory");
    }
    file[length++] = byte;
}

/* The value of a hexadecimal digit, or -1. */
static int digit(int c)
{
    if (c >= '0' && c <= '9')
        return c - '0';
    if (c >= 'a' && c <= 'f')
        return c - 'a' + 10;
    return c >= 'A' && c <= 'F' ? c - 'A' + 10 : -1;
}

/* Reads one line from the standard input, whose first letter is given, and puts its record. */
static void make_record(int letter, size_t line)
{
    if (letter != 'K' && letter != 'S')
        fail_at(line, "begins with neither K nor S");
    if (getchar() != ' ')
        fail_at(line, "has no space after its letter");
    uint32_t number = 0;
    int c = getchar();
    if (c < '0' || c > '9')
        fail_at(line, "has no number");
    int zero = c == '0';
    for (; c >= '0' && c <= '9' && number <= UINT16_MAX; c = getchar())
        number = 10 * number + (uint32_t)(c - '0');
    if (number > UINT16_MAX)
        fail_at(line, "has a number above 65535");
    if (zero && number > 0)
        fail_at(line, "has a number that begins with 0");

    put(letter == 'K' ? 'K' : 'S');
    put(letter == 'K' ? 'T' : 'K');
    put((uint8_t)(number >> 8));
    put((uint8_t)number);
    size_t count_at = length;
    put(0);
    size_t count = 0;
    for (; c == ' '; c = getchar()) {
        for (int byte = 0; byte < KITFINDER_TAG_BYTES; byte++) {
            int high = digit(getchar()), low = high < 0 ? -1 : digit(getchar());
            if (low < 0)
                fail_at(line, "has a tag that is not 24 hexadecimal digits");
            put((uint8_t)(16 * high + low));
        }
        if (++count > KITFINDER_MAX_SET_LENGTH)
            fail_at(line, "has more than 255 tags");
    }
    if (c != '\n')
        fail_at(line, "has something other than a space and a tag, or no end");
    file[count_at] = (uint8_t)count;
}

/* The line of the record at a byte place. */
static size_t line_of(size_t place)
{
    size_t line = 1;
    uint64_t record[KITFINDER_READ_RECORD_ANSWER];
    for (size_t at = 0; at < place; at = record[8], line++) {
        kitfinder_read_record(file, length, at, record);
        if (record[0] || record[3])
            break;
    }
    return line;
}

/* Holds the file to what the loader accepts. */
static void test_file(void)
{
    static uint8_t tags[KITFINDER_TAG_BYTES * KITFINDER_MAX_ITEMS];
    static uint16_t kit_numbers[KITFINDER_MAX_SETS], kit_items[KITFINDER_MAX_ENTRIES];
    static uint16_t stack_numbers[KITFINDER_MAX_SETS], stack_items[KITFINDER_MAX_ENTRIES];
    static uint32_t kit_ends[KITFINDER_MAX_SETS], stack_ends[KITFINDER_MAX_SETS];
    uint64_t loaded[KITFINDER_LOAD_ANSWER];
    kitfinder_load(file, length, tags, sizeof tags, kit_numbers, KITFINDER_MAX_SETS, kit_ends, KITFINDER_MAX_SETS, kit_items,
                   KITFINDER_MAX_ENTRIES, stack_numbers, KITFINDER_MAX_SETS, stack_ends, KITFINDER_MAX_SETS, stack_items,
                   KITFINDER_MAX_ENTRIES, loaded);
    if (loaded[0])
        fail_at(line_of(loaded[1]), kitfinder_refusal_name(loaded[0]));
    fprintf(stderr, "maketags: %" PRIu64 " kits, %" PRIu64 " stacks, %" PRIu64 " tags, %zu bytes\n", loaded[3], loaded[4], loaded[7],
            length);
}

int main(int argc, char **argv)
{
    (void)argv;
    if (argc != 1)
        fail("usage: maketags <TEXT >FILE");
    size_t line = 1;
    for (int c = getchar(); c != EOF; c = getchar())
        make_record(c, line++);
    if (ferror(stdin))
        fail("the text was not read");
    test_file();
    if (fwrite(file, 1, length, stdout) != length || fflush(stdout))
        fail("the file was not written");
    free(file);
    return 0;
}
