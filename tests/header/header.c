/* What the header says beyond the functions' contracts: its helpers' lengths suffice and are not one too many, its limits are the
 * library's, empty kits are passed over, repeats stand in the words that it names, refusals have names, and a null pointer may stand for
 * an empty list. It is C and C++. */
#include <stdio.h>
#include <stdlib.h>
#include <string.h>

#include "kitfinder.h"

static int failures;
static void hold(int fact, const char *what)
{
    if (!fact) {
        fprintf(stderr, "tests/header: not so: %s\n", what);
        failures++;
    }
}
#define HOLD(fact) hold(fact, #fact)

enum { SETS = KITFINDER_MAX_SETS, ENTRIES = KITFINDER_MAX_ENTRIES, ITEMS = KITFINDER_MAX_ITEMS };

static uint32_t left_ends[SETS + 1], right_ends[SETS + 1];
static uint16_t left_items[ENTRIES + 1], right_items[ENTRIES + 1], numbers[SETS + 1], ranks[ITEMS + 1];
static uint8_t tags[KITFINDER_TAG_BYTES * ITEMS];
static uint64_t answer[16];

/* Sets of these lengths, the first `wide` of them one longer. */
static size_t make_sets(uint32_t *ends, uint16_t *items, size_t sets, size_t length, size_t wide)
{
    size_t end = 0;
    for (size_t k = 0; k < sets; k++) {
        for (size_t i = 0; i < length + (k < wide); i++)
            items[end++] = (uint16_t)i;
        ends[k] = (uint32_t)end;
    }
    return end;
}

static uint64_t join(uint32_t t, size_t lefts, size_t rights, uint32_t limit, uint32_t *work, size_t words, uint16_t *pairs, size_t places)
{
    kitfinder_join(t, left_ends, lefts, left_items, ENTRIES + 1, right_ends, rights, right_items, ENTRIES + 1, limit, ranks, t,
                   UINT32_MAX, KITFINDER_MERGE, 0, 0, 0, 0, work, words, pairs, places, answer);
    return answer[0];
}

static uint64_t write_file(uint32_t t, size_t lefts, size_t rights, uint8_t *file, size_t length)
{
    kitfinder_write(t, tags, (size_t)KITFINDER_TAG_BYTES * t, numbers, lefts, left_ends, lefts, left_items, ENTRIES + 1, numbers,
                    rights, right_ends, rights, right_items, ENTRIES + 1, file, length, answer);
    return answer[0];
}

/* Helpers and limits at the largest collections: 4,096 kits with 65,535 entries, and so the stacks. */
static void test_largest(void)
{
    for (size_t i = 0; i < ITEMS; i++)
        ranks[i] = (uint16_t)i;
    HOLD(make_sets(left_ends, left_items, SETS, 15, SETS - 1) == ENTRIES);
    HOLD(make_sets(right_ends, right_items, SETS, 15, SETS - 1) == ENTRIES);
    size_t words = kitfinder_work_words(ITEMS, left_ends, SETS, right_ends, SETS);
    HOLD(words == 2293792);
    size_t places = kitfinder_pair_places(SETS, SETS);
    HOLD(places == 33554432);
    uint32_t *work = (uint32_t *)malloc(words * sizeof *work);
    uint16_t *pairs = (uint16_t *)malloc(places * sizeof *pairs);
    size_t bytes = kitfinder_file_bytes(left_ends, SETS, right_ends, SETS);
    HOLD(bytes == 1613800);
    uint8_t *file = (uint8_t *)malloc(bytes);
    if (!work || !pairs || !file) {
        hold(0, "there is memory");
        return;
    }
    HOLD(join(ITEMS, SETS, SETS, KITFINDER_MAX_LIMIT, work, words, pairs, places) == KITFINDER_ACCEPTED);
    HOLD(answer[3] == (uint64_t)SETS * (SETS - 1) + 1);
    HOLD(join(ITEMS, SETS, SETS, 2, work, words - 1, pairs, places) == KITFINDER_SHORT_WORK);
    HOLD(join(ITEMS, SETS, SETS, KITFINDER_MAX_LIMIT + 1, work, words, pairs, places) == KITFINDER_BAD_SETTINGS);
    HOLD(join(ITEMS + 1, SETS, SETS, 2, work, words, pairs, places) == KITFINDER_BAD_SETTINGS);
    HOLD(write_file(ITEMS, SETS, SETS, file, bytes) == KITFINDER_ACCEPTED && answer[3] == bytes);
    HOLD(write_file(ITEMS, SETS, SETS, file, bytes - 1) == KITFINDER_SHORT_OUTPUT);

    /* The pair list that always suffices is used whole where every stack holds every kit. */
    HOLD(make_sets(left_ends, left_items, 7, 3, 0) == 21 && make_sets(right_ends, right_items, 5, 3, 0) == 15);
    HOLD(join(3, 7, 5, 2, work, kitfinder_work_words(3, left_ends, 7, right_ends, 5), pairs, kitfinder_pair_places(7, 5)) == 0);
    HOLD(2 * answer[3] == kitfinder_pair_places(7, 5));
    HOLD(join(3, 7, 5, 2, work, words, pairs, kitfinder_pair_places(7, 5) - 1) == KITFINDER_SHORT_PAIRS);

    /* Beyond the limits a set is bad, and the helpers ask for no more. */
    HOLD(make_sets(left_ends, left_items, SETS + 1, 0, 0) == 0);
    HOLD(kitfinder_work_words(ITEMS + 1, left_ends, SETS + 1, right_ends, 5) <= words);
    HOLD(join(3, SETS + 1, 5, 2, work, words, pairs, places) == KITFINDER_BAD_SET && answer[1] == KITFINDER_KITS && answer[2] == SETS);
    HOLD(make_sets(left_ends, left_items, 1, KITFINDER_MAX_SET_LENGTH + 1, 0) == 256);
    HOLD(join(ITEMS, 1, 5, 2, work, words, pairs, places) == KITFINDER_BAD_SET && answer[2] == 0);
    HOLD(make_sets(left_ends, left_items, 1, KITFINDER_MAX_SET_LENGTH, 0) == 255);
    HOLD(join(ITEMS, 1, 5, 2, work, words, pairs, places) == KITFINDER_ACCEPTED);
    left_ends[0] = UINT32_MAX;
    HOLD(kitfinder_work_words(3, left_ends, 1, right_ends, 5) <= words);
    HOLD(kitfinder_file_bytes(left_ends, 1, right_ends, 5) <= bytes);
    HOLD(join(3, 1, 5, 2, work, words, pairs, places) == KITFINDER_BAD_SET);
    free(work);
    free(pairs);
    free(file);
}

/* The limits are those of the first kit too: of T, of the kits, and of the items of a lone stack. Its answer has as many words as are
 * named. */
static void test_first(void)
{
    uint64_t words[KITFINDER_FIRST_ANSWER + 1];
    size_t longest = KITFINDER_MAX_SET_LENGTH;
    make_sets(right_ends, right_items, 1, longest + 1, 0);
    HOLD(make_sets(left_ends, left_items, SETS, 15, SETS - 1) == ENTRIES);
    left_items[ENTRIES - 1] = (uint16_t)(longest - 1);
    for (size_t k = 0; k + 1 < SETS; k++)
        left_items[left_ends[k] - 1] = ITEMS - 1;
    words[KITFINDER_FIRST_ANSWER] = 77;
    kitfinder_first(ITEMS, left_ends, SETS, left_items, ENTRIES, right_items, longest, words);
    HOLD(words[0] == KITFINDER_ACCEPTED && words[1] == 0 && words[2] == 0);
    HOLD(words[3] == 1 && words[4] == SETS - 1 && words[5] == SETS);
    kitfinder_first(ITEMS, left_ends, SETS, left_items, ENTRIES, right_items, longest - 1, words);
    HOLD(words[0] == KITFINDER_ACCEPTED && words[3] == 0 && words[4] == 0 && words[5] == SETS);
    kitfinder_first(ITEMS, left_ends, SETS, left_items, ENTRIES, right_items, longest + 1, words);
    HOLD(words[0] == KITFINDER_BAD_SET && words[1] == KITFINDER_STACKS && words[2] == 0);
    HOLD(words[3] == 0 && words[4] == 0 && words[5] == 0);
    kitfinder_first(ITEMS - 1, left_ends, SETS, left_items, ENTRIES, right_items, longest + 1, words);
    HOLD(words[0] == KITFINDER_BAD_SET && words[1] == KITFINDER_KITS && words[2] == 0 && words[5] == 0);
    left_ends[SETS] = left_ends[SETS - 1];
    kitfinder_first(ITEMS, left_ends, SETS + 1, left_items, ENTRIES, right_items, longest, words);
    HOLD(words[0] == KITFINDER_BAD_SET && words[1] == KITFINDER_KITS && words[2] == SETS && words[5] == 0);
    kitfinder_first(ITEMS + 1, left_ends, SETS + 1, left_items, ENTRIES, right_items, longest + 1, words);
    HOLD(words[0] == KITFINDER_BAD_SETTINGS && words[1] == 0 && words[2] == 0 && words[5] == 0);
    HOLD(words[KITFINDER_FIRST_ANSWER] == 77);
}

/* Kits without an item, before and behind one that all five stacks hold: they are in no pair and in no count, and need no place and no
 * allowance, but they need their words of the work list. The first kit passes over them and counts them. */
static void test_empty(void)
{
    static const uint32_t ends[5] = { 0, 0, 1, 1, 1 };
    static const uint16_t item[1] = { 2 };
    static uint32_t work[16 * (5 + 5 + 1 + 15 + 3) + 64];
    size_t words = sizeof work / sizeof *work;
    HOLD(make_sets(right_ends, right_items, 5, 3, 0) == 15);
    HOLD(kitfinder_work_words(3, ends, 5, right_ends, 5) == words);
    for (uint32_t rule = KITFINDER_MERGE; rule <= KITFINDER_WEIGHED; rule++) {
        uint64_t checks = rule == KITFINDER_CHECK ? 5 : 0;
        uint16_t pairs[11] = { 0 };
        pairs[10] = 77;
        kitfinder_join(3, ends, 5, item, 1, right_ends, 5, right_items, 15, 1, ranks, 3, (uint32_t)checks, rule, 0, 0, -1, 0, work, words,
                       pairs, 10, answer);
        HOLD(answer[0] == KITFINDER_ACCEPTED && answer[3] == 5 && answer[4] == 5 - checks && answer[5] == checks);
        HOLD(answer[6] == checks && answer[7] == 0 && answer[8] == 0);
        for (uint16_t stack = 0; stack < 5; stack++)
            HOLD(pairs[2 * stack] == 2 && pairs[2 * stack + 1] == stack);
        HOLD(pairs[10] == 77);
        kitfinder_join(3, ends, 5, item, 1, right_ends, 5, right_items, 15, 1, ranks, 3, UINT32_MAX, rule, 0, 0, -1, 0, work, words - 1,
                       pairs, 10, answer);
        HOLD(answer[0] == KITFINDER_SHORT_WORK);
        kitfinder_join(3, ends, 2, NULL, 0, right_ends, 5, right_items, 15, 1, ranks, 3, 0, rule, 0, 0, -1, 0, work, words, NULL, 0,
                       answer);
        HOLD(answer[0] == KITFINDER_ACCEPTED);
        for (size_t count = 3; count < KITFINDER_JOIN_ANSWER; count++)
            HOLD(answer[count] == 0);
    }
    kitfinder_first(3, ends, 5, item, 1, right_items, 3, answer);
    HOLD(answer[0] == KITFINDER_ACCEPTED && answer[3] == 1 && answer[4] == 2 && answer[5] == 3);
    kitfinder_first(3, ends, 5, item, 1, right_items, 2, answer);
    HOLD(answer[0] == KITFINDER_ACCEPTED && answer[3] == 0 && answer[4] == 0 && answer[5] == 5);
    kitfinder_first(3, ends, 2, NULL, 0, right_items, 3, answer);
    HOLD(answer[0] == KITFINDER_ACCEPTED && answer[3] == 0 && answer[4] == 0 && answer[5] == 2);
}

/* A stack record of number 1 with tags of so many numbers, from one on. */
static size_t make_stack(uint8_t *file, size_t from, size_t count)
{
    const uint8_t head[KITFINDER_RECORD_HEAD_BYTES] = { 0x53, 0x4B, 0, 1, (uint8_t)count };
    memcpy(file, head, sizeof head);
    memset(file + sizeof head, 0, KITFINDER_TAG_BYTES * count);
    for (size_t i = 0; i < count; i++) {
        uint8_t *tag = file + sizeof head + KITFINDER_TAG_BYTES * i;
        tag[0] = (uint8_t)((from + i) >> 8);
        tag[1] = (uint8_t)(from + i);
    }
    return sizeof head + KITFINDER_TAG_BYTES * count;
}

/* The greatest set length is that of a pooled stack, and what a pooled load counts is in its answer's words. */
static void test_pooled(void)
{
    static uint8_t first[KITFINDER_RECORD_HEAD_BYTES + KITFINDER_TAG_BYTES * KITFINDER_MAX_SET_LENGTH], second[sizeof first];
    uint64_t words[KITFINDER_LOAD_POOLED_ANSWER];
    size_t longest = KITFINDER_MAX_SET_LENGTH, first_len = make_stack(first, 0, 200);
    for (size_t more = longest - 200; more <= longest - 199; more++) {
        size_t second_len = make_stack(second, 200, more);
        kitfinder_load_pooled(first, first_len, second, second_len, tags, sizeof tags, numbers, 0, left_ends, 0, left_items, 0, numbers,
                              1, right_ends, 1, right_items, longest + 1, words);
        int over = 200 + more > longest;
        HOLD(words[0] == (over ? KITFINDER_OVERLONG : KITFINDER_ACCEPTED) && words[1] == (over ? first_len : 0));
        HOLD(words[4] == !over && words[6] == (over ? 0 : longest) && words[7] == words[6]);
    }
}

/* A record of number 7 whose tags are eleven zero bytes and a letter each. */
static size_t make_record(uint8_t *file, const char *mark, const char *letters)
{
    size_t count = strlen(letters);
    const uint8_t head[KITFINDER_RECORD_HEAD_BYTES] = { (uint8_t)mark[0], (uint8_t)mark[1], 0, 7, (uint8_t)count };
    memcpy(file, head, sizeof head);
    memset(file + sizeof head, 0, KITFINDER_TAG_BYTES * count);
    for (size_t i = 0; i < count; i++)
        file[sizeof head + KITFINDER_TAG_BYTES * (i + 1) - 1] = (uint8_t)letters[i];
    return sizeof head + KITFINDER_TAG_BYTES * count;
}

/* The repeats of a record, and of the kits and stacks of a load, are the last words of the answer, and zeros in a refusal. Each answer
 * has as many words as are named. */
static void test_repeats(void)
{
    static uint8_t file[256], second[256];
    size_t kit = make_record(file, "KT", "ABA"), length = kit + make_record(file + kit, "SK", "BABBC");
    size_t second_kit = make_record(second, "KT", "CCCC"), second_len = second_kit + make_record(second + second_kit, "SK", "AA");
    uint64_t read[KITFINDER_READ_RECORD_ANSWER + 1], loaded[KITFINDER_LOAD_ANSWER + 1], pooled[KITFINDER_LOAD_POOLED_ANSWER + 1];
    read[KITFINDER_READ_RECORD_ANSWER] = loaded[KITFINDER_LOAD_ANSWER] = pooled[KITFINDER_LOAD_POOLED_ANSWER] = 77;

    kitfinder_read_record(file, length, 0, read);
    HOLD(read[0] == KITFINDER_ACCEPTED && read[3] == 0 && read[4] == KITFINDER_KITS && read[6] == 3 && read[8] == kit && read[9] == 1);
    kitfinder_read_record(file, length, kit, read);
    HOLD(read[0] == KITFINDER_ACCEPTED && read[4] == KITFINDER_STACKS && read[6] == 5 && read[8] == length && read[9] == 2);
    kitfinder_read_record(file, length, length, read);
    HOLD(read[0] == KITFINDER_ACCEPTED && read[3] == 1 && read[8] == 0 && read[9] == 0);
    kitfinder_read_record(file, length - 1, kit, read);
    HOLD(read[0] == KITFINDER_MALFORMED && read[1] == kit && read[8] == 0 && read[9] == 0);
    HOLD(read[KITFINDER_READ_RECORD_ANSWER] == 77);

    for (size_t tags_len = 0; tags_len <= sizeof tags; tags_len += sizeof tags) {
        uint64_t number = tags_len ? KITFINDER_ACCEPTED : KITFINDER_SHORT_OUTPUT;
        kitfinder_load(file, length, tags, tags_len, numbers, 1, left_ends, 1, left_items, 3, numbers + 1, 1, right_ends, 1, right_items,
                       3, loaded);
        HOLD(loaded[0] == number && loaded[7] == (tags_len ? 3 : 0));
        HOLD(loaded[8] == (tags_len ? 1 : 0) && loaded[9] == (tags_len ? 2 : 0));
        kitfinder_load_pooled(file, length, second, second_len, tags, tags_len, numbers, 1, left_ends, 1, left_items, 3, numbers + 1, 1,
                              right_ends, 1, right_items, 3, pooled);
        HOLD(pooled[0] == number && pooled[7] == (tags_len ? 3 : 0));
        HOLD(pooled[8] == (tags_len ? 1 : 0) && pooled[9] == (tags_len ? 3 : 0));
    }
    HOLD(loaded[KITFINDER_LOAD_ANSWER] == 77 && pooled[KITFINDER_LOAD_POOLED_ANSWER] == 77);
}

/* Empty lists with a null pointer, in every function. */
static void test_null(void)
{
    static uint32_t work[1024];
    uint32_t empty[2] = { 0, 0 };
    HOLD(kitfinder_work_words(0, NULL, 0, NULL, 0) == 64 && kitfinder_file_bytes(NULL, 0, NULL, 0) == 0);
    for (uint32_t rule = 0; rule < 3; rule++) {
        kitfinder_join(0, NULL, 0, NULL, 0, NULL, 0, NULL, 0, 1, NULL, 0, 0, rule, 0, 0, 0, 0, work, 64, NULL, 0, answer);
        HOLD(answer[0] == 0 && answer[3] == 0);
        kitfinder_join(0, empty, 2, NULL, 0, empty, 2, NULL, 0, 1, NULL, 0, 0, rule, 0, 0, 0, 0, work, 128, NULL, 0, answer);
        HOLD(answer[0] == 0 && answer[3] == 0);
        kitfinder_join(0, NULL, 0, NULL, 0, empty, 2, NULL, 0, 1, NULL, 0, 0, rule, 0, 0, 0, 0, work, 128, NULL, 0, answer);
        HOLD(answer[0] == 0 && answer[3] == 0);
        kitfinder_join(0, NULL, 0, NULL, 0, NULL, 0, NULL, 0, 1, NULL, 0, 0, rule, 0, 0, 0, 0, NULL, 0, NULL, 0, answer);
        HOLD(answer[0] == KITFINDER_SHORT_WORK);
    }
    kitfinder_first(0, NULL, 0, NULL, 0, NULL, 0, answer);
    HOLD(answer[0] == 0 && answer[3] == 0 && answer[4] == 0 && answer[5] == 0);
    kitfinder_first(0, empty, 2, NULL, 0, NULL, 0, answer);
    HOLD(answer[0] == 0 && answer[3] == 0 && answer[4] == 0 && answer[5] == 2);
    const uint16_t item = 0;
    kitfinder_first(1, NULL, 0, NULL, 0, &item, 1, answer);
    HOLD(answer[0] == 0 && answer[3] == 0 && answer[5] == 0);
    kitfinder_first(KITFINDER_MAX_ITEMS + 1, NULL, 0, NULL, 0, NULL, 0, answer);
    HOLD(answer[0] == KITFINDER_BAD_SETTINGS);
    kitfinder_order(0, NULL, 0, NULL, 0, NULL, 0, NULL, 0, 0, NULL, 0, answer);
    HOLD(answer[0] == 0);
    kitfinder_load(NULL, 0, NULL, 0, NULL, 0, NULL, 0, NULL, 0, NULL, 0, NULL, 0, NULL, 0, answer);
    HOLD(answer[0] == 0 && answer[3] == 0 && answer[7] == 0 && answer[8] == 0 && answer[9] == 0);
    kitfinder_load((const uint8_t *)"KT\0\1\0", 5, NULL, 0, NULL, 0, NULL, 0, NULL, 0, NULL, 0, NULL, 0, NULL, 0, answer);
    HOLD(answer[0] == KITFINDER_SHORT_OUTPUT);
    const uint8_t *kit = (const uint8_t *)"KT\0\1\0", *stack = (const uint8_t *)"SK\0\1\0";
    kitfinder_load_pooled(NULL, 0, NULL, 0, NULL, 0, NULL, 0, NULL, 0, NULL, 0, NULL, 0, NULL, 0, NULL, 0, answer);
    HOLD(answer[0] == 0 && answer[3] == 0 && answer[4] == 0 && answer[7] == 0 && answer[8] == 0 && answer[9] == 0);
    kitfinder_load_pooled(NULL, 0, kit, 5, NULL, 0, NULL, 0, NULL, 0, NULL, 0, NULL, 0, NULL, 0, NULL, 0, answer);
    HOLD(answer[0] == 0 && answer[3] == 0);
    kitfinder_load_pooled(NULL, 0, stack, 5, NULL, 0, NULL, 0, NULL, 0, NULL, 0, NULL, 0, NULL, 0, NULL, 0, answer);
    HOLD(answer[0] == KITFINDER_SHORT_OUTPUT);
    kitfinder_load_pooled(stack, 5, NULL, 0, NULL, 0, NULL, 0, NULL, 0, NULL, 0, numbers, 1, empty, 1, NULL, 0, answer);
    HOLD(answer[0] == 0 && answer[4] == 1);
    kitfinder_write(0, NULL, 0, NULL, 0, NULL, 0, NULL, 0, NULL, 0, NULL, 0, NULL, 0, NULL, 0, answer);
    HOLD(answer[0] == 0 && answer[3] == 0);
    kitfinder_write(0, NULL, 0, numbers, 1, empty, 1, NULL, 0, NULL, 0, NULL, 0, NULL, 0, NULL, 0, answer);
    HOLD(answer[0] == KITFINDER_SHORT_OUTPUT);
    kitfinder_read_record(NULL, 0, 0, answer);
    HOLD(answer[0] == 0 && answer[3] == 1 && answer[9] == 0);
    kitfinder_read_record(NULL, 0, 1, answer);
    HOLD(answer[0] == KITFINDER_MALFORMED && answer[9] == 0);
}

static void test_names(void)
{
    for (uint64_t n = 0; n <= KITFINDER_OVERLONG + 1; n++)
        for (uint64_t m = 0; m < n; m++)
            HOLD(strcmp(kitfinder_refusal_name(n), kitfinder_refusal_name(m)) != 0);
    HOLD(strcmp(kitfinder_refusal_name(UINT64_MAX), kitfinder_refusal_name(KITFINDER_OVERLONG + 1)) == 0);
}

int main(void)
{
    test_largest();
    test_first();
    test_empty();
    test_pooled();
    test_repeats();
    test_null();
    test_names();
    printf("header: %s\n", failures ? "FAILED" : "helpers, limits, empty kits, repeats, null and names hold");
    return failures > 0;
}
