/* The kit finder: a set containment join of kits and stacks, the first kit for one stack, the order of tags, and the tag file's loader
 * and writer, for one pad or two.
 *
 * Link libkitfinder.a, which scripts/library writes to target/staticlib (x86-64 Linux); scripts/install puts it, a shared library
 * of the same functions, this header and files for pkg-config and CMake below a prefix. Every function is proved to meet its contract
 * (crates/kitfinder/src/lib.rt).
 * docs/FORMAT.md has the tag file, the limits and what makes a set bad; examples/kiosk.c and examples/waiting.c use what is here.
 *
 * Words: kits are left sets, stacks are right sets, tags are items, the allowance is the budget. Librarians say the first, parameters
 * and sources the second. A place is the number of a set, from 0.
 *
 * Lists. A list is a pointer and then its length in elements. Where the length is 0 the pointer may be null. Each list is aligned as
 * C aligns its elements; nothing beyond that is asked. A list that a function writes, `answer` too, must not overlap any other list
 * of the call; lists that are only read may overlap each other. A list may be longer than what is used or filled.
 *
 * Threads, memory. A function allocates nothing, keeps nothing, locks nothing, and calls nothing but memset; it ends on every input.
 * Calls may run at the same time on any threads, where no list that one of them writes is in another. The stack that each may take
 * is stated below.
 *
 * A collection is a list of ends and a list of items: set k holds the items from the end of set k-1 (0 for k = 0) up to its own,
 * strictly rising. Items beyond the last end don't count.
 *
 * A repeat is a read of a tag that its own record had before: a record has as many as its count of tags less its distinct ones. Pad
 * installers judge an aerial by them. A tag that two records have, or that lies on both pads, is no repeat.
 *
 * `answer` has as many words as the function says. answer[0] is 0 where the input is accepted, else the number of the refusal; then
 * the values from answer[3] on are 0. What comes with each refusal, and what the lists that the function writes hold after it:
 *
 *   no. cause                                                   answer[1]       answer[2]  the lists afterwards
 *   1   a record with another mark, or cut short                its byte place  0          all zeros
 *   2   a record's number was used before by the same kind      its byte place  0          all zeros
 *   3   a record passes a limit of sets, entries or tags        its byte place  0          all zeros
 *   4   an output list of the loader or writer is too short     0               0          all zeros
 *   5   a bad set, or numbers not as many as the sets           the side        its place  as they were
 *   6   limit, rule, ranks, t, or the length of the tag table   0               0          as they were
 *   7   the work list is too short                              0               0          as they were
 *   8   more checks than the allowance                          0               0          pairs zeros, work free
 *   9   the pair list is too short                              0               0          pairs zeros, work free
 *   10  the pooled stack of a record has over 255 tags          its byte place  0          all zeros
 *
 * A side is 0 for kits, 1 for stacks. Where numbers and sets differ in count, the place is the smaller count. Of several causes the
 * first decides: in the loaders by record, then by number, 4 after all records and 10 last; elsewhere in the order 6, 5 of kits, 5 of
 * stacks, 7, 8, 9, and 4 last. A function refuses only with the numbers named at it. Where it accepts, answer[1] and answer[2] are 0.
 */
#ifndef KITFINDER_H
#define KITFINDER_H

#include <stddef.h>
#include <stdint.h>

#ifdef __cplusplus
extern "C" {
#endif

/* The version; no function tells it, so that every name of the library is a proved function. */
#define KITFINDER_VERSION "0.2.0"

/* Of the shared library, libkitfinder.so.0. It rises where a program that was built with an older header must be built again: a function takes
 * other parameters, or its answer has more words. */
#define KITFINDER_ABI 0

/* The limits: items (tags), sets and entries of a side, items of a set, and the join's limit. An entry is an item of a set. */
#define KITFINDER_MAX_ITEMS 4096
#define KITFINDER_MAX_SETS 4096
#define KITFINDER_MAX_ENTRIES 65535
#define KITFINDER_MAX_SET_LENGTH 255
#define KITFINDER_MAX_LIMIT 255

/* The bytes of a tag, and of a record before its tags. */
#define KITFINDER_TAG_BYTES 12
#define KITFINDER_RECORD_HEAD_BYTES 5

/* The words of each answer. */
#define KITFINDER_JOIN_ANSWER 9
#define KITFINDER_FIRST_ANSWER 6
#define KITFINDER_ORDER_ANSWER 3
#define KITFINDER_LOAD_ANSWER 10
#define KITFINDER_LOAD_POOLED_ANSWER 10
#define KITFINDER_WRITE_ANSWER 4
#define KITFINDER_READ_RECORD_ANSWER 10

/* The bytes of stack that each function may take below its caller's frame, whatever its input: tests/stack measures them. They cover
 * a memset that is bound at its first call. The join takes no more at a greater limit. */
#define KITFINDER_JOIN_STACK 131072
#define KITFINDER_FIRST_STACK 8192
#define KITFINDER_ORDER_STACK 32768
#define KITFINDER_LOAD_STACK 131072
#define KITFINDER_LOAD_POOLED_STACK 131072
#define KITFINDER_WRITE_STACK 8192
#define KITFINDER_READ_RECORD_STACK 8192

/* The merge rules. */
enum { KITFINDER_MERGE = 0, KITFINDER_CHECK = 1, KITFINDER_WEIGHED = 2 };

/* The sides. */
enum { KITFINDER_KITS = 0, KITFINDER_STACKS = 1 };

/* The refusals. */
enum {
    KITFINDER_ACCEPTED = 0,
    KITFINDER_MALFORMED = 1,
    KITFINDER_NUMBER_USED = 2,
    KITFINDER_TOO_MANY = 3,
    KITFINDER_SHORT_OUTPUT = 4,
    KITFINDER_BAD_SET = 5,
    KITFINDER_BAD_SETTINGS = 6,
    KITFINDER_SHORT_WORK = 7,
    KITFINDER_SPENT = 8,
    KITFINDER_SHORT_PAIRS = 9,
    KITFINDER_OVERLONG = 10
};

/* Lists every pair of a kit and a stack that contains it: two places a pair, kit then stack, rising by kit, then stack. An empty kit is
 * accepted and counts in n below, but no stack contains it, and it adds to none of the six counts.
 * t items; limit 1 to 255; ranks: a permutation of 0 .. t-1 by item; budget: the allowance of checks; rule: one of the three
 * above, with the weights a, b, g and h of KITFINDER_WEIGHED. The work list needs 16n + 64 words, where n is the number of kits,
 * stacks, their entries and t (kitfinder_work_words). It is the sole undecided result: its length stays, and after 5, 6 and 7 its
 * content too; where the call is accepted, and after 8 and 9, its content is free. The pair list needs two places a pair
 * (kitfinder_pair_places always suffices) and stays as it was beyond them.
 * Refuses with 5 to 9.
 * answer[3] pairs, [4] by path, [5] confirmed, [6] checks, [7] dropped, [8] false. */
void kitfinder_join(uint32_t t,
                    const uint32_t *left_ends, size_t left_ends_len,
                    const uint16_t *left_items, size_t left_items_len,
                    const uint32_t *right_ends, size_t right_ends_len,
                    const uint16_t *right_items, size_t right_items_len,
                    uint32_t limit,
                    const uint16_t *ranks, size_t ranks_len,
                    uint32_t budget, uint32_t rule, double a, double b, double g, double h,
                    uint32_t *work, size_t work_len,
                    uint16_t *pairs, size_t pairs_len,
                    uint64_t answer[KITFINDER_JOIN_ANSWER]);

/* Finds the first kit that one stack contains, and compares no further. `right` is the stack's items alone, its end the list's length; it
 * is bad where it has over 255 items, an item of t or more, or items that don't rise. An empty kit is passed over, but its place
 * counts among the kits compared. All is tested before a kit is compared, and nothing is written but the answer.
 * Refuses with 5 and 6: with 6, then with 5 for the first bad kit, then with 5 for the stack, as side 1 and place 0.
 * answer[3] 1 where such a kit was found, else 0; [4] its place, 0 where none was; [5] the kits compared: the place plus one, or all. */
void kitfinder_first(uint32_t t,
                     const uint32_t *left_ends, size_t left_ends_len,
                     const uint16_t *left_items, size_t left_items_len,
                     const uint16_t *right, size_t right_len,
                     uint64_t answer[KITFINDER_FIRST_ANSWER]);

/* Ranks the items by frequency, rising, or falling where `falling` is not 0; ties go to the lower item. ranks_len must be t.
 * Refuses with 5 and 6. */
void kitfinder_order(uint32_t t,
                     const uint32_t *left_ends, size_t left_ends_len,
                     const uint16_t *left_items, size_t left_items_len,
                     const uint32_t *right_ends, size_t right_ends_len,
                     const uint16_t *right_items, size_t right_items_len,
                     uint32_t falling,
                     uint16_t *ranks, size_t ranks_len,
                     uint64_t answer[KITFINDER_ORDER_ANSWER]);

/* Loads a tag file: the tag table, 12 bytes a tag by item, and for each side the record numbers, ends and items. Lists as long as
 * the limits hold every file; they stay as they were beyond what is filled. Refuses with 1 to 4.
 * answer[3] kits, [4] stacks, [5] kit entries, [6] stack entries, [7] tags, [8] repeats of kits, [9] repeats of stacks. */
void kitfinder_load(const uint8_t *file, size_t file_len,
                    uint8_t *tags, size_t tags_len,
                    uint16_t *left_numbers, size_t left_numbers_len,
                    uint32_t *left_ends, size_t left_ends_len,
                    uint16_t *left_items, size_t left_items_len,
                    uint16_t *right_numbers, size_t right_numbers_len,
                    uint32_t *right_ends, size_t right_ends_len,
                    uint16_t *right_items, size_t right_items_len,
                    uint64_t answer[KITFINDER_LOAD_ANSWER]);

/* Loads the tag files of two pads into the lists of kitfinder_load, over one tag table. Stacks with the same number in both files belong
 * to one borrower and are pooled: the set is the union of their tags. The kits are the first file's; the stacks are the first file's in
 * its order, each with what the second has under its number, and then the second's others in its order. The second file's kit records are
 * tested for 1 only, and nothing of them is kept. An empty second file gives what kitfinder_load gives of the first.
 * Refuses with 1 to 4 and 10. The first file is tested as by kitfinder_load, and its faults come first. In the second a stack's number
 * may be used once (2), and the limits of 3 are for the pooled stacks, and for the tags of these and of the kits. Byte places of the
 * second file count on from first_len. 4 is judged over what both give, and 10 after it, with the first record of the second file whose
 * stack has over 255 tags once it is pooled.
 * answer[3] kits, [4] pooled stacks, [5] kit entries, [6] pooled stack entries, [7] tags, [8] repeats of the first file's kits, to
 * which those of the second add none, [9] repeats of the stacks of both files. */
void kitfinder_load_pooled(const uint8_t *first, size_t first_len,
                           const uint8_t *second, size_t second_len,
                           uint8_t *tags, size_t tags_len,
                           uint16_t *left_numbers, size_t left_numbers_len,
                           uint32_t *left_ends, size_t left_ends_len,
                           uint16_t *left_items, size_t left_items_len,
                           uint16_t *right_numbers, size_t right_numbers_len,
                           uint32_t *right_ends, size_t right_ends_len,
                           uint16_t *right_items, size_t right_items_len,
                           uint64_t answer[KITFINDER_LOAD_POOLED_ANSWER]);

/* Writes a tag file: kits, then stacks, by place, tags by item. tags_len must be 12 times t. The file needs kitfinder_file_bytes,
 * and stays as it was beyond its length. Refuses with 4 to 6.
 * answer[3] the length. */
void kitfinder_write(uint32_t t,
                     const uint8_t *tags, size_t tags_len,
                     const uint16_t *left_numbers, size_t left_numbers_len,
                     const uint32_t *left_ends, size_t left_ends_len,
                     const uint16_t *left_items, size_t left_items_len,
                     const uint16_t *right_numbers, size_t right_numbers_len,
                     const uint32_t *right_ends, size_t right_ends_len,
                     const uint16_t *right_items, size_t right_items_len,
                     uint8_t *file, size_t file_len,
                     uint64_t answer[KITFINDER_WRITE_ANSWER]);

/* Reads the record at a byte place of a tag file. Refuses with 1, also where the place lies past the file's end.
 * answer[3] 0 for a whole record, 1 where the file ends; [4] 0 for a kit, 1 for a stack; [5] its number; [6] the count of its tags;
 * [7] the byte place of the first tag; [8] that of the next record; [9] how many of its tags are repeats. Where the file ends, the words
 * from [4] on are 0. */
void kitfinder_read_record(const uint8_t *file, size_t file_len, size_t at, uint64_t answer[KITFINDER_READ_RECORD_ANSWER]);

/* The lengths below are for collections without a bad set. Of others each takes no more than the limits for granted, so that none is
 * larger than for the largest collections; the function then refuses with 5 or 6 before it comes to the length. */

static inline size_t kitfinder_at_most(size_t most, size_t n)
{
    return n < most ? n : most;
}

/* The entries of a collection: its last end. */
static inline size_t kitfinder_entries(const uint32_t *ends, size_t ends_len)
{
    return ends_len == 0 ? 0 : kitfinder_at_most(KITFINDER_MAX_ENTRIES, ends[ends_len - 1]);
}

/* The words that the work list of a join needs: 2,293,792 at most. */
static inline size_t kitfinder_work_words(uint32_t t, const uint32_t *left_ends, size_t left_ends_len,
                                          const uint32_t *right_ends, size_t right_ends_len)
{
    return 16 * (kitfinder_at_most(KITFINDER_MAX_SETS, left_ends_len) + kitfinder_at_most(KITFINDER_MAX_SETS, right_ends_len) +
                 kitfinder_entries(left_ends, left_ends_len) + kitfinder_entries(right_ends, right_ends_len) +
                 kitfinder_at_most(KITFINDER_MAX_ITEMS, t)) + 64;
}

/* Places of a pair list that suffice whatever the sets hold: two for each kit and each stack, 33,554,432 at most. */
static inline size_t kitfinder_pair_places(size_t kits, size_t stacks)
{
    return 2 * kitfinder_at_most(KITFINDER_MAX_SETS, kits) * kitfinder_at_most(KITFINDER_MAX_SETS, stacks);
}

/* The bytes that the writer fills: 1,613,800 at most. */
static inline size_t kitfinder_file_bytes(const uint32_t *left_ends, size_t left_ends_len,
                                          const uint32_t *right_ends, size_t right_ends_len)
{
    return KITFINDER_RECORD_HEAD_BYTES * (kitfinder_at_most(KITFINDER_MAX_SETS, left_ends_len) +
                                          kitfinder_at_most(KITFINDER_MAX_SETS, right_ends_len)) +
           KITFINDER_TAG_BYTES * (kitfinder_entries(left_ends, left_ends_len) + kitfinder_entries(right_ends, right_ends_len));
}

/* What answer[0] means, in a few words. */
static inline const char *kitfinder_refusal_name(uint64_t number)
{
    switch (number) {
    case KITFINDER_ACCEPTED: return "accepted";
    case KITFINDER_MALFORMED: return "a record with another mark, or cut short";
    case KITFINDER_NUMBER_USED: return "a record's number was used before by the same kind";
    case KITFINDER_TOO_MANY: return "a record passes a limit of sets, entries or tags";
    case KITFINDER_SHORT_OUTPUT: return "an output list is too short";
    case KITFINDER_BAD_SET: return "a bad set, or numbers not as many as the sets";
    case KITFINDER_BAD_SETTINGS: return "the limit, the rule, the ranks, t or the tag table's length";
    case KITFINDER_SHORT_WORK: return "the work list is too short";
    case KITFINDER_SPENT: return "more checks than the allowance";
    case KITFINDER_SHORT_PAIRS: return "the pair list is too short";
    case KITFINDER_OVERLONG: return "the pooled stack of a record has over 255 tags";
    default: return "no refusal of this library";
    }
}

#ifdef __cplusplus
}
#endif

#endif
