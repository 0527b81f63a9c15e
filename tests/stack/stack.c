/* The stack that each function of the library takes, held to what the header states.
 *
 * A call runs on a thread whose stack is lent from here and full of a pattern. The lowest byte that lost the pattern tells how deep
 * the call went, counted from the frame of its caller, arguments included. A call that stays within what is stated is then made
 * once more with everything below that made unreadable, so that a frame which was taken and not written is found too.
 *
 * For each function it prints the most bytes of all its calls and the bytes stated, which may be 128 KB at most; for the join also
 * what a level of its walk takes. */
#define _GNU_SOURCE
#include <pthread.h>
#include <signal.h>
#include <stdio.h>
#include <stdlib.h>
#include <string.h>
#include <sys/mman.h>
#include <unistd.h>

#include "kitfinder.h"

enum { ROOM = 2 << 20, PAGE = 4096, PATTERN = 0xA5, MOST = 128 << 10 };
enum { SETS = 4096, ENTRIES = 65535, TAGS = 4096, PLACES = 1 << 20, WORDS = 16 * (2 * SETS + 2 * ENTRIES + TAGS) + 64 };

static unsigned char *stack; /* the lent stack: ROOM bytes */
static unsigned char *top;   /* the frame that the last call was made from */
static size_t bound;         /* the bytes that a guarded call may take; 0 for no guard */
static const char *guarded;  /* the function of the guarded call */

static void stop(const char *what)
{
    fprintf(stderr, "tests/stack: %s\n", what);
    exit(1);
}

/* A guarded call went below its bound. */
static void beyond(int number)
{
    (void)number;
    static const char text[] = " went beyond the stack that the header states\n";
    ssize_t written = write(STDERR_FILENO, guarded, strlen(guarded));
    written += write(STDERR_FILENO, text, sizeof text - 1);
    _exit(written > 0 ? 1 : 2);
}

static void *start(void *call)
{
    static unsigned char aside[1 << 16];
    stack_t other = { .ss_sp = aside, .ss_size = sizeof aside };
    sigaltstack(&other, NULL);
    top = __builtin_frame_address(0);
    size_t below = (size_t)(top - stack) - bound;
    below -= below % PAGE;
    if (bound && mprotect(stack, below, PROT_NONE))
        stop("the guard was not set");
    (*(void (**)(void))call)();
    if (bound && mprotect(stack, below, PROT_READ | PROT_WRITE))
        stop("the guard was not taken away");
    return NULL;
}

/* Makes a call on the lent stack. */
static void make(void (*call)(void))
{
    pthread_attr_t kind;
    pthread_t thread;
    if (pthread_attr_init(&kind) || pthread_attr_setstack(&kind, stack, ROOM) || pthread_create(&thread, &kind, start, &call) ||
        pthread_join(thread, NULL))
        stop("no thread");
    pthread_attr_destroy(&kind);
}

/* Brings the pattern back, and tells how deep it was lost. */
static size_t fill(void)
{
    unsigned char *lowest = stack;
    while (*lowest == PATTERN)
        lowest++;
    memset(lowest, PATTERN, (size_t)(stack + ROOM - lowest));
    return (size_t)(top - lowest);
}

/* The bytes that a call takes; then, where they are within what is stated, the same call under guard. */
static size_t taken(const char *name, size_t stated, void (*call)(void))
{
    bound = 0;
    make(call);
    size_t bytes = fill();
    if (bytes <= stated) {
        guarded = name;
        bound = stated;
        make(call);
        fill();
    }
    return bytes;
}

/* What the calls are made with. */
static uint32_t t, limit, budget, rule, falling;
static double weight;
static uint8_t file[16 << 20], second[2 << 20], tags[12 * TAGS];
static size_t file_len, file_room = sizeof file, second_len, tags_room = sizeof tags, at;
static uint32_t left_ends[SETS], right_ends[SETS], work[WORDS];
static uint16_t left_numbers[SETS], right_numbers[SETS], left_items[ENTRIES], right_items[ENTRIES], ranks[TAGS], pairs[PLACES];
static size_t lefts, rights, places, right_len, words = WORDS;
static uint64_t answer[16];

static size_t entries(const uint32_t *ends, size_t sets)
{
    return sets ? ends[sets - 1] : 0;
}

static void join(void)
{
    kitfinder_join(t, left_ends, lefts, left_items, entries(left_ends, lefts), right_ends, rights, right_items,
                   entries(right_ends, rights), limit, ranks, t, budget, rule, weight, 0, 0, 1, work, words, pairs, places, answer);
}

static void first(void)
{
    kitfinder_first(t, left_ends, lefts, left_items, entries(left_ends, lefts), right_items, right_len, answer);
}

static void order(void)
{
    kitfinder_order(t, left_ends, lefts, left_items, entries(left_ends, lefts), right_ends, rights, right_items,
                    entries(right_ends, rights), falling, ranks, t, answer);
}

static void load(void)
{
    kitfinder_load(file, file_len, tags, sizeof tags, left_numbers, SETS, left_ends, SETS, left_items, ENTRIES, right_numbers, SETS,
                   right_ends, SETS, right_items, ENTRIES, answer);
}

static void load_pooled(void)
{
    kitfinder_load_pooled(file, file_len, second, second_len, tags, tags_room, left_numbers, SETS, left_ends, SETS, left_items, ENTRIES,
                          right_numbers, SETS, right_ends, SETS, right_items, ENTRIES, answer);
}

static void write_file(void)
{
    kitfinder_write(t, tags, 12 * t, left_numbers, lefts, left_ends, lefts, left_items, entries(left_ends, lefts), right_numbers,
                    rights, right_ends, rights, right_items, entries(right_ends, rights), file, file_room, answer);
}

static void read_record(void)
{
    kitfinder_read_record(file, file_len, at, answer);
}

/* Holds the last answer to a refusal's number. */
static void refused(const char *name, uint64_t number)
{
    if (answer[0] != number) {
        fprintf(stderr, "tests/stack: %s answers %llu in place of %llu\n", name, (unsigned long long)answer[0],
                (unsigned long long)number);
        exit(1);
    }
}

static void accepted(const char *name)
{
    refused(name, 0);
}

/* One set more at the end of a collection: `shared` items from 0 on, and `last` where it is above them. */
static size_t add_set(uint32_t *ends, uint16_t *items, size_t sets, uint32_t shared, uint32_t last)
{
    size_t end = entries(ends, sets);
    for (uint32_t i = 0; i < shared; i++)
        items[end++] = (uint16_t)i;
    if (last >= shared && last < t)
        items[end++] = (uint16_t)last;
    ends[sets] = (uint32_t)end;
    return sets + 1;
}

/* Left sets along one path as long as a set can be: 0 prefixes of it, 1 prefixes with an item of their own, 2 none of these; in each the
 * whole path four times, and an empty set first and last. Each prefix is there, or as many as a collection holds. The right sets hold
 * the path whole, or half of it. */
enum { SHAPES = 3, LONGEST = KITFINDER_MAX_SET_LENGTH, STEP = LONGEST * LONGEST / (3 * ENTRIES / 2) + 1 };
static void make_sets(int shape)
{
    t = 2 * LONGEST;
    rights = 0;
    lefts = add_set(left_ends, left_items, 0, 0, t);
    for (uint32_t k = 1; shape < 2 && k <= LONGEST; k += STEP)
        lefts = add_set(left_ends, left_items, lefts, shape ? k - 1 : k, shape ? LONGEST + k - 1 : 0);
    for (uint32_t k = 0; k < 4; k++)
        lefts = add_set(left_ends, left_items, lefts, LONGEST, 0);
    lefts = add_set(left_ends, left_items, lefts, 0, t);
    for (uint32_t k = 0; k < 8; k++)
        rights = add_set(right_ends, right_items, rights, k % 3 == 2 ? LONGEST / 2 : LONGEST, 0);
    for (uint32_t i = 0; i < t; i++)
        ranks[i] = (uint16_t)i;
    budget = UINT32_MAX;
    places = PLACES;
}

/* Left sets that part in halves, as often as a collection can hold: all have the shared items, and then one of two items at each level.
 * Calls lie above each other most often here, since no child has more left sets than the other. The last two shapes are for Merge in
 * the walk: as many tags and right sets as there can be, few entries, and the shortest work list, in which rows of bits don't fit. */
enum { HALVES = 4, THIN = 2 };
static void make_halves(int shape)
{
    static const uint32_t shared[HALVES] = { 1, 16, 1, 16 }, levels[HALVES] = { 12, 11, 10, 9 };
    uint32_t all = shared[shape] + 2 * levels[shape];
    t = all;
    rights = 0;
    for (lefts = 0; lefts < (size_t)1 << levels[shape];) {
        uint32_t halves = (uint32_t)lefts;
        lefts = add_set(left_ends, left_items, lefts, shared[shape], t);
        for (uint32_t level = 0; level < levels[shape]; level++, halves /= 2)
            left_items[left_ends[lefts - 1]++] = (uint16_t)(shared[shape] + 2 * level + halves % 2);
    }
    for (uint32_t k = 0; k < 8; k++)
        rights = add_set(right_ends, right_items, rights, all, t);
    if (shape >= THIN) {
        while (rights < SETS)
            rights = add_set(right_ends, right_items, rights, 0, t);
        t = TAGS;
        words = 16 * (lefts + rights + entries(left_ends, lefts) + entries(right_ends, rights) + t) + 64;
    }
    for (uint32_t i = 0; i < t; i++)
        ranks[i] = (uint16_t)i;
    budget = UINT32_MAX;
    places = PLACES;
}

/* Empty left sets alone, as many as there can be, beside the right sets that are there. They need no place and no check. */
static void make_empty(void)
{
    for (lefts = 0; lefts < SETS;)
        lefts = add_set(left_ends, left_items, lefts, 0, t);
    budget = 0;
    places = 0;
}

static size_t most;
static void more(size_t bytes)
{
    if (bytes > most)
        most = bytes;
}

/* The most bytes of a join with a limit and a rule. */
static size_t join_at(uint32_t depth, uint32_t by)
{
    size_t before = most;
    most = 0;
    limit = depth;
    rule = by;
    for (int shape = 0; shape < SHAPES + HALVES; shape++) {
        if (shape < SHAPES)
            make_sets(shape);
        else
            make_halves(shape - SHAPES);
        /* Weighed goes on where more left sets begin with the path than the weight says: at 0 everywhere. */
        for (weight = 0; weight <= (by == KITFINDER_WEIGHED ? LONGEST : 0); weight = 2 * weight + 1) {
            more(taken("kitfinder_join", KITFINDER_JOIN_STACK, join));
            accepted("kitfinder_join");
        }
        weight = 0;
        places = 7;
        more(taken("kitfinder_join", KITFINDER_JOIN_STACK, join));
        refused("kitfinder_join", 9);
        budget = 3;
        more(taken("kitfinder_join", KITFINDER_JOIN_STACK, join));
        refused("kitfinder_join", answer[0] == 8 ? 8 : 9);
        words = WORDS;
    }
    make_empty();
    more(taken("kitfinder_join", KITFINDER_JOIN_STACK, join));
    accepted("kitfinder_join");
    size_t bytes = most;
    most = before;
    more(bytes);
    return bytes;
}

/* A search for the first kit with so many items in the stack, and the answer's number. */
static void find(size_t items, uint64_t number)
{
    right_len = items;
    more(taken("kitfinder_first", KITFINDER_FIRST_STACK, first));
    refused("kitfinder_first", number);
}

/* Searches in long kits, in 4,096 of them, in as many empty ones and in none, found at once, at the last place or not at all; and each
 * refusal. The stack's items are those of the path that make_sets has. */
static void find_first(void)
{
    for (int shape = 0; shape < SHAPES; shape++) {
        make_sets(shape);
        find(LONGEST, 0);
        find(LONGEST - 1, 0);
        find(0, 0);
        find(LONGEST + 1, 5);
    }
    for (uint32_t shared = 0; shared < ENTRIES / SETS; shared += ENTRIES / SETS - 1) {
        t = TAGS;
        for (lefts = 0; lefts < SETS;)
            lefts = add_set(left_ends, left_items, lefts, shared, lefts + 1 < SETS ? TAGS - 1 : LONGEST - 1);
        find(LONGEST, 0);
        find(LONGEST - 1, 0);
        lefts--;
        find(LONGEST, 0);
        left_items[entries(left_ends, lefts) - 1] = TAGS;
        find(LONGEST, 5);
        t++;
        find(LONGEST, 6);
    }
    t = TAGS;
    make_empty();
    find(LONGEST, 0);
    find(0, 0);
    find(LONGEST + 1, 5);
    lefts = 0;
    find(LONGEST, 0);
    find(LONGEST + 1, 5);
}

/* Puts records into a file, kits and stacks in turn: so many tags each, from one place of the record's 255 on, and so many distinct in
 * all. Answers the file's length. */
enum { TAGS_A_RECORD = 255 };
static size_t put_records(uint8_t *to, uint32_t records, uint32_t from, uint32_t count, uint32_t distinct)
{
    size_t length = 0;
    for (uint32_t k = 0; k < records; k++) {
        const uint8_t head[5] = { k % 2 ? 0x53 : 0x4B, k % 2 ? 0x4B : 0x54, (uint8_t)(k >> 8), (uint8_t)k, (uint8_t)count };
        memcpy(to + length, head, sizeof head);
        length += sizeof head;
        for (uint32_t i = from; i < from + count; i++, length += 12) {
            uint32_t tag = (k * TAGS_A_RECORD + i) * 2654435761u % distinct;
            memset(to + length, 0, 12);
            to[length + 10] = (uint8_t)(tag >> 8);
            to[length + 11] = (uint8_t)tag;
        }
    }
    return length;
}

/* A file of records with 255 tags each, so many tags distinct. */
static void make_file(uint32_t records, uint32_t distinct)
{
    file_len = put_records(file, records, 0, TAGS_A_RECORD, distinct);
}

/* A pooled load of what the two files hold, and the answer's number. */
static void pool(uint64_t number)
{
    more(taken("kitfinder_load_pooled", KITFINDER_LOAD_POOLED_STACK, load_pooled));
    refused("kitfinder_load_pooled", number);
}

/* Pooled loads: files as full as can be on both pads, where every stack of the second is in the first, all of its tags, some or none;
 * either file alone; and each refusal. */
static void pool_files(void)
{
    enum { FULL = 2 * (ENTRIES / TAGS_A_RECORD) };
    static const uint32_t files[][4] = { /* records; tags in the first; from and how many in the second */
        { FULL, TAGS_A_RECORD, 0, TAGS_A_RECORD },
        { FULL, 128, 128, 127 },
        { FULL, 200, 55, 200 },
        { FULL, 0, 0, TAGS_A_RECORD },
        { FULL, TAGS_A_RECORD, 0, 0 },
        { 2 * SETS, 15, 0, 15 },
        { 2 * SETS, 8, 8, 7 },
        { 2 * SETS, 0, 0, 0 },
        { 4, 3, 1, 3 },
    };
    for (size_t k = 0; k < sizeof files / sizeof *files; k++) {
        const uint32_t *of = files[k];
        file_len = put_records(file, of[0], 0, of[1], TAGS);
        second_len = put_records(second, of[0], of[2], of[3], TAGS);
        pool(0);
        second_len--;
        pool(1);
        tags_room = 0;
        second_len++;
        pool(of[1] + of[3] > 0 ? 4 : 0);
        tags_room = sizeof tags;
        file_len--;
        pool(1);
        file_len = 0;
        pool(0);
    }
    second_len = 0;
    pool(0);
    make_file(FULL, TAGS);
    pool(0);
    second_len = put_records(second, FULL, 1, TAGS_A_RECORD, TAGS);
    pool(3);
    make_file(FULL / 2, TAGS);
    second_len = put_records(second, FULL / 2, 1, TAGS_A_RECORD, TAGS);
    pool(10);
    second_len += put_records(second + second_len, 2, 0, TAGS_A_RECORD, TAGS);
    pool(2);
    second_len = put_records(second, FULL / 2, 0, TAGS_A_RECORD, 2 * TAGS);
    pool(3);
    make_file(FULL / 2, 2 * TAGS);
    pool(3);
    /* nearly all reads are repeats */
    make_file(64, 3);
    second_len = put_records(second, 64, 0, TAGS_A_RECORD, 5);
    pool(0);
}

static int failures;
static void say(const char *name, size_t stated)
{
    int held = most <= stated && stated <= MOST;
    printf("%s: %zu bytes of stack, %zu stated%s\n", name, most, stated, held ? "" : ": FAILED");
    failures += !held;
    most = 0;
}

int main(void)
{
    stack = mmap(NULL, ROOM, PROT_READ | PROT_WRITE, MAP_PRIVATE | MAP_ANONYMOUS | MAP_NORESERVE, -1, 0);
    if (stack == MAP_FAILED)
        stop("no room for a stack");
    memset(stack, PATTERN, ROOM);
    struct sigaction action = { .sa_handler = beyond, .sa_flags = SA_ONSTACK };
    sigaction(SIGSEGV, &action, NULL);
    sigaction(SIGBUS, &action, NULL);

    /* The loader first: what it loads the writer writes. */
    uint32_t files[][2] = { { 0, 1 }, { 4, 3 }, { 64, TAGS }, { 400, TAGS }, { 400, 2 * TAGS } };
    for (size_t k = 0; k < sizeof files / sizeof *files; k++) {
        make_file(files[k][0], files[k][1]);
        more(taken("kitfinder_load", KITFINDER_LOAD_STACK, load));
        refused("kitfinder_load", files[k][1] > TAGS ? 3 : 0);
    }
    make_file(64, TAGS);
    file_len--;
    more(taken("kitfinder_load", KITFINDER_LOAD_STACK, load));
    refused("kitfinder_load", 1);
    say("kitfinder_load", KITFINDER_LOAD_STACK);

    pool_files();
    say("kitfinder_load_pooled", KITFINDER_LOAD_POOLED_STACK);

    /* Records without a repeat, with some, and with nothing else; the last of each is cut short. */
    static const uint32_t tags_read[] = { TAGS, 100, 1 };
    for (size_t k = 0; k < sizeof tags_read / sizeof *tags_read; k++) {
        make_file(64, tags_read[k]);
        file_len--;
        for (at = 0; at <= file_len + 1; at += 5 + 12 * TAGS_A_RECORD)
            more(taken("kitfinder_read_record", KITFINDER_READ_RECORD_STACK, read_record));
    }
    say("kitfinder_read_record", KITFINDER_READ_RECORD_STACK);

    make_file(64, TAGS);
    load();
    accepted("kitfinder_load");
    lefts = answer[3], rights = answer[4], t = (uint32_t)answer[7];
    more(taken("kitfinder_write", KITFINDER_WRITE_STACK, write_file));
    accepted("kitfinder_write");
    file_room = 100;
    more(taken("kitfinder_write", KITFINDER_WRITE_STACK, write_file));
    refused("kitfinder_write", 4);
    left_ends[lefts - 1] = ENTRIES + 1;
    more(taken("kitfinder_write", KITFINDER_WRITE_STACK, write_file));
    refused("kitfinder_write", 5);
    say("kitfinder_write", KITFINDER_WRITE_STACK);

    for (falling = 0; falling < 2; falling++) {
        for (int shape = 0; shape < SHAPES; shape++) {
            make_sets(shape);
            more(taken("kitfinder_order", KITFINDER_ORDER_STACK, order));
            accepted("kitfinder_order");
        }
        make_file(400, TAGS);
        load();
        lefts = answer[3], rights = answer[4], t = (uint32_t)answer[7];
        more(taken("kitfinder_order", KITFINDER_ORDER_STACK, order));
        accepted("kitfinder_order");
        t = 7;
        lefts = rights = 2;
        left_ends[0] = left_ends[1] = right_ends[0] = right_ends[1] = 0;
        more(taken("kitfinder_order", KITFINDER_ORDER_STACK, order));
        accepted("kitfinder_order");
    }
    say("kitfinder_order", KITFINDER_ORDER_STACK);

    find_first();
    say("kitfinder_first", KITFINDER_FIRST_STACK);

    static const char *const rules[] = { "Merge", "Check", "Weighed" };
    for (uint32_t by = 0; by < 3; by++) {
        size_t deep = join_at(KITFINDER_MAX_LIMIT, by);
        size_t half = join_at(KITFINDER_MAX_LIMIT / 2 + 1, by);
        join_at(KITFINDER_MAX_LIMIT - 1, by);
        join_at(1, by);
        printf("the join under %s: %zu bytes at limit %d, %.1f a level\n", rules[by], deep, KITFINDER_MAX_LIMIT,
               ((double)deep - (double)half) / (KITFINDER_MAX_LIMIT - (KITFINDER_MAX_LIMIT / 2 + 1)));
    }
    say("kitfinder_join", KITFINDER_JOIN_STACK);
    return failures > 0;
}
