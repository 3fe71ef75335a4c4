/* What memory.c builds messages by: random numbers, checks, blocks beside pages that can't be read, and calls that add random
 * objects. A check that fails ends the program with status 1. */
#ifndef MEMORY_H
#define MEMORY_H

#define _DEFAULT_SOURCE
#include "linsjoar_types.h"

#include <stdio.h>
#include <sys/mman.h>

enum { ROOM = 1 << 20, GUARD = 1 << 16, OBJECTS = 24, LONGEST = 300, MOST_COPIED = 4096 };

/* Where a block is: its last byte before a page that can't be read, its first byte after one, or from malloc. */
enum place { END, FRONT, HEAP };

struct task {
    uint64_t state; /* of the random numbers */
    enum place place;
    uint8_t *pages[4], *blocks[4]; /* for the region, for two blocks that a call takes, and for a copy of the region */
    struct linsjoar_builder builder;
    uint8_t *region;
    size_t room;
    int is_wrong; /* whether calls are given what no call wrote */
    uint64_t orphans[OBJECTS]; /* to which nothing points yet */
    size_t orphans_len;
    uint8_t copied[MOST_COPIED]; /* a message that is copied into others */
    size_t copied_len;
    uint64_t found, sum; /* how many calls succeed, and what they find */
};

#define REGION &task->builder, task->region, task->room

/* Limits within which a walk ends soon, and takes little of the stack. */
static const struct linsjoar_options limits = {1 << 16, 1 << 10};

static inline void check(int holds, const char *what) {
    if (!holds)
        fprintf(stderr, "wrong: %s\n", what), exit(1);
}

static inline uint64_t below(struct task *task, uint64_t limit) {
    task->state ^= task->state << 13;
    task->state ^= task->state >> 7;
    task->state ^= task->state << 17;
    return task->state % limit;
}

/* A number, often a low one or one at a limit. */
static inline uint64_t some_number(struct task *task) {
    static const uint64_t at[] = {16, 1 << 16, 1 << 29, UINT64_C(1) << 32, UINT64_C(1) << 61, 0};
    return below(task, 2) ? below(task, LONGEST) : at[below(task, 6)] + below(task, 17) - 8;
}

/* Whether a number that a call takes is to be wrong. */
static inline int wrong_now(struct task *task) { return task->is_wrong && below(task, 4) == 0; }

/* Sets a few of these bytes to the lowest or the highest number, or to any one. */
static inline void corrupt_bytes(struct task *task, void *bytes, size_t size) {
    for (uint64_t count = size ? 1 + below(task, 2) : 0; count > 0; count--) {
        size_t start = below(task, size), most = size - start < 8 ? size - start : 8;
        uint64_t kind = below(task, 3);
        for (size_t i = start; i < start + 1 + below(task, most); i++)
            ((uint8_t *)bytes)[i] = kind == 0 ? 0 : kind == 1 ? 0xff : (uint8_t)below(task, 256);
    }
}

static inline void corrupt_reader(struct task *task, struct linsjoar_reader *reader) {
    if (below(task, 2))
        corrupt_bytes(task, reader, offsetof(struct linsjoar_reader, begins));
    else
        corrupt_bytes(task, reader->begins, sizeof reader->begins);
}

/* A block of this size, which is there until the next one of its number. */
static inline void *block_of(struct task *task, int which, size_t size) {
    uint8_t *pages = task->pages[which];
    if (!pages) {
        pages = mmap(NULL, GUARD + ROOM + GUARD, PROT_NONE, MAP_PRIVATE | MAP_ANONYMOUS, -1, 0);
        check(pages != MAP_FAILED && !mprotect(pages + GUARD, ROOM, PROT_READ | PROT_WRITE), "no memory");
        task->pages[which] = pages;
    }
    check(size <= ROOM, "a block is too long");
    if (task->place != HEAP)
        return task->place == END ? pages + GUARD + ROOM - size : pages + GUARD;
    free(task->blocks[which]);
    task->blocks[which] = malloc(size);
    check(task->blocks[which] || !size, "no memory");
    return task->blocks[which];
}

/* The words of elements that a call takes: random data and then orphans of each, where nothing is wrong. */
static inline uint64_t *words_for(struct task *task, int which, size_t count, size_t data_words, size_t pointers) {
    size_t step = data_words + pointers;
    uint64_t *words = block_of(task, which, 8 * count * step);
    for (size_t i = 0; i < count * step; i++)
        if (task->is_wrong || i % step < data_words)
            words[i] = below(task, 8) ? below(task, UINT64_MAX) : UINT32_MAX - 3; /* the orphan of a struct of no words */
        else
            words[i] = task->orphans_len && below(task, 3) ? task->orphans[--task->orphans_len] : LINSJOAR_NULL_ORPHAN;
    return words;
}

/* Bytes that a call takes. */
static inline uint8_t *bytes_for(struct task *task, size_t size) {
    uint8_t *bytes = block_of(task, 1, size);
    for (size_t i = 0; i < size; i++)
        bytes[i] = (uint8_t)below(task, 256);
    return bytes;
}

/* The message in which the header's C adds the same as a call, in a copy of the region. */
struct twin {
    struct linsjoar_message message;
    uint64_t orphan;
    unsigned error;
};

static inline struct twin twin_of(struct task *task) {
    uint8_t *region = block_of(task, 3, task->room);
    memcpy(region, task->region, task->is_wrong ? task->room : task->builder.used);
    return (struct twin){{task->builder, region, task->room, task->room, NULL}, 0, 0};
}

/* Compares what was added, and returns the error of the call. */
static inline unsigned same(struct task *task, const struct twin *twin, unsigned error, uint64_t orphan) {
    size_t used = task->builder.used;
    check(error == twin->error && orphan == twin->orphan && used == twin->message.builder.used, "the header's C differs");
    check(error || !memcmp(task->region, twin->message.region, used), "the header's C adds other bytes");
    return error;
}

static inline unsigned add_bytes(struct task *task, int is_text, uint64_t *orphan) {
    size_t size = below(task, LONGEST);
    uint8_t *bytes = bytes_for(task, size);
    struct twin twin = twin_of(task);
    twin.error = linsjoar_add_blob(&twin.message, bytes, size, (size_t)is_text, &twin.orphan);
    unsigned error = (is_text ? linsjoar_add_text : linsjoar_add_data)(REGION, bytes, size, orphan);
    return same(task, &twin, error, *orphan);
}

static inline unsigned add_numbers(struct task *task, uint64_t *orphan) {
    static const unsigned bits[] = {0, 1, 8, 16, 32, 64};
    uint8_t code = (uint8_t)below(task, 6);
    size_t count = below(task, LONGEST), size = (count * bits[code] + 7) / 8;
    uint8_t *numbers = bytes_for(task, size);
    count = wrong_now(task) ? some_number(task) : count;
    code = wrong_now(task) ? (uint8_t)below(task, 256) : code;
    return linsjoar_add_numbers(REGION, code, count, numbers, size, orphan);
}

static inline unsigned add_struct(struct task *task, uint64_t *orphan) {
    size_t data_words = below(task, 5), pointers = below(task, 5);
    if (task->is_wrong && below(task, 200) == 0)
        *(below(task, 2) ? &data_words : &pointers) = 65530 + below(task, 12);
    uint64_t *words = words_for(task, 1, 1, data_words, 0), *orphans = words_for(task, 2, 1, 0, pointers);
    struct twin twin = twin_of(task);
    unsigned error = linsjoar_add_struct(REGION, words, data_words, orphans, pointers, orphan);
    if (data_words > UINT16_MAX || pointers > UINT16_MAX)
        return error;
    twin.error = linsjoar_add_draft(&twin.message, words, (uint16_t)data_words, orphans, (uint16_t)pointers, &twin.orphan);
    return same(task, &twin, error, *orphan);
}

static inline unsigned add_structs(struct task *task, uint64_t *orphan) {
    size_t count = below(task, 6);
    uint16_t data_words = (uint16_t)below(task, 4), pointers = (uint16_t)below(task, 4);
    size_t len = count * (data_words + pointers);
    uint64_t *elements = words_for(task, 1, count, data_words, pointers);
    count = wrong_now(task) ? some_number(task) : count;
    data_words = wrong_now(task) ? (uint16_t)below(task, 65536) : data_words;
    struct twin twin = twin_of(task);
    unsigned error = linsjoar_add_structs(REGION, elements, len, count, data_words, pointers, orphan);
    if (count > LONGEST || len != count * ((size_t)data_words + pointers))
        return error;
    twin.error = linsjoar_add_draft_list(&twin.message, elements, count, data_words, pointers, &twin.orphan);
    return same(task, &twin, error, *orphan);
}

/* Adds a copy of a message's root. */
static inline unsigned add_copy(struct task *task, const uint8_t *message, size_t len, uint64_t *orphan) {
    uint8_t *bytes = block_of(task, 1, len);
    struct linsjoar_reader reader;
    struct linsjoar_place root;
    memcpy(bytes, message, len);
    corrupt_bytes(task, bytes, wrong_now(task) ? len : 0);
    unsigned error = linsjoar_open_with_options(bytes, len, &limits, &reader);
    check((!linsjoar_root(bytes, len, &reader, &root) && !error) || task->is_wrong, "a message has no root");
    if (wrong_now(task))
        corrupt_reader(task, &reader);
    corrupt_bytes(task, &root, wrong_now(task) ? sizeof root : 0);
    if (reader.nesting_limit > limits.nesting_limit)
        reader.nesting_limit = limits.nesting_limit;
    if (reader.words_left > limits.traversal_limit_in_words)
        reader.words_left = limits.traversal_limit_in_words;
    return linsjoar_add_copy(REGION, bytes, len, &reader, &root, orphan);
}

/* Adds an object; for the root a list of pointers to all to which nothing points. */
static inline unsigned add_object(struct task *task, int is_root, uint64_t *orphan) {
    uint64_t kind = is_root ? 3 : below(task, 8), count;
    switch (kind) {
    case 0:
    case 1:
        return add_bytes(task, kind == 0, orphan);
    case 2:
        return add_numbers(task, orphan);
    case 3:
        count = is_root ? task->orphans_len : below(task, 6);
        uint64_t *orphans = words_for(task, 1, count, 0, 1);
        memcpy(orphans, task->orphans, is_root ? 8 * count : 0);
        return linsjoar_add_pointers(REGION, orphans, count, orphan);
    case 4:
        return add_structs(task, orphan);
    case 5:
        return task->copied_len ? add_copy(task, task->copied, task->copied_len, orphan) : add_struct(task, orphan);
    default:
        return add_struct(task, orphan);
    }
}

#endif
