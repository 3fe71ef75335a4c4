/* Builds messages of random objects by crates/capnp_c, each call over blocks that are as long as it says, and reads them.
 *
 *   memory SEED COUNT end | heap
 *
 * The region and what a call takes end where a page begins that can't be read or written; with `heap` they are blocks from
 * malloc. An object that a call adds is also added by the header's C, and in regions that it just fills and that lack a byte:
 * it has to be the same, and 2 to be returned. The message has to be readable, and a copy of it to have its canonical form.
 * Every other region begins with any bytes, and calls build there by what no call wrote: builders, orphans, counts and codes,
 * and readers and places of which some bytes are others. A call that fails has to leave the builder and the region as they
 * were, and another one the used bytes but for the word that it writes. Last the message is read by such readers, places, structs
 * and lists, as it is, cut, with other bytes or in many segments: what a call finds has to lie within the bytes; after an error
 * what it writes has to be 0, and the reader as before. */
#include "memory.h"

enum { CALLS = 20, READS = 60, MOST = 1 << 13, LEAST = 40, TABLE = 0, ROOT = 8, NOWHERE = MOST };

/* A region of this room, with these bytes at its front. */
static void place_region(struct task *task, const uint8_t *bytes, size_t used, size_t room) {
    task->room = room;
    task->region = block_of(task, 0, room);
    memcpy(task->region, bytes, used);
}

/* Adds an object, and to be sure again in regions that lack a byte and that it just fills. */
static unsigned add_at_ends(struct task *task) {
    static uint8_t before[MOST], after[MOST];
    struct task old = *task;
    uint64_t orphan = 1, again;
    memcpy(before, task->region, task->room);
    unsigned error = add_object(task, 0, &orphan);
    size_t used = task->builder.used, room = task->room;
    check(!error || !orphan, "an orphan is not 0");
    if (error || task->is_wrong || used == old.builder.used)
        return error;
    memcpy(after, task->region, used);
    for (size_t lacking = 0; lacking < 2; lacking++) {
        place_region(task, before, old.builder.used, used - 1 + lacking);
        task->state = old.state;
        task->builder = old.builder;
        task->orphans_len = old.orphans_len;
        error = add_object(task, 0, &again);
        check(error == (lacking ? LINSJOAR_OK : LINSJOAR_BUFFER_NOT_LARGE_ENOUGH), "an object needs other room");
    }
    check(orphan == again && !memcmp(task->region, after, used), "another object is added");
    place_region(task, after, used, room);
    if (task->orphans_len < OBJECTS)
        task->orphans[task->orphans_len++] = orphan;
    return error;
}

/* Makes one call that builds, and tells which word it may write among the used ones. */
static unsigned call_one(struct task *task, size_t *written) {
    uint64_t kind = task->is_wrong ? below(task, 20) : 3;
    size_t len = 1, words;
    *written = kind == 1 ? TABLE : kind == 2 ? ROOT : NOWHERE;
    if (kind == 2)
        return linsjoar_set_root(REGION, below(task, below(task, 2) ? 1 << 30 : UINT64_MAX));
    if (kind != 1)
        return add_at_ends(task);
    unsigned error = linsjoar_finish(REGION, &len);
    check(len == (error ? 0 : task->builder.used), "a message has another length");
    check(linsjoar_canonical_size_with_options(task->region, len, &limits, &words) <= LINSJOAR_INVALID_ARGUMENT, "no error");
    return error;
}

/* Makes a call, and looks at what it leaves. */
static void try_call(struct task *task) {
    static uint8_t before[MOST];
    struct linsjoar_builder kept = task->builder, old;
    size_t written;
    if (task->is_wrong && below(task, 6) == 0)
        task->builder.used = below(task, 2) ? 8 * below(task, task->room / 8 + 2) : some_number(task);
    old = task->builder;
    int is_other = old.used % 8 != 0 || old.used < 16 || old.used > task->room;
    memcpy(before, task->region, task->room);
    unsigned error = call_one(task, &written);
    check(error <= LINSJOAR_INVALID_ARGUMENT, "a number is of no error");
    check(!is_other || error == LINSJOAR_INVALID_ARGUMENT, "a builder of no region is used");
    if (!error && written + 8 <= task->room)
        memcpy(before + written, task->region + written, 8);
    check(!memcmp(task->region, before, error && task->is_wrong ? task->room : old.used), "used bytes have changed");
    check(error ? old.used == task->builder.used
                : task->builder.used % 8 == 0 && task->builder.used >= 16 && task->builder.used <= task->room, "a builder is wrong");
    task->builder = error ? kept : task->builder;
    task->found += !error;
}

/* Makes the used bytes a message of all objects. */
static size_t finish(struct task *task, uint64_t root) {
    size_t len, words;
    check(!linsjoar_set_root(REGION, root) && !linsjoar_finish(REGION, &len) && len == task->builder.used, "a message can't be built");
    check(!linsjoar_canonical_size_with_options(task->region, len, &limits, &words), "a message can't be read");
    return len;
}

/* Builds a message whose root is a copy of the message's, and compares their canonical forms. */
static void copy(struct task *task, const uint8_t *message, size_t len) {
    static uint8_t forms[2][ROOM];
    size_t words[2];
    uint64_t root;
    task->region = block_of(task, 0, task->room = MOST);
    check(!linsjoar_begin(REGION) && !add_copy(task, message, len, &root), "a message can't be copied");
    size_t copied_len = finish(task, root);
    check(!linsjoar_canonical_with_options(message, len, &limits, forms[0], ROOM, &words[0]), "no form");
    check(!linsjoar_canonical_with_options(task->region, copied_len, &limits, forms[1], ROOM, &words[1]), "no form of a copy");
    check(words[0] == words[1] && !memcmp(forms[0], forms[1], 8 * words[0]), "a copy is another message");
}

/* What is read now, and by what. */
static const uint8_t *bytes;
static size_t len;
static struct linsjoar_reader reader;
static struct linsjoar_place place;
static struct linsjoar_struct fields;
static struct linsjoar_list list;

/* Reads the ends of what was found. */
static unsigned touch(struct task *task, unsigned error, size_t start, size_t size) {
    check(start <= len && size <= len - start, "what is found is outside the bytes");
    check(!error || (!start && !size), "what is written after an error is not 0");
    if (size)
        task->sum += bytes[start] + bytes[start + size - 1];
    return error;
}

static int is_zero(const struct linsjoar_place *found) {
    return !(found->word || found->segment || found->nesting || found->is_there);
}

static unsigned read_struct(struct task *task) {
    unsigned error = linsjoar_struct(bytes, len, &reader, &place, &fields);
    check(!error || (!fields.pointers && is_zero(&fields.first)), "a struct is not 0");
    return touch(task, error, fields.start, fields.data_len);
}

static unsigned read_list(struct task *task) {
    unsigned error = linsjoar_list(bytes, len, &reader, &place, (uint8_t)below(task, 9), &list);
    check(!error || !(list.count || list.step || list.pointers || list.code || !is_zero(&list.first)), "a list is not 0");
    return touch(task, error, list.start, list.count ? ((uint64_t)(list.count - 1) * list.step + 7) / 8 + list.data_len : list.data_len);
}

static unsigned read_blob(struct task *task) {
    size_t start, count;
    unsigned error = (below(task, 2) ? linsjoar_text : linsjoar_data)(bytes, len, &reader, &place, &start, &count);
    return touch(task, error, start, count);
}

static unsigned tell_kind(struct task *task) {
    uint8_t kind, code;
    unsigned error = linsjoar_kind(bytes, len, &reader, &place, &kind, &code);
    check(error ? !(kind || code) : kind <= LINSJOAR_LIST && code <= LINSJOAR_STRUCTS, "a kind is none");
    task->sum += kind;
    return error;
}

static unsigned read_element(struct task *task) {
    uint64_t number, kind = below(task, 3);
    uint32_t index = below(task, 2) ? (uint32_t)below(task, 4) : list.count - (uint32_t)below(task, 3);
    if (kind < 2)
        return kind ? linsjoar_list_struct(&list, index, &fields) : linsjoar_list_pointer(&list, index, &place);
    unsigned error = linsjoar_list_number(bytes, len, &list, index, &number);
    check(!error || !number, "an element is not 0");
    return error;
}

static unsigned find_pointer(struct task *task) {
    if (below(task, 2))
        return linsjoar_struct_pointer(&fields, (uint16_t)below(task, below(task, 2) ? 3 : 65536), &place);
    unsigned error = linsjoar_root(bytes, len, &reader, &place);
    check(!error || is_zero(&place), "a root is not 0");
    return error;
}

static unsigned measure(struct task *task) {
    size_t words;
    unsigned error = linsjoar_canonical_size_with_options(bytes, len, &limits, &words);
    check(!error || !words, "a size is not 0");
    task->sum += words;
    return error;
}

/* Calls of one message. The bytes that are passed begin with it, or in one call of four after some bytes of it. */
static uint64_t read_by_wrong_numbers(struct task *task, const uint8_t *message, size_t message_len) {
    static unsigned (*const calls[])(struct task *) = {read_struct, read_list, read_blob, tell_kind, read_element, find_pointer, measure};
    uint64_t successes = 0;
    memset(&fields, 0, sizeof fields);
    memset(&list, 0, sizeof list);
    unsigned error = linsjoar_open(message, message_len, &reader);
    error += linsjoar_root(message, message_len, &reader, &place);
    for (int i = 0; i < READS; i++) {
        size_t skipped = below(task, 4) ? 0 : below(task, message_len + 1);
        bytes = message + skipped;
        len = message_len - skipped;
        corrupt_bytes(task, &list, below(task, 8) ? 0 : sizeof list);
        corrupt_bytes(task, &fields, below(task, 8) ? 0 : sizeof fields);
        corrupt_bytes(task, &place, below(task, 8) ? 0 : sizeof place);
        if (below(task, 16) == 0)
            corrupt_reader(task, &reader);
        struct linsjoar_reader before = reader;
        error = calls[below(task, sizeof calls / sizeof *calls)](task);
        check(!error || !memcmp(&before, &reader, sizeof reader), "a reader has changed after an error");
        check(error <= LINSJOAR_INVALID_ARGUMENT, "a number is of no error");
        successes += !error;
    }
    return successes;
}

/* Reads the message as it is, cut, with other bytes, or as the last segment, to which the first has a far pointer; at each place. */
static void read_wrongly(struct task *task, const uint8_t *message, size_t len) {
    uint32_t last = 1 + (uint32_t)below(task, 50), table[54] = {last, 1};
    enum place place = task->place;
    uint64_t kind = below(task, 4), state = task->state, found[2];
    size_t words = (last + 3) / 2, front = kind == 3 ? 8 * words : 0, read_len = kind == 2 ? below(task, len) : len + front;
    table[1 + last] = (uint32_t)(len / 8 - 1);
    table[2 * words] = 2;
    table[2 * words + 1] = last;
    for (int i = 0; i < 2; i++) {
        task->state = state;
        task->place = i && place == END ? FRONT : place;
        uint8_t *bytes = block_of(task, 0, read_len);
        memcpy(bytes + front, message, read_len - front);
        memcpy(bytes, table, front ? front + 8 : 0);
        corrupt_bytes(task, bytes, kind == 1 ? len : 0);
        found[i] = read_by_wrong_numbers(task, bytes, read_len);
    }
    check(found[0] == found[1], "what is read depends on the place");
    task->found += found[0];
    task->place = place;
}

static void try_message(struct task *task) {
    static uint8_t bytes[MOST];
    for (size_t i = 0; i < MOST && task->is_wrong; i++)
        bytes[i] = i < task->copied_len ? task->copied[i] : (uint8_t)below(task, 256);
    place_region(task, bytes, 0, below(task, 4) ? LEAST + below(task, MOST - LEAST) : below(task, LEAST));
    memcpy(task->region, bytes, task->is_wrong || task->room < ROOT ? task->room : ROOT);
    check(!linsjoar_begin(REGION) == (task->room >= 16) && (task->room >= 16 || !task->builder.used), "what is begun");
    task->orphans_len = 0;
    for (int i = 0; i < CALLS && (task->is_wrong || task->builder.used); i++)
        try_call(task);
    task->is_wrong = !task->is_wrong;
    if (!task->is_wrong || !task->builder.used)
        return;
    uint64_t root = LINSJOAR_NULL_ORPHAN;
    (void)!add_object(task, 1, &root);
    size_t len = finish(task, root);
    memcpy(bytes, task->region, len);
    task->is_wrong = 0;
    copy(task, bytes, len);
    read_wrongly(task, bytes, len);
    task->copied_len = len <= MOST_COPIED ? len : 0;
    memcpy(task->copied, bytes, task->copied_len);
    task->is_wrong = 1;
}

int main(int count, char **words) {
    static struct task task;
    check(count == 4, "no seed, no count, or no place");
    task.state = strtoull(words[1], NULL, 10) + 0x9e3779b97f4a7c15;
    task.place = strcmp(words[3], "heap") ? END : HEAP;
    for (uint64_t i = 2 * strtoull(words[2], NULL, 10); i > 0; i--)
        try_message(&task);
    printf("%s messages are built and read, and %llu calls succeed\n", words[2], (unsigned long long)task.found);
    return 0;
}
