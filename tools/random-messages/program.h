/* What the program in C shares that says what messages show, and builds messages: what peer.h says in C++, and descriptions of
 * messages that are read from the front, as `source` reads them. */
#ifndef PROGRAM_H
#define PROGRAM_H

#include "linsjoar_types.h"

#include <inttypes.h>
#include <stdio.h>
#include <stdlib.h>

struct program {
    FILE *said;
    uint32_t structs_left;               /* how many structs are still shown of a message */
    struct linsjoar_pointer_reader root; /* of the message that is shown */
    const uint8_t *left, *end;           /* what is left of the descriptions */
    struct linsjoar_message message;     /* the message that is built, and the length of its encoding */
    size_t message_len;
};

/* What is done with the root of a message: it is shown, built as the description says, or made anew of a copy. */
enum task { SHOW, MAKE, COPY };

static inline void show_word(struct program *program, const char *word) { fprintf(program->said, " %s", word); }

static inline void show_field(struct program *program, const char *name) { fprintf(program->said, "\n%s", name); }

static inline void show_bits(struct program *program, uint64_t bits) { fprintf(program->said, " %" PRIx64, bits); }

static inline void show_flag(struct program *program, bool is_there) { show_word(program, is_there ? "+" : "-"); }

static inline void show_float(struct program *program, float number) {
    uint32_t bits;
    memcpy(&bits, &number, sizeof bits);
    if (number != number)
        show_word(program, "nan");
    else
        show_bits(program, bits);
}

static inline void show_double(struct program *program, double number) {
    uint64_t bits;
    memcpy(&bits, &number, sizeof bits);
    if (number != number)
        show_word(program, "nan");
    else
        show_bits(program, bits);
}

static inline void show_bytes(struct program *program, const void *bytes, size_t len) {
    fprintf(program->said, " \"");
    for (size_t i = 0; i < len; i++)
        fprintf(program->said, "%02x", ((const uint8_t *)bytes)[i]);
}

static inline void show_text(struct program *program, const struct linsjoar_text_reader *text) {
    show_bytes(program, text->bytes, text->len);
    if (text->bytes[text->len] != 0)
        show_word(program, "without a zero byte");
}

/* Whether a struct is shown at a depth, and not too many were before it. */
static inline bool show_enters(struct program *program, uint32_t depth) {
    if (depth == 0 || program->structs_left == 0) {
        show_word(program, "..");
        return false;
    }
    program->structs_left--;
    show_word(program, "{");
    return true;
}

static inline void show_list(struct program *program, uint32_t len) {
    show_word(program, "[");
    show_bits(program, len);
}

static inline void show_error(struct program *program, enum linsjoar_error error) {
    if (error != LINSJOAR_OK)
        fprintf(program->said, " failed %s", linsjoar_error_name(error));
}

static inline void *make_room(void *block, size_t len) {
    void *room = realloc(block, len + 1);
    if (room == NULL)
        abort();
    return room;
}

static inline void expect(enum linsjoar_error error) {
    if (error == LINSJOAR_OK)
        return;
    fprintf(stderr, "failed %s\n", linsjoar_error_name(error));
    exit(3);
}

static inline const uint8_t *take(struct program *program, size_t count) {
    if ((size_t)(program->end - program->left) < count)
        abort();
    program->left += count;
    return program->left - count;
}

static inline uint64_t take_number(struct program *program, unsigned bytes) {
    const uint8_t *at = take(program, bytes);
    uint64_t number = 0;
    for (unsigned i = 0; i < bytes; i++)
        number |= (uint64_t)at[i] << 8 * i;
    return number;
}

static inline float take_float(struct program *program) {
    return linsjoar_float_of_bits((uint32_t)take_number(program, 4));
}

static inline double take_double(struct program *program) { return linsjoar_double_of_bits(take_number(program, 8)); }

static inline uint64_t make_text(struct program *program) {
    size_t len = (size_t)take_number(program, 4);
    struct linsjoar_text_orphan orphan;
    expect(linsjoar_add_string_with_len(&program->message, (const char *)take(program, len), len, &orphan));
    return orphan.word;
}

static inline uint64_t make_data(struct program *program) {
    size_t len = (size_t)take_number(program, 4);
    struct linsjoar_data_orphan orphan;
    expect(linsjoar_add_bytes(&program->message, take(program, len), len, &orphan));
    return orphan.word;
}

/* A list of numbers, which a description has as a message does. */
#define MAKE_NUMBERS(program, name, type, into)                                       \
    do {                                                                             \
        size_t count_ = (size_t)take_number(program, 4);                              \
        type *numbers_ = (type *)make_room(NULL, count_ * sizeof(type));             \
        struct name##_list_orphan list_;                                             \
        memcpy(numbers_, take(program, count_ * sizeof(type)), count_ * sizeof(type)); \
        expect(name##_add_list(&(program)->message, numbers_, count_, &list_));  \
        *(into) = list_.word;                                                        \
        free(numbers_);                                                              \
    } while (0)

/* A list of bools, each of which is a byte in a description. */
static inline uint64_t make_bools(struct program *program) {
    size_t count = (size_t)take_number(program, 4), len = (count + 7) / 8;
    const uint8_t *bools = take(program, count);
    uint8_t *elements = (uint8_t *)make_room(NULL, len);
    struct linsjoar_bool_list_orphan orphan;
    memset(elements, 0, len);
    for (size_t i = 0; i < count; i++)
        elements[i / 8] |= (uint8_t)(bools[i] << i % 8);
    expect(linsjoar_bool_add_list(&program->message, elements, count, &orphan));
    free(elements);
    return orphan.word;
}

/* A list of Void. */
static inline uint64_t make_voids(struct program *program) {
    struct linsjoar_void_list_orphan orphan;
    expect(linsjoar_void_add_list(&program->message, (size_t)take_number(program, 4), &orphan));
    return orphan.word;
}

#endif
