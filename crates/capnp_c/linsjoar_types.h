/* What the headers share that the schema compiler writes for C (docs/COMPILER.md, "Types for C"). It is C over the
 * calls of linsjoar.h, and no proof covers it: texts, data and structs are also written here, without a call.
 *
 * A message is read from its root on:
 *
 *     struct linsjoar_reader reader;
 *     struct Person_reader person;
 *     enum linsjoar_error error = Person_root(bytes, len, &reader, &person);
 *     if (error == LINSJOAR_OK)
 *         printf("%u", Person_get_id(&person));
 *
 * and built from its leaves up, in memory that grows:
 *
 *     struct linsjoar_message message;
 *     struct linsjoar_text_orphan name;
 *     struct Person_draft draft = Person_new();
 *     size_t len;
 *     enum linsjoar_error error = linsjoar_message_begin(&message, NULL, 0, linsjoar_heap);
 *     if (error == LINSJOAR_OK)
 *         error = linsjoar_add_string(&message, "Alice", &name);
 *     if (error == LINSJOAR_OK) {
 *         Person_set_name(&draft, name);
 *         error = Person_finish(&message, &draft, &len);
 *     }
 *     if (error == LINSJOAR_OK)
 *         fwrite(message.region, 1, len, file);
 *     linsjoar_message_free(&message);
 *
 * Each call that follows a pointer or adds an object returns an `enum linsjoar_error`; after one what it has to write
 * is null or empty. The others can't fail.
 *
 * What is read has the addresses of the bytes and of the `struct linsjoar_reader`, and dangles without either. Each
 * call that follows a pointer counts in that reader, also where what is read is const. So threads may share the bytes,
 * and not a reader: each binds what it is given to a reader of its own, a copy, as by Person_bind. */
#ifndef LINSJOAR_TYPES_H
#define LINSJOAR_TYPES_H

#include "linsjoar.h"

#include <math.h> /* NAN and INFINITY, for constants */
#include <stdbool.h>
#include <stdlib.h>
#include <string.h>

#ifdef __cplusplus
extern "C" {
#endif

/* What is read: a message in a buffer, with the reader that linsjoar_open made of it, or a constant of a schema, which
 * has no reader, and is read without a limit. */
struct linsjoar_source {
    const uint8_t *bytes;
    size_t len;
    struct linsjoar_reader *reader; /* NULL for a constant */
};

/* A pointer, whatever it points to. */
struct linsjoar_pointer_reader {
    struct linsjoar_source source;
    struct linsjoar_place place;
};

/* A struct. What lies past its data is 0, and past its pointers null. */
struct linsjoar_struct_reader {
    struct linsjoar_source source;
    struct linsjoar_struct fields;
};

/* A list. */
struct linsjoar_list_reader {
    struct linsjoar_source source;
    struct linsjoar_list elements;
};

/* A Text, of `len` bytes and a zero byte after them. */
struct linsjoar_text_reader {
    const char *bytes;
    size_t len;
};

/* A Data. */
struct linsjoar_data_reader {
    const uint8_t *bytes;
    size_t len;
};

/* The root pointer of a message that was opened. */
static inline LINSJOAR_CHECKED enum linsjoar_error linsjoar_read_root(
    const uint8_t *bytes, size_t len, struct linsjoar_reader *reader, struct linsjoar_pointer_reader *root) {
    root->source.bytes = bytes;
    root->source.len = len;
    root->source.reader = reader;
    return linsjoar_root(bytes, len, reader, &root->place);
}

/* The root pointer of a constant: a message of one segment. */
static inline struct linsjoar_pointer_reader linsjoar_constant(const uint8_t *bytes, size_t len) {
    struct linsjoar_pointer_reader root;
    root.source.bytes = bytes;
    root.source.len = len;
    root.source.reader = NULL;
    root.place.word = 0;
    root.place.segment = 0;
    root.place.nesting = INT32_MAX;
    root.place.is_there = 1;
    return root;
}

/* The reader of a source. Of a constant it is made anew for each call, so that threads may read it at once. */
static inline struct linsjoar_reader *linsjoar_reader_of(
    const struct linsjoar_source *source, struct linsjoar_reader *of_constant) {
    if (source->reader != NULL)
        return source->reader;
    memset(of_constant, 0, sizeof *of_constant);
    of_constant->message_len = source->len;
    of_constant->words_left = LINSJOAR_NO_LIMIT;
    of_constant->segments = 1;
    of_constant->nesting_limit = INT32_MAX;
    return of_constant;
}

/* Whether a pointer is null. A corrupt one is not. */
static inline bool linsjoar_is_null(const struct linsjoar_pointer_reader *pointer) {
    struct linsjoar_reader of_constant;
    uint8_t kind, code;
    enum linsjoar_error error = linsjoar_kind(
        pointer->source.bytes, pointer->source.len, linsjoar_reader_of(&pointer->source, &of_constant), &pointer->place,
        &kind, &code);
    return error == 0 && kind == LINSJOAR_NULL;
}

/* Reads the struct that a pointer points to. Null is an empty one. */
static inline LINSJOAR_CHECKED enum linsjoar_error linsjoar_read_struct(
    const struct linsjoar_pointer_reader *pointer, struct linsjoar_struct_reader *value) {
    struct linsjoar_reader of_constant;
    value->source = pointer->source;
    return linsjoar_struct(
        pointer->source.bytes, pointer->source.len, linsjoar_reader_of(&pointer->source, &of_constant), &pointer->place,
        &value->fields);
}

/* Opens a framed message within these limits, or the default ones where they are NULL, and reads the struct at its
 * root. */
static inline LINSJOAR_CHECKED enum linsjoar_error linsjoar_open_root(
    const uint8_t *bytes, size_t len, const struct linsjoar_options *options, struct linsjoar_reader *reader,
    struct linsjoar_struct_reader *root) {
    static const struct linsjoar_options defaults = LINSJOAR_DEFAULT_OPTIONS;
    struct linsjoar_pointer_reader pointer;
    enum linsjoar_error error =
        linsjoar_open_with_options(bytes, len, options == NULL ? &defaults : options, reader);
    memset(root, 0, sizeof *root);
    if (error == LINSJOAR_OK)
        error = linsjoar_read_root(bytes, len, reader, &pointer);
    if (error == LINSJOAR_OK)
        error = linsjoar_read_struct(&pointer, root);
    return error;
}

/* Reads the list that a pointer points to, its elements as an enum linsjoar_code says. Null is an empty one. */
static inline LINSJOAR_CHECKED enum linsjoar_error linsjoar_read_list(
    const struct linsjoar_pointer_reader *pointer, uint8_t code, struct linsjoar_list_reader *value) {
    struct linsjoar_reader of_constant;
    value->source = pointer->source;
    return linsjoar_list(
        pointer->source.bytes, pointer->source.len, linsjoar_reader_of(&pointer->source, &of_constant), &pointer->place,
        code, &value->elements);
}

/* Reads the Text that a pointer points to. Null is an empty one. */
static inline LINSJOAR_CHECKED enum linsjoar_error linsjoar_read_text(
    const struct linsjoar_pointer_reader *pointer, struct linsjoar_text_reader *value) {
    struct linsjoar_reader of_constant;
    size_t start;
    enum linsjoar_error error = linsjoar_text(
        pointer->source.bytes, pointer->source.len, linsjoar_reader_of(&pointer->source, &of_constant), &pointer->place,
        &start, &value->len);
    /* no byte of a table is a Text's, so 0 says that there is none */
    value->bytes = start == 0 ? "" : (const char *)linsjoar_at(pointer->source.bytes, start);
    return error;
}

/* Reads the Data that a pointer points to. Null is an empty one. */
static inline LINSJOAR_CHECKED enum linsjoar_error linsjoar_read_data(
    const struct linsjoar_pointer_reader *pointer, struct linsjoar_data_reader *value) {
    struct linsjoar_reader of_constant;
    size_t start;
    enum linsjoar_error error = linsjoar_data(
        pointer->source.bytes, pointer->source.len, linsjoar_reader_of(&pointer->source, &of_constant), &pointer->place,
        &start, &value->len);
    value->bytes = linsjoar_at(pointer->source.bytes, start);
    return error;
}

/* No pointer, which is read as null. */
static inline struct linsjoar_place linsjoar_no_place(void) {
    struct linsjoar_place place;
    memset(&place, 0, sizeof place);
    return place;
}

/* A pointer of a struct, by its index. */
static inline struct linsjoar_pointer_reader linsjoar_get_pointer(
    const struct linsjoar_struct_reader *read, uint16_t index) {
    struct linsjoar_pointer_reader pointer;
    pointer.source = read->source;
    if (index < read->fields.pointers)
        pointer.place = linsjoar_pointer_at(&read->fields, index);
    else
        pointer.place = linsjoar_no_place();
    return pointer;
}

/* A pointer of a struct, or the root of a constant where it is null. */
static inline struct linsjoar_pointer_reader linsjoar_get_pointer_or(
    const struct linsjoar_struct_reader *read, uint16_t index, const uint8_t *bytes, size_t len) {
    struct linsjoar_pointer_reader pointer = linsjoar_get_pointer(read, index);
    return linsjoar_is_null(&pointer) ? linsjoar_constant(bytes, len) : pointer;
}

/* Whether a pointer of a struct is not null. */
static inline bool linsjoar_has_pointer(const struct linsjoar_struct_reader *read, uint16_t index) {
    struct linsjoar_pointer_reader pointer = linsjoar_get_pointer(read, index);
    return !linsjoar_is_null(&pointer);
}

/* A number of a struct, by how many numbers of its size are before it. */
static inline bool linsjoar_get_bool(const struct linsjoar_struct_reader *read, size_t index) {
    return linsjoar_bool(read->source.bytes, &read->fields, index) != 0;
}
static inline uint8_t linsjoar_get_u8(const struct linsjoar_struct_reader *read, size_t index) {
    return linsjoar_u8(read->source.bytes, &read->fields, index);
}
static inline uint16_t linsjoar_get_u16(const struct linsjoar_struct_reader *read, size_t index) {
    return linsjoar_u16(read->source.bytes, &read->fields, index);
}
static inline uint32_t linsjoar_get_u32(const struct linsjoar_struct_reader *read, size_t index) {
    return linsjoar_u32(read->source.bytes, &read->fields, index);
}
static inline uint64_t linsjoar_get_u64(const struct linsjoar_struct_reader *read, size_t index) {
    return linsjoar_u64(read->source.bytes, &read->fields, index);
}

/* A float, by its bits. */
static inline float linsjoar_float_of_bits(uint32_t bits) {
    float number;
    memcpy(&number, &bits, sizeof number);
    return number;
}
static inline double linsjoar_double_of_bits(uint64_t bits) {
    double number;
    memcpy(&number, &bits, sizeof number);
    return number;
}

/* How many elements a list has. */
static inline uint32_t linsjoar_list_len(const struct linsjoar_list_reader *list) { return list->elements.count; }

/* The next ones find an element of a list by hand; they fail with LINSJOAR_INVALID_ARGUMENT for a list that is read as
 * something else. Past the last element are 0, an empty struct, and null. */

/* An element of a list of numbers. */
static inline LINSJOAR_CHECKED enum linsjoar_error linsjoar_list_get_number(
    const struct linsjoar_list_reader *list, uint32_t index, uint64_t *number) {
    return linsjoar_list_number(
        list->source.bytes, list->source.len, &list->elements, index, number);
}

/* An element of a list of structs. */
static inline LINSJOAR_CHECKED enum linsjoar_error linsjoar_list_get_struct(
    const struct linsjoar_list_reader *list, uint32_t index, struct linsjoar_struct_reader *value) {
    value->source = list->source;
    if (index >= list->elements.count || list->elements.code != LINSJOAR_STRUCTS)
        return linsjoar_list_struct(&list->elements, index, &value->fields);
    value->fields = linsjoar_struct_at(&list->elements, index);
    return LINSJOAR_OK;
}

/* An element of a list of pointers, of any kind. */
static inline LINSJOAR_CHECKED enum linsjoar_error linsjoar_list_get_pointer(
    const struct linsjoar_list_reader *list, uint32_t index, struct linsjoar_pointer_reader *pointer) {
    pointer->source = list->source;
    if (index >= list->elements.count || list->elements.code != LINSJOAR_POINTERS)
        return linsjoar_list_pointer(&list->elements, index, &pointer->place);
    pointer->place = list->elements.first;
    pointer->place.word += (size_t)index * (list->elements.step / 64);
    pointer->place.is_there = 1;
    return LINSJOAR_OK;
}

/* An element of a list of texts, of data, of lists. */
static inline LINSJOAR_CHECKED enum linsjoar_error linsjoar_list_get_text(
    const struct linsjoar_list_reader *list, uint32_t index, struct linsjoar_text_reader *value) {
    struct linsjoar_pointer_reader pointer;
    enum linsjoar_error error = linsjoar_list_get_pointer(list, index, &pointer);
    value->bytes = "";
    value->len = 0;
    return error == LINSJOAR_OK ? linsjoar_read_text(&pointer, value) : error;
}
static inline LINSJOAR_CHECKED enum linsjoar_error linsjoar_list_get_data(
    const struct linsjoar_list_reader *list, uint32_t index, struct linsjoar_data_reader *value) {
    struct linsjoar_pointer_reader pointer;
    enum linsjoar_error error = linsjoar_list_get_pointer(list, index, &pointer);
    value->bytes = list->source.bytes;
    value->len = 0;
    return error == LINSJOAR_OK ? linsjoar_read_data(&pointer, value) : error;
}
static inline LINSJOAR_CHECKED enum linsjoar_error linsjoar_list_get_list(
    const struct linsjoar_list_reader *list, uint32_t index, uint8_t code, struct linsjoar_list_reader *value) {
    struct linsjoar_pointer_reader pointer;
    enum linsjoar_error error = linsjoar_list_get_pointer(list, index, &pointer);
    memset(value, 0, sizeof *value);
    return error == LINSJOAR_OK ? linsjoar_read_list(&pointer, code, value) : error;
}

/* The bits of a float. */
static inline uint32_t linsjoar_bits_of_float(float number) {
    uint32_t bits;
    memcpy(&bits, &number, sizeof bits);
    return bits;
}
static inline uint64_t linsjoar_bits_of_double(double number) {
    uint64_t bits;
    memcpy(&bits, &number, sizeof bits);
    return bits;
}

/* A message that is built, and its memory: the calls over it take more by `grow` where they need it, and no other call
 * of the library takes any. A call that fails leaves the message as it was. */
struct linsjoar_message {
    struct linsjoar_builder builder;          /* after linsjoar_message_finish its `used` is the message's length */
    uint8_t *region;                          /* has the message at its front */
    size_t room;                              /* how many bytes the region has */
    size_t end;                               /* how many of these are the message's: drafts are collected after them */
    void *(*grow)(void *region, size_t room); /* as realloc, but frees where `room` is 0; NULL for a fixed room */
};

/* What most callers grow a message by. */
static inline void *linsjoar_heap(void *region, size_t room) {
    if (room > 0)
        return realloc(region, room);
    free(region);
    return NULL;
}

/* Makes room for this many bytes more. Without `grow` it fails with LINSJOAR_BUFFER_NOT_LARGE_ENOUGH, and with
 * LINSJOAR_OUT_OF_MEMORY where that has none. */
static inline LINSJOAR_CHECKED enum linsjoar_error linsjoar_message_grow(
    struct linsjoar_message *message, size_t more) {
    size_t collected = message->room - message->end, larger;
    uint8_t *region;
    if (message->grow == NULL)
        return LINSJOAR_BUFFER_NOT_LARGE_ENOUGH;
    if (more > SIZE_MAX / 4 || message->room > SIZE_MAX / 4)
        return LINSJOAR_OUT_OF_MEMORY;
    larger = (2 * message->room + more + 64) / 8 * 8;
    region = (uint8_t *)message->grow(message->region, larger);
    if (region == NULL)
        return LINSJOAR_OUT_OF_MEMORY;
    memmove(region + larger - collected, region + message->end, collected);
    message->region = region;
    message->room = larger;
    message->end = larger - collected;
    return LINSJOAR_OK;
}

/* Whether a call that failed with this error is made again, since the message has grown by this many bytes. */
static inline bool linsjoar_message_grows(struct linsjoar_message *message, size_t more, enum linsjoar_error *error) {
    if (*error != LINSJOAR_BUFFER_NOT_LARGE_ENOUGH)
        return false;
    *error = linsjoar_message_grow(message, more);
    return *error == LINSJOAR_OK;
}

/* Begins a message in a region, which may be NULL and of no room where it can grow. Called again with the message's
 * own region, room and `grow`, it begins anew in the same memory. */
static inline LINSJOAR_CHECKED enum linsjoar_error linsjoar_message_begin(
    struct linsjoar_message *message, uint8_t *region, size_t room, void *(*grow)(void *region, size_t room)) {
    enum linsjoar_error error;
    message->region = region;
    message->room = room;
    message->end = room;
    message->grow = grow;
    do
        error = linsjoar_begin(&message->builder, message->region, message->room);
    while (linsjoar_message_grows(message, 16, &error));
    return error;
}

/* Makes the root point to what is at an orphan's `word`. */
static inline LINSJOAR_CHECKED enum linsjoar_error linsjoar_message_set_root(
    struct linsjoar_message *message, uint64_t orphan) {
    return linsjoar_set_root(&message->builder, message->region, message->end, orphan);
}

/* Writes the table: the first `len` bytes of the region are then the framed message. */
static inline LINSJOAR_CHECKED enum linsjoar_error linsjoar_message_finish(
    struct linsjoar_message *message, size_t *len) {
    return linsjoar_finish(&message->builder, message->region, message->end, len);
}

/* Frees the region of a message that grows. */
static inline void linsjoar_message_free(struct linsjoar_message *message) {
    if (message->grow != NULL)
        (void)message->grow(message->region, 0);
    memset(message, 0, sizeof *message);
}

/* Orphans, by what they are; null where `word` is 0. */
struct linsjoar_text_orphan {
    uint64_t word;
};
struct linsjoar_data_orphan {
    uint64_t word;
};
struct linsjoar_pointer_orphan { /* of any object */
    uint64_t word;
};

/* An orphan of any object, by its word. */
static inline struct linsjoar_pointer_orphan linsjoar_any_orphan(uint64_t word) {
    struct linsjoar_pointer_orphan orphan;
    orphan.word = word;
    return orphan;
}

/* The next ones write texts, data and structs as linsjoar_add_text, linsjoar_add_data, linsjoar_add_struct and
 * linsjoar_add_structs do, without a call, and fail with the same errors. */

/* A segment has fewer words than this, and a list fewer elements. */
#define LINSJOAR_MAX_WORDS ((size_t)1 << 29)

/* Writes words as a message has them. */
static inline void linsjoar_put_words(uint8_t *to, const void *words, size_t count) {
    uint64_t word;
    if (LINSJOAR_LITTLE_ENDIAN)
        memcpy(to, words, 8 * count);
    else
        for (size_t i = 0; i < 8 * count; i++) {
            memcpy(&word, (const uint8_t *)words + i / 8 * 8, sizeof word);
            to[i] = (uint8_t)(word >> i % 8 * 8);
        }
}

/* Makes room for an object of this many words, which begins at `used`. */
static inline LINSJOAR_CHECKED enum linsjoar_error linsjoar_message_reserve(
    struct linsjoar_message *message, size_t words) {
    size_t used = message->builder.used, end = message->end;
    /* `used` in words; past any limit where it is not whole words */
    size_t used_words = used >> 3 | used << (8 * sizeof used - 3);
    if (used < 16 || used > end || used_words > LINSJOAR_MAX_WORDS)
        return LINSJOAR_INVALID_ARGUMENT;
    if (words > LINSJOAR_MAX_WORDS - used_words)
        return LINSJOAR_ALLOCATION_TOO_LARGE;
    return end - used < 8 * words ? linsjoar_message_grow(message, 8 * words) : LINSJOAR_OK;
}

/* Takes that room, and returns the number of its first word in the segment. */
static inline size_t linsjoar_message_take(struct linsjoar_message *message, size_t words) {
    size_t place = message->builder.used / 8 - 1;
    message->builder.used += 8 * words;
    return place;
}

/* The orphan of a list, by the number of its first word, the code of its elements, and how many it has. */
static inline uint64_t linsjoar_list_orphan(size_t place, unsigned code, size_t count) {
    return 1 + 4 * (uint64_t)place + ((uint64_t)code << 32) + ((uint64_t)count << 35);
}

/* The orphan of a struct, or the tag of a list of structs, by how many there are. */
static inline uint64_t linsjoar_struct_word(size_t place, uint16_t data_words, uint16_t pointers) {
    return 4 * (uint64_t)place + ((uint64_t)data_words << 32) + ((uint64_t)pointers << 48);
}

/* Adds a list of bytes, and zeros after them up to a whole word. */
static inline LINSJOAR_CHECKED enum linsjoar_error linsjoar_add_blob(
    struct linsjoar_message *message, const void *bytes, size_t len, size_t zeros, uint64_t *orphan) {
    size_t words = len < LINSJOAR_MAX_WORDS - zeros ? (len + zeros + 7) / 8 : LINSJOAR_MAX_WORDS;
    enum linsjoar_error error = linsjoar_message_reserve(message, words);
    uint8_t *at;
    *orphan = LINSJOAR_NULL_ORPHAN;
    if (error != LINSJOAR_OK)
        return error;
    at = message->region + message->builder.used;
    if (words > 0)
        memset(at + 8 * (words - 1), 0, 8);
    if (len > 0)
        memcpy(at, bytes, len);
    *orphan = linsjoar_list_orphan(linsjoar_message_take(message, words), LINSJOAR_BYTE, len + zeros);
    return LINSJOAR_OK;
}

/* Adds a Text that ends before a zero byte, or of a given number of bytes. They lie outside of the region. */
static inline LINSJOAR_CHECKED enum linsjoar_error linsjoar_add_string_with_len(
    struct linsjoar_message *message, const char *text, size_t len, struct linsjoar_text_orphan *orphan) {
    return linsjoar_add_blob(message, text, len, 1, &orphan->word);
}
static inline LINSJOAR_CHECKED enum linsjoar_error linsjoar_add_string(
    struct linsjoar_message *message, const char *text, struct linsjoar_text_orphan *orphan) {
    return linsjoar_add_string_with_len(message, text, strlen(text), orphan);
}

/* Adds a Data of these bytes, which lie outside of the region. */
static inline LINSJOAR_CHECKED enum linsjoar_error linsjoar_add_bytes(
    struct linsjoar_message *message, const void *bytes, size_t len, struct linsjoar_data_orphan *orphan) {
    return linsjoar_add_blob(message, bytes, len, 0, &orphan->word);
}

/* Adds a copy of what a pointer of another message points to, or the root of a constant. The made calls take these
 * words: they write and read the orphans of the types that the schema has. */
static inline LINSJOAR_CHECKED enum linsjoar_error linsjoar_add_copy_of(
    struct linsjoar_message *message, const struct linsjoar_pointer_reader *pointer, uint64_t *orphan) {
    struct linsjoar_reader of_constant;
    const struct linsjoar_reader *reader = linsjoar_reader_of(&pointer->source, &of_constant);
    enum linsjoar_error error;
    do
        error = linsjoar_add_copy(
            &message->builder, message->region, message->end, pointer->source.bytes, pointer->source.len, reader,
            &pointer->place, orphan);
    while (linsjoar_message_grows(message, 0, &error));
    return error;
}

/* The pointer that is this word of the segment, to what an orphan is. */
static inline uint64_t linsjoar_pointer_word(uint64_t orphan, size_t place) {
    if ((orphan & UINT64_C(0xffffffff00000003)) == 0)
        return orphan; /* null, or a struct of no words */
    return orphan >> 32 << 32 | (uint32_t)(orphan - 4 * ((uint64_t)place + 1));
}

/* Writes a struct from this word of the segment on: data words, and pointers to orphans. */
static inline void linsjoar_put_struct(
    uint8_t *segment, size_t place, const void *words, size_t data_words, const void *orphans, size_t pointers) {
    linsjoar_put_words(segment + 8 * place, words, data_words);
    place += data_words;
    for (size_t i = 0; i < pointers; i++) {
        uint64_t orphan;
        memcpy(&orphan, (const uint8_t *)orphans + 8 * i, sizeof orphan);
        orphan = linsjoar_pointer_word(orphan, place + i);
        linsjoar_put_words(segment + 8 * (place + i), &orphan, 1);
    }
}
static inline LINSJOAR_CHECKED enum linsjoar_error linsjoar_add_draft(
    struct linsjoar_message *message, const uint64_t *words, uint16_t data_words, const uint64_t *orphans,
    uint16_t pointers, uint64_t *orphan) {
    size_t size = (size_t)data_words + pointers, place;
    enum linsjoar_error error = linsjoar_message_reserve(message, size);
    *orphan = LINSJOAR_NULL_ORPHAN;
    if (error != LINSJOAR_OK)
        return error;
    place = linsjoar_message_take(message, size);
    linsjoar_put_struct(message->region + 8, place, words, data_words, orphans, pointers);
    /* a struct of no words is one word before its pointer */
    *orphan = linsjoar_struct_word(size == 0 ? ((size_t)1 << 30) - 1 : place, data_words, pointers);
    return LINSJOAR_OK;
}

/* Writes a list of structs, which has room: from its first draft on, or from its last one, if the drafts are in
 * the other order. */
static inline uint64_t linsjoar_put_drafts(
    struct linsjoar_message *message, const void *drafts, bool is_reversed, size_t count, uint16_t data_words,
    uint16_t pointers) {
    size_t size = (size_t)data_words + pointers, place = linsjoar_message_take(message, 1 + size * count);
    uint8_t *segment = message->region + 8;
    const uint8_t *draft = (const uint8_t *)drafts;
    uint64_t tag = linsjoar_struct_word(count, data_words, pointers);
    linsjoar_put_words(segment + 8 * place, &tag, 1);
    for (size_t i = 0; size > 0 && i < count; i++) {
        const uint8_t *one = draft + 8 * size * (is_reversed ? count - 1 - i : i);
        linsjoar_put_struct(segment, place + 1 + size * i, one, data_words, one + 8 * (size_t)data_words, pointers);
    }
    return linsjoar_list_orphan(place, LINSJOAR_STRUCTS, size * count);
}

/* How many words a list of structs takes. */
static inline size_t linsjoar_words_of_drafts(size_t count, size_t size) {
    return count < LINSJOAR_MAX_WORDS ? 1 + count * size : LINSJOAR_MAX_WORDS;
}
static inline LINSJOAR_CHECKED enum linsjoar_error linsjoar_add_draft_list(
    struct linsjoar_message *message, const void *drafts, size_t count, uint16_t data_words, uint16_t pointers,
    uint64_t *orphan) {
    size_t words = linsjoar_words_of_drafts(count, (size_t)data_words + pointers);
    enum linsjoar_error error = linsjoar_message_reserve(message, words);
    *orphan = LINSJOAR_NULL_ORPHAN;
    if (error == LINSJOAR_OK)
        *orphan = linsjoar_put_drafts(message, drafts, false, count, data_words, pointers);
    return error;
}
static inline LINSJOAR_CHECKED enum linsjoar_error linsjoar_add_pointer_words(
    struct linsjoar_message *message, const uint64_t *orphans, size_t count, uint64_t *orphan) {
    enum linsjoar_error error;
    do
        error = linsjoar_add_pointers(
            &message->builder, message->region, message->end, orphans, count, orphan);
    while (linsjoar_message_grows(message, 8 * count, &error));
    return error;
}
static inline LINSJOAR_CHECKED enum linsjoar_error linsjoar_add_number_bytes(
    struct linsjoar_message *message, uint8_t code, size_t count, const void *numbers, size_t len, uint64_t *orphan) {
    enum linsjoar_error error;
    do
        error = linsjoar_add_numbers(
            &message->builder, message->region, message->end, code, count, (const uint8_t *)numbers, len, orphan);
    while (linsjoar_message_grows(message, len, &error));
    return error;
}

/* Drafts that are collected at the end of a message's region, until a list of them is added. Another list that is begun
 * meanwhile is added first. */
struct linsjoar_drafts {
    size_t begin; /* how many bytes are collected before the first */
    size_t count;
};

/* Whether the drafts are the last ones that were collected, each of a given number of bytes. */
static inline bool linsjoar_drafts_are_last(
    const struct linsjoar_message *message, struct linsjoar_drafts *drafts, size_t size) {
    size_t collected = message->room - message->end;
    if (drafts->count == 0)
        drafts->begin = collected;
    return drafts->begin + drafts->count * size == collected;
}

/* Collects a draft of a given number of bytes. Fails with LINSJOAR_INVALID_ARGUMENT where other drafts are the last
 * ones. */
static inline LINSJOAR_CHECKED enum linsjoar_error linsjoar_push_draft(
    struct linsjoar_message *message, struct linsjoar_drafts *drafts, const void *draft, size_t size) {
    enum linsjoar_error error;
    if (!linsjoar_drafts_are_last(message, drafts, size))
        return LINSJOAR_INVALID_ARGUMENT;
    error = linsjoar_message_reserve(message, size / 8);
    if (error != LINSJOAR_OK)
        return error;
    message->end -= size;
    drafts->count++;
    memcpy(message->region + message->end, draft, size);
    return LINSJOAR_OK;
}

/* Adds the list of the drafts that were collected, each of a given number of words, and forgets them. */
static inline LINSJOAR_CHECKED enum linsjoar_error linsjoar_add_drafts(
    struct linsjoar_message *message, struct linsjoar_drafts *drafts, uint16_t data_words, uint16_t pointers,
    uint64_t *orphan) {
    size_t size = (size_t)data_words + pointers;
    enum linsjoar_error error;
    *orphan = LINSJOAR_NULL_ORPHAN;
    if (!linsjoar_drafts_are_last(message, drafts, 8 * size))
        return LINSJOAR_INVALID_ARGUMENT;
    error = linsjoar_message_reserve(message, linsjoar_words_of_drafts(drafts->count, size));
    if (error != LINSJOAR_OK)
        return error;
    *orphan =
        linsjoar_put_drafts(message, message->region + message->end, true, drafts->count, data_words, pointers);
    message->end = message->room - drafts->begin;
    drafts->count = 0;
    return LINSJOAR_OK;
}

/* Copies a struct that is read to the words of a draft, and what its pointers point to into a message. */
static inline LINSJOAR_CHECKED enum linsjoar_error linsjoar_draft_of(
    const struct linsjoar_struct_reader *read, struct linsjoar_message *message, uint64_t *words, size_t data_words,
    uint64_t *orphans, size_t pointers) {
    for (size_t i = 0; i < data_words; i++)
        words[i] = linsjoar_get_u64(read, i);
    for (size_t i = 0; i < pointers; i++) {
        struct linsjoar_pointer_reader pointer = linsjoar_get_pointer(read, (uint16_t)i);
        enum linsjoar_error error = linsjoar_add_copy_of(message, &pointer, &orphans[i]);
        if (error != LINSJOAR_OK)
            return error;
    }
    return LINSJOAR_OK;
}

/* A number of a draft, by how many numbers of its size are before it. */
static inline uint64_t linsjoar_draft_bytes(const uint64_t *words, size_t index, size_t size) {
    uint64_t number = words[index * size / 8] >> index * size % 8 * 8;
    return size == 8 ? number : number & ((UINT64_C(1) << 8 * size) - 1);
}
static inline bool linsjoar_draft_bool(const uint64_t *words, size_t index) {
    return (words[index / 64] >> index % 64 & 1) != 0;
}
static inline uint8_t linsjoar_draft_u8(const uint64_t *words, size_t index) {
    return (uint8_t)linsjoar_draft_bytes(words, index, 1);
}
static inline uint16_t linsjoar_draft_u16(const uint64_t *words, size_t index) {
    return (uint16_t)linsjoar_draft_bytes(words, index, 2);
}
static inline uint32_t linsjoar_draft_u32(const uint64_t *words, size_t index) {
    return (uint32_t)linsjoar_draft_bytes(words, index, 4);
}
static inline uint64_t linsjoar_draft_u64(const uint64_t *words, size_t index) { return words[index]; }

/* Lists by the types of their elements. Of each list there is a reader, an orphan, and calls: how many elements it has
 * (_list_len), one of them (_list_get; 0, an empty one or null past the last one), and what adds an array (_add_list).
 */
#define LINSJOAR_LIST_TYPES(name)                                                   \
    struct name##_list_reader {                                                     \
        struct linsjoar_list_reader elements;                                       \
    };                                                                              \
    struct name##_list_orphan {                                                     \
        uint64_t word;                                                              \
    };                                                                              \
    static inline uint32_t name##_list_len(const struct name##_list_reader *list) { \
        return linsjoar_list_len(&list->elements);                                  \
    }

/* Lists of numbers. */
#define LINSJOAR_LIST_OF_NUMBERS(name, type, code, value)                                                         \
    LINSJOAR_LIST_TYPES(name)                                                                                     \
    static inline type name##_list_get(const struct name##_list_reader *list, uint32_t index) {                   \
        uint64_t bits;                                                                                            \
        enum linsjoar_error error = linsjoar_list_get_number(&list->elements, index, &bits);                      \
        return error == LINSJOAR_OK ? (type)(value) : (type)0;                                                    \
    }                                                                                                             \
    static inline LINSJOAR_CHECKED enum linsjoar_error name##_add_list(                                           \
        struct linsjoar_message *message, const type *numbers, size_t count, struct name##_list_orphan *orphan) { \
        return linsjoar_add_number_bytes(message, code, count, numbers, count * sizeof(type), &orphan->word);     \
    }
LINSJOAR_LIST_OF_NUMBERS(linsjoar_u8, uint8_t, LINSJOAR_BYTE, bits)
LINSJOAR_LIST_OF_NUMBERS(linsjoar_u16, uint16_t, LINSJOAR_TWO_BYTES, bits)
LINSJOAR_LIST_OF_NUMBERS(linsjoar_u32, uint32_t, LINSJOAR_FOUR_BYTES, bits)
LINSJOAR_LIST_OF_NUMBERS(linsjoar_u64, uint64_t, LINSJOAR_EIGHT_BYTES, bits)
LINSJOAR_LIST_OF_NUMBERS(linsjoar_i8, int8_t, LINSJOAR_BYTE, bits)
LINSJOAR_LIST_OF_NUMBERS(linsjoar_i16, int16_t, LINSJOAR_TWO_BYTES, bits)
LINSJOAR_LIST_OF_NUMBERS(linsjoar_i32, int32_t, LINSJOAR_FOUR_BYTES, bits)
LINSJOAR_LIST_OF_NUMBERS(linsjoar_i64, int64_t, LINSJOAR_EIGHT_BYTES, bits)
LINSJOAR_LIST_OF_NUMBERS(linsjoar_float, float, LINSJOAR_FOUR_BYTES, linsjoar_float_of_bits((uint32_t)bits))
LINSJOAR_LIST_OF_NUMBERS(linsjoar_double, double, LINSJOAR_EIGHT_BYTES, linsjoar_double_of_bits(bits))

/* Lists of bools: an array has them from the lowest bit of each byte on. */
LINSJOAR_LIST_TYPES(linsjoar_bool)
static inline bool linsjoar_bool_list_get(const struct linsjoar_bool_list_reader *list, uint32_t index) {
    uint64_t bits;
    enum linsjoar_error error = linsjoar_list_get_number(&list->elements, index, &bits);
    return error == LINSJOAR_OK && bits != 0;
}
static inline LINSJOAR_CHECKED enum linsjoar_error linsjoar_bool_add_list(
    struct linsjoar_message *message, const uint8_t *bits, size_t count, struct linsjoar_bool_list_orphan *orphan) {
    return linsjoar_add_number_bytes(message, LINSJOAR_BIT, count, bits, count / 8 + (count % 8 != 0), &orphan->word);
}

/* Lists of Void. */
LINSJOAR_LIST_TYPES(linsjoar_void)
static inline LINSJOAR_CHECKED enum linsjoar_error linsjoar_void_add_list(
    struct linsjoar_message *message, size_t count, struct linsjoar_void_list_orphan *orphan) {
    return linsjoar_add_number_bytes(message, LINSJOAR_VOID, count, "", 0, &orphan->word);
}

/* Lists of what pointers point to. */
#define LINSJOAR_LIST_OF_POINTERS(name)                                                              \
    LINSJOAR_LIST_TYPES(name)                                                                        \
    static inline LINSJOAR_CHECKED enum linsjoar_error name##_add_list(                              \
        struct linsjoar_message *message, const struct name##_orphan *orphans, size_t count,         \
        struct name##_list_orphan *orphan) {                                                         \
        return linsjoar_add_pointer_words(message, (const uint64_t *)orphans, count, &orphan->word); \
    }
LINSJOAR_LIST_OF_POINTERS(linsjoar_text)
static inline LINSJOAR_CHECKED enum linsjoar_error linsjoar_text_list_get(
    const struct linsjoar_text_list_reader *list, uint32_t index, struct linsjoar_text_reader *value) {
    return linsjoar_list_get_text(&list->elements, index, value);
}
LINSJOAR_LIST_OF_POINTERS(linsjoar_data)
static inline LINSJOAR_CHECKED enum linsjoar_error linsjoar_data_list_get(
    const struct linsjoar_data_list_reader *list, uint32_t index, struct linsjoar_data_reader *value) {
    return linsjoar_list_get_data(&list->elements, index, value);
}
LINSJOAR_LIST_OF_POINTERS(linsjoar_pointer)
static inline struct linsjoar_pointer_reader linsjoar_pointer_list_get(
    const struct linsjoar_pointer_list_reader *list, uint32_t index) {
    struct linsjoar_pointer_reader pointer;
    if (linsjoar_list_get_pointer(&list->elements, index, &pointer) != LINSJOAR_OK)
        pointer.place = linsjoar_no_place();
    return pointer;
}

/* Lists of lists, whose elements are read as an enum linsjoar_code says. */
#define LINSJOAR_LIST_OF_LISTS(name, code)                                                    \
    LINSJOAR_LIST_OF_POINTERS(name)                                                           \
    static inline LINSJOAR_CHECKED enum linsjoar_error name##_list_get(                       \
        const struct name##_list_reader *list, uint32_t index, struct name##_reader *value) { \
        return linsjoar_list_get_list(&list->elements, index, code, &value->elements);        \
    }

#ifdef __cplusplus
}
#endif

#endif
