/* Reads a message in place, for exports.c: by its reader, by readers and places that are of no message, and with many segments. */
#ifndef IN_PLACE_H
#define IN_PLACE_H

#include "linsjoar.h"

#include <stdio.h>

/* What a number that a call has to write is before the call, and the room for what it writes. */
enum { UNWRITTEN = 77, NUMBERS = 64 };

static int differing;

static inline void compare(const char *file, int line, const char *text, size_t wanted, size_t got) {
    if (wanted != got)
        fprintf(stderr, "%s:%d: %s is %zu and not %zu\n", file, line, text, got, wanted);
    differing |= wanted != got;
}

#define NUMBER(wanted, got) compare(__FILE__, __LINE__, #got, wanted, got)
#define BYTES(wanted, got, len) NUMBER(0, memcmp(wanted, got, len) != 0)
/* A call that succeeds; one that fails, and what it writes then. */
#define OK(call) NUMBER(LINSJOAR_OK, call)
#define FAILS(error, call, written) (NUMBER(error, call), NUMBER(0, written))

/* A struct of one data word, and of pointers to the bytes 1, 2 and 3, to two structs of a number and of a pointer, and to "hi",
 * to which the pointer of the second struct points too. Each object comes before those that point to it. */
static const uint8_t message[] = {
    0, 0, 0, 0, 12, 0, 0, 0, 28, 0, 0, 0, 1, 0, 3, 0, 1, 2, 3, 0, 0, 0, 0, 0, 104, 105, 0, 0, 0, 0, 0, 0, 8, 0, 0, 0,
    1, 0, 1, 0, 5, 1, 0, 0, 0, 0, 0, 0, 0, 0, 0, 0, 0, 0, 0, 0, 7, 0, 0, 0, 0, 0, 0, 0, 233, 255, 255, 255, 26, 0, 0, 0,
    136, 119, 102, 85, 68, 51, 34, 17, 221, 255, 255, 255, 26, 0, 0, 0, 225, 255, 255, 255, 39, 0, 0, 0, 217, 255, 255, 255, 26, 0, 0, 0};
enum { LEN = sizeof message, ROOM = LEN + 8, FORM_LEN = 13 * 8, LARGE_WORDS = (8 << 20) + 1 };

/* The pointers of the message: to the struct, to the bytes, to the structs, to the text. */
static struct linsjoar_reader reader;
static struct linsjoar_place pointers[4];
static struct linsjoar_struct fields;

static void find_pointers(void) {
    const struct linsjoar_options flat = {LEN / 8 - 1, -1};
    size_t start, len;
    OK(linsjoar_open_with_options(message, LEN, &flat, &reader));
    OK(linsjoar_root(message, LEN, &reader, pointers));
    NUMBER(0, pointers->nesting);
    OK(linsjoar_open(message, LEN, &reader));
    OK(linsjoar_root(message, LEN, &reader, pointers));
    NUMBER(64, pointers->nesting);
    OK(linsjoar_struct(message, LEN, &reader, pointers, &fields));
    for (uint16_t index = 0; index < 3; index++)
        OK(linsjoar_struct_pointer(&fields, index, &pointers[index + 1]));
    OK(linsjoar_text(message, LEN, &reader, pointers + 3, &start, &len));
    BYTES("hi", message + start, len + 1);
    NUMBER(LARGE_WORDS - 6, reader.words_left);
    NUMBER(0x1122334455667788, linsjoar_u64(message, &fields, 0));
    NUMBER(0, linsjoar_u32(message, &fields, 2));
    NUMBER(1, (size_t)linsjoar_bool(message, &fields, 3));
}

/* What each pointer points to, and one that is not there; it takes no words. */
static void find_kinds(void) {
    static const uint8_t wanted[][2] = {
        {LINSJOAR_STRUCT, 0}, {LINSJOAR_LIST, LINSJOAR_BYTE}, {LINSJOAR_LIST, LINSJOAR_STRUCTS}, {LINSJOAR_LIST, LINSJOAR_BYTE}, {LINSJOAR_NULL, 0}};
    struct linsjoar_place place;
    FAILS(LINSJOAR_OK, linsjoar_struct_pointer(&fields, 3, &place), place.is_there);
    for (int i = 0; i < 5; i++) {
        uint8_t kind = UNWRITTEN, code = UNWRITTEN;
        OK(linsjoar_kind(message, LEN, &reader, i < 4 ? &pointers[i] : &place, &kind, &code));
        NUMBER(wanted[i][0], kind);
        NUMBER(wanted[i][1], code);
    }
    NUMBER(LARGE_WORDS - 6, reader.words_left);
}

/* Readers of other messages and of fewer words, and places outside of the message. */
static void read_by_wrong_numbers(void) {
    static const struct {
        struct linsjoar_place place;
        uint32_t segments;
        unsigned error;
    } rows[] = {
        {{0, 0, 64, 1}, 0, LINSJOAR_INVALID_ARGUMENT},          {{0, 0, 64, 1}, 100, LINSJOAR_INVALID_ARGUMENT},
        {{0, 0, 64, 1}, 512, LINSJOAR_INVALID_ARGUMENT},        {{0, 0, 64, 1}, UINT32_MAX, LINSJOAR_INVALID_ARGUMENT},
        {{0, 2, 64, 1}, 2, LINSJOAR_INVALID_SEGMENT_ID},        {{SIZE_MAX, 0, 64, 1}, 1, LINSJOAR_POINTER_OUT_OF_BOUNDS},
        {{0, 0, 0, 1}, 1, LINSJOAR_NESTING_LIMIT_EXCEEDED},     {{0, 0, 64, 1}, 1, LINSJOAR_OK},
    };
    struct linsjoar_reader other = reader;
    struct linsjoar_struct wrong;
    struct linsjoar_place place;
    size_t start, len;
    other.words_left = LINSJOAR_NO_LIMIT;
    for (size_t i = 0; i < sizeof rows / sizeof *rows; i++) {
        other.segments = rows[i].segments;
        NUMBER(rows[i].error, linsjoar_struct(message, LEN, &other, &rows[i].place, &wrong));
        NUMBER(rows[i].error ? 0 : 3, wrong.pointers);
        NUMBER(LINSJOAR_NO_LIMIT, other.words_left);
    }
    other.words_left = 3;
    FAILS(LINSJOAR_READ_LIMIT_EXCEEDED, linsjoar_struct(message, LEN, &other, pointers, &wrong), wrong.data_len + wrong.pointers);
    FAILS(LINSJOAR_TEXT_NOT_TERMINATED, linsjoar_text(message, LEN, &other, pointers + 1, &start, &len), start + len);
    other.words_left = LARGE_WORDS;
    FAILS(LINSJOAR_WRONG_POINTER_KIND, linsjoar_data(message, LEN, &other, pointers + 2, &start, &len), start + len);
    NUMBER(LARGE_WORDS, other.words_left);
    NUMBER(LINSJOAR_INVALID_ARGUMENT, linsjoar_struct(message, 7, &other, pointers, &wrong));
    NUMBER(LINSJOAR_POINTER_OUT_OF_BOUNDS, linsjoar_struct(message, 15, &other, pointers, &wrong));
    wrong = fields;
    wrong.first.word = SIZE_MAX;
    FAILS(LINSJOAR_INVALID_ARGUMENT, linsjoar_struct_pointer(&wrong, 1, &place), place.word);
    memset(&other, 0, sizeof other);
    FAILS(LINSJOAR_INVALID_ARGUMENT, linsjoar_root(message, LEN, &other, &place), place.is_there);
}

/* The lists of bytes and of structs as lists of other codes, elements past their ends, and a list that no call wrote. */
static void read_lists(void) {
    struct linsjoar_list list;
    struct linsjoar_struct element;
    struct linsjoar_place place;
    uint64_t number;
    FAILS(LINSJOAR_INVALID_ARGUMENT, linsjoar_list(message, LEN, &reader, pointers + 1, LINSJOAR_STRUCTS + 1, &list), list.count);
    FAILS(LINSJOAR_WRONG_POINTER_KIND, linsjoar_list(message, LEN, &reader, pointers + 1, LINSJOAR_BIT, &list), list.count);
    OK(linsjoar_list(message, LEN, &reader, pointers + 1, LINSJOAR_STRUCTS, &list));
    OK(linsjoar_list_struct(&list, 2, &element));
    NUMBER(18 + 1 + 0, element.start + element.data_len + element.pointers);
    OK(linsjoar_list(message, LEN, &reader, pointers + 1, LINSJOAR_BYTE, &list));
    NUMBER(LINSJOAR_INVALID_ARGUMENT, linsjoar_list_number(message, 23, &list, 1, &number));
    FAILS(LINSJOAR_OK, linsjoar_list_number(message, LEN, &list, 3, &number), number);
    FAILS(LINSJOAR_INVALID_ARGUMENT, linsjoar_list_struct(&list, 0, &element), element.data_len);
    FAILS(LINSJOAR_INVALID_ARGUMENT, linsjoar_list_pointer(&list, 0, &place), place.is_there);
    OK(linsjoar_list(message, LEN, &reader, pointers + 2, LINSJOAR_TWO_BYTES, &list));
    OK(linsjoar_list_number(message, LEN, &list, 0, &number));
    NUMBER(0x105 + 128, number + list.step);
    OK(linsjoar_list(message, LEN, &reader, pointers + 2, LINSJOAR_POINTERS, &list));
    FAILS(LINSJOAR_OK, linsjoar_list_pointer(&list, 2, &place), place.is_there);
    list.start = SIZE_MAX - 7;
    list.count = list.step = UINT32_MAX;
    list.code = LINSJOAR_EIGHT_BYTES;
    FAILS(LINSJOAR_INVALID_ARGUMENT, linsjoar_list_number(message, LEN, &list, UINT32_MAX - 1, &number), number);
    list.code = LINSJOAR_STRUCTS;
    FAILS(LINSJOAR_INVALID_ARGUMENT, linsjoar_list_struct(&list, UINT32_MAX - 1, &element), element.start);
}

/* Segments of a word each, of which the first has a far pointer to the last, where a struct without words is. */
static void read_many_segments(void) {
    enum { SEGMENTS = 34, TABLE = 8 * (SEGMENTS / 2 + 1) };
    uint8_t bytes[TABLE + 8 * SEGMENTS + 1] = {SEGMENTS - 1, [TABLE] = 2, [TABLE + 4] = SEGMENTS - 1, [sizeof bytes - 9] = 252, 255, 255, 255};
    struct linsjoar_reader of_many;
    struct linsjoar_place root;
    uint8_t kind, code;
    for (size_t id = 0; id < SEGMENTS; id++)
        bytes[4 + 4 * id] = 1;
    OK(linsjoar_open(bytes, sizeof bytes, &of_many));
    NUMBER(sizeof bytes - 1, of_many.message_len);
    NUMBER(TABLE + 16 * 8, of_many.begins[0]);
    NUMBER(TABLE + 32 * 8, of_many.begins[1]);
    NUMBER(0, of_many.begins[2]);
    OK(linsjoar_root(bytes, sizeof bytes, &of_many, &root));
    OK(linsjoar_kind(bytes, sizeof bytes, &of_many, &root, &kind, &code));
    NUMBER(LINSJOAR_STRUCT, kind);
}

static void read_in_place(void) {
    find_pointers();
    find_kinds();
    read_by_wrong_numbers();
    read_lists();
    read_many_segments();
}

#endif
