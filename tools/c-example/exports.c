/* Calls each export of crates/capnp_c, where a byte of room or of the input is missing, within limits that are just enough and
 * that lack a word, with a reader of no message, with a builder of no region, and with arguments that are wrong. What is read of
 * messages, packed and canonical is for the cases of conformance/, which tools/conformance/library.cc runs. Each comparison that
 * fails prints a line, and the status is 1. */
#include "in_place.h"

/* "Serialization Over a Stream": two segments, of one word and of two, whose table ends with padding. */
static const uint8_t two_segments[] = {1, 0, 0, 0, 1, 0, 0, 0, 2, 0, 0, 0, 0, 0, 0, 0, 1, 2, 3, 4, 5, 6, 7, 8,
                                       9, 8, 7, 6, 5, 4, 3, 2, 1, 1, 1, 1, 1, 1, 1, 1};
/* "Packing": a message of the two words of its first example, framed and packed. */
static const uint8_t framed[] = {0, 0, 0, 0, 2, 0, 0, 0, 8, 0, 0, 0, 3, 0, 2, 0, 0x19, 0, 0, 0, 0xaa, 1, 0, 0};
static const uint8_t packed[] = {0x10, 2, 0x51, 8, 3, 2, 0x31, 0x19, 0xaa, 1};
/* The tables of messages of a word more than the default limit, and no word after them. */
static const uint8_t large[] = {0, 0, 0, 0, 1, 0, 0x80, 0}, large_packed[] = {0x50, 1, 0x80};

/* A call that reads a message, or its twin where there are options: what it returns. It writes numbers, and bytes to `block`. */
typedef unsigned call(const uint8_t *bytes, size_t len, const struct linsjoar_options *options, size_t *numbers, size_t room);

static uint8_t block[1 << 10];

#define TWINS(name, ...)                                                                                                       \
    static unsigned call_##name(const uint8_t *bytes, size_t len, const struct linsjoar_options *options, size_t *numbers,     \
                                size_t room) {                                                                                 \
        (void)room;                                                                                                            \
        return options ? linsjoar_##name##_with_options(bytes, len, options, __VA_ARGS__)                                      \
                       : linsjoar_##name(bytes, len, __VA_ARGS__);                                                             \
    }
TWINS(next_message, numbers)
TWINS(message_size, numbers, numbers + 1)
TWINS(pack_message, block, room, numbers)
TWINS(unpack_message, block, room, numbers, numbers + 1)
TWINS(unpacked_size, numbers)
TWINS(message, (struct linsjoar_bounds *)(void *)numbers)
TWINS(segment, 1, numbers)
TWINS(canonical_size, numbers)
TWINS(canonical, block, room, numbers)
TWINS(open, (struct linsjoar_reader *)(void *)numbers)

#define OF(bytes) bytes, sizeof(bytes)
/* A call, a message, how many words that has, the numbers that are written, what is returned without the message's last byte,
 * and what the block has. */
static const struct row {
    call *call;
    const uint8_t *bytes;
    size_t len, words, numbers[3];
    unsigned cut;
    const uint8_t *written;
    size_t room;
} rows[] = {
    {call_next_message, OF(two_segments), 3, {40}, LINSJOAR_MESSAGE_ENDS_PREMATURELY, NULL, 0},
    {call_message_size, OF(two_segments), 3, {40, 0}, LINSJOAR_OK, NULL, 0},
    {call_pack_message, OF(framed), 2, {sizeof packed}, LINSJOAR_MESSAGE_ENDS_PREMATURELY, OF(packed)},
    {call_unpack_message, OF(packed), 2, {sizeof framed, sizeof packed}, LINSJOAR_PREMATURE_END_OF_PACKED_INPUT, OF(framed)},
    {call_unpacked_size, OF(packed), 2, {sizeof framed}, LINSJOAR_OK, NULL, 0},
    {call_message, OF(two_segments), 3, {2, 16, 40}, LINSJOAR_MESSAGE_ENDS_PREMATURELY, NULL, 0},
    {call_segment, OF(two_segments), 3, {2}, LINSJOAR_MESSAGE_ENDS_PREMATURELY, NULL, 0},
    {call_canonical_size, OF(message), 12, {FORM_LEN / 8}, LINSJOAR_MESSAGE_ENDS_PREMATURELY, NULL, 0},
    {call_canonical, OF(message), 12, {FORM_LEN / 8}, LINSJOAR_MESSAGE_ENDS_PREMATURELY, NULL, FORM_LEN},
    {call_open, OF(message), 12, {LEN, 0, 1 + ((size_t)64 << 32)}, LINSJOAR_MESSAGE_ENDS_PREMATURELY, NULL, 0},
};

static void expect(const struct row *row, size_t len, const struct linsjoar_options *options, size_t room, unsigned error) {
    size_t numbers[NUMBERS] = {UNWRITTEN, UNWRITTEN, UNWRITTEN};
    block[room] = UNWRITTEN;
    NUMBER(error, row->call(row->bytes, len, options, numbers, room));
    for (size_t i = 0; i < 3; i++)
        if (i == 0 || row->numbers[i])
            NUMBER(error ? 0 : row->numbers[i], numbers[i]);
    NUMBER(UNWRITTEN, block[room]);
    if (!error && row->written)
        BYTES(row->written, block, room);
}

static void try_limits_and_rooms(const struct row *row) {
    const uint8_t *table = row->bytes == packed ? large_packed : large;
    size_t numbers[NUMBERS], table_len = row->bytes == packed ? sizeof large_packed : sizeof large;
    struct linsjoar_options options = {row->words, 64};
    expect(row, row->len, NULL, row->room, LINSJOAR_OK);
    expect(row, row->len, &options, row->room, LINSJOAR_OK);
    expect(row, row->len - 1, NULL, row->room, row->cut);
    if (row->room)
        expect(row, row->len, NULL, row->room - 1, LINSJOAR_BUFFER_NOT_LARGE_ENOUGH);
    options.traversal_limit_in_words--;
    expect(row, row->len, &options, row->room, LINSJOAR_MESSAGE_TOO_LARGE);
    NUMBER(LINSJOAR_MESSAGE_TOO_LARGE, row->call(table, table_len, NULL, numbers, row->room));
    options.traversal_limit_in_words = LARGE_WORDS;
    NUMBER(0, row->call(table, table_len, &options, numbers, row->room) == LINSJOAR_MESSAGE_TOO_LARGE);
}

/* Where a message ends, or doesn't begin. */
static void read_at_ends(void) {
    size_t len, needed;
    OK(linsjoar_message_size(two_segments, 4, &len, &needed));
    NUMBER(12, len + needed);
    NUMBER(LINSJOAR_PREMATURE_END_OF_FILE, linsjoar_unpacked_size(packed, 0, &len));
    NUMBER(LINSJOAR_PREMATURE_END_OF_PACKED_INPUT, linsjoar_unpacked_size(packed, 1, &len));
    NUMBER(LINSJOAR_PREMATURE_END_OF_FILE, linsjoar_unpack_message(packed, 0, block, sizeof framed, &len, &needed));
    memcpy(block, framed, sizeof framed);
    NUMBER(LINSJOAR_MESSAGE_ENDS_PREMATURELY, linsjoar_pack_message(block, sizeof framed + 1, block + 99, 99, &len));
    FAILS(LINSJOAR_OK, linsjoar_next_message(two_segments, 0, &len), len);
    FAILS(LINSJOAR_INVALID_SEGMENT_ID, linsjoar_segment(two_segments, sizeof two_segments, 2, &len), len);
}

/* The words of a message without its table, with a byte of either encoding missing, or none. */
enum { WORDS = sizeof framed - 8, ENCODING = sizeof packed - 2 };
static void pack_and_unpack_words(void) {
    for (size_t missing = 0; missing < 3; missing++) {
        size_t count = UNWRITTEN, words = WORDS - missing / 2, encoding = ENCODING - missing % 2;
        unsigned errors[] = {LINSJOAR_OK, LINSJOAR_BUFFER_NOT_LARGE_ENOUGH, LINSJOAR_NOT_WHOLE_WORDS};
        NUMBER(errors[missing], linsjoar_pack(framed + 8, words, block, encoding, &count));
        NUMBER(missing ? 0 : ENCODING, count);
        BYTES(packed + 2, block, count);
        errors[1] = LINSJOAR_PREMATURE_END_OF_PACKED_INPUT;
        count = UNWRITTEN;
        NUMBER(errors[missing], linsjoar_unpack(packed + 2, encoding, block, words, &count));
        NUMBER(missing ? 0 : ENCODING, count);
        BYTES(framed + 8, block, missing ? 0 : WORDS);
    }
}

/* In two parts, cut at each byte. */
static void unpack_parts(void) {
    static const uint8_t four_zero_words[] = {0, 3};
    size_t read, written, needed, more, rest;
    for (size_t front = 0; front <= ENCODING; front++) {
        OK(linsjoar_unpack_part(packed + 2, front, block, WORDS, &read, &written, &needed));
        NUMBER(front < ENCODING, needed > 0 && needed <= ENCODING - read && read <= front && written < WORDS);
        OK(linsjoar_unpack_part(packed + 2 + read, ENCODING - read, block + written, WORDS - written, &more, &rest, &needed));
        NUMBER(ENCODING, read + more);
        NUMBER(WORDS, written + rest + needed);
        BYTES(framed + 8, block, WORDS);
    }
    FAILS(LINSJOAR_NOT_WHOLE_WORDS, linsjoar_unpack_part(packed, 9, block, WORDS - 1, &read, &written, &needed), read + written + needed);
    FAILS(LINSJOAR_PACKED_INPUT_DID_NOT_END_CLEANLY_ON_A_SEGMENT_BOUNDARY,
          linsjoar_unpack_part(four_zero_words, 2, block, WORDS, &read, &written, &needed), read + written + needed);
}

#define ROOMY &builder, region, ROOM

static struct linsjoar_builder builder;
static uint8_t region[ROOM];

static void begin(void) {
    memset(region, UNWRITTEN, ROOM);
    NUMBER(LINSJOAR_BUFFER_NOT_LARGE_ENOUGH, linsjoar_begin(&builder, region, 15));
    NUMBER(UNWRITTEN, builder.used + region[8]);
    OK(linsjoar_begin(ROOMY));
    NUMBER(16, builder.used + region[8]);
}

static void build_the_message(void) {
    uint64_t numbers, text, list, root, words[1] = {0}, elements[4] = {0};
    size_t len;
    begin();
    OK(linsjoar_add_data(ROOMY, message + 16, 3, &numbers));
    OK(linsjoar_add_text(ROOMY, (const uint8_t *)"hi", 2, &text));
    linsjoar_set_u16(elements, 0, 0x105);
    linsjoar_set_u8(elements + 2, 0, 7);
    elements[3] = text;
    OK(linsjoar_add_structs(ROOMY, elements, 4, 2, 1, 1, &list));
    linsjoar_set_u32(words, 1, 0x11223344);
    linsjoar_set_u32(words, 0, 0x55667789);
    linsjoar_set_bool(words, 0, 0);
    OK(linsjoar_add_struct(ROOMY, words, 1, (uint64_t[]){numbers, list, text}, 3, &root));
    OK(linsjoar_set_root(ROOMY, root));
    OK(linsjoar_finish(ROOMY, &len));
    NUMBER(LEN, len);
    BYTES(message, region, LEN);
}

static void add_lists(void) {
    static const uint8_t bits[] = {255, 255}, kept[24] = {255, 1, [16] = 245, 255, 255, 255, 73};
    uint64_t orphan;
    begin();
    OK(linsjoar_add_numbers(ROOMY, LINSJOAR_BIT, 9, bits, 2, &orphan));
    OK(linsjoar_add_pointers(ROOMY, (uint64_t[]){0, orphan}, 2, &orphan));
    NUMBER(9 + ((uint64_t)(LINSJOAR_POINTERS + 8 * 2) << 32), orphan);
    BYTES(kept, region + 16, sizeof kept);
    OK(linsjoar_add_numbers(ROOMY, LINSJOAR_VOID, 7, bits, 0, &orphan));
    FAILS(LINSJOAR_INVALID_ARGUMENT, linsjoar_add_numbers(ROOMY, LINSJOAR_TWO_BYTES, 2, bits, 2, &orphan), orphan);
    FAILS(LINSJOAR_INVALID_ARGUMENT, linsjoar_add_numbers(ROOMY, LINSJOAR_POINTERS, 0, bits, 0, &orphan), orphan);
    FAILS(LINSJOAR_ALLOCATION_TOO_LARGE, linsjoar_add_numbers(ROOMY, LINSJOAR_VOID, (size_t)1 << 29, bits, 0, &orphan), orphan);
    FAILS(LINSJOAR_INVALID_ARGUMENT, linsjoar_add_structs(ROOMY, (uint64_t[]){1, 2, 3}, 3, 2, 1, 1, &orphan), orphan);
    NUMBER(40, builder.used);
}

/* Copies the two structs, with a word for their tag, and the text. */
static void add_copies(void) {
    struct linsjoar_reader poor = reader, other = reader;
    uint64_t orphan = UNWRITTEN;
    begin();
    OK(linsjoar_add_copy(ROOMY, message, LEN, &reader, pointers + 2, &orphan));
    NUMBER(16 + 6 * 8, builder.used);
    poor.nesting_limit = (int32_t)pointers[2].nesting - 1;
    FAILS(LINSJOAR_INVALID_ARGUMENT, linsjoar_add_copy(ROOMY, message, LEN, &poor, pointers + 2, &orphan), orphan);
    other.segments = 0;
    FAILS(LINSJOAR_INVALID_ARGUMENT, linsjoar_add_copy(ROOMY, message, LEN, &other, pointers + 2, &orphan), orphan);
    pointers[2].is_there = 0;
    orphan = UNWRITTEN;
    FAILS(LINSJOAR_OK, linsjoar_add_copy(ROOMY, message, LEN, &reader, pointers + 2, &orphan), orphan);
    NUMBER(16 + 6 * 8, builder.used);
}

int main(void) {
    for (const struct row *row = rows; row < rows + sizeof rows / sizeof *rows; row++)
        try_limits_and_rooms(row);
    read_at_ends();
    pack_and_unpack_words();
    unpack_parts();
    read_in_place();
    build_the_message();
    add_lists();
    add_copies();
    return differing;
}
