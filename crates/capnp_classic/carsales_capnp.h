/* Types of `carsales.capnp` for C, made by `capnpc-rattle`: change that file, and make them again.
 * linsjoar_types.h says how they are used. */
#ifndef LINSJOAR_CARSALES_CAPNP_b6f2ce07d5a4419d_H
#define LINSJOAR_CARSALES_CAPNP_b6f2ce07d5a4419d_H

#include "linsjoar_types.h"

#if LINSJOAR_VERSION != 1000
#error "this header needs Linsjoar 0.1.0: make it again with the capnpc-rattle of the version that is there"
#endif

struct ParkingLot_reader {
    struct linsjoar_struct_reader fields;
};
struct ParkingLot_list_reader {
    struct linsjoar_list_reader elements;
};
struct ParkingLot_orphan {
    uint64_t word;
};
struct ParkingLot_list_orphan {
    uint64_t word;
};
struct ParkingLot_draft {
    uint64_t orphans[1];
};
struct ParkingLot_drafts {
    struct linsjoar_drafts drafts;
};

struct TotalValue_reader {
    struct linsjoar_struct_reader fields;
};
struct TotalValue_list_reader {
    struct linsjoar_list_reader elements;
};
struct TotalValue_orphan {
    uint64_t word;
};
struct TotalValue_list_orphan {
    uint64_t word;
};
struct TotalValue_draft {
    uint64_t words[1];
};
struct TotalValue_drafts {
    struct linsjoar_drafts drafts;
};

struct Car_reader {
    struct linsjoar_struct_reader fields;
};
struct Car_list_reader {
    struct linsjoar_list_reader elements;
};
struct Car_orphan {
    uint64_t word;
};
struct Car_list_orphan {
    uint64_t word;
};
struct Car_draft {
    uint64_t words[3];
    uint64_t orphans[4];
};
struct Car_drafts {
    struct linsjoar_drafts drafts;
};

enum Color {
    Color_black = 0,
    Color_white = 1,
    Color_red = 2,
    Color_green = 3,
    Color_blue = 4,
    Color_cyan = 5,
    Color_magenta = 6,
    Color_yellow = 7,
    Color_silver = 8,
    Color_notInSchema = 65535,
};

/* The enumerator of a number. */
static inline enum Color Color_of_number(uint16_t number) {
    return number < 9 ? (enum Color)number : Color_notInSchema;
}

struct Color_list_reader {
    struct linsjoar_list_reader elements;
};
struct Color_list_orphan {
    uint64_t word;
};

/* How many a list has, and one of them, as an enumerator and as a number; past the last one 0. */
static inline uint32_t Color_list_len(const struct Color_list_reader *list) {
    return linsjoar_list_len(&list->elements);
}
static inline uint16_t Color_list_get_number(const struct Color_list_reader *list, uint32_t index) {
    uint64_t number;
    enum linsjoar_error error = linsjoar_list_get_number(&list->elements, index, &number);
    return error == LINSJOAR_OK ? (uint16_t)number : 0;
}
static inline enum Color Color_list_get(const struct Color_list_reader *list, uint32_t index) {
    return Color_of_number(Color_list_get_number(list, index));
}

/* Adds a list of enums, by their numbers. */
static inline LINSJOAR_CHECKED enum linsjoar_error Color_add_list(struct linsjoar_message *message, const uint16_t *numbers, size_t count, struct Color_list_orphan *orphan) {
    return linsjoar_add_number_bytes(message, LINSJOAR_TWO_BYTES, count, numbers, 2 * count, &orphan->word);
}

struct Wheel_reader {
    struct linsjoar_struct_reader fields;
};
struct Wheel_list_reader {
    struct linsjoar_list_reader elements;
};
struct Wheel_orphan {
    uint64_t word;
};
struct Wheel_list_orphan {
    uint64_t word;
};
struct Wheel_draft {
    uint64_t words[1];
};
struct Wheel_drafts {
    struct linsjoar_drafts drafts;
};

struct Engine_reader {
    struct linsjoar_struct_reader fields;
};
struct Engine_list_reader {
    struct linsjoar_list_reader elements;
};
struct Engine_orphan {
    uint64_t word;
};
struct Engine_list_orphan {
    uint64_t word;
};
struct Engine_draft {
    uint64_t words[1];
};
struct Engine_drafts {
    struct linsjoar_drafts drafts;
};

/* Opens a framed message, and reads the ParkingLot at its root: within the default limits, or within these. */
static inline LINSJOAR_CHECKED enum linsjoar_error ParkingLot_root(const uint8_t *bytes, size_t len, struct linsjoar_reader *reader, struct ParkingLot_reader *value) {
    return linsjoar_open_root(bytes, len, NULL, reader, &value->fields);
}
static inline LINSJOAR_CHECKED enum linsjoar_error ParkingLot_root_with_options(const uint8_t *bytes, size_t len, const struct linsjoar_options *options, struct linsjoar_reader *reader, struct ParkingLot_reader *value) {
    return linsjoar_open_root(bytes, len, options, reader, &value->fields);
}

/* Reads the ParkingLot that a pointer points to, or a list of them. Null is an empty one. */
static inline LINSJOAR_CHECKED enum linsjoar_error ParkingLot_read(const struct linsjoar_pointer_reader *pointer, struct ParkingLot_reader *value) {
    return linsjoar_read_struct(pointer, &value->fields);
}
static inline LINSJOAR_CHECKED enum linsjoar_error ParkingLot_list_read(const struct linsjoar_pointer_reader *pointer, struct ParkingLot_list_reader *value) {
    return linsjoar_read_list(pointer, LINSJOAR_STRUCTS, &value->elements);
}

/* The same struct, counted in another reader, as each thread has one: a copy of the reader that opened the message. It
 * dangles without that reader and without the bytes. Threads may share both the bytes and what was read, and no reader. */
static inline struct ParkingLot_reader ParkingLot_bind(struct ParkingLot_reader read, struct linsjoar_reader *reader) {
    read.fields.source.reader = reader;
    return read;
}

/* How many a list has, and one of them; past the last one an empty one. */
static inline uint32_t ParkingLot_list_len(const struct ParkingLot_list_reader *list) {
    return linsjoar_list_len(&list->elements);
}
static inline struct ParkingLot_reader ParkingLot_list_get(const struct ParkingLot_list_reader *list, uint32_t index) {
    struct ParkingLot_reader value;
    if (linsjoar_list_get_struct(&list->elements, index, &value.fields) != LINSJOAR_OK)
        memset(&value.fields.fields, 0, sizeof value.fields.fields);
    return value;
}

/* cars :List(Car) */
static inline LINSJOAR_CHECKED enum linsjoar_error ParkingLot_get_cars(const struct ParkingLot_reader *read, struct Car_list_reader *value) {
    struct linsjoar_pointer_reader pointer = linsjoar_get_pointer(&read->fields, 0);
    return linsjoar_read_list(&pointer, LINSJOAR_STRUCTS, &value->elements);
}
static inline bool ParkingLot_has_cars(const struct ParkingLot_reader *read) {
    return linsjoar_has_pointer(&read->fields, 0);
}

/* The draft of a struct that is to be added: whose fields have their defaults, or what was read, with copies of all that
 * it points to. */
static inline struct ParkingLot_draft ParkingLot_new(void) {
    struct ParkingLot_draft draft;
    memset(&draft, 0, sizeof draft);
    return draft;
}
static inline LINSJOAR_CHECKED enum linsjoar_error ParkingLot_draft_of(const struct ParkingLot_reader *read, struct linsjoar_message *message, struct ParkingLot_draft *draft) {
    memset(draft, 0, sizeof *draft);
    return linsjoar_draft_of(&read->fields, message, NULL, 0, draft->orphans, 1);
}

/* Adds the struct of a draft to a message, or finishes the message with it as the root. */
static inline LINSJOAR_CHECKED enum linsjoar_error ParkingLot_add(struct linsjoar_message *message, const struct ParkingLot_draft *draft, struct ParkingLot_orphan *orphan) {
    return linsjoar_add_draft(message, (const uint64_t *)draft, 0, draft->orphans, 1, &orphan->word);
}
static inline LINSJOAR_CHECKED enum linsjoar_error ParkingLot_finish(struct linsjoar_message *message, const struct ParkingLot_draft *draft, size_t *len) {
    struct ParkingLot_orphan root;
    enum linsjoar_error error = ParkingLot_add(message, draft, &root);
    *len = 0;
    if (error == LINSJOAR_OK)
        error = linsjoar_message_set_root(message, root.word);
    return error == LINSJOAR_OK ? linsjoar_message_finish(message, len) : error;
}

/* Adds a list of structs: of an array of drafts, or of those that are pushed one by one, and are in the message's memory
 * until then. The latter begin as zeros. A list that is begun after another one is added before it. */
static inline LINSJOAR_CHECKED enum linsjoar_error ParkingLot_add_list(struct linsjoar_message *message, const struct ParkingLot_draft *drafts, size_t count, struct ParkingLot_list_orphan *orphan) {
    return linsjoar_add_draft_list(message, drafts, count, 0, 1, &orphan->word);
}
static inline LINSJOAR_CHECKED enum linsjoar_error ParkingLot_push(struct linsjoar_message *message, struct ParkingLot_drafts *drafts, const struct ParkingLot_draft *draft) {
    return linsjoar_push_draft(message, &drafts->drafts, draft, 8 * 1);
}
static inline LINSJOAR_CHECKED enum linsjoar_error ParkingLot_add_drafts(struct linsjoar_message *message, struct ParkingLot_drafts *drafts, struct ParkingLot_list_orphan *orphan) {
    return linsjoar_add_drafts(message, &drafts->drafts, 0, 1, &orphan->word);
}

static inline struct Car_list_orphan ParkingLot_draft_get_cars(const struct ParkingLot_draft *draft) {
    struct Car_list_orphan orphan;
    orphan.word = draft->orphans[0];
    return orphan;
}
static inline void ParkingLot_set_cars(struct ParkingLot_draft *draft, struct Car_list_orphan orphan) {
    draft->orphans[0] = orphan.word;
}
static inline LINSJOAR_CHECKED enum linsjoar_error ParkingLot_copy_cars(const struct ParkingLot_reader *read, struct linsjoar_message *message, struct ParkingLot_draft *draft) {
    struct linsjoar_pointer_reader pointer = linsjoar_get_pointer(&read->fields, 0);
    struct Car_list_orphan orphan;
    enum linsjoar_error error = linsjoar_add_copy_of(message, &pointer, &orphan.word);
    if (error == LINSJOAR_OK)
        ParkingLot_set_cars(draft, orphan);
    return error;
}

/* Opens a framed message, and reads the TotalValue at its root: within the default limits, or within these. */
static inline LINSJOAR_CHECKED enum linsjoar_error TotalValue_root(const uint8_t *bytes, size_t len, struct linsjoar_reader *reader, struct TotalValue_reader *value) {
    return linsjoar_open_root(bytes, len, NULL, reader, &value->fields);
}
static inline LINSJOAR_CHECKED enum linsjoar_error TotalValue_root_with_options(const uint8_t *bytes, size_t len, const struct linsjoar_options *options, struct linsjoar_reader *reader, struct TotalValue_reader *value) {
    return linsjoar_open_root(bytes, len, options, reader, &value->fields);
}

/* Reads the TotalValue that a pointer points to, or a list of them. Null is an empty one. */
static inline LINSJOAR_CHECKED enum linsjoar_error TotalValue_read(const struct linsjoar_pointer_reader *pointer, struct TotalValue_reader *value) {
    return linsjoar_read_struct(pointer, &value->fields);
}
static inline LINSJOAR_CHECKED enum linsjoar_error TotalValue_list_read(const struct linsjoar_pointer_reader *pointer, struct TotalValue_list_reader *value) {
    return linsjoar_read_list(pointer, LINSJOAR_STRUCTS, &value->elements);
}

/* The same struct, counted in another reader, as each thread has one: a copy of the reader that opened the message. It
 * dangles without that reader and without the bytes. Threads may share both the bytes and what was read, and no reader. */
static inline struct TotalValue_reader TotalValue_bind(struct TotalValue_reader read, struct linsjoar_reader *reader) {
    read.fields.source.reader = reader;
    return read;
}

/* How many a list has, and one of them; past the last one an empty one. */
static inline uint32_t TotalValue_list_len(const struct TotalValue_list_reader *list) {
    return linsjoar_list_len(&list->elements);
}
static inline struct TotalValue_reader TotalValue_list_get(const struct TotalValue_list_reader *list, uint32_t index) {
    struct TotalValue_reader value;
    if (linsjoar_list_get_struct(&list->elements, index, &value.fields) != LINSJOAR_OK)
        memset(&value.fields.fields, 0, sizeof value.fields.fields);
    return value;
}

/* amount :UInt64 */
static inline uint64_t TotalValue_get_amount(const struct TotalValue_reader *read) {
    return linsjoar_get_u64(&read->fields, 0);
}

/* The draft of a struct that is to be added: whose fields have their defaults, or what was read, with copies of all that
 * it points to. */
static inline struct TotalValue_draft TotalValue_new(void) {
    struct TotalValue_draft draft;
    memset(&draft, 0, sizeof draft);
    return draft;
}
static inline LINSJOAR_CHECKED enum linsjoar_error TotalValue_draft_of(const struct TotalValue_reader *read, struct linsjoar_message *message, struct TotalValue_draft *draft) {
    memset(draft, 0, sizeof *draft);
    return linsjoar_draft_of(&read->fields, message, draft->words, 1, NULL, 0);
}

/* Adds the struct of a draft to a message, or finishes the message with it as the root. */
static inline LINSJOAR_CHECKED enum linsjoar_error TotalValue_add(struct linsjoar_message *message, const struct TotalValue_draft *draft, struct TotalValue_orphan *orphan) {
    return linsjoar_add_draft(message, draft->words, 1, (const uint64_t *)draft, 0, &orphan->word);
}
static inline LINSJOAR_CHECKED enum linsjoar_error TotalValue_finish(struct linsjoar_message *message, const struct TotalValue_draft *draft, size_t *len) {
    struct TotalValue_orphan root;
    enum linsjoar_error error = TotalValue_add(message, draft, &root);
    *len = 0;
    if (error == LINSJOAR_OK)
        error = linsjoar_message_set_root(message, root.word);
    return error == LINSJOAR_OK ? linsjoar_message_finish(message, len) : error;
}

/* Adds a list of structs: of an array of drafts, or of those that are pushed one by one, and are in the message's memory
 * until then. The latter begin as zeros. A list that is begun after another one is added before it. */
static inline LINSJOAR_CHECKED enum linsjoar_error TotalValue_add_list(struct linsjoar_message *message, const struct TotalValue_draft *drafts, size_t count, struct TotalValue_list_orphan *orphan) {
    return linsjoar_add_draft_list(message, drafts, count, 1, 0, &orphan->word);
}
static inline LINSJOAR_CHECKED enum linsjoar_error TotalValue_push(struct linsjoar_message *message, struct TotalValue_drafts *drafts, const struct TotalValue_draft *draft) {
    return linsjoar_push_draft(message, &drafts->drafts, draft, 8 * 1);
}
static inline LINSJOAR_CHECKED enum linsjoar_error TotalValue_add_drafts(struct linsjoar_message *message, struct TotalValue_drafts *drafts, struct TotalValue_list_orphan *orphan) {
    return linsjoar_add_drafts(message, &drafts->drafts, 1, 0, &orphan->word);
}

static inline uint64_t TotalValue_draft_get_amount(const struct TotalValue_draft *draft) {
    return linsjoar_draft_u64(draft->words, 0);
}
static inline void TotalValue_set_amount(struct TotalValue_draft *draft, uint64_t value) {
    linsjoar_set_u64(draft->words, 0, (uint64_t)value);
}

/* Opens a framed message, and reads the Car at its root: within the default limits, or within these. */
static inline LINSJOAR_CHECKED enum linsjoar_error Car_root(const uint8_t *bytes, size_t len, struct linsjoar_reader *reader, struct Car_reader *value) {
    return linsjoar_open_root(bytes, len, NULL, reader, &value->fields);
}
static inline LINSJOAR_CHECKED enum linsjoar_error Car_root_with_options(const uint8_t *bytes, size_t len, const struct linsjoar_options *options, struct linsjoar_reader *reader, struct Car_reader *value) {
    return linsjoar_open_root(bytes, len, options, reader, &value->fields);
}

/* Reads the Car that a pointer points to, or a list of them. Null is an empty one. */
static inline LINSJOAR_CHECKED enum linsjoar_error Car_read(const struct linsjoar_pointer_reader *pointer, struct Car_reader *value) {
    return linsjoar_read_struct(pointer, &value->fields);
}
static inline LINSJOAR_CHECKED enum linsjoar_error Car_list_read(const struct linsjoar_pointer_reader *pointer, struct Car_list_reader *value) {
    return linsjoar_read_list(pointer, LINSJOAR_STRUCTS, &value->elements);
}

/* The same struct, counted in another reader, as each thread has one: a copy of the reader that opened the message. It
 * dangles without that reader and without the bytes. Threads may share both the bytes and what was read, and no reader. */
static inline struct Car_reader Car_bind(struct Car_reader read, struct linsjoar_reader *reader) {
    read.fields.source.reader = reader;
    return read;
}

/* How many a list has, and one of them; past the last one an empty one. */
static inline uint32_t Car_list_len(const struct Car_list_reader *list) {
    return linsjoar_list_len(&list->elements);
}
static inline struct Car_reader Car_list_get(const struct Car_list_reader *list, uint32_t index) {
    struct Car_reader value;
    if (linsjoar_list_get_struct(&list->elements, index, &value.fields) != LINSJOAR_OK)
        memset(&value.fields.fields, 0, sizeof value.fields.fields);
    return value;
}

/* make :Text */
static inline LINSJOAR_CHECKED enum linsjoar_error Car_get_make(const struct Car_reader *read, struct linsjoar_text_reader *value) {
    struct linsjoar_pointer_reader pointer = linsjoar_get_pointer(&read->fields, 0);
    return linsjoar_read_text(&pointer, value);
}
static inline bool Car_has_make(const struct Car_reader *read) {
    return linsjoar_has_pointer(&read->fields, 0);
}

/* model :Text */
static inline LINSJOAR_CHECKED enum linsjoar_error Car_get_model(const struct Car_reader *read, struct linsjoar_text_reader *value) {
    struct linsjoar_pointer_reader pointer = linsjoar_get_pointer(&read->fields, 1);
    return linsjoar_read_text(&pointer, value);
}
static inline bool Car_has_model(const struct Car_reader *read) {
    return linsjoar_has_pointer(&read->fields, 1);
}

/* color :Color */
static inline enum Color Car_get_color(const struct Car_reader *read) {
    return Color_of_number(linsjoar_get_u16(&read->fields, 0));
}
static inline uint16_t Car_get_color_number(const struct Car_reader *read) {
    return linsjoar_get_u16(&read->fields, 0);
}

/* seats :UInt8 */
static inline uint8_t Car_get_seats(const struct Car_reader *read) {
    return linsjoar_get_u8(&read->fields, 2);
}

/* doors :UInt8 */
static inline uint8_t Car_get_doors(const struct Car_reader *read) {
    return linsjoar_get_u8(&read->fields, 3);
}

/* wheels :List(Wheel) */
static inline LINSJOAR_CHECKED enum linsjoar_error Car_get_wheels(const struct Car_reader *read, struct Wheel_list_reader *value) {
    struct linsjoar_pointer_reader pointer = linsjoar_get_pointer(&read->fields, 2);
    return linsjoar_read_list(&pointer, LINSJOAR_STRUCTS, &value->elements);
}
static inline bool Car_has_wheels(const struct Car_reader *read) {
    return linsjoar_has_pointer(&read->fields, 2);
}

/* length :UInt16 */
static inline uint16_t Car_get_length(const struct Car_reader *read) {
    return linsjoar_get_u16(&read->fields, 2);
}

/* width :UInt16 */
static inline uint16_t Car_get_width(const struct Car_reader *read) {
    return linsjoar_get_u16(&read->fields, 3);
}

/* height :UInt16 */
static inline uint16_t Car_get_height(const struct Car_reader *read) {
    return linsjoar_get_u16(&read->fields, 4);
}

/* weight :UInt32 */
static inline uint32_t Car_get_weight(const struct Car_reader *read) {
    return linsjoar_get_u32(&read->fields, 3);
}

/* engine :Engine */
static inline LINSJOAR_CHECKED enum linsjoar_error Car_get_engine(const struct Car_reader *read, struct Engine_reader *value) {
    struct linsjoar_pointer_reader pointer = linsjoar_get_pointer(&read->fields, 3);
    return linsjoar_read_struct(&pointer, &value->fields);
}
static inline bool Car_has_engine(const struct Car_reader *read) {
    return linsjoar_has_pointer(&read->fields, 3);
}

/* fuelCapacity :Float32 */
static inline float Car_get_fuelCapacity(const struct Car_reader *read) {
    return linsjoar_float_of_bits(linsjoar_get_u32(&read->fields, 4));
}

/* fuel :Float32 */
static inline float Car_get_fuel(const struct Car_reader *read) {
    return linsjoar_float_of_bits(linsjoar_get_u32(&read->fields, 5));
}

/* hasPowerWindows :Bool */
static inline bool Car_get_hasPowerWindows(const struct Car_reader *read) {
    return linsjoar_get_bool(&read->fields, 80);
}

/* hasPowerSteering :Bool */
static inline bool Car_get_hasPowerSteering(const struct Car_reader *read) {
    return linsjoar_get_bool(&read->fields, 81);
}

/* hasCruiseControl :Bool */
static inline bool Car_get_hasCruiseControl(const struct Car_reader *read) {
    return linsjoar_get_bool(&read->fields, 82);
}

/* cupHolders :UInt8 */
static inline uint8_t Car_get_cupHolders(const struct Car_reader *read) {
    return linsjoar_get_u8(&read->fields, 11);
}

/* hasNavSystem :Bool */
static inline bool Car_get_hasNavSystem(const struct Car_reader *read) {
    return linsjoar_get_bool(&read->fields, 83);
}

/* The draft of a struct that is to be added: whose fields have their defaults, or what was read, with copies of all that
 * it points to. */
static inline struct Car_draft Car_new(void) {
    struct Car_draft draft;
    memset(&draft, 0, sizeof draft);
    return draft;
}
static inline LINSJOAR_CHECKED enum linsjoar_error Car_draft_of(const struct Car_reader *read, struct linsjoar_message *message, struct Car_draft *draft) {
    memset(draft, 0, sizeof *draft);
    return linsjoar_draft_of(&read->fields, message, draft->words, 3, draft->orphans, 4);
}

/* Adds the struct of a draft to a message, or finishes the message with it as the root. */
static inline LINSJOAR_CHECKED enum linsjoar_error Car_add(struct linsjoar_message *message, const struct Car_draft *draft, struct Car_orphan *orphan) {
    return linsjoar_add_draft(message, draft->words, 3, draft->orphans, 4, &orphan->word);
}
static inline LINSJOAR_CHECKED enum linsjoar_error Car_finish(struct linsjoar_message *message, const struct Car_draft *draft, size_t *len) {
    struct Car_orphan root;
    enum linsjoar_error error = Car_add(message, draft, &root);
    *len = 0;
    if (error == LINSJOAR_OK)
        error = linsjoar_message_set_root(message, root.word);
    return error == LINSJOAR_OK ? linsjoar_message_finish(message, len) : error;
}

/* Adds a list of structs: of an array of drafts, or of those that are pushed one by one, and are in the message's memory
 * until then. The latter begin as zeros. A list that is begun after another one is added before it. */
static inline LINSJOAR_CHECKED enum linsjoar_error Car_add_list(struct linsjoar_message *message, const struct Car_draft *drafts, size_t count, struct Car_list_orphan *orphan) {
    return linsjoar_add_draft_list(message, drafts, count, 3, 4, &orphan->word);
}
static inline LINSJOAR_CHECKED enum linsjoar_error Car_push(struct linsjoar_message *message, struct Car_drafts *drafts, const struct Car_draft *draft) {
    return linsjoar_push_draft(message, &drafts->drafts, draft, 8 * 7);
}
static inline LINSJOAR_CHECKED enum linsjoar_error Car_add_drafts(struct linsjoar_message *message, struct Car_drafts *drafts, struct Car_list_orphan *orphan) {
    return linsjoar_add_drafts(message, &drafts->drafts, 3, 4, &orphan->word);
}

static inline struct linsjoar_text_orphan Car_draft_get_make(const struct Car_draft *draft) {
    struct linsjoar_text_orphan orphan;
    orphan.word = draft->orphans[0];
    return orphan;
}
static inline void Car_set_make(struct Car_draft *draft, struct linsjoar_text_orphan orphan) {
    draft->orphans[0] = orphan.word;
}
static inline LINSJOAR_CHECKED enum linsjoar_error Car_copy_make(const struct Car_reader *read, struct linsjoar_message *message, struct Car_draft *draft) {
    struct linsjoar_pointer_reader pointer = linsjoar_get_pointer(&read->fields, 0);
    struct linsjoar_text_orphan orphan;
    enum linsjoar_error error = linsjoar_add_copy_of(message, &pointer, &orphan.word);
    if (error == LINSJOAR_OK)
        Car_set_make(draft, orphan);
    return error;
}
static inline struct linsjoar_text_orphan Car_draft_get_model(const struct Car_draft *draft) {
    struct linsjoar_text_orphan orphan;
    orphan.word = draft->orphans[1];
    return orphan;
}
static inline void Car_set_model(struct Car_draft *draft, struct linsjoar_text_orphan orphan) {
    draft->orphans[1] = orphan.word;
}
static inline LINSJOAR_CHECKED enum linsjoar_error Car_copy_model(const struct Car_reader *read, struct linsjoar_message *message, struct Car_draft *draft) {
    struct linsjoar_pointer_reader pointer = linsjoar_get_pointer(&read->fields, 1);
    struct linsjoar_text_orphan orphan;
    enum linsjoar_error error = linsjoar_add_copy_of(message, &pointer, &orphan.word);
    if (error == LINSJOAR_OK)
        Car_set_model(draft, orphan);
    return error;
}
static inline enum Color Car_draft_get_color(const struct Car_draft *draft) {
    return Color_of_number(linsjoar_draft_u16(draft->words, 0));
}
static inline void Car_set_color(struct Car_draft *draft, enum Color value) {
    linsjoar_set_u16(draft->words, 0, (uint16_t)value);
}
static inline uint16_t Car_draft_get_color_number(const struct Car_draft *draft) {
    return linsjoar_draft_u16(draft->words, 0);
}
static inline void Car_set_color_number(struct Car_draft *draft, uint16_t value) {
    linsjoar_set_u16(draft->words, 0, (uint16_t)value);
}
static inline uint8_t Car_draft_get_seats(const struct Car_draft *draft) {
    return linsjoar_draft_u8(draft->words, 2);
}
static inline void Car_set_seats(struct Car_draft *draft, uint8_t value) {
    linsjoar_set_u8(draft->words, 2, (uint8_t)value);
}
static inline uint8_t Car_draft_get_doors(const struct Car_draft *draft) {
    return linsjoar_draft_u8(draft->words, 3);
}
static inline void Car_set_doors(struct Car_draft *draft, uint8_t value) {
    linsjoar_set_u8(draft->words, 3, (uint8_t)value);
}
static inline struct Wheel_list_orphan Car_draft_get_wheels(const struct Car_draft *draft) {
    struct Wheel_list_orphan orphan;
    orphan.word = draft->orphans[2];
    return orphan;
}
static inline void Car_set_wheels(struct Car_draft *draft, struct Wheel_list_orphan orphan) {
    draft->orphans[2] = orphan.word;
}
static inline LINSJOAR_CHECKED enum linsjoar_error Car_copy_wheels(const struct Car_reader *read, struct linsjoar_message *message, struct Car_draft *draft) {
    struct linsjoar_pointer_reader pointer = linsjoar_get_pointer(&read->fields, 2);
    struct Wheel_list_orphan orphan;
    enum linsjoar_error error = linsjoar_add_copy_of(message, &pointer, &orphan.word);
    if (error == LINSJOAR_OK)
        Car_set_wheels(draft, orphan);
    return error;
}
static inline uint16_t Car_draft_get_length(const struct Car_draft *draft) {
    return linsjoar_draft_u16(draft->words, 2);
}
static inline void Car_set_length(struct Car_draft *draft, uint16_t value) {
    linsjoar_set_u16(draft->words, 2, (uint16_t)value);
}
static inline uint16_t Car_draft_get_width(const struct Car_draft *draft) {
    return linsjoar_draft_u16(draft->words, 3);
}
static inline void Car_set_width(struct Car_draft *draft, uint16_t value) {
    linsjoar_set_u16(draft->words, 3, (uint16_t)value);
}
static inline uint16_t Car_draft_get_height(const struct Car_draft *draft) {
    return linsjoar_draft_u16(draft->words, 4);
}
static inline void Car_set_height(struct Car_draft *draft, uint16_t value) {
    linsjoar_set_u16(draft->words, 4, (uint16_t)value);
}
static inline uint32_t Car_draft_get_weight(const struct Car_draft *draft) {
    return linsjoar_draft_u32(draft->words, 3);
}
static inline void Car_set_weight(struct Car_draft *draft, uint32_t value) {
    linsjoar_set_u32(draft->words, 3, (uint32_t)value);
}
static inline struct Engine_orphan Car_draft_get_engine(const struct Car_draft *draft) {
    struct Engine_orphan orphan;
    orphan.word = draft->orphans[3];
    return orphan;
}
static inline void Car_set_engine(struct Car_draft *draft, struct Engine_orphan orphan) {
    draft->orphans[3] = orphan.word;
}
static inline LINSJOAR_CHECKED enum linsjoar_error Car_copy_engine(const struct Car_reader *read, struct linsjoar_message *message, struct Car_draft *draft) {
    struct linsjoar_pointer_reader pointer = linsjoar_get_pointer(&read->fields, 3);
    struct Engine_orphan orphan;
    enum linsjoar_error error = linsjoar_add_copy_of(message, &pointer, &orphan.word);
    if (error == LINSJOAR_OK)
        Car_set_engine(draft, orphan);
    return error;
}
static inline float Car_draft_get_fuelCapacity(const struct Car_draft *draft) {
    return linsjoar_float_of_bits(linsjoar_draft_u32(draft->words, 4));
}
static inline void Car_set_fuelCapacity(struct Car_draft *draft, float value) {
    linsjoar_set_u32(draft->words, 4, (uint32_t)linsjoar_bits_of_float(value));
}
static inline float Car_draft_get_fuel(const struct Car_draft *draft) {
    return linsjoar_float_of_bits(linsjoar_draft_u32(draft->words, 5));
}
static inline void Car_set_fuel(struct Car_draft *draft, float value) {
    linsjoar_set_u32(draft->words, 5, (uint32_t)linsjoar_bits_of_float(value));
}
static inline bool Car_draft_get_hasPowerWindows(const struct Car_draft *draft) {
    return linsjoar_draft_bool(draft->words, 80);
}
static inline void Car_set_hasPowerWindows(struct Car_draft *draft, bool value) {
    linsjoar_set_bool(draft->words, 80, value);
}
static inline bool Car_draft_get_hasPowerSteering(const struct Car_draft *draft) {
    return linsjoar_draft_bool(draft->words, 81);
}
static inline void Car_set_hasPowerSteering(struct Car_draft *draft, bool value) {
    linsjoar_set_bool(draft->words, 81, value);
}
static inline bool Car_draft_get_hasCruiseControl(const struct Car_draft *draft) {
    return linsjoar_draft_bool(draft->words, 82);
}
static inline void Car_set_hasCruiseControl(struct Car_draft *draft, bool value) {
    linsjoar_set_bool(draft->words, 82, value);
}
static inline uint8_t Car_draft_get_cupHolders(const struct Car_draft *draft) {
    return linsjoar_draft_u8(draft->words, 11);
}
static inline void Car_set_cupHolders(struct Car_draft *draft, uint8_t value) {
    linsjoar_set_u8(draft->words, 11, (uint8_t)value);
}
static inline bool Car_draft_get_hasNavSystem(const struct Car_draft *draft) {
    return linsjoar_draft_bool(draft->words, 83);
}
static inline void Car_set_hasNavSystem(struct Car_draft *draft, bool value) {
    linsjoar_set_bool(draft->words, 83, value);
}

/* Opens a framed message, and reads the Wheel at its root: within the default limits, or within these. */
static inline LINSJOAR_CHECKED enum linsjoar_error Wheel_root(const uint8_t *bytes, size_t len, struct linsjoar_reader *reader, struct Wheel_reader *value) {
    return linsjoar_open_root(bytes, len, NULL, reader, &value->fields);
}
static inline LINSJOAR_CHECKED enum linsjoar_error Wheel_root_with_options(const uint8_t *bytes, size_t len, const struct linsjoar_options *options, struct linsjoar_reader *reader, struct Wheel_reader *value) {
    return linsjoar_open_root(bytes, len, options, reader, &value->fields);
}

/* Reads the Wheel that a pointer points to, or a list of them. Null is an empty one. */
static inline LINSJOAR_CHECKED enum linsjoar_error Wheel_read(const struct linsjoar_pointer_reader *pointer, struct Wheel_reader *value) {
    return linsjoar_read_struct(pointer, &value->fields);
}
static inline LINSJOAR_CHECKED enum linsjoar_error Wheel_list_read(const struct linsjoar_pointer_reader *pointer, struct Wheel_list_reader *value) {
    return linsjoar_read_list(pointer, LINSJOAR_STRUCTS, &value->elements);
}

/* The same struct, counted in another reader, as each thread has one: a copy of the reader that opened the message. It
 * dangles without that reader and without the bytes. Threads may share both the bytes and what was read, and no reader. */
static inline struct Wheel_reader Wheel_bind(struct Wheel_reader read, struct linsjoar_reader *reader) {
    read.fields.source.reader = reader;
    return read;
}

/* How many a list has, and one of them; past the last one an empty one. */
static inline uint32_t Wheel_list_len(const struct Wheel_list_reader *list) {
    return linsjoar_list_len(&list->elements);
}
static inline struct Wheel_reader Wheel_list_get(const struct Wheel_list_reader *list, uint32_t index) {
    struct Wheel_reader value;
    if (linsjoar_list_get_struct(&list->elements, index, &value.fields) != LINSJOAR_OK)
        memset(&value.fields.fields, 0, sizeof value.fields.fields);
    return value;
}

/* diameter :UInt16 */
static inline uint16_t Wheel_get_diameter(const struct Wheel_reader *read) {
    return linsjoar_get_u16(&read->fields, 0);
}

/* airPressure :Float32 */
static inline float Wheel_get_airPressure(const struct Wheel_reader *read) {
    return linsjoar_float_of_bits(linsjoar_get_u32(&read->fields, 1));
}

/* snowTires :Bool */
static inline bool Wheel_get_snowTires(const struct Wheel_reader *read) {
    return linsjoar_get_bool(&read->fields, 16);
}

/* The draft of a struct that is to be added: whose fields have their defaults, or what was read, with copies of all that
 * it points to. */
static inline struct Wheel_draft Wheel_new(void) {
    struct Wheel_draft draft;
    memset(&draft, 0, sizeof draft);
    return draft;
}
static inline LINSJOAR_CHECKED enum linsjoar_error Wheel_draft_of(const struct Wheel_reader *read, struct linsjoar_message *message, struct Wheel_draft *draft) {
    memset(draft, 0, sizeof *draft);
    return linsjoar_draft_of(&read->fields, message, draft->words, 1, NULL, 0);
}

/* Adds the struct of a draft to a message, or finishes the message with it as the root. */
static inline LINSJOAR_CHECKED enum linsjoar_error Wheel_add(struct linsjoar_message *message, const struct Wheel_draft *draft, struct Wheel_orphan *orphan) {
    return linsjoar_add_draft(message, draft->words, 1, (const uint64_t *)draft, 0, &orphan->word);
}
static inline LINSJOAR_CHECKED enum linsjoar_error Wheel_finish(struct linsjoar_message *message, const struct Wheel_draft *draft, size_t *len) {
    struct Wheel_orphan root;
    enum linsjoar_error error = Wheel_add(message, draft, &root);
    *len = 0;
    if (error == LINSJOAR_OK)
        error = linsjoar_message_set_root(message, root.word);
    return error == LINSJOAR_OK ? linsjoar_message_finish(message, len) : error;
}

/* Adds a list of structs: of an array of drafts, or of those that are pushed one by one, and are in the message's memory
 * until then. The latter begin as zeros. A list that is begun after another one is added before it. */
static inline LINSJOAR_CHECKED enum linsjoar_error Wheel_add_list(struct linsjoar_message *message, const struct Wheel_draft *drafts, size_t count, struct Wheel_list_orphan *orphan) {
    return linsjoar_add_draft_list(message, drafts, count, 1, 0, &orphan->word);
}
static inline LINSJOAR_CHECKED enum linsjoar_error Wheel_push(struct linsjoar_message *message, struct Wheel_drafts *drafts, const struct Wheel_draft *draft) {
    return linsjoar_push_draft(message, &drafts->drafts, draft, 8 * 1);
}
static inline LINSJOAR_CHECKED enum linsjoar_error Wheel_add_drafts(struct linsjoar_message *message, struct Wheel_drafts *drafts, struct Wheel_list_orphan *orphan) {
    return linsjoar_add_drafts(message, &drafts->drafts, 1, 0, &orphan->word);
}

static inline uint16_t Wheel_draft_get_diameter(const struct Wheel_draft *draft) {
    return linsjoar_draft_u16(draft->words, 0);
}
static inline void Wheel_set_diameter(struct Wheel_draft *draft, uint16_t value) {
    linsjoar_set_u16(draft->words, 0, (uint16_t)value);
}
static inline float Wheel_draft_get_airPressure(const struct Wheel_draft *draft) {
    return linsjoar_float_of_bits(linsjoar_draft_u32(draft->words, 1));
}
static inline void Wheel_set_airPressure(struct Wheel_draft *draft, float value) {
    linsjoar_set_u32(draft->words, 1, (uint32_t)linsjoar_bits_of_float(value));
}
static inline bool Wheel_draft_get_snowTires(const struct Wheel_draft *draft) {
    return linsjoar_draft_bool(draft->words, 16);
}
static inline void Wheel_set_snowTires(struct Wheel_draft *draft, bool value) {
    linsjoar_set_bool(draft->words, 16, value);
}

/* Opens a framed message, and reads the Engine at its root: within the default limits, or within these. */
static inline LINSJOAR_CHECKED enum linsjoar_error Engine_root(const uint8_t *bytes, size_t len, struct linsjoar_reader *reader, struct Engine_reader *value) {
    return linsjoar_open_root(bytes, len, NULL, reader, &value->fields);
}
static inline LINSJOAR_CHECKED enum linsjoar_error Engine_root_with_options(const uint8_t *bytes, size_t len, const struct linsjoar_options *options, struct linsjoar_reader *reader, struct Engine_reader *value) {
    return linsjoar_open_root(bytes, len, options, reader, &value->fields);
}

/* Reads the Engine that a pointer points to, or a list of them. Null is an empty one. */
static inline LINSJOAR_CHECKED enum linsjoar_error Engine_read(const struct linsjoar_pointer_reader *pointer, struct Engine_reader *value) {
    return linsjoar_read_struct(pointer, &value->fields);
}
static inline LINSJOAR_CHECKED enum linsjoar_error Engine_list_read(const struct linsjoar_pointer_reader *pointer, struct Engine_list_reader *value) {
    return linsjoar_read_list(pointer, LINSJOAR_STRUCTS, &value->elements);
}

/* The same struct, counted in another reader, as each thread has one: a copy of the reader that opened the message. It
 * dangles without that reader and without the bytes. Threads may share both the bytes and what was read, and no reader. */
static inline struct Engine_reader Engine_bind(struct Engine_reader read, struct linsjoar_reader *reader) {
    read.fields.source.reader = reader;
    return read;
}

/* How many a list has, and one of them; past the last one an empty one. */
static inline uint32_t Engine_list_len(const struct Engine_list_reader *list) {
    return linsjoar_list_len(&list->elements);
}
static inline struct Engine_reader Engine_list_get(const struct Engine_list_reader *list, uint32_t index) {
    struct Engine_reader value;
    if (linsjoar_list_get_struct(&list->elements, index, &value.fields) != LINSJOAR_OK)
        memset(&value.fields.fields, 0, sizeof value.fields.fields);
    return value;
}

/* horsepower :UInt16 */
static inline uint16_t Engine_get_horsepower(const struct Engine_reader *read) {
    return linsjoar_get_u16(&read->fields, 0);
}

/* cylinders :UInt8 */
static inline uint8_t Engine_get_cylinders(const struct Engine_reader *read) {
    return linsjoar_get_u8(&read->fields, 2);
}

/* cc :UInt32 */
static inline uint32_t Engine_get_cc(const struct Engine_reader *read) {
    return linsjoar_get_u32(&read->fields, 1);
}

/* usesGas :Bool */
static inline bool Engine_get_usesGas(const struct Engine_reader *read) {
    return linsjoar_get_bool(&read->fields, 24);
}

/* usesElectric :Bool */
static inline bool Engine_get_usesElectric(const struct Engine_reader *read) {
    return linsjoar_get_bool(&read->fields, 25);
}

/* The draft of a struct that is to be added: whose fields have their defaults, or what was read, with copies of all that
 * it points to. */
static inline struct Engine_draft Engine_new(void) {
    struct Engine_draft draft;
    memset(&draft, 0, sizeof draft);
    return draft;
}
static inline LINSJOAR_CHECKED enum linsjoar_error Engine_draft_of(const struct Engine_reader *read, struct linsjoar_message *message, struct Engine_draft *draft) {
    memset(draft, 0, sizeof *draft);
    return linsjoar_draft_of(&read->fields, message, draft->words, 1, NULL, 0);
}

/* Adds the struct of a draft to a message, or finishes the message with it as the root. */
static inline LINSJOAR_CHECKED enum linsjoar_error Engine_add(struct linsjoar_message *message, const struct Engine_draft *draft, struct Engine_orphan *orphan) {
    return linsjoar_add_draft(message, draft->words, 1, (const uint64_t *)draft, 0, &orphan->word);
}
static inline LINSJOAR_CHECKED enum linsjoar_error Engine_finish(struct linsjoar_message *message, const struct Engine_draft *draft, size_t *len) {
    struct Engine_orphan root;
    enum linsjoar_error error = Engine_add(message, draft, &root);
    *len = 0;
    if (error == LINSJOAR_OK)
        error = linsjoar_message_set_root(message, root.word);
    return error == LINSJOAR_OK ? linsjoar_message_finish(message, len) : error;
}

/* Adds a list of structs: of an array of drafts, or of those that are pushed one by one, and are in the message's memory
 * until then. The latter begin as zeros. A list that is begun after another one is added before it. */
static inline LINSJOAR_CHECKED enum linsjoar_error Engine_add_list(struct linsjoar_message *message, const struct Engine_draft *drafts, size_t count, struct Engine_list_orphan *orphan) {
    return linsjoar_add_draft_list(message, drafts, count, 1, 0, &orphan->word);
}
static inline LINSJOAR_CHECKED enum linsjoar_error Engine_push(struct linsjoar_message *message, struct Engine_drafts *drafts, const struct Engine_draft *draft) {
    return linsjoar_push_draft(message, &drafts->drafts, draft, 8 * 1);
}
static inline LINSJOAR_CHECKED enum linsjoar_error Engine_add_drafts(struct linsjoar_message *message, struct Engine_drafts *drafts, struct Engine_list_orphan *orphan) {
    return linsjoar_add_drafts(message, &drafts->drafts, 1, 0, &orphan->word);
}

static inline uint16_t Engine_draft_get_horsepower(const struct Engine_draft *draft) {
    return linsjoar_draft_u16(draft->words, 0);
}
static inline void Engine_set_horsepower(struct Engine_draft *draft, uint16_t value) {
    linsjoar_set_u16(draft->words, 0, (uint16_t)value);
}
static inline uint8_t Engine_draft_get_cylinders(const struct Engine_draft *draft) {
    return linsjoar_draft_u8(draft->words, 2);
}
static inline void Engine_set_cylinders(struct Engine_draft *draft, uint8_t value) {
    linsjoar_set_u8(draft->words, 2, (uint8_t)value);
}
static inline uint32_t Engine_draft_get_cc(const struct Engine_draft *draft) {
    return linsjoar_draft_u32(draft->words, 1);
}
static inline void Engine_set_cc(struct Engine_draft *draft, uint32_t value) {
    linsjoar_set_u32(draft->words, 1, (uint32_t)value);
}
static inline bool Engine_draft_get_usesGas(const struct Engine_draft *draft) {
    return linsjoar_draft_bool(draft->words, 24);
}
static inline void Engine_set_usesGas(struct Engine_draft *draft, bool value) {
    linsjoar_set_bool(draft->words, 24, value);
}
static inline bool Engine_draft_get_usesElectric(const struct Engine_draft *draft) {
    return linsjoar_draft_bool(draft->words, 25);
}
static inline void Engine_set_usesElectric(struct Engine_draft *draft, bool value) {
    linsjoar_set_bool(draft->words, 25, value);
}

#endif
