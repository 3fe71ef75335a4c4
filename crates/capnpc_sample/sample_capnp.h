/* Types of `sample.capnp` for C, made by `capnpc-rattle`: change that file, and make them again.
 * linsjoar_types.h says how they are used. */
#ifndef LINSJOAR_SAMPLE_CAPNP_d9a4c1f2b3e05768_H
#define LINSJOAR_SAMPLE_CAPNP_d9a4c1f2b3e05768_H

#include "linsjoar_types.h"

#if LINSJOAR_VERSION != 1000
#error "this header needs Linsjoar 0.1.0: make it again with the capnpc-rattle of the version that is there"
#endif

/* A point of a plane. */
struct Point_reader {
    struct linsjoar_struct_reader fields;
};
struct Point_list_reader {
    struct linsjoar_list_reader elements;
};
struct Point_orphan {
    uint64_t word;
};
struct Point_list_orphan {
    uint64_t word;
};
struct Point_draft {
    uint64_t words[1];
};
struct Point_drafts {
    struct linsjoar_drafts drafts;
};

/* A binary tree of numbers. */
struct Tree_reader {
    struct linsjoar_struct_reader fields;
};
struct Tree_list_reader {
    struct linsjoar_list_reader elements;
};
struct Tree_orphan {
    uint64_t word;
};
struct Tree_list_orphan {
    uint64_t word;
};
struct Tree_draft {
    uint64_t words[1];
    uint64_t orphans[2];
};
struct Tree_drafts {
    struct linsjoar_drafts drafts;
};

/* Colors of a lamp. */
enum Color {
    Color_red = 0,
    Color_green = 1,
    Color_deepBlue = 2,
    Color_notInSchema = 65535,
};

/* The enumerator of a number. */
static inline enum Color Color_of_number(uint16_t number) {
    return number < 3 ? (enum Color)number : Color_notInSchema;
}

struct Color_list_reader {
    struct linsjoar_list_reader elements;
};
struct Color_list_orphan {
    uint64_t word;
};

/* How many a list has, and one of them, as an enumerator and as a number; past the last one 0. */
static inline uint32_t Color_list_len(const struct Color_list_reader *list) {
    return linsjoar_list_len(&list->elements);
}
static inline uint16_t Color_list_get_number(const struct Color_list_reader *list, uint32_t index) {
    uint64_t number;
    enum linsjoar_error error = linsjoar_list_get_number(&list->elements, index, &number);
    return error == LINSJOAR_OK ? (uint16_t)number : 0;
}
static inline enum Color Color_list_get(const struct Color_list_reader *list, uint32_t index) {
    return Color_of_number(Color_list_get_number(list, index));
}

/* Adds a list of enums, by their numbers. */
static inline LINSJOAR_CHECKED enum linsjoar_error Color_add_list(struct linsjoar_message *message, const uint16_t *numbers, size_t count, struct Color_list_orphan *orphan) {
    return linsjoar_add_number_bytes(message, LINSJOAR_TWO_BYTES, count, numbers, 2 * count, &orphan->word);
}

/* A struct with a field of each kind. */
struct Sample_reader {
    struct linsjoar_struct_reader fields;
};
struct Sample_list_reader {
    struct linsjoar_list_reader elements;
};
struct Sample_orphan {
    uint64_t word;
};
struct Sample_list_orphan {
    uint64_t word;
};
struct Sample_draft {
    uint64_t words[4];
    uint64_t orphans[9];
};
struct Sample_drafts {
    struct linsjoar_drafts drafts;
};

/* The members of the union in Sample. */
enum Sample_which {
    Sample_which_nothing = 0,
    Sample_which_size = 1,
    Sample_which_label = 2,
    Sample_which_notInSchema = 65535,
};

/* The enumerator of a number. */
static inline enum Sample_which Sample_which_of_number(uint16_t number) {
    return number < 3 ? (enum Sample_which)number : Sample_which_notInSchema;
}

/* A circle or a rectangle. */
struct Shape_reader {
    struct linsjoar_struct_reader fields;
};
struct Shape_list_reader {
    struct linsjoar_list_reader elements;
};
struct Shape_orphan {
    uint64_t word;
};
struct Shape_list_orphan {
    uint64_t word;
};
struct Shape_draft {
    uint64_t words[2];
    uint64_t orphans[1];
};
struct Shape_drafts {
    struct linsjoar_drafts drafts;
};

/* The members of the union in Shape. */
enum Shape_which {
    Shape_which_radius = 0,
    Shape_which_rectangle = 1,
    Shape_which_notInSchema = 65535,
};

/* The enumerator of a number. */
static inline enum Shape_which Shape_which_of_number(uint16_t number) {
    return number < 2 ? (enum Shape_which)number : Shape_which_notInSchema;
}

/* Colors, and a name for each. */
struct Palette_reader {
    struct linsjoar_struct_reader fields;
};
struct Palette_list_reader {
    struct linsjoar_list_reader elements;
};
struct Palette_orphan {
    uint64_t word;
};
struct Palette_list_orphan {
    uint64_t word;
};
struct Palette_draft {
    uint64_t orphans[2];
};
struct Palette_drafts {
    struct linsjoar_drafts drafts;
};

/* Opens a framed message, and reads the Point at its root: within the default limits, or within these. */
static inline LINSJOAR_CHECKED enum linsjoar_error Point_root(const uint8_t *bytes, size_t len, struct linsjoar_reader *reader, struct Point_reader *value) {
    return linsjoar_open_root(bytes, len, NULL, reader, &value->fields);
}
static inline LINSJOAR_CHECKED enum linsjoar_error Point_root_with_options(const uint8_t *bytes, size_t len, const struct linsjoar_options *options, struct linsjoar_reader *reader, struct Point_reader *value) {
    return linsjoar_open_root(bytes, len, options, reader, &value->fields);
}

/* Reads the Point that a pointer points to, or a list of them. Null is an empty one. */
static inline LINSJOAR_CHECKED enum linsjoar_error Point_read(const struct linsjoar_pointer_reader *pointer, struct Point_reader *value) {
    return linsjoar_read_struct(pointer, &value->fields);
}
static inline LINSJOAR_CHECKED enum linsjoar_error Point_list_read(const struct linsjoar_pointer_reader *pointer, struct Point_list_reader *value) {
    return linsjoar_read_list(pointer, LINSJOAR_STRUCTS, &value->elements);
}

/* The same struct, counted in another reader, as each thread has one: a copy of the reader that opened the message. It
 * dangles without that reader and without the bytes. Threads may share both the bytes and what was read, and no reader. */
static inline struct Point_reader Point_bind(struct Point_reader read, struct linsjoar_reader *reader) {
    read.fields.source.reader = reader;
    return read;
}

/* How many a list has, and one of them; past the last one an empty one. */
static inline uint32_t Point_list_len(const struct Point_list_reader *list) {
    return linsjoar_list_len(&list->elements);
}
static inline struct Point_reader Point_list_get(const struct Point_list_reader *list, uint32_t index) {
    struct Point_reader value;
    if (linsjoar_list_get_struct(&list->elements, index, &value.fields) != LINSJOAR_OK)
        memset(&value.fields.fields, 0, sizeof value.fields.fields);
    return value;
}

/* x :Int32 */
static inline int32_t Point_get_x(const struct Point_reader *read) {
    return (int32_t)linsjoar_get_u32(&read->fields, 0);
}

/* y :Int32 */
static inline int32_t Point_get_y(const struct Point_reader *read) {
    return (int32_t)linsjoar_get_u32(&read->fields, 1);
}

/* The draft of a struct that is to be added: whose fields have their defaults, or what was read, with copies of all that
 * it points to. */
static inline struct Point_draft Point_new(void) {
    struct Point_draft draft;
    memset(&draft, 0, sizeof draft);
    return draft;
}
static inline LINSJOAR_CHECKED enum linsjoar_error Point_draft_of(const struct Point_reader *read, struct linsjoar_message *message, struct Point_draft *draft) {
    memset(draft, 0, sizeof *draft);
    return linsjoar_draft_of(&read->fields, message, draft->words, 1, NULL, 0);
}

/* Adds the struct of a draft to a message, or finishes the message with it as the root. */
static inline LINSJOAR_CHECKED enum linsjoar_error Point_add(struct linsjoar_message *message, const struct Point_draft *draft, struct Point_orphan *orphan) {
    return linsjoar_add_draft(message, draft->words, 1, (const uint64_t *)draft, 0, &orphan->word);
}
static inline LINSJOAR_CHECKED enum linsjoar_error Point_finish(struct linsjoar_message *message, const struct Point_draft *draft, size_t *len) {
    struct Point_orphan root;
    enum linsjoar_error error = Point_add(message, draft, &root);
    *len = 0;
    if (error == LINSJOAR_OK)
        error = linsjoar_message_set_root(message, root.word);
    return error == LINSJOAR_OK ? linsjoar_message_finish(message, len) : error;
}

/* Adds a list of structs: of an array of drafts, or of those that are pushed one by one, and are in the message's memory
 * until then. The latter begin as zeros. A list that is begun after another one is added before it. */
static inline LINSJOAR_CHECKED enum linsjoar_error Point_add_list(struct linsjoar_message *message, const struct Point_draft *drafts, size_t count, struct Point_list_orphan *orphan) {
    return linsjoar_add_draft_list(message, drafts, count, 1, 0, &orphan->word);
}
static inline LINSJOAR_CHECKED enum linsjoar_error Point_push(struct linsjoar_message *message, struct Point_drafts *drafts, const struct Point_draft *draft) {
    return linsjoar_push_draft(message, &drafts->drafts, draft, 8 * 1);
}
static inline LINSJOAR_CHECKED enum linsjoar_error Point_add_drafts(struct linsjoar_message *message, struct Point_drafts *drafts, struct Point_list_orphan *orphan) {
    return linsjoar_add_drafts(message, &drafts->drafts, 1, 0, &orphan->word);
}

static inline int32_t Point_draft_get_x(const struct Point_draft *draft) {
    return (int32_t)linsjoar_draft_u32(draft->words, 0);
}
static inline void Point_set_x(struct Point_draft *draft, int32_t value) {
    linsjoar_set_u32(draft->words, 0, (uint32_t)value);
}
static inline int32_t Point_draft_get_y(const struct Point_draft *draft) {
    return (int32_t)linsjoar_draft_u32(draft->words, 1);
}
static inline void Point_set_y(struct Point_draft *draft, int32_t value) {
    linsjoar_set_u32(draft->words, 1, (uint32_t)value);
}

/* Opens a framed message, and reads the Tree at its root: within the default limits, or within these. */
static inline LINSJOAR_CHECKED enum linsjoar_error Tree_root(const uint8_t *bytes, size_t len, struct linsjoar_reader *reader, struct Tree_reader *value) {
    return linsjoar_open_root(bytes, len, NULL, reader, &value->fields);
}
static inline LINSJOAR_CHECKED enum linsjoar_error Tree_root_with_options(const uint8_t *bytes, size_t len, const struct linsjoar_options *options, struct linsjoar_reader *reader, struct Tree_reader *value) {
    return linsjoar_open_root(bytes, len, options, reader, &value->fields);
}

/* Reads the Tree that a pointer points to, or a list of them. Null is an empty one. */
static inline LINSJOAR_CHECKED enum linsjoar_error Tree_read(const struct linsjoar_pointer_reader *pointer, struct Tree_reader *value) {
    return linsjoar_read_struct(pointer, &value->fields);
}
static inline LINSJOAR_CHECKED enum linsjoar_error Tree_list_read(const struct linsjoar_pointer_reader *pointer, struct Tree_list_reader *value) {
    return linsjoar_read_list(pointer, LINSJOAR_STRUCTS, &value->elements);
}

/* The same struct, counted in another reader, as each thread has one: a copy of the reader that opened the message. It
 * dangles without that reader and without the bytes. Threads may share both the bytes and what was read, and no reader. */
static inline struct Tree_reader Tree_bind(struct Tree_reader read, struct linsjoar_reader *reader) {
    read.fields.source.reader = reader;
    return read;
}

/* How many a list has, and one of them; past the last one an empty one. */
static inline uint32_t Tree_list_len(const struct Tree_list_reader *list) {
    return linsjoar_list_len(&list->elements);
}
static inline struct Tree_reader Tree_list_get(const struct Tree_list_reader *list, uint32_t index) {
    struct Tree_reader value;
    if (linsjoar_list_get_struct(&list->elements, index, &value.fields) != LINSJOAR_OK)
        memset(&value.fields.fields, 0, sizeof value.fields.fields);
    return value;
}

/* value :Int64 */
static inline int64_t Tree_get_value(const struct Tree_reader *read) {
    return (int64_t)linsjoar_get_u64(&read->fields, 0);
}

/* left :Tree */
static inline LINSJOAR_CHECKED enum linsjoar_error Tree_get_left(const struct Tree_reader *read, struct Tree_reader *value) {
    struct linsjoar_pointer_reader pointer = linsjoar_get_pointer(&read->fields, 0);
    return linsjoar_read_struct(&pointer, &value->fields);
}
static inline bool Tree_has_left(const struct Tree_reader *read) {
    return linsjoar_has_pointer(&read->fields, 0);
}

/* right :Tree */
static inline LINSJOAR_CHECKED enum linsjoar_error Tree_get_right(const struct Tree_reader *read, struct Tree_reader *value) {
    struct linsjoar_pointer_reader pointer = linsjoar_get_pointer(&read->fields, 1);
    return linsjoar_read_struct(&pointer, &value->fields);
}
static inline bool Tree_has_right(const struct Tree_reader *read) {
    return linsjoar_has_pointer(&read->fields, 1);
}

/* The draft of a struct that is to be added: whose fields have their defaults, or what was read, with copies of all that
 * it points to. */
static inline struct Tree_draft Tree_new(void) {
    struct Tree_draft draft;
    memset(&draft, 0, sizeof draft);
    return draft;
}
static inline LINSJOAR_CHECKED enum linsjoar_error Tree_draft_of(const struct Tree_reader *read, struct linsjoar_message *message, struct Tree_draft *draft) {
    memset(draft, 0, sizeof *draft);
    return linsjoar_draft_of(&read->fields, message, draft->words, 1, draft->orphans, 2);
}

/* Adds the struct of a draft to a message, or finishes the message with it as the root. */
static inline LINSJOAR_CHECKED enum linsjoar_error Tree_add(struct linsjoar_message *message, const struct Tree_draft *draft, struct Tree_orphan *orphan) {
    return linsjoar_add_draft(message, draft->words, 1, draft->orphans, 2, &orphan->word);
}
static inline LINSJOAR_CHECKED enum linsjoar_error Tree_finish(struct linsjoar_message *message, const struct Tree_draft *draft, size_t *len) {
    struct Tree_orphan root;
    enum linsjoar_error error = Tree_add(message, draft, &root);
    *len = 0;
    if (error == LINSJOAR_OK)
        error = linsjoar_message_set_root(message, root.word);
    return error == LINSJOAR_OK ? linsjoar_message_finish(message, len) : error;
}

/* Adds a list of structs: of an array of drafts, or of those that are pushed one by one, and are in the message's memory
 * until then. The latter begin as zeros. A list that is begun after another one is added before it. */
static inline LINSJOAR_CHECKED enum linsjoar_error Tree_add_list(struct linsjoar_message *message, const struct Tree_draft *drafts, size_t count, struct Tree_list_orphan *orphan) {
    return linsjoar_add_draft_list(message, drafts, count, 1, 2, &orphan->word);
}
static inline LINSJOAR_CHECKED enum linsjoar_error Tree_push(struct linsjoar_message *message, struct Tree_drafts *drafts, const struct Tree_draft *draft) {
    return linsjoar_push_draft(message, &drafts->drafts, draft, 8 * 3);
}
static inline LINSJOAR_CHECKED enum linsjoar_error Tree_add_drafts(struct linsjoar_message *message, struct Tree_drafts *drafts, struct Tree_list_orphan *orphan) {
    return linsjoar_add_drafts(message, &drafts->drafts, 1, 2, &orphan->word);
}

static inline int64_t Tree_draft_get_value(const struct Tree_draft *draft) {
    return (int64_t)linsjoar_draft_u64(draft->words, 0);
}
static inline void Tree_set_value(struct Tree_draft *draft, int64_t value) {
    linsjoar_set_u64(draft->words, 0, (uint64_t)value);
}
static inline struct Tree_orphan Tree_draft_get_left(const struct Tree_draft *draft) {
    struct Tree_orphan orphan;
    orphan.word = draft->orphans[0];
    return orphan;
}
static inline void Tree_set_left(struct Tree_draft *draft, struct Tree_orphan orphan) {
    draft->orphans[0] = orphan.word;
}
static inline LINSJOAR_CHECKED enum linsjoar_error Tree_copy_left(const struct Tree_reader *read, struct linsjoar_message *message, struct Tree_draft *draft) {
    struct linsjoar_pointer_reader pointer = linsjoar_get_pointer(&read->fields, 0);
    struct Tree_orphan orphan;
    enum linsjoar_error error = linsjoar_add_copy_of(message, &pointer, &orphan.word);
    if (error == LINSJOAR_OK)
        Tree_set_left(draft, orphan);
    return error;
}
static inline struct Tree_orphan Tree_draft_get_right(const struct Tree_draft *draft) {
    struct Tree_orphan orphan;
    orphan.word = draft->orphans[1];
    return orphan;
}
static inline void Tree_set_right(struct Tree_draft *draft, struct Tree_orphan orphan) {
    draft->orphans[1] = orphan.word;
}
static inline LINSJOAR_CHECKED enum linsjoar_error Tree_copy_right(const struct Tree_reader *read, struct linsjoar_message *message, struct Tree_draft *draft) {
    struct linsjoar_pointer_reader pointer = linsjoar_get_pointer(&read->fields, 1);
    struct Tree_orphan orphan;
    enum linsjoar_error error = linsjoar_add_copy_of(message, &pointer, &orphan.word);
    if (error == LINSJOAR_OK)
        Tree_set_right(draft, orphan);
    return error;
}

static const uint32_t sample_limit = UINT32_C(1000);

static const uint8_t sample_corner_constant[24] = {
    0, 0, 0, 0, 2, 0, 0, 0,
    0, 0, 0, 0, 1, 0, 0, 0,
    128, 2, 0, 0, 224, 1, 0, 0,
};
static inline LINSJOAR_CHECKED enum linsjoar_error sample_get_corner(struct Point_reader *value) {
    struct linsjoar_pointer_reader pointer = linsjoar_constant(sample_corner_constant, sizeof sample_corner_constant);
    return linsjoar_read_struct(&pointer, &value->fields);
}

/* Opens a framed message, and reads the Sample at its root: within the default limits, or within these. */
static inline LINSJOAR_CHECKED enum linsjoar_error Sample_root(const uint8_t *bytes, size_t len, struct linsjoar_reader *reader, struct Sample_reader *value) {
    return linsjoar_open_root(bytes, len, NULL, reader, &value->fields);
}
static inline LINSJOAR_CHECKED enum linsjoar_error Sample_root_with_options(const uint8_t *bytes, size_t len, const struct linsjoar_options *options, struct linsjoar_reader *reader, struct Sample_reader *value) {
    return linsjoar_open_root(bytes, len, options, reader, &value->fields);
}

/* Reads the Sample that a pointer points to, or a list of them. Null is an empty one. */
static inline LINSJOAR_CHECKED enum linsjoar_error Sample_read(const struct linsjoar_pointer_reader *pointer, struct Sample_reader *value) {
    return linsjoar_read_struct(pointer, &value->fields);
}
static inline LINSJOAR_CHECKED enum linsjoar_error Sample_list_read(const struct linsjoar_pointer_reader *pointer, struct Sample_list_reader *value) {
    return linsjoar_read_list(pointer, LINSJOAR_STRUCTS, &value->elements);
}

/* The same struct, counted in another reader, as each thread has one: a copy of the reader that opened the message. It
 * dangles without that reader and without the bytes. Threads may share both the bytes and what was read, and no reader. */
static inline struct Sample_reader Sample_bind(struct Sample_reader read, struct linsjoar_reader *reader) {
    read.fields.source.reader = reader;
    return read;
}

/* How many a list has, and one of them; past the last one an empty one. */
static inline uint32_t Sample_list_len(const struct Sample_list_reader *list) {
    return linsjoar_list_len(&list->elements);
}
static inline struct Sample_reader Sample_list_get(const struct Sample_list_reader *list, uint32_t index) {
    struct Sample_reader value;
    if (linsjoar_list_get_struct(&list->elements, index, &value.fields) != LINSJOAR_OK)
        memset(&value.fields.fields, 0, sizeof value.fields.fields);
    return value;
}

/* Which member of the union is set, and its number, also where a newer schema has it. */
static inline uint16_t Sample_get_which_number(const struct Sample_reader *read) {
    return linsjoar_get_u16(&read->fields, 7);
}
static inline enum Sample_which Sample_which(const struct Sample_reader *read) {
    return Sample_which_of_number(Sample_get_which_number(read));
}

/* count :UInt16
 * How many there are. */
static inline uint16_t Sample_get_count(const struct Sample_reader *read) {
    return linsjoar_get_u16(&read->fields, 0);
}

/* balance :Int32 */
static inline int32_t Sample_get_balance(const struct Sample_reader *read) {
    return (int32_t)(linsjoar_get_u32(&read->fields, 1) ^ UINT32_C(4294967291));
}

/* isReady :Bool */
static inline bool Sample_get_isReady(const struct Sample_reader *read) {
    return linsjoar_get_bool(&read->fields, 16);
}

/* title :Text */
static inline LINSJOAR_CHECKED enum linsjoar_error Sample_get_title(const struct Sample_reader *read, struct linsjoar_text_reader *value) {
    struct linsjoar_pointer_reader pointer = linsjoar_get_pointer(&read->fields, 0);
    return linsjoar_read_text(&pointer, value);
}
static inline bool Sample_has_title(const struct Sample_reader *read) {
    return linsjoar_has_pointer(&read->fields, 0);
}

/* payload :Data */
static inline LINSJOAR_CHECKED enum linsjoar_error Sample_get_payload(const struct Sample_reader *read, struct linsjoar_data_reader *value) {
    struct linsjoar_pointer_reader pointer = linsjoar_get_pointer(&read->fields, 1);
    return linsjoar_read_data(&pointer, value);
}
static inline bool Sample_has_payload(const struct Sample_reader *read) {
    return linsjoar_has_pointer(&read->fields, 1);
}

/* points :List(Point) */
static inline LINSJOAR_CHECKED enum linsjoar_error Sample_get_points(const struct Sample_reader *read, struct Point_list_reader *value) {
    struct linsjoar_pointer_reader pointer = linsjoar_get_pointer(&read->fields, 2);
    return linsjoar_read_list(&pointer, LINSJOAR_STRUCTS, &value->elements);
}
static inline bool Sample_has_points(const struct Sample_reader *read) {
    return linsjoar_has_pointer(&read->fields, 2);
}

/* numbers :List(UInt32) */
static inline LINSJOAR_CHECKED enum linsjoar_error Sample_get_numbers(const struct Sample_reader *read, struct linsjoar_u32_list_reader *value) {
    struct linsjoar_pointer_reader pointer = linsjoar_get_pointer(&read->fields, 3);
    return linsjoar_read_list(&pointer, LINSJOAR_FOUR_BYTES, &value->elements);
}
static inline bool Sample_has_numbers(const struct Sample_reader *read) {
    return linsjoar_has_pointer(&read->fields, 3);
}

/* origin :Point */
static inline LINSJOAR_CHECKED enum linsjoar_error Sample_get_origin(const struct Sample_reader *read, struct Point_reader *value) {
    struct linsjoar_pointer_reader pointer = linsjoar_get_pointer(&read->fields, 4);
    return linsjoar_read_struct(&pointer, &value->fields);
}
static inline bool Sample_has_origin(const struct Sample_reader *read) {
    return linsjoar_has_pointer(&read->fields, 4);
}

/* color :Color */
static inline enum Color Sample_get_color(const struct Sample_reader *read) {
    return Color_of_number(linsjoar_get_u16(&read->fields, 4));
}
static inline uint16_t Sample_get_color_number(const struct Sample_reader *read) {
    return linsjoar_get_u16(&read->fields, 4);
}

/* size :UInt32 */
static inline uint32_t Sample_get_size(const struct Sample_reader *read) {
    return linsjoar_get_u32(&read->fields, 4);
}

/* label :Text */
static inline LINSJOAR_CHECKED enum linsjoar_error Sample_get_label(const struct Sample_reader *read, struct linsjoar_text_reader *value) {
    struct linsjoar_pointer_reader pointer = linsjoar_get_pointer(&read->fields, 5);
    return linsjoar_read_text(&pointer, value);
}
static inline bool Sample_has_label(const struct Sample_reader *read) {
    return linsjoar_has_pointer(&read->fields, 5);
}

/* ratio :Float64 */
static inline double Sample_get_ratio(const struct Sample_reader *read) {
    return linsjoar_double_of_bits(linsjoar_get_u64(&read->fields, 3) ^ UINT64_C(4602678819172646912));
}

static const uint8_t Sample_note_default[24] = {
    0, 0, 0, 0, 2, 0, 0, 0,
    1, 0, 0, 0, 42, 0, 0, 0,
    110, 111, 110, 101, 0, 0, 0, 0,
};
/* note :Text */
static inline LINSJOAR_CHECKED enum linsjoar_error Sample_get_note(const struct Sample_reader *read, struct linsjoar_text_reader *value) {
    struct linsjoar_pointer_reader pointer = linsjoar_get_pointer_or(&read->fields, 6, Sample_note_default, sizeof Sample_note_default);
    return linsjoar_read_text(&pointer, value);
}
static inline bool Sample_has_note(const struct Sample_reader *read) {
    return linsjoar_has_pointer(&read->fields, 6);
}

static const uint8_t Sample_target_default[24] = {
    0, 0, 0, 0, 2, 0, 0, 0,
    0, 0, 0, 0, 1, 0, 0, 0,
    3, 0, 0, 0, 4, 0, 0, 0,
};
/* target :Point */
static inline LINSJOAR_CHECKED enum linsjoar_error Sample_get_target(const struct Sample_reader *read, struct Point_reader *value) {
    struct linsjoar_pointer_reader pointer = linsjoar_get_pointer_or(&read->fields, 7, Sample_target_default, sizeof Sample_target_default);
    return linsjoar_read_struct(&pointer, &value->fields);
}
static inline bool Sample_has_target(const struct Sample_reader *read) {
    return linsjoar_has_pointer(&read->fields, 7);
}

/* anything :AnyPointer */
static inline struct linsjoar_pointer_reader Sample_get_anything(const struct Sample_reader *read) {
    return linsjoar_get_pointer(&read->fields, 8);
}
static inline bool Sample_has_anything(const struct Sample_reader *read) {
    return linsjoar_has_pointer(&read->fields, 8);
}

/* The draft of a struct that is to be added: whose fields have their defaults, or what was read, with copies of all that
 * it points to. */
static inline struct Sample_draft Sample_new(void) {
    struct Sample_draft draft;
    memset(&draft, 0, sizeof draft);
    return draft;
}
static inline LINSJOAR_CHECKED enum linsjoar_error Sample_draft_of(const struct Sample_reader *read, struct linsjoar_message *message, struct Sample_draft *draft) {
    memset(draft, 0, sizeof *draft);
    return linsjoar_draft_of(&read->fields, message, draft->words, 4, draft->orphans, 9);
}

/* Adds the struct of a draft to a message, or finishes the message with it as the root. */
static inline LINSJOAR_CHECKED enum linsjoar_error Sample_add(struct linsjoar_message *message, const struct Sample_draft *draft, struct Sample_orphan *orphan) {
    return linsjoar_add_draft(message, draft->words, 4, draft->orphans, 9, &orphan->word);
}
static inline LINSJOAR_CHECKED enum linsjoar_error Sample_finish(struct linsjoar_message *message, const struct Sample_draft *draft, size_t *len) {
    struct Sample_orphan root;
    enum linsjoar_error error = Sample_add(message, draft, &root);
    *len = 0;
    if (error == LINSJOAR_OK)
        error = linsjoar_message_set_root(message, root.word);
    return error == LINSJOAR_OK ? linsjoar_message_finish(message, len) : error;
}

/* Adds a list of structs: of an array of drafts, or of those that are pushed one by one, and are in the message's memory
 * until then. The latter begin as zeros. A list that is begun after another one is added before it. */
static inline LINSJOAR_CHECKED enum linsjoar_error Sample_add_list(struct linsjoar_message *message, const struct Sample_draft *drafts, size_t count, struct Sample_list_orphan *orphan) {
    return linsjoar_add_draft_list(message, drafts, count, 4, 9, &orphan->word);
}
static inline LINSJOAR_CHECKED enum linsjoar_error Sample_push(struct linsjoar_message *message, struct Sample_drafts *drafts, const struct Sample_draft *draft) {
    return linsjoar_push_draft(message, &drafts->drafts, draft, 8 * 13);
}
static inline LINSJOAR_CHECKED enum linsjoar_error Sample_add_drafts(struct linsjoar_message *message, struct Sample_drafts *drafts, struct Sample_list_orphan *orphan) {
    return linsjoar_add_drafts(message, &drafts->drafts, 4, 9, &orphan->word);
}

static inline enum Sample_which Sample_draft_which(const struct Sample_draft *draft) {
    return Sample_which_of_number(linsjoar_draft_u16(draft->words, 7));
}

static inline uint16_t Sample_draft_get_count(const struct Sample_draft *draft) {
    return linsjoar_draft_u16(draft->words, 0);
}
static inline void Sample_set_count(struct Sample_draft *draft, uint16_t value) {
    linsjoar_set_u16(draft->words, 0, (uint16_t)value);
}
static inline int32_t Sample_draft_get_balance(const struct Sample_draft *draft) {
    return (int32_t)(linsjoar_draft_u32(draft->words, 1) ^ UINT32_C(4294967291));
}
static inline void Sample_set_balance(struct Sample_draft *draft, int32_t value) {
    linsjoar_set_u32(draft->words, 1, (uint32_t)((uint32_t)value ^ UINT32_C(4294967291)));
}
static inline bool Sample_draft_get_isReady(const struct Sample_draft *draft) {
    return linsjoar_draft_bool(draft->words, 16);
}
static inline void Sample_set_isReady(struct Sample_draft *draft, bool value) {
    linsjoar_set_bool(draft->words, 16, value);
}
static inline struct linsjoar_text_orphan Sample_draft_get_title(const struct Sample_draft *draft) {
    struct linsjoar_text_orphan orphan;
    orphan.word = draft->orphans[0];
    return orphan;
}
static inline void Sample_set_title(struct Sample_draft *draft, struct linsjoar_text_orphan orphan) {
    draft->orphans[0] = orphan.word;
}
static inline LINSJOAR_CHECKED enum linsjoar_error Sample_copy_title(const struct Sample_reader *read, struct linsjoar_message *message, struct Sample_draft *draft) {
    struct linsjoar_pointer_reader pointer = linsjoar_get_pointer(&read->fields, 0);
    struct linsjoar_text_orphan orphan;
    enum linsjoar_error error = linsjoar_add_copy_of(message, &pointer, &orphan.word);
    if (error == LINSJOAR_OK)
        Sample_set_title(draft, orphan);
    return error;
}
static inline struct linsjoar_data_orphan Sample_draft_get_payload(const struct Sample_draft *draft) {
    struct linsjoar_data_orphan orphan;
    orphan.word = draft->orphans[1];
    return orphan;
}
static inline void Sample_set_payload(struct Sample_draft *draft, struct linsjoar_data_orphan orphan) {
    draft->orphans[1] = orphan.word;
}
static inline LINSJOAR_CHECKED enum linsjoar_error Sample_copy_payload(const struct Sample_reader *read, struct linsjoar_message *message, struct Sample_draft *draft) {
    struct linsjoar_pointer_reader pointer = linsjoar_get_pointer(&read->fields, 1);
    struct linsjoar_data_orphan orphan;
    enum linsjoar_error error = linsjoar_add_copy_of(message, &pointer, &orphan.word);
    if (error == LINSJOAR_OK)
        Sample_set_payload(draft, orphan);
    return error;
}
static inline struct Point_list_orphan Sample_draft_get_points(const struct Sample_draft *draft) {
    struct Point_list_orphan orphan;
    orphan.word = draft->orphans[2];
    return orphan;
}
static inline void Sample_set_points(struct Sample_draft *draft, struct Point_list_orphan orphan) {
    draft->orphans[2] = orphan.word;
}
static inline LINSJOAR_CHECKED enum linsjoar_error Sample_copy_points(const struct Sample_reader *read, struct linsjoar_message *message, struct Sample_draft *draft) {
    struct linsjoar_pointer_reader pointer = linsjoar_get_pointer(&read->fields, 2);
    struct Point_list_orphan orphan;
    enum linsjoar_error error = linsjoar_add_copy_of(message, &pointer, &orphan.word);
    if (error == LINSJOAR_OK)
        Sample_set_points(draft, orphan);
    return error;
}
static inline struct linsjoar_u32_list_orphan Sample_draft_get_numbers(const struct Sample_draft *draft) {
    struct linsjoar_u32_list_orphan orphan;
    orphan.word = draft->orphans[3];
    return orphan;
}
static inline void Sample_set_numbers(struct Sample_draft *draft, struct linsjoar_u32_list_orphan orphan) {
    draft->orphans[3] = orphan.word;
}
static inline LINSJOAR_CHECKED enum linsjoar_error Sample_copy_numbers(const struct Sample_reader *read, struct linsjoar_message *message, struct Sample_draft *draft) {
    struct linsjoar_pointer_reader pointer = linsjoar_get_pointer(&read->fields, 3);
    struct linsjoar_u32_list_orphan orphan;
    enum linsjoar_error error = linsjoar_add_copy_of(message, &pointer, &orphan.word);
    if (error == LINSJOAR_OK)
        Sample_set_numbers(draft, orphan);
    return error;
}
static inline struct Point_orphan Sample_draft_get_origin(const struct Sample_draft *draft) {
    struct Point_orphan orphan;
    orphan.word = draft->orphans[4];
    return orphan;
}
static inline void Sample_set_origin(struct Sample_draft *draft, struct Point_orphan orphan) {
    draft->orphans[4] = orphan.word;
}
static inline LINSJOAR_CHECKED enum linsjoar_error Sample_copy_origin(const struct Sample_reader *read, struct linsjoar_message *message, struct Sample_draft *draft) {
    struct linsjoar_pointer_reader pointer = linsjoar_get_pointer(&read->fields, 4);
    struct Point_orphan orphan;
    enum linsjoar_error error = linsjoar_add_copy_of(message, &pointer, &orphan.word);
    if (error == LINSJOAR_OK)
        Sample_set_origin(draft, orphan);
    return error;
}
static inline enum Color Sample_draft_get_color(const struct Sample_draft *draft) {
    return Color_of_number(linsjoar_draft_u16(draft->words, 4));
}
static inline void Sample_set_color(struct Sample_draft *draft, enum Color value) {
    linsjoar_set_u16(draft->words, 4, (uint16_t)value);
}
static inline uint16_t Sample_draft_get_color_number(const struct Sample_draft *draft) {
    return linsjoar_draft_u16(draft->words, 4);
}
static inline void Sample_set_color_number(struct Sample_draft *draft, uint16_t value) {
    linsjoar_set_u16(draft->words, 4, (uint16_t)value);
}
static inline void Sample_set_nothing(struct Sample_draft *draft) {
    linsjoar_set_u16(draft->words, 7, 0);
}
static inline uint32_t Sample_draft_get_size(const struct Sample_draft *draft) {
    return linsjoar_draft_u32(draft->words, 4);
}
static inline void Sample_set_size(struct Sample_draft *draft, uint32_t value) {
    linsjoar_set_u16(draft->words, 7, 1);
    linsjoar_set_u32(draft->words, 4, (uint32_t)value);
}
static inline struct linsjoar_text_orphan Sample_draft_get_label(const struct Sample_draft *draft) {
    struct linsjoar_text_orphan orphan;
    orphan.word = draft->orphans[5];
    return orphan;
}
static inline void Sample_set_label(struct Sample_draft *draft, struct linsjoar_text_orphan orphan) {
    linsjoar_set_u16(draft->words, 7, 2);
    draft->orphans[5] = orphan.word;
}
static inline LINSJOAR_CHECKED enum linsjoar_error Sample_copy_label(const struct Sample_reader *read, struct linsjoar_message *message, struct Sample_draft *draft) {
    struct linsjoar_pointer_reader pointer = linsjoar_get_pointer(&read->fields, 5);
    struct linsjoar_text_orphan orphan;
    enum linsjoar_error error = linsjoar_add_copy_of(message, &pointer, &orphan.word);
    if (error == LINSJOAR_OK)
        Sample_set_label(draft, orphan);
    return error;
}
static inline double Sample_draft_get_ratio(const struct Sample_draft *draft) {
    return linsjoar_double_of_bits(linsjoar_draft_u64(draft->words, 3) ^ UINT64_C(4602678819172646912));
}
static inline void Sample_set_ratio(struct Sample_draft *draft, double value) {
    linsjoar_set_u64(draft->words, 3, (uint64_t)((uint64_t)linsjoar_bits_of_double(value) ^ UINT64_C(4602678819172646912)));
}
static inline struct linsjoar_text_orphan Sample_draft_get_note(const struct Sample_draft *draft) {
    struct linsjoar_text_orphan orphan;
    orphan.word = draft->orphans[6];
    return orphan;
}
static inline void Sample_set_note(struct Sample_draft *draft, struct linsjoar_text_orphan orphan) {
    draft->orphans[6] = orphan.word;
}
static inline LINSJOAR_CHECKED enum linsjoar_error Sample_copy_note(const struct Sample_reader *read, struct linsjoar_message *message, struct Sample_draft *draft) {
    struct linsjoar_pointer_reader pointer = linsjoar_get_pointer(&read->fields, 6);
    struct linsjoar_text_orphan orphan;
    enum linsjoar_error error = linsjoar_add_copy_of(message, &pointer, &orphan.word);
    if (error == LINSJOAR_OK)
        Sample_set_note(draft, orphan);
    return error;
}
static inline struct Point_orphan Sample_draft_get_target(const struct Sample_draft *draft) {
    struct Point_orphan orphan;
    orphan.word = draft->orphans[7];
    return orphan;
}
static inline void Sample_set_target(struct Sample_draft *draft, struct Point_orphan orphan) {
    draft->orphans[7] = orphan.word;
}
static inline LINSJOAR_CHECKED enum linsjoar_error Sample_copy_target(const struct Sample_reader *read, struct linsjoar_message *message, struct Sample_draft *draft) {
    struct linsjoar_pointer_reader pointer = linsjoar_get_pointer(&read->fields, 7);
    struct Point_orphan orphan;
    enum linsjoar_error error = linsjoar_add_copy_of(message, &pointer, &orphan.word);
    if (error == LINSJOAR_OK)
        Sample_set_target(draft, orphan);
    return error;
}
static inline struct linsjoar_pointer_orphan Sample_draft_get_anything(const struct Sample_draft *draft) {
    struct linsjoar_pointer_orphan orphan;
    orphan.word = draft->orphans[8];
    return orphan;
}
static inline void Sample_set_anything(struct Sample_draft *draft, struct linsjoar_pointer_orphan orphan) {
    draft->orphans[8] = orphan.word;
}
static inline LINSJOAR_CHECKED enum linsjoar_error Sample_copy_anything(const struct Sample_reader *read, struct linsjoar_message *message, struct Sample_draft *draft) {
    struct linsjoar_pointer_reader pointer = linsjoar_get_pointer(&read->fields, 8);
    struct linsjoar_pointer_orphan orphan;
    enum linsjoar_error error = linsjoar_add_copy_of(message, &pointer, &orphan.word);
    if (error == LINSJOAR_OK)
        Sample_set_anything(draft, orphan);
    return error;
}

/* width :UInt16 */
static inline uint16_t Sample_window_get_width(const struct Sample_reader *read) {
    return linsjoar_get_u16(&read->fields, 5);
}

/* height :UInt16 */
static inline uint16_t Sample_window_get_height(const struct Sample_reader *read) {
    return linsjoar_get_u16(&read->fields, 6);
}

static inline uint16_t Sample_window_draft_get_width(const struct Sample_draft *draft) {
    return linsjoar_draft_u16(draft->words, 5);
}
static inline void Sample_window_set_width(struct Sample_draft *draft, uint16_t value) {
    linsjoar_set_u16(draft->words, 5, (uint16_t)value);
}
static inline uint16_t Sample_window_draft_get_height(const struct Sample_draft *draft) {
    return linsjoar_draft_u16(draft->words, 6);
}
static inline void Sample_window_set_height(struct Sample_draft *draft, uint16_t value) {
    linsjoar_set_u16(draft->words, 6, (uint16_t)value);
}

/* Opens a framed message, and reads the Shape at its root: within the default limits, or within these. */
static inline LINSJOAR_CHECKED enum linsjoar_error Shape_root(const uint8_t *bytes, size_t len, struct linsjoar_reader *reader, struct Shape_reader *value) {
    return linsjoar_open_root(bytes, len, NULL, reader, &value->fields);
}
static inline LINSJOAR_CHECKED enum linsjoar_error Shape_root_with_options(const uint8_t *bytes, size_t len, const struct linsjoar_options *options, struct linsjoar_reader *reader, struct Shape_reader *value) {
    return linsjoar_open_root(bytes, len, options, reader, &value->fields);
}

/* Reads the Shape that a pointer points to, or a list of them. Null is an empty one. */
static inline LINSJOAR_CHECKED enum linsjoar_error Shape_read(const struct linsjoar_pointer_reader *pointer, struct Shape_reader *value) {
    return linsjoar_read_struct(pointer, &value->fields);
}
static inline LINSJOAR_CHECKED enum linsjoar_error Shape_list_read(const struct linsjoar_pointer_reader *pointer, struct Shape_list_reader *value) {
    return linsjoar_read_list(pointer, LINSJOAR_STRUCTS, &value->elements);
}

/* The same struct, counted in another reader, as each thread has one: a copy of the reader that opened the message. It
 * dangles without that reader and without the bytes. Threads may share both the bytes and what was read, and no reader. */
static inline struct Shape_reader Shape_bind(struct Shape_reader read, struct linsjoar_reader *reader) {
    read.fields.source.reader = reader;
    return read;
}

/* How many a list has, and one of them; past the last one an empty one. */
static inline uint32_t Shape_list_len(const struct Shape_list_reader *list) {
    return linsjoar_list_len(&list->elements);
}
static inline struct Shape_reader Shape_list_get(const struct Shape_list_reader *list, uint32_t index) {
    struct Shape_reader value;
    if (linsjoar_list_get_struct(&list->elements, index, &value.fields) != LINSJOAR_OK)
        memset(&value.fields.fields, 0, sizeof value.fields.fields);
    return value;
}

/* Which member of the union is set, and its number, also where a newer schema has it. */
static inline uint16_t Shape_get_which_number(const struct Shape_reader *read) {
    return linsjoar_get_u16(&read->fields, 4);
}
static inline enum Shape_which Shape_which(const struct Shape_reader *read) {
    return Shape_which_of_number(Shape_get_which_number(read));
}

/* radius :Float64 */
static inline double Shape_get_radius(const struct Shape_reader *read) {
    return linsjoar_double_of_bits(linsjoar_get_u64(&read->fields, 0));
}

/* The draft of a struct that is to be added: whose fields have their defaults, or what was read, with copies of all that
 * it points to. */
static inline struct Shape_draft Shape_new(void) {
    struct Shape_draft draft;
    memset(&draft, 0, sizeof draft);
    return draft;
}
static inline LINSJOAR_CHECKED enum linsjoar_error Shape_draft_of(const struct Shape_reader *read, struct linsjoar_message *message, struct Shape_draft *draft) {
    memset(draft, 0, sizeof *draft);
    return linsjoar_draft_of(&read->fields, message, draft->words, 2, draft->orphans, 1);
}

/* Adds the struct of a draft to a message, or finishes the message with it as the root. */
static inline LINSJOAR_CHECKED enum linsjoar_error Shape_add(struct linsjoar_message *message, const struct Shape_draft *draft, struct Shape_orphan *orphan) {
    return linsjoar_add_draft(message, draft->words, 2, draft->orphans, 1, &orphan->word);
}
static inline LINSJOAR_CHECKED enum linsjoar_error Shape_finish(struct linsjoar_message *message, const struct Shape_draft *draft, size_t *len) {
    struct Shape_orphan root;
    enum linsjoar_error error = Shape_add(message, draft, &root);
    *len = 0;
    if (error == LINSJOAR_OK)
        error = linsjoar_message_set_root(message, root.word);
    return error == LINSJOAR_OK ? linsjoar_message_finish(message, len) : error;
}

/* Adds a list of structs: of an array of drafts, or of those that are pushed one by one, and are in the message's memory
 * until then. The latter begin as zeros. A list that is begun after another one is added before it. */
static inline LINSJOAR_CHECKED enum linsjoar_error Shape_add_list(struct linsjoar_message *message, const struct Shape_draft *drafts, size_t count, struct Shape_list_orphan *orphan) {
    return linsjoar_add_draft_list(message, drafts, count, 2, 1, &orphan->word);
}
static inline LINSJOAR_CHECKED enum linsjoar_error Shape_push(struct linsjoar_message *message, struct Shape_drafts *drafts, const struct Shape_draft *draft) {
    return linsjoar_push_draft(message, &drafts->drafts, draft, 8 * 3);
}
static inline LINSJOAR_CHECKED enum linsjoar_error Shape_add_drafts(struct linsjoar_message *message, struct Shape_drafts *drafts, struct Shape_list_orphan *orphan) {
    return linsjoar_add_drafts(message, &drafts->drafts, 2, 1, &orphan->word);
}

static inline enum Shape_which Shape_draft_which(const struct Shape_draft *draft) {
    return Shape_which_of_number(linsjoar_draft_u16(draft->words, 4));
}

static inline double Shape_draft_get_radius(const struct Shape_draft *draft) {
    return linsjoar_double_of_bits(linsjoar_draft_u64(draft->words, 0));
}
static inline void Shape_set_radius(struct Shape_draft *draft, double value) {
    linsjoar_set_u16(draft->words, 4, 0);
    linsjoar_set_u64(draft->words, 0, (uint64_t)linsjoar_bits_of_double(value));
}

/* width :UInt32 */
static inline uint32_t Shape_rectangle_get_width(const struct Shape_reader *read) {
    return linsjoar_get_u32(&read->fields, 0);
}

/* height :UInt32 */
static inline uint32_t Shape_rectangle_get_height(const struct Shape_reader *read) {
    return linsjoar_get_u32(&read->fields, 1);
}

/* isFilled :Bool */
static inline bool Shape_rectangle_get_isFilled(const struct Shape_reader *read) {
    return linsjoar_get_bool(&read->fields, 80);
}

/* label :Text */
static inline LINSJOAR_CHECKED enum linsjoar_error Shape_rectangle_get_label(const struct Shape_reader *read, struct linsjoar_text_reader *value) {
    struct linsjoar_pointer_reader pointer = linsjoar_get_pointer(&read->fields, 0);
    return linsjoar_read_text(&pointer, value);
}
static inline bool Shape_rectangle_has_label(const struct Shape_reader *read) {
    return linsjoar_has_pointer(&read->fields, 0);
}

/* Selects a group of a union, and clears its fields. */
static inline void Shape_rectangle_init(struct Shape_draft *draft) {
    linsjoar_set_u16(draft->words, 4, 1);
    linsjoar_set_u32(draft->words, 0, 0);
    linsjoar_set_u32(draft->words, 1, 0);
    linsjoar_set_bool(draft->words, 80, 0);
    draft->orphans[0] = LINSJOAR_NULL_ORPHAN;
}

static inline uint32_t Shape_rectangle_draft_get_width(const struct Shape_draft *draft) {
    return linsjoar_draft_u32(draft->words, 0);
}
static inline void Shape_rectangle_set_width(struct Shape_draft *draft, uint32_t value) {
    if (linsjoar_draft_u16(draft->words, 4) != 1)
        Shape_rectangle_init(draft);
    linsjoar_set_u32(draft->words, 0, (uint32_t)value);
}
static inline uint32_t Shape_rectangle_draft_get_height(const struct Shape_draft *draft) {
    return linsjoar_draft_u32(draft->words, 1);
}
static inline void Shape_rectangle_set_height(struct Shape_draft *draft, uint32_t value) {
    if (linsjoar_draft_u16(draft->words, 4) != 1)
        Shape_rectangle_init(draft);
    linsjoar_set_u32(draft->words, 1, (uint32_t)value);
}
static inline bool Shape_rectangle_draft_get_isFilled(const struct Shape_draft *draft) {
    return linsjoar_draft_bool(draft->words, 80);
}
static inline void Shape_rectangle_set_isFilled(struct Shape_draft *draft, bool value) {
    if (linsjoar_draft_u16(draft->words, 4) != 1)
        Shape_rectangle_init(draft);
    linsjoar_set_bool(draft->words, 80, value);
}
static inline struct linsjoar_text_orphan Shape_rectangle_draft_get_label(const struct Shape_draft *draft) {
    struct linsjoar_text_orphan orphan;
    orphan.word = draft->orphans[0];
    return orphan;
}
static inline void Shape_rectangle_set_label(struct Shape_draft *draft, struct linsjoar_text_orphan orphan) {
    if (linsjoar_draft_u16(draft->words, 4) != 1)
        Shape_rectangle_init(draft);
    draft->orphans[0] = orphan.word;
}
static inline LINSJOAR_CHECKED enum linsjoar_error Shape_rectangle_copy_label(const struct Shape_reader *read, struct linsjoar_message *message, struct Shape_draft *draft) {
    struct linsjoar_pointer_reader pointer = linsjoar_get_pointer(&read->fields, 0);
    struct linsjoar_text_orphan orphan;
    enum linsjoar_error error = linsjoar_add_copy_of(message, &pointer, &orphan.word);
    if (error == LINSJOAR_OK)
        Shape_rectangle_set_label(draft, orphan);
    return error;
}

/* Opens a framed message, and reads the Palette at its root: within the default limits, or within these. */
static inline LINSJOAR_CHECKED enum linsjoar_error Palette_root(const uint8_t *bytes, size_t len, struct linsjoar_reader *reader, struct Palette_reader *value) {
    return linsjoar_open_root(bytes, len, NULL, reader, &value->fields);
}
static inline LINSJOAR_CHECKED enum linsjoar_error Palette_root_with_options(const uint8_t *bytes, size_t len, const struct linsjoar_options *options, struct linsjoar_reader *reader, struct Palette_reader *value) {
    return linsjoar_open_root(bytes, len, options, reader, &value->fields);
}

/* Reads the Palette that a pointer points to, or a list of them. Null is an empty one. */
static inline LINSJOAR_CHECKED enum linsjoar_error Palette_read(const struct linsjoar_pointer_reader *pointer, struct Palette_reader *value) {
    return linsjoar_read_struct(pointer, &value->fields);
}
static inline LINSJOAR_CHECKED enum linsjoar_error Palette_list_read(const struct linsjoar_pointer_reader *pointer, struct Palette_list_reader *value) {
    return linsjoar_read_list(pointer, LINSJOAR_STRUCTS, &value->elements);
}

/* The same struct, counted in another reader, as each thread has one: a copy of the reader that opened the message. It
 * dangles without that reader and without the bytes. Threads may share both the bytes and what was read, and no reader. */
static inline struct Palette_reader Palette_bind(struct Palette_reader read, struct linsjoar_reader *reader) {
    read.fields.source.reader = reader;
    return read;
}

/* How many a list has, and one of them; past the last one an empty one. */
static inline uint32_t Palette_list_len(const struct Palette_list_reader *list) {
    return linsjoar_list_len(&list->elements);
}
static inline struct Palette_reader Palette_list_get(const struct Palette_list_reader *list, uint32_t index) {
    struct Palette_reader value;
    if (linsjoar_list_get_struct(&list->elements, index, &value.fields) != LINSJOAR_OK)
        memset(&value.fields.fields, 0, sizeof value.fields.fields);
    return value;
}

/* colors :List(Color) */
static inline LINSJOAR_CHECKED enum linsjoar_error Palette_get_colors(const struct Palette_reader *read, struct Color_list_reader *value) {
    struct linsjoar_pointer_reader pointer = linsjoar_get_pointer(&read->fields, 0);
    return linsjoar_read_list(&pointer, LINSJOAR_TWO_BYTES, &value->elements);
}
static inline bool Palette_has_colors(const struct Palette_reader *read) {
    return linsjoar_has_pointer(&read->fields, 0);
}

static const uint8_t Palette_names_default[32] = {
    0, 0, 0, 0, 3, 0, 0, 0,
    1, 0, 0, 0, 14, 0, 0, 0,
    1, 0, 0, 0, 42, 0, 0, 0,
    110, 111, 110, 101, 0, 0, 0, 0,
};
/* names :List(Text) */
static inline LINSJOAR_CHECKED enum linsjoar_error Palette_get_names(const struct Palette_reader *read, struct linsjoar_text_list_reader *value) {
    struct linsjoar_pointer_reader pointer = linsjoar_get_pointer_or(&read->fields, 1, Palette_names_default, sizeof Palette_names_default);
    return linsjoar_read_list(&pointer, LINSJOAR_POINTERS, &value->elements);
}
static inline bool Palette_has_names(const struct Palette_reader *read) {
    return linsjoar_has_pointer(&read->fields, 1);
}

/* The draft of a struct that is to be added: whose fields have their defaults, or what was read, with copies of all that
 * it points to. */
static inline struct Palette_draft Palette_new(void) {
    struct Palette_draft draft;
    memset(&draft, 0, sizeof draft);
    return draft;
}
static inline LINSJOAR_CHECKED enum linsjoar_error Palette_draft_of(const struct Palette_reader *read, struct linsjoar_message *message, struct Palette_draft *draft) {
    memset(draft, 0, sizeof *draft);
    return linsjoar_draft_of(&read->fields, message, NULL, 0, draft->orphans, 2);
}

/* Adds the struct of a draft to a message, or finishes the message with it as the root. */
static inline LINSJOAR_CHECKED enum linsjoar_error Palette_add(struct linsjoar_message *message, const struct Palette_draft *draft, struct Palette_orphan *orphan) {
    return linsjoar_add_draft(message, (const uint64_t *)draft, 0, draft->orphans, 2, &orphan->word);
}
static inline LINSJOAR_CHECKED enum linsjoar_error Palette_finish(struct linsjoar_message *message, const struct Palette_draft *draft, size_t *len) {
    struct Palette_orphan root;
    enum linsjoar_error error = Palette_add(message, draft, &root);
    *len = 0;
    if (error == LINSJOAR_OK)
        error = linsjoar_message_set_root(message, root.word);
    return error == LINSJOAR_OK ? linsjoar_message_finish(message, len) : error;
}

/* Adds a list of structs: of an array of drafts, or of those that are pushed one by one, and are in the message's memory
 * until then. The latter begin as zeros. A list that is begun after another one is added before it. */
static inline LINSJOAR_CHECKED enum linsjoar_error Palette_add_list(struct linsjoar_message *message, const struct Palette_draft *drafts, size_t count, struct Palette_list_orphan *orphan) {
    return linsjoar_add_draft_list(message, drafts, count, 0, 2, &orphan->word);
}
static inline LINSJOAR_CHECKED enum linsjoar_error Palette_push(struct linsjoar_message *message, struct Palette_drafts *drafts, const struct Palette_draft *draft) {
    return linsjoar_push_draft(message, &drafts->drafts, draft, 8 * 2);
}
static inline LINSJOAR_CHECKED enum linsjoar_error Palette_add_drafts(struct linsjoar_message *message, struct Palette_drafts *drafts, struct Palette_list_orphan *orphan) {
    return linsjoar_add_drafts(message, &drafts->drafts, 0, 2, &orphan->word);
}

static inline struct Color_list_orphan Palette_draft_get_colors(const struct Palette_draft *draft) {
    struct Color_list_orphan orphan;
    orphan.word = draft->orphans[0];
    return orphan;
}
static inline void Palette_set_colors(struct Palette_draft *draft, struct Color_list_orphan orphan) {
    draft->orphans[0] = orphan.word;
}
static inline LINSJOAR_CHECKED enum linsjoar_error Palette_copy_colors(const struct Palette_reader *read, struct linsjoar_message *message, struct Palette_draft *draft) {
    struct linsjoar_pointer_reader pointer = linsjoar_get_pointer(&read->fields, 0);
    struct Color_list_orphan orphan;
    enum linsjoar_error error = linsjoar_add_copy_of(message, &pointer, &orphan.word);
    if (error == LINSJOAR_OK)
        Palette_set_colors(draft, orphan);
    return error;
}
static inline struct linsjoar_text_list_orphan Palette_draft_get_names(const struct Palette_draft *draft) {
    struct linsjoar_text_list_orphan orphan;
    orphan.word = draft->orphans[1];
    return orphan;
}
static inline void Palette_set_names(struct Palette_draft *draft, struct linsjoar_text_list_orphan orphan) {
    draft->orphans[1] = orphan.word;
}
static inline LINSJOAR_CHECKED enum linsjoar_error Palette_copy_names(const struct Palette_reader *read, struct linsjoar_message *message, struct Palette_draft *draft) {
    struct linsjoar_pointer_reader pointer = linsjoar_get_pointer(&read->fields, 1);
    struct linsjoar_text_list_orphan orphan;
    enum linsjoar_error error = linsjoar_add_copy_of(message, &pointer, &orphan.word);
    if (error == LINSJOAR_OK)
        Palette_set_names(draft, orphan);
    return error;
}

#endif
