/* Types of `edges.capnp` for C, made by `capnpc-rattle`: change that file, and make them again.
 * linsjoar_types.h says how they are used. */
#ifndef LINSJOAR_EDGES_CAPNP_b7d0a1c2e3f40508_H
#define LINSJOAR_EDGES_CAPNP_b7d0a1c2e3f40508_H

#include "linsjoar_types.h"

#if LINSJOAR_VERSION != 1000
#error "this header needs Linsjoar 0.1.0: make it again with the capnpc-rattle of the version that is there"
#endif

/* Says that a comment of C * / ends, and / * begins, and names $Result, ${} and @type@.
 * 
 * With an empty line, and spaces at the end. */
enum OwnRank {
    OwnRank_below = 0,
    /* Of an enumerant. */
    OwnRank_last = 1,
    OwnRank_self = 2,
    OwnRank_notInSchema = 65535,
};

/* The enumerator of a number. */
static inline enum OwnRank OwnRank_of_number(uint16_t number) {
    return number < 3 ? (enum OwnRank)number : OwnRank_notInSchema;
}

struct OwnRank_list_reader {
    struct linsjoar_list_reader elements;
};
struct OwnRank_list_orphan {
    uint64_t word;
};

/* How many a list has, and one of them, as an enumerator and as a number; past the last one 0. */
static inline uint32_t OwnRank_list_len(const struct OwnRank_list_reader *list) {
    return linsjoar_list_len(&list->elements);
}
static inline uint16_t OwnRank_list_get_number(const struct OwnRank_list_reader *list, uint32_t index) {
    uint64_t number;
    enum linsjoar_error error = linsjoar_list_get_number(&list->elements, index, &number);
    return error == LINSJOAR_OK ? (uint16_t)number : 0;
}
static inline enum OwnRank OwnRank_list_get(const struct OwnRank_list_reader *list, uint32_t index) {
    return OwnRank_of_number(OwnRank_list_get_number(list, index));
}

/* Adds a list of enums, by their numbers. */
static inline LINSJOAR_CHECKED enum linsjoar_error OwnRank_add_list(struct linsjoar_message *message, const uint16_t *numbers, size_t count, struct OwnRank_list_orphan *orphan) {
    return linsjoar_add_number_bytes(message, LINSJOAR_TWO_BYTES, count, numbers, 2 * count, &orphan->word);
}

/* The enum `Nothing` is left out: it has no enumerants. */

/* The interface `Unused` is left out. */

/* The interface `Service` is left out. */

struct Service_Options_reader {
    struct linsjoar_struct_reader fields;
};
struct Service_Options_list_reader {
    struct linsjoar_list_reader elements;
};
struct Service_Options_orphan {
    uint64_t word;
};
struct Service_Options_list_orphan {
    uint64_t word;
};
struct Service_Options_draft {
    uint64_t words[1];
};
struct Service_Options_drafts {
    struct linsjoar_drafts drafts;
};

/* Names of the language. */
struct TheNames_reader {
    struct linsjoar_struct_reader fields;
};
struct TheNames_list_reader {
    struct linsjoar_list_reader elements;
};
struct TheNames_orphan {
    uint64_t word;
};
struct TheNames_list_orphan {
    uint64_t word;
};
struct TheNames_draft {
    uint64_t words[2];
};
struct TheNames_drafts {
    struct linsjoar_drafts drafts;
};

/* The members of the union in TheNames_loop. */
enum TheNames_loop_which {
    TheNames_loop_which_crate = 0,
    TheNames_loop_which_self = 1,
    TheNames_loop_which_notInSchema = 65535,
};

/* The enumerator of a number. */
static inline enum TheNames_loop_which TheNames_loop_which_of_number(uint16_t number) {
    return number < 2 ? (enum TheNames_loop_which)number : TheNames_loop_which_notInSchema;
}

enum TheNames_Mode {
    TheNames_Mode_plain = 0,
    TheNames_Mode_notInSchema = 65535,
};

/* The enumerator of a number. */
static inline enum TheNames_Mode TheNames_Mode_of_number(uint16_t number) {
    return number < 1 ? (enum TheNames_Mode)number : TheNames_Mode_notInSchema;
}

struct TheNames_Mode_list_reader {
    struct linsjoar_list_reader elements;
};
struct TheNames_Mode_list_orphan {
    uint64_t word;
};

/* How many a list has, and one of them, as an enumerator and as a number; past the last one 0. */
static inline uint32_t TheNames_Mode_list_len(const struct TheNames_Mode_list_reader *list) {
    return linsjoar_list_len(&list->elements);
}
static inline uint16_t TheNames_Mode_list_get_number(const struct TheNames_Mode_list_reader *list, uint32_t index) {
    uint64_t number;
    enum linsjoar_error error = linsjoar_list_get_number(&list->elements, index, &number);
    return error == LINSJOAR_OK ? (uint16_t)number : 0;
}
static inline enum TheNames_Mode TheNames_Mode_list_get(const struct TheNames_Mode_list_reader *list, uint32_t index) {
    return TheNames_Mode_of_number(TheNames_Mode_list_get_number(list, index));
}

/* Adds a list of enums, by their numbers. */
static inline LINSJOAR_CHECKED enum linsjoar_error TheNames_Mode_add_list(struct linsjoar_message *message, const uint16_t *numbers, size_t count, struct TheNames_Mode_list_orphan *orphan) {
    return linsjoar_add_number_bytes(message, LINSJOAR_TWO_BYTES, count, numbers, 2 * count, &orphan->word);
}

enum TheNames_Result {
    TheNames_Result_theFirst = 0,
    TheNames_Result_notInSchema = 65535,
};

/* The enumerator of a number. */
static inline enum TheNames_Result TheNames_Result_of_number(uint16_t number) {
    return number < 1 ? (enum TheNames_Result)number : TheNames_Result_notInSchema;
}

struct TheNames_Result_list_reader {
    struct linsjoar_list_reader elements;
};
struct TheNames_Result_list_orphan {
    uint64_t word;
};

/* How many a list has, and one of them, as an enumerator and as a number; past the last one 0. */
static inline uint32_t TheNames_Result_list_len(const struct TheNames_Result_list_reader *list) {
    return linsjoar_list_len(&list->elements);
}
static inline uint16_t TheNames_Result_list_get_number(const struct TheNames_Result_list_reader *list, uint32_t index) {
    uint64_t number;
    enum linsjoar_error error = linsjoar_list_get_number(&list->elements, index, &number);
    return error == LINSJOAR_OK ? (uint16_t)number : 0;
}
static inline enum TheNames_Result TheNames_Result_list_get(const struct TheNames_Result_list_reader *list, uint32_t index) {
    return TheNames_Result_of_number(TheNames_Result_list_get_number(list, index));
}

/* Adds a list of enums, by their numbers. */
static inline LINSJOAR_CHECKED enum linsjoar_error TheNames_Result_add_list(struct linsjoar_message *message, const uint16_t *numbers, size_t count, struct TheNames_Result_list_orphan *orphan) {
    return linsjoar_add_number_bytes(message, LINSJOAR_TWO_BYTES, count, numbers, 2 * count, &orphan->word);
}

enum TheNames_Reads {
    TheNames_Reads_all = 0,
    TheNames_Reads_notInSchema = 65535,
};

/* The enumerator of a number. */
static inline enum TheNames_Reads TheNames_Reads_of_number(uint16_t number) {
    return number < 1 ? (enum TheNames_Reads)number : TheNames_Reads_notInSchema;
}

struct TheNames_Reads_list_reader {
    struct linsjoar_list_reader elements;
};
struct TheNames_Reads_list_orphan {
    uint64_t word;
};

/* How many a list has, and one of them, as an enumerator and as a number; past the last one 0. */
static inline uint32_t TheNames_Reads_list_len(const struct TheNames_Reads_list_reader *list) {
    return linsjoar_list_len(&list->elements);
}
static inline uint16_t TheNames_Reads_list_get_number(const struct TheNames_Reads_list_reader *list, uint32_t index) {
    uint64_t number;
    enum linsjoar_error error = linsjoar_list_get_number(&list->elements, index, &number);
    return error == LINSJOAR_OK ? (uint16_t)number : 0;
}
static inline enum TheNames_Reads TheNames_Reads_list_get(const struct TheNames_Reads_list_reader *list, uint32_t index) {
    return TheNames_Reads_of_number(TheNames_Reads_list_get_number(list, index));
}

/* Adds a list of enums, by their numbers. */
static inline LINSJOAR_CHECKED enum linsjoar_error TheNames_Reads_add_list(struct linsjoar_message *message, const uint16_t *numbers, size_t count, struct TheNames_Reads_list_orphan *orphan) {
    return linsjoar_add_number_bytes(message, LINSJOAR_TWO_BYTES, count, numbers, 2 * count, &orphan->word);
}

enum TheNames_TheEnd {
    TheNames_TheEnd_reached = 0,
    TheNames_TheEnd_notInSchema = 65535,
};

/* The enumerator of a number. */
static inline enum TheNames_TheEnd TheNames_TheEnd_of_number(uint16_t number) {
    return number < 1 ? (enum TheNames_TheEnd)number : TheNames_TheEnd_notInSchema;
}

struct TheNames_TheEnd_list_reader {
    struct linsjoar_list_reader elements;
};
struct TheNames_TheEnd_list_orphan {
    uint64_t word;
};

/* How many a list has, and one of them, as an enumerator and as a number; past the last one 0. */
static inline uint32_t TheNames_TheEnd_list_len(const struct TheNames_TheEnd_list_reader *list) {
    return linsjoar_list_len(&list->elements);
}
static inline uint16_t TheNames_TheEnd_list_get_number(const struct TheNames_TheEnd_list_reader *list, uint32_t index) {
    uint64_t number;
    enum linsjoar_error error = linsjoar_list_get_number(&list->elements, index, &number);
    return error == LINSJOAR_OK ? (uint16_t)number : 0;
}
static inline enum TheNames_TheEnd TheNames_TheEnd_list_get(const struct TheNames_TheEnd_list_reader *list, uint32_t index) {
    return TheNames_TheEnd_of_number(TheNames_TheEnd_list_get_number(list, index));
}

/* Adds a list of enums, by their numbers. */
static inline LINSJOAR_CHECKED enum linsjoar_error TheNames_TheEnd_add_list(struct linsjoar_message *message, const uint16_t *numbers, size_t count, struct TheNames_TheEnd_list_orphan *orphan) {
    return linsjoar_add_number_bytes(message, LINSJOAR_TWO_BYTES, count, numbers, 2 * count, &orphan->word);
}

struct Widths_reader {
    struct linsjoar_struct_reader fields;
};
struct Widths_list_reader {
    struct linsjoar_list_reader elements;
};
struct Widths_orphan {
    uint64_t word;
};
struct Widths_list_orphan {
    uint64_t word;
};
struct Widths_draft {
    uint64_t words[4];
    uint64_t orphans[5];
};
struct Widths_drafts {
    struct linsjoar_drafts drafts;
};

/* The members of the union in Widths. */
enum Widths_which {
    Widths_which_large = 0,
    Widths_which_payload = 1,
    Widths_which_outer = 2,
    Widths_which_notInSchema = 65535,
};

/* The enumerator of a number. */
static inline enum Widths_which Widths_which_of_number(uint16_t number) {
    return number < 3 ? (enum Widths_which)number : Widths_which_notInSchema;
}

/* The members of the union in Widths_outer. */
enum Widths_outer_which {
    Widths_outer_which_middle = 0,
    Widths_outer_which_inner = 1,
    Widths_outer_which_notInSchema = 65535,
};

/* The enumerator of a number. */
static inline enum Widths_outer_which Widths_outer_which_of_number(uint16_t number) {
    return number < 2 ? (enum Widths_outer_which)number : Widths_outer_which_notInSchema;
}

/* The members of the union in Widths_outer_inner. */
enum Widths_outer_inner_which {
    Widths_outer_inner_which_small = 0,
    Widths_outer_inner_which_both = 1,
    Widths_outer_inner_which_nothing = 2,
    Widths_outer_inner_which_title = 3,
    Widths_outer_inner_which_notInSchema = 65535,
};

/* The enumerator of a number. */
static inline enum Widths_outer_inner_which Widths_outer_inner_which_of_number(uint16_t number) {
    return number < 4 ? (enum Widths_outer_inner_which)number : Widths_outer_inner_which_notInSchema;
}

struct Bare_reader {
    struct linsjoar_struct_reader fields;
};
struct Bare_list_reader {
    struct linsjoar_list_reader elements;
};
struct Bare_orphan {
    uint64_t word;
};
struct Bare_list_orphan {
    uint64_t word;
};
struct Bare_draft {
    uint64_t nothing[1];
};
struct Bare_drafts {
    struct linsjoar_drafts drafts;
};

struct Targets_reader {
    struct linsjoar_struct_reader fields;
};
struct Targets_list_reader {
    struct linsjoar_list_reader elements;
};
struct Targets_orphan {
    uint64_t word;
};
struct Targets_list_orphan {
    uint64_t word;
};
struct Targets_draft {
    uint64_t orphans[12];
};
struct Targets_drafts {
    struct linsjoar_drafts drafts;
};

#include "_2nd_types_capnp.h"

#include "fields_capnp.h"

#include "lists_capnp.h"

#ifndef LINSJOAR_HAS_linsjoar_i16_list_list
#define LINSJOAR_HAS_linsjoar_i16_list_list
LINSJOAR_LIST_OF_LISTS(linsjoar_i16_list, LINSJOAR_TWO_BYTES)
#endif

#ifndef LINSJOAR_HAS_linsjoar_i16_list_list_list
#define LINSJOAR_HAS_linsjoar_i16_list_list_list
LINSJOAR_LIST_OF_LISTS(linsjoar_i16_list_list, LINSJOAR_POINTERS)
#endif

#ifndef LINSJOAR_HAS_OwnRank_list_list
#define LINSJOAR_HAS_OwnRank_list_list
LINSJOAR_LIST_OF_LISTS(OwnRank_list, LINSJOAR_TWO_BYTES)
#endif

#ifndef LINSJOAR_HAS_linsjoar_text_list_list
#define LINSJOAR_HAS_linsjoar_text_list_list
LINSJOAR_LIST_OF_LISTS(linsjoar_text_list, LINSJOAR_POINTERS)
#endif

#ifndef LINSJOAR_HAS_Widths_list_list
#define LINSJOAR_HAS_Widths_list_list
LINSJOAR_LIST_OF_LISTS(Widths_list, LINSJOAR_STRUCTS)
#endif

#ifndef LINSJOAR_HAS_linsjoar_bool_list_list
#define LINSJOAR_HAS_linsjoar_bool_list_list
LINSJOAR_LIST_OF_LISTS(linsjoar_bool_list, LINSJOAR_BIT)
#endif

#ifndef LINSJOAR_HAS_linsjoar_bool_list_list_list
#define LINSJOAR_HAS_linsjoar_bool_list_list_list
LINSJOAR_LIST_OF_LISTS(linsjoar_bool_list_list, LINSJOAR_POINTERS)
#endif

#ifndef LINSJOAR_HAS_Card_list_list
#define LINSJOAR_HAS_Card_list_list
LINSJOAR_LIST_OF_LISTS(Card_list, LINSJOAR_STRUCTS)
#endif

static const uint16_t Service_port = 7;

/* Opens a framed message, and reads the Service_Options at its root: within the default limits, or within these. */
static inline LINSJOAR_CHECKED enum linsjoar_error Service_Options_root(const uint8_t *bytes, size_t len, struct linsjoar_reader *reader, struct Service_Options_reader *value) {
    return linsjoar_open_root(bytes, len, NULL, reader, &value->fields);
}
static inline LINSJOAR_CHECKED enum linsjoar_error Service_Options_root_with_options(const uint8_t *bytes, size_t len, const struct linsjoar_options *options, struct linsjoar_reader *reader, struct Service_Options_reader *value) {
    return linsjoar_open_root(bytes, len, options, reader, &value->fields);
}

/* Reads the Service_Options that a pointer points to, or a list of them. Null is an empty one. */
static inline LINSJOAR_CHECKED enum linsjoar_error Service_Options_read(const struct linsjoar_pointer_reader *pointer, struct Service_Options_reader *value) {
    return linsjoar_read_struct(pointer, &value->fields);
}
static inline LINSJOAR_CHECKED enum linsjoar_error Service_Options_list_read(const struct linsjoar_pointer_reader *pointer, struct Service_Options_list_reader *value) {
    return linsjoar_read_list(pointer, LINSJOAR_STRUCTS, &value->elements);
}

/* The same struct, counted in another reader, as each thread has one: a copy of the reader that opened the message. It
 * dangles without that reader and without the bytes. Threads may share both the bytes and what was read, and no reader. */
static inline struct Service_Options_reader Service_Options_bind(struct Service_Options_reader read, struct linsjoar_reader *reader) {
    read.fields.source.reader = reader;
    return read;
}

/* How many a list has, and one of them; past the last one an empty one. */
static inline uint32_t Service_Options_list_len(const struct Service_Options_list_reader *list) {
    return linsjoar_list_len(&list->elements);
}
static inline struct Service_Options_reader Service_Options_list_get(const struct Service_Options_list_reader *list, uint32_t index) {
    struct Service_Options_reader value;
    if (linsjoar_list_get_struct(&list->elements, index, &value.fields) != LINSJOAR_OK)
        memset(&value.fields.fields, 0, sizeof value.fields.fields);
    return value;
}

/* timeout :Int64 */
static inline int64_t Service_Options_get_timeout(const struct Service_Options_reader *read) {
    return (int64_t)(linsjoar_get_u64(&read->fields, 0) ^ UINT64_C(9223372036854775808));
}

/* The draft of a struct that is to be added: whose fields have their defaults, or what was read, with copies of all that
 * it points to. */
static inline struct Service_Options_draft Service_Options_new(void) {
    struct Service_Options_draft draft;
    memset(&draft, 0, sizeof draft);
    return draft;
}
static inline LINSJOAR_CHECKED enum linsjoar_error Service_Options_draft_of(const struct Service_Options_reader *read, struct linsjoar_message *message, struct Service_Options_draft *draft) {
    memset(draft, 0, sizeof *draft);
    return linsjoar_draft_of(&read->fields, message, draft->words, 1, NULL, 0);
}

/* Adds the struct of a draft to a message, or finishes the message with it as the root. */
static inline LINSJOAR_CHECKED enum linsjoar_error Service_Options_add(struct linsjoar_message *message, const struct Service_Options_draft *draft, struct Service_Options_orphan *orphan) {
    return linsjoar_add_draft(message, draft->words, 1, (const uint64_t *)draft, 0, &orphan->word);
}
static inline LINSJOAR_CHECKED enum linsjoar_error Service_Options_finish(struct linsjoar_message *message, const struct Service_Options_draft *draft, size_t *len) {
    struct Service_Options_orphan root;
    enum linsjoar_error error = Service_Options_add(message, draft, &root);
    *len = 0;
    if (error == LINSJOAR_OK)
        error = linsjoar_message_set_root(message, root.word);
    return error == LINSJOAR_OK ? linsjoar_message_finish(message, len) : error;
}

/* Adds a list of structs: of an array of drafts, or of those that are pushed one by one, and are in the message's memory
 * until then. The latter begin as zeros. A list that is begun after another one is added before it. */
static inline LINSJOAR_CHECKED enum linsjoar_error Service_Options_add_list(struct linsjoar_message *message, const struct Service_Options_draft *drafts, size_t count, struct Service_Options_list_orphan *orphan) {
    return linsjoar_add_draft_list(message, drafts, count, 1, 0, &orphan->word);
}
static inline LINSJOAR_CHECKED enum linsjoar_error Service_Options_push(struct linsjoar_message *message, struct Service_Options_drafts *drafts, const struct Service_Options_draft *draft) {
    return linsjoar_push_draft(message, &drafts->drafts, draft, 8 * 1);
}
static inline LINSJOAR_CHECKED enum linsjoar_error Service_Options_add_drafts(struct linsjoar_message *message, struct Service_Options_drafts *drafts, struct Service_Options_list_orphan *orphan) {
    return linsjoar_add_drafts(message, &drafts->drafts, 1, 0, &orphan->word);
}

static inline int64_t Service_Options_draft_get_timeout(const struct Service_Options_draft *draft) {
    return (int64_t)(linsjoar_draft_u64(draft->words, 0) ^ UINT64_C(9223372036854775808));
}
static inline void Service_Options_set_timeout(struct Service_Options_draft *draft, int64_t value) {
    linsjoar_set_u64(draft->words, 0, (uint64_t)((uint64_t)value ^ UINT64_C(9223372036854775808)));
}

/* Opens a framed message, and reads the TheNames at its root: within the default limits, or within these. */
static inline LINSJOAR_CHECKED enum linsjoar_error TheNames_root(const uint8_t *bytes, size_t len, struct linsjoar_reader *reader, struct TheNames_reader *value) {
    return linsjoar_open_root(bytes, len, NULL, reader, &value->fields);
}
static inline LINSJOAR_CHECKED enum linsjoar_error TheNames_root_with_options(const uint8_t *bytes, size_t len, const struct linsjoar_options *options, struct linsjoar_reader *reader, struct TheNames_reader *value) {
    return linsjoar_open_root(bytes, len, options, reader, &value->fields);
}

/* Reads the TheNames that a pointer points to, or a list of them. Null is an empty one. */
static inline LINSJOAR_CHECKED enum linsjoar_error TheNames_read(const struct linsjoar_pointer_reader *pointer, struct TheNames_reader *value) {
    return linsjoar_read_struct(pointer, &value->fields);
}
static inline LINSJOAR_CHECKED enum linsjoar_error TheNames_list_read(const struct linsjoar_pointer_reader *pointer, struct TheNames_list_reader *value) {
    return linsjoar_read_list(pointer, LINSJOAR_STRUCTS, &value->elements);
}

/* The same struct, counted in another reader, as each thread has one: a copy of the reader that opened the message. It
 * dangles without that reader and without the bytes. Threads may share both the bytes and what was read, and no reader. */
static inline struct TheNames_reader TheNames_bind(struct TheNames_reader read, struct linsjoar_reader *reader) {
    read.fields.source.reader = reader;
    return read;
}

/* How many a list has, and one of them; past the last one an empty one. */
static inline uint32_t TheNames_list_len(const struct TheNames_list_reader *list) {
    return linsjoar_list_len(&list->elements);
}
static inline struct TheNames_reader TheNames_list_get(const struct TheNames_list_reader *list, uint32_t index) {
    struct TheNames_reader value;
    if (linsjoar_list_get_struct(&list->elements, index, &value.fields) != LINSJOAR_OK)
        memset(&value.fields.fields, 0, sizeof value.fields.fields);
    return value;
}

/* own :OwnRank */
static inline enum OwnRank TheNames_get_own(const struct TheNames_reader *read) {
    return OwnRank_of_number((uint16_t)(linsjoar_get_u16(&read->fields, 0) ^ UINT16_C(2)));
}
static inline uint16_t TheNames_get_own_number(const struct TheNames_reader *read) {
    return (uint16_t)(linsjoar_get_u16(&read->fields, 0) ^ UINT16_C(2));
}

/* below :Rank */
static inline enum Rank TheNames_get_below(const struct TheNames_reader *read) {
    return Rank_of_number((uint16_t)(linsjoar_get_u16(&read->fields, 1) ^ UINT16_C(1)));
}
static inline uint16_t TheNames_get_below_number(const struct TheNames_reader *read) {
    return (uint16_t)(linsjoar_get_u16(&read->fields, 1) ^ UINT16_C(1));
}

/* type :TheNames.Mode */
static inline enum TheNames_Mode TheNames_get_type(const struct TheNames_reader *read) {
    return TheNames_Mode_of_number(linsjoar_get_u16(&read->fields, 2));
}
static inline uint16_t TheNames_get_type_number(const struct TheNames_reader *read) {
    return linsjoar_get_u16(&read->fields, 2);
}

/* mode :Mode */
static inline enum Mode TheNames_get_mode(const struct TheNames_reader *read) {
    return Mode_of_number(linsjoar_get_u16(&read->fields, 3));
}
static inline uint16_t TheNames_get_mode_number(const struct TheNames_reader *read) {
    return linsjoar_get_u16(&read->fields, 3);
}

/* direction :Direction */
static inline enum Direction TheNames_get_direction(const struct TheNames_reader *read) {
    return Direction_of_number((uint16_t)(linsjoar_get_u16(&read->fields, 4) ^ UINT16_C(3)));
}
static inline uint16_t TheNames_get_direction_number(const struct TheNames_reader *read) {
    return (uint16_t)(linsjoar_get_u16(&read->fields, 4) ^ UINT16_C(3));
}

/* other :Keeper.Direction */
static inline enum Keeper_Direction TheNames_get_other(const struct TheNames_reader *read) {
    return Keeper_Direction_of_number(linsjoar_get_u16(&read->fields, 5));
}
static inline uint16_t TheNames_get_other_number(const struct TheNames_reader *read) {
    return linsjoar_get_u16(&read->fields, 5);
}

/* The draft of a struct that is to be added: whose fields have their defaults, or what was read, with copies of all that
 * it points to. */
static inline struct TheNames_draft TheNames_new(void) {
    struct TheNames_draft draft;
    memset(&draft, 0, sizeof draft);
    return draft;
}
static inline LINSJOAR_CHECKED enum linsjoar_error TheNames_draft_of(const struct TheNames_reader *read, struct linsjoar_message *message, struct TheNames_draft *draft) {
    memset(draft, 0, sizeof *draft);
    return linsjoar_draft_of(&read->fields, message, draft->words, 2, NULL, 0);
}

/* Adds the struct of a draft to a message, or finishes the message with it as the root. */
static inline LINSJOAR_CHECKED enum linsjoar_error TheNames_add(struct linsjoar_message *message, const struct TheNames_draft *draft, struct TheNames_orphan *orphan) {
    return linsjoar_add_draft(message, draft->words, 2, (const uint64_t *)draft, 0, &orphan->word);
}
static inline LINSJOAR_CHECKED enum linsjoar_error TheNames_finish(struct linsjoar_message *message, const struct TheNames_draft *draft, size_t *len) {
    struct TheNames_orphan root;
    enum linsjoar_error error = TheNames_add(message, draft, &root);
    *len = 0;
    if (error == LINSJOAR_OK)
        error = linsjoar_message_set_root(message, root.word);
    return error == LINSJOAR_OK ? linsjoar_message_finish(message, len) : error;
}

/* Adds a list of structs: of an array of drafts, or of those that are pushed one by one, and are in the message's memory
 * until then. The latter begin as zeros. A list that is begun after another one is added before it. */
static inline LINSJOAR_CHECKED enum linsjoar_error TheNames_add_list(struct linsjoar_message *message, const struct TheNames_draft *drafts, size_t count, struct TheNames_list_orphan *orphan) {
    return linsjoar_add_draft_list(message, drafts, count, 2, 0, &orphan->word);
}
static inline LINSJOAR_CHECKED enum linsjoar_error TheNames_push(struct linsjoar_message *message, struct TheNames_drafts *drafts, const struct TheNames_draft *draft) {
    return linsjoar_push_draft(message, &drafts->drafts, draft, 8 * 2);
}
static inline LINSJOAR_CHECKED enum linsjoar_error TheNames_add_drafts(struct linsjoar_message *message, struct TheNames_drafts *drafts, struct TheNames_list_orphan *orphan) {
    return linsjoar_add_drafts(message, &drafts->drafts, 2, 0, &orphan->word);
}

static inline enum OwnRank TheNames_draft_get_own(const struct TheNames_draft *draft) {
    return OwnRank_of_number((uint16_t)(linsjoar_draft_u16(draft->words, 0) ^ UINT16_C(2)));
}
static inline void TheNames_set_own(struct TheNames_draft *draft, enum OwnRank value) {
    linsjoar_set_u16(draft->words, 0, (uint16_t)((uint16_t)value ^ UINT16_C(2)));
}
static inline uint16_t TheNames_draft_get_own_number(const struct TheNames_draft *draft) {
    return (uint16_t)(linsjoar_draft_u16(draft->words, 0) ^ UINT16_C(2));
}
static inline void TheNames_set_own_number(struct TheNames_draft *draft, uint16_t value) {
    linsjoar_set_u16(draft->words, 0, (uint16_t)((uint16_t)value ^ UINT16_C(2)));
}
static inline enum Rank TheNames_draft_get_below(const struct TheNames_draft *draft) {
    return Rank_of_number((uint16_t)(linsjoar_draft_u16(draft->words, 1) ^ UINT16_C(1)));
}
static inline void TheNames_set_below(struct TheNames_draft *draft, enum Rank value) {
    linsjoar_set_u16(draft->words, 1, (uint16_t)((uint16_t)value ^ UINT16_C(1)));
}
static inline uint16_t TheNames_draft_get_below_number(const struct TheNames_draft *draft) {
    return (uint16_t)(linsjoar_draft_u16(draft->words, 1) ^ UINT16_C(1));
}
static inline void TheNames_set_below_number(struct TheNames_draft *draft, uint16_t value) {
    linsjoar_set_u16(draft->words, 1, (uint16_t)((uint16_t)value ^ UINT16_C(1)));
}
static inline enum TheNames_Mode TheNames_draft_get_type(const struct TheNames_draft *draft) {
    return TheNames_Mode_of_number(linsjoar_draft_u16(draft->words, 2));
}
static inline void TheNames_set_type(struct TheNames_draft *draft, enum TheNames_Mode value) {
    linsjoar_set_u16(draft->words, 2, (uint16_t)value);
}
static inline uint16_t TheNames_draft_get_type_number(const struct TheNames_draft *draft) {
    return linsjoar_draft_u16(draft->words, 2);
}
static inline void TheNames_set_type_number(struct TheNames_draft *draft, uint16_t value) {
    linsjoar_set_u16(draft->words, 2, (uint16_t)value);
}
static inline enum Mode TheNames_draft_get_mode(const struct TheNames_draft *draft) {
    return Mode_of_number(linsjoar_draft_u16(draft->words, 3));
}
static inline void TheNames_set_mode(struct TheNames_draft *draft, enum Mode value) {
    linsjoar_set_u16(draft->words, 3, (uint16_t)value);
}
static inline uint16_t TheNames_draft_get_mode_number(const struct TheNames_draft *draft) {
    return linsjoar_draft_u16(draft->words, 3);
}
static inline void TheNames_set_mode_number(struct TheNames_draft *draft, uint16_t value) {
    linsjoar_set_u16(draft->words, 3, (uint16_t)value);
}
static inline enum Direction TheNames_draft_get_direction(const struct TheNames_draft *draft) {
    return Direction_of_number((uint16_t)(linsjoar_draft_u16(draft->words, 4) ^ UINT16_C(3)));
}
static inline void TheNames_set_direction(struct TheNames_draft *draft, enum Direction value) {
    linsjoar_set_u16(draft->words, 4, (uint16_t)((uint16_t)value ^ UINT16_C(3)));
}
static inline uint16_t TheNames_draft_get_direction_number(const struct TheNames_draft *draft) {
    return (uint16_t)(linsjoar_draft_u16(draft->words, 4) ^ UINT16_C(3));
}
static inline void TheNames_set_direction_number(struct TheNames_draft *draft, uint16_t value) {
    linsjoar_set_u16(draft->words, 4, (uint16_t)((uint16_t)value ^ UINT16_C(3)));
}
static inline enum Keeper_Direction TheNames_draft_get_other(const struct TheNames_draft *draft) {
    return Keeper_Direction_of_number(linsjoar_draft_u16(draft->words, 5));
}
static inline void TheNames_set_other(struct TheNames_draft *draft, enum Keeper_Direction value) {
    linsjoar_set_u16(draft->words, 5, (uint16_t)value);
}
static inline uint16_t TheNames_draft_get_other_number(const struct TheNames_draft *draft) {
    return linsjoar_draft_u16(draft->words, 5);
}
static inline void TheNames_set_other_number(struct TheNames_draft *draft, uint16_t value) {
    linsjoar_set_u16(draft->words, 5, (uint16_t)value);
}

/* Which member of the union is set, and its number, also where a newer schema has it. */
static inline uint16_t TheNames_loop_get_which_number(const struct TheNames_reader *read) {
    return linsjoar_get_u16(&read->fields, 7);
}
static inline enum TheNames_loop_which TheNames_loop_which(const struct TheNames_reader *read) {
    return TheNames_loop_which_of_number(TheNames_loop_get_which_number(read));
}

/* crate :TheNames.Result */
static inline enum TheNames_Result TheNames_loop_get_crate(const struct TheNames_reader *read) {
    return TheNames_Result_of_number(linsjoar_get_u16(&read->fields, 6));
}
static inline uint16_t TheNames_loop_get_crate_number(const struct TheNames_reader *read) {
    return linsjoar_get_u16(&read->fields, 6);
}

static inline enum TheNames_loop_which TheNames_loop_draft_which(const struct TheNames_draft *draft) {
    return TheNames_loop_which_of_number(linsjoar_draft_u16(draft->words, 7));
}

static inline enum TheNames_Result TheNames_loop_draft_get_crate(const struct TheNames_draft *draft) {
    return TheNames_Result_of_number(linsjoar_draft_u16(draft->words, 6));
}
static inline void TheNames_loop_set_crate(struct TheNames_draft *draft, enum TheNames_Result value) {
    linsjoar_set_u16(draft->words, 7, 0);
    linsjoar_set_u16(draft->words, 6, (uint16_t)value);
}
static inline uint16_t TheNames_loop_draft_get_crate_number(const struct TheNames_draft *draft) {
    return linsjoar_draft_u16(draft->words, 6);
}
static inline void TheNames_loop_set_crate_number(struct TheNames_draft *draft, uint16_t value) {
    linsjoar_set_u16(draft->words, 7, 0);
    linsjoar_set_u16(draft->words, 6, (uint16_t)value);
}
static inline void TheNames_loop_set_self(struct TheNames_draft *draft) {
    linsjoar_set_u16(draft->words, 7, 1);
}

static const enum Rank TheNames_r = Rank_high;

static const enum OwnRank TheNames_s = OwnRank_last;

/* Opens a framed message, and reads the Widths at its root: within the default limits, or within these. */
static inline LINSJOAR_CHECKED enum linsjoar_error Widths_root(const uint8_t *bytes, size_t len, struct linsjoar_reader *reader, struct Widths_reader *value) {
    return linsjoar_open_root(bytes, len, NULL, reader, &value->fields);
}
static inline LINSJOAR_CHECKED enum linsjoar_error Widths_root_with_options(const uint8_t *bytes, size_t len, const struct linsjoar_options *options, struct linsjoar_reader *reader, struct Widths_reader *value) {
    return linsjoar_open_root(bytes, len, options, reader, &value->fields);
}

/* Reads the Widths that a pointer points to, or a list of them. Null is an empty one. */
static inline LINSJOAR_CHECKED enum linsjoar_error Widths_read(const struct linsjoar_pointer_reader *pointer, struct Widths_reader *value) {
    return linsjoar_read_struct(pointer, &value->fields);
}
static inline LINSJOAR_CHECKED enum linsjoar_error Widths_list_read(const struct linsjoar_pointer_reader *pointer, struct Widths_list_reader *value) {
    return linsjoar_read_list(pointer, LINSJOAR_STRUCTS, &value->elements);
}

/* The same struct, counted in another reader, as each thread has one: a copy of the reader that opened the message. It
 * dangles without that reader and without the bytes. Threads may share both the bytes and what was read, and no reader. */
static inline struct Widths_reader Widths_bind(struct Widths_reader read, struct linsjoar_reader *reader) {
    read.fields.source.reader = reader;
    return read;
}

/* How many a list has, and one of them; past the last one an empty one. */
static inline uint32_t Widths_list_len(const struct Widths_list_reader *list) {
    return linsjoar_list_len(&list->elements);
}
static inline struct Widths_reader Widths_list_get(const struct Widths_list_reader *list, uint32_t index) {
    struct Widths_reader value;
    if (linsjoar_list_get_struct(&list->elements, index, &value.fields) != LINSJOAR_OK)
        memset(&value.fields.fields, 0, sizeof value.fields.fields);
    return value;
}

/* Which member of the union is set, and its number, also where a newer schema has it. */
static inline uint16_t Widths_get_which_number(const struct Widths_reader *read) {
    return linsjoar_get_u16(&read->fields, 4);
}
static inline enum Widths_which Widths_which(const struct Widths_reader *read) {
    return Widths_which_of_number(Widths_get_which_number(read));
}

/* large :UInt64 */
static inline uint64_t Widths_get_large(const struct Widths_reader *read) {
    return linsjoar_get_u64(&read->fields, 0);
}

static const uint8_t Widths_payload_default[32] = {
    0, 0, 0, 0, 3, 0, 0, 0,
    1, 0, 0, 0, 74, 0, 0, 0,
    0, 39, 34, 92, 255, 36, 86, 101,
    99, 0, 0, 0, 0, 0, 0, 0,
};
/* payload :Data */
static inline LINSJOAR_CHECKED enum linsjoar_error Widths_get_payload(const struct Widths_reader *read, struct linsjoar_data_reader *value) {
    struct linsjoar_pointer_reader pointer = linsjoar_get_pointer_or(&read->fields, 0, Widths_payload_default, sizeof Widths_payload_default);
    return linsjoar_read_data(&pointer, value);
}
static inline bool Widths_has_payload(const struct Widths_reader *read) {
    return linsjoar_has_pointer(&read->fields, 0);
}

/* The draft of a struct that is to be added: whose fields have their defaults, or what was read, with copies of all that
 * it points to. */
static inline struct Widths_draft Widths_new(void) {
    struct Widths_draft draft;
    memset(&draft, 0, sizeof draft);
    return draft;
}
static inline LINSJOAR_CHECKED enum linsjoar_error Widths_draft_of(const struct Widths_reader *read, struct linsjoar_message *message, struct Widths_draft *draft) {
    memset(draft, 0, sizeof *draft);
    return linsjoar_draft_of(&read->fields, message, draft->words, 4, draft->orphans, 5);
}

/* Adds the struct of a draft to a message, or finishes the message with it as the root. */
static inline LINSJOAR_CHECKED enum linsjoar_error Widths_add(struct linsjoar_message *message, const struct Widths_draft *draft, struct Widths_orphan *orphan) {
    return linsjoar_add_draft(message, draft->words, 4, draft->orphans, 5, &orphan->word);
}
static inline LINSJOAR_CHECKED enum linsjoar_error Widths_finish(struct linsjoar_message *message, const struct Widths_draft *draft, size_t *len) {
    struct Widths_orphan root;
    enum linsjoar_error error = Widths_add(message, draft, &root);
    *len = 0;
    if (error == LINSJOAR_OK)
        error = linsjoar_message_set_root(message, root.word);
    return error == LINSJOAR_OK ? linsjoar_message_finish(message, len) : error;
}

/* Adds a list of structs: of an array of drafts, or of those that are pushed one by one, and are in the message's memory
 * until then. The latter begin as zeros. A list that is begun after another one is added before it. */
static inline LINSJOAR_CHECKED enum linsjoar_error Widths_add_list(struct linsjoar_message *message, const struct Widths_draft *drafts, size_t count, struct Widths_list_orphan *orphan) {
    return linsjoar_add_draft_list(message, drafts, count, 4, 5, &orphan->word);
}
static inline LINSJOAR_CHECKED enum linsjoar_error Widths_push(struct linsjoar_message *message, struct Widths_drafts *drafts, const struct Widths_draft *draft) {
    return linsjoar_push_draft(message, &drafts->drafts, draft, 8 * 9);
}
static inline LINSJOAR_CHECKED enum linsjoar_error Widths_add_drafts(struct linsjoar_message *message, struct Widths_drafts *drafts, struct Widths_list_orphan *orphan) {
    return linsjoar_add_drafts(message, &drafts->drafts, 4, 5, &orphan->word);
}

static inline enum Widths_which Widths_draft_which(const struct Widths_draft *draft) {
    return Widths_which_of_number(linsjoar_draft_u16(draft->words, 4));
}

static inline uint64_t Widths_draft_get_large(const struct Widths_draft *draft) {
    return linsjoar_draft_u64(draft->words, 0);
}
static inline void Widths_set_large(struct Widths_draft *draft, uint64_t value) {
    linsjoar_set_u16(draft->words, 4, 0);
    linsjoar_set_u64(draft->words, 0, (uint64_t)value);
}
static inline struct linsjoar_data_orphan Widths_draft_get_payload(const struct Widths_draft *draft) {
    struct linsjoar_data_orphan orphan;
    orphan.word = draft->orphans[0];
    return orphan;
}
static inline void Widths_set_payload(struct Widths_draft *draft, struct linsjoar_data_orphan orphan) {
    linsjoar_set_u16(draft->words, 4, 1);
    draft->orphans[0] = orphan.word;
}
static inline LINSJOAR_CHECKED enum linsjoar_error Widths_copy_payload(const struct Widths_reader *read, struct linsjoar_message *message, struct Widths_draft *draft) {
    struct linsjoar_pointer_reader pointer = linsjoar_get_pointer(&read->fields, 0);
    struct linsjoar_data_orphan orphan;
    enum linsjoar_error error = linsjoar_add_copy_of(message, &pointer, &orphan.word);
    if (error == LINSJOAR_OK)
        Widths_set_payload(draft, orphan);
    return error;
}

/* Which member of the union is set, and its number, also where a newer schema has it. */
static inline uint16_t Widths_outer_get_which_number(const struct Widths_reader *read) {
    return linsjoar_get_u16(&read->fields, 2);
}
static inline enum Widths_outer_which Widths_outer_which(const struct Widths_reader *read) {
    return Widths_outer_which_of_number(Widths_outer_get_which_number(read));
}

/* middle :UInt32 */
static inline uint32_t Widths_outer_get_middle(const struct Widths_reader *read) {
    return linsjoar_get_u32(&read->fields, 0);
}

static inline enum Widths_outer_which Widths_outer_draft_which(const struct Widths_draft *draft) {
    return Widths_outer_which_of_number(linsjoar_draft_u16(draft->words, 2));
}

/* Selects a group of a union, and clears its fields. */
static inline void Widths_outer_init(struct Widths_draft *draft) {
    linsjoar_set_u16(draft->words, 4, 2);
    linsjoar_set_u16(draft->words, 2, 0);
    linsjoar_set_u32(draft->words, 0, 0);
    linsjoar_set_u16(draft->words, 1, 0);
    linsjoar_set_u8(draft->words, 0, 0);
    linsjoar_set_u32(draft->words, 3, 0);
    linsjoar_set_u16(draft->words, 0, 0);
    linsjoar_set_bool(draft->words, 48, 0);
    linsjoar_set_u64(draft->words, 2, 0);
    linsjoar_set_u64(draft->words, 3, 0);
    draft->orphans[0] = LINSJOAR_NULL_ORPHAN;
    draft->orphans[1] = LINSJOAR_NULL_ORPHAN;
    draft->orphans[2] = LINSJOAR_NULL_ORPHAN;
    draft->orphans[3] = LINSJOAR_NULL_ORPHAN;
    draft->orphans[4] = LINSJOAR_NULL_ORPHAN;
}

static inline uint32_t Widths_outer_draft_get_middle(const struct Widths_draft *draft) {
    return linsjoar_draft_u32(draft->words, 0);
}
static inline void Widths_outer_set_middle(struct Widths_draft *draft, uint32_t value) {
    if (linsjoar_draft_u16(draft->words, 4) != 2)
        Widths_outer_init(draft);
    linsjoar_set_u16(draft->words, 2, 0);
    linsjoar_set_u32(draft->words, 0, (uint32_t)value);
}

/* Which member of the union is set, and its number, also where a newer schema has it. */
static inline uint16_t Widths_outer_inner_get_which_number(const struct Widths_reader *read) {
    return linsjoar_get_u16(&read->fields, 1);
}
static inline enum Widths_outer_inner_which Widths_outer_inner_which(const struct Widths_reader *read) {
    return Widths_outer_inner_which_of_number(Widths_outer_inner_get_which_number(read));
}

/* small :UInt8 */
static inline uint8_t Widths_outer_inner_get_small(const struct Widths_reader *read) {
    return linsjoar_get_u8(&read->fields, 0);
}

/* title :Text */
static inline LINSJOAR_CHECKED enum linsjoar_error Widths_outer_inner_get_title(const struct Widths_reader *read, struct linsjoar_text_reader *value) {
    struct linsjoar_pointer_reader pointer = linsjoar_get_pointer(&read->fields, 0);
    return linsjoar_read_text(&pointer, value);
}
static inline bool Widths_outer_inner_has_title(const struct Widths_reader *read) {
    return linsjoar_has_pointer(&read->fields, 0);
}

static inline enum Widths_outer_inner_which Widths_outer_inner_draft_which(const struct Widths_draft *draft) {
    return Widths_outer_inner_which_of_number(linsjoar_draft_u16(draft->words, 1));
}

/* Selects a group of a union, and clears its fields. */
static inline void Widths_outer_inner_init(struct Widths_draft *draft) {
    linsjoar_set_u16(draft->words, 4, 2);
    linsjoar_set_u16(draft->words, 2, 1);
    linsjoar_set_u16(draft->words, 1, 0);
    linsjoar_set_u8(draft->words, 0, 0);
    linsjoar_set_u32(draft->words, 3, 0);
    linsjoar_set_u16(draft->words, 0, 0);
    linsjoar_set_bool(draft->words, 48, 0);
    linsjoar_set_u64(draft->words, 2, 0);
    linsjoar_set_u64(draft->words, 3, 0);
    draft->orphans[0] = LINSJOAR_NULL_ORPHAN;
    draft->orphans[1] = LINSJOAR_NULL_ORPHAN;
    draft->orphans[2] = LINSJOAR_NULL_ORPHAN;
    draft->orphans[3] = LINSJOAR_NULL_ORPHAN;
    draft->orphans[4] = LINSJOAR_NULL_ORPHAN;
}

static inline uint8_t Widths_outer_inner_draft_get_small(const struct Widths_draft *draft) {
    return linsjoar_draft_u8(draft->words, 0);
}
static inline void Widths_outer_inner_set_small(struct Widths_draft *draft, uint8_t value) {
    if (linsjoar_draft_u16(draft->words, 4) != 2)
        Widths_outer_init(draft);
    if (linsjoar_draft_u16(draft->words, 2) != 1)
        Widths_outer_inner_init(draft);
    linsjoar_set_u16(draft->words, 1, 0);
    linsjoar_set_u8(draft->words, 0, (uint8_t)value);
}
static inline void Widths_outer_inner_set_nothing(struct Widths_draft *draft) {
    if (linsjoar_draft_u16(draft->words, 4) != 2)
        Widths_outer_init(draft);
    if (linsjoar_draft_u16(draft->words, 2) != 1)
        Widths_outer_inner_init(draft);
    linsjoar_set_u16(draft->words, 1, 2);
}
static inline struct linsjoar_text_orphan Widths_outer_inner_draft_get_title(const struct Widths_draft *draft) {
    struct linsjoar_text_orphan orphan;
    orphan.word = draft->orphans[0];
    return orphan;
}
static inline void Widths_outer_inner_set_title(struct Widths_draft *draft, struct linsjoar_text_orphan orphan) {
    if (linsjoar_draft_u16(draft->words, 4) != 2)
        Widths_outer_init(draft);
    if (linsjoar_draft_u16(draft->words, 2) != 1)
        Widths_outer_inner_init(draft);
    linsjoar_set_u16(draft->words, 1, 3);
    draft->orphans[0] = orphan.word;
}
static inline LINSJOAR_CHECKED enum linsjoar_error Widths_outer_inner_copy_title(const struct Widths_reader *read, struct linsjoar_message *message, struct Widths_draft *draft) {
    struct linsjoar_pointer_reader pointer = linsjoar_get_pointer(&read->fields, 0);
    struct linsjoar_text_orphan orphan;
    enum linsjoar_error error = linsjoar_add_copy_of(message, &pointer, &orphan.word);
    if (error == LINSJOAR_OK)
        Widths_outer_inner_set_title(draft, orphan);
    return error;
}

/* left :Int32 */
static inline int32_t Widths_outer_inner_both_get_left(const struct Widths_reader *read) {
    return (int32_t)(linsjoar_get_u32(&read->fields, 3) ^ UINT32_C(4294967289));
}

/* Selects a group of a union, and clears its fields. */
static inline void Widths_outer_inner_both_init(struct Widths_draft *draft) {
    linsjoar_set_u16(draft->words, 4, 2);
    linsjoar_set_u16(draft->words, 2, 1);
    linsjoar_set_u16(draft->words, 1, 1);
    linsjoar_set_u32(draft->words, 3, 0);
    linsjoar_set_u16(draft->words, 0, 0);
    linsjoar_set_bool(draft->words, 48, 0);
    linsjoar_set_u64(draft->words, 2, 0);
    linsjoar_set_u64(draft->words, 3, 0);
    draft->orphans[0] = LINSJOAR_NULL_ORPHAN;
    draft->orphans[1] = LINSJOAR_NULL_ORPHAN;
    draft->orphans[2] = LINSJOAR_NULL_ORPHAN;
    draft->orphans[3] = LINSJOAR_NULL_ORPHAN;
    draft->orphans[4] = LINSJOAR_NULL_ORPHAN;
}

static inline int32_t Widths_outer_inner_both_draft_get_left(const struct Widths_draft *draft) {
    return (int32_t)(linsjoar_draft_u32(draft->words, 3) ^ UINT32_C(4294967289));
}
static inline void Widths_outer_inner_both_set_left(struct Widths_draft *draft, int32_t value) {
    if (linsjoar_draft_u16(draft->words, 4) != 2)
        Widths_outer_init(draft);
    if (linsjoar_draft_u16(draft->words, 2) != 1)
        Widths_outer_inner_init(draft);
    if (linsjoar_draft_u16(draft->words, 1) != 1)
        Widths_outer_inner_both_init(draft);
    linsjoar_set_u32(draft->words, 3, (uint32_t)((uint32_t)value ^ UINT32_C(4294967289)));
}

/* last :UInt16 */
static inline uint16_t Widths_outer_inner_both_rest_get_last(const struct Widths_reader *read) {
    return linsjoar_get_u16(&read->fields, 0);
}

/* done :Bool */
static inline bool Widths_outer_inner_both_rest_get_done(const struct Widths_reader *read) {
    return !linsjoar_get_bool(&read->fields, 48);
}

/* count :Int64 */
static inline int64_t Widths_outer_inner_both_rest_get_count(const struct Widths_reader *read) {
    return (int64_t)linsjoar_get_u64(&read->fields, 2);
}

/* ratio :Float64 */
static inline double Widths_outer_inner_both_rest_get_ratio(const struct Widths_reader *read) {
    return linsjoar_double_of_bits(linsjoar_get_u64(&read->fields, 3) ^ UINT64_C(9218868437227405312));
}

static const uint8_t Widths_outer_inner_both_rest_label_default[56] = {
    0, 0, 0, 0, 6, 0, 0, 0,
    1, 0, 0, 0, 34, 1, 0, 0,
    34, 113, 117, 111, 116, 101, 100, 34,
    44, 32, 36, 82, 101, 115, 117, 108,
    116, 32, 36, 123, 125, 32, 64, 110,
    97, 109, 101, 64, 32, 10, 32, 92,
    32, 195, 169, 0, 0, 0, 0, 0,
};
/* label :Text */
static inline LINSJOAR_CHECKED enum linsjoar_error Widths_outer_inner_both_rest_get_label(const struct Widths_reader *read, struct linsjoar_text_reader *value) {
    struct linsjoar_pointer_reader pointer = linsjoar_get_pointer_or(&read->fields, 0, Widths_outer_inner_both_rest_label_default, sizeof Widths_outer_inner_both_rest_label_default);
    return linsjoar_read_text(&pointer, value);
}
static inline bool Widths_outer_inner_both_rest_has_label(const struct Widths_reader *read) {
    return linsjoar_has_pointer(&read->fields, 0);
}

static const uint8_t Widths_outer_inner_both_rest_cube_default[56] = {
    0, 0, 0, 0, 6, 0, 0, 0,
    1, 0, 0, 0, 22, 0, 0, 0,
    5, 0, 0, 0, 22, 0, 0, 0,
    13, 0, 0, 0, 6, 0, 0, 0,
    5, 0, 0, 0, 19, 0, 0, 0,
    5, 0, 0, 0, 3, 0, 0, 0,
    1, 0, 254, 255, 0, 0, 0, 0,
};
/* cube :List(List(List(Int16))) */
static inline LINSJOAR_CHECKED enum linsjoar_error Widths_outer_inner_both_rest_get_cube(const struct Widths_reader *read, struct linsjoar_i16_list_list_list_reader *value) {
    struct linsjoar_pointer_reader pointer = linsjoar_get_pointer_or(&read->fields, 1, Widths_outer_inner_both_rest_cube_default, sizeof Widths_outer_inner_both_rest_cube_default);
    return linsjoar_read_list(&pointer, LINSJOAR_POINTERS, &value->elements);
}
static inline bool Widths_outer_inner_both_rest_has_cube(const struct Widths_reader *read) {
    return linsjoar_has_pointer(&read->fields, 1);
}

/* The field `service` is left out: it is an interface, or a list of them. */

/* widths :Widths */
static inline LINSJOAR_CHECKED enum linsjoar_error Widths_outer_inner_both_rest_get_widths(const struct Widths_reader *read, struct Widths_reader *value) {
    struct linsjoar_pointer_reader pointer = linsjoar_get_pointer(&read->fields, 3);
    return linsjoar_read_struct(&pointer, &value->fields);
}
static inline bool Widths_outer_inner_both_rest_has_widths(const struct Widths_reader *read) {
    return linsjoar_has_pointer(&read->fields, 3);
}

/* any :AnyPointer */
static inline struct linsjoar_pointer_reader Widths_outer_inner_both_rest_get_any(const struct Widths_reader *read) {
    return linsjoar_get_pointer(&read->fields, 4);
}
static inline bool Widths_outer_inner_both_rest_has_any(const struct Widths_reader *read) {
    return linsjoar_has_pointer(&read->fields, 4);
}

static inline uint16_t Widths_outer_inner_both_rest_draft_get_last(const struct Widths_draft *draft) {
    return linsjoar_draft_u16(draft->words, 0);
}
static inline void Widths_outer_inner_both_rest_set_last(struct Widths_draft *draft, uint16_t value) {
    if (linsjoar_draft_u16(draft->words, 4) != 2)
        Widths_outer_init(draft);
    if (linsjoar_draft_u16(draft->words, 2) != 1)
        Widths_outer_inner_init(draft);
    if (linsjoar_draft_u16(draft->words, 1) != 1)
        Widths_outer_inner_both_init(draft);
    linsjoar_set_u16(draft->words, 0, (uint16_t)value);
}
static inline bool Widths_outer_inner_both_rest_draft_get_done(const struct Widths_draft *draft) {
    return !linsjoar_draft_bool(draft->words, 48);
}
static inline void Widths_outer_inner_both_rest_set_done(struct Widths_draft *draft, bool value) {
    if (linsjoar_draft_u16(draft->words, 4) != 2)
        Widths_outer_init(draft);
    if (linsjoar_draft_u16(draft->words, 2) != 1)
        Widths_outer_inner_init(draft);
    if (linsjoar_draft_u16(draft->words, 1) != 1)
        Widths_outer_inner_both_init(draft);
    linsjoar_set_bool(draft->words, 48, !value);
}
static inline int64_t Widths_outer_inner_both_rest_draft_get_count(const struct Widths_draft *draft) {
    return (int64_t)linsjoar_draft_u64(draft->words, 2);
}
static inline void Widths_outer_inner_both_rest_set_count(struct Widths_draft *draft, int64_t value) {
    if (linsjoar_draft_u16(draft->words, 4) != 2)
        Widths_outer_init(draft);
    if (linsjoar_draft_u16(draft->words, 2) != 1)
        Widths_outer_inner_init(draft);
    if (linsjoar_draft_u16(draft->words, 1) != 1)
        Widths_outer_inner_both_init(draft);
    linsjoar_set_u64(draft->words, 2, (uint64_t)value);
}
static inline double Widths_outer_inner_both_rest_draft_get_ratio(const struct Widths_draft *draft) {
    return linsjoar_double_of_bits(linsjoar_draft_u64(draft->words, 3) ^ UINT64_C(9218868437227405312));
}
static inline void Widths_outer_inner_both_rest_set_ratio(struct Widths_draft *draft, double value) {
    if (linsjoar_draft_u16(draft->words, 4) != 2)
        Widths_outer_init(draft);
    if (linsjoar_draft_u16(draft->words, 2) != 1)
        Widths_outer_inner_init(draft);
    if (linsjoar_draft_u16(draft->words, 1) != 1)
        Widths_outer_inner_both_init(draft);
    linsjoar_set_u64(draft->words, 3, (uint64_t)((uint64_t)linsjoar_bits_of_double(value) ^ UINT64_C(9218868437227405312)));
}
static inline struct linsjoar_text_orphan Widths_outer_inner_both_rest_draft_get_label(const struct Widths_draft *draft) {
    struct linsjoar_text_orphan orphan;
    orphan.word = draft->orphans[0];
    return orphan;
}
static inline void Widths_outer_inner_both_rest_set_label(struct Widths_draft *draft, struct linsjoar_text_orphan orphan) {
    if (linsjoar_draft_u16(draft->words, 4) != 2)
        Widths_outer_init(draft);
    if (linsjoar_draft_u16(draft->words, 2) != 1)
        Widths_outer_inner_init(draft);
    if (linsjoar_draft_u16(draft->words, 1) != 1)
        Widths_outer_inner_both_init(draft);
    draft->orphans[0] = orphan.word;
}
static inline LINSJOAR_CHECKED enum linsjoar_error Widths_outer_inner_both_rest_copy_label(const struct Widths_reader *read, struct linsjoar_message *message, struct Widths_draft *draft) {
    struct linsjoar_pointer_reader pointer = linsjoar_get_pointer(&read->fields, 0);
    struct linsjoar_text_orphan orphan;
    enum linsjoar_error error = linsjoar_add_copy_of(message, &pointer, &orphan.word);
    if (error == LINSJOAR_OK)
        Widths_outer_inner_both_rest_set_label(draft, orphan);
    return error;
}
static inline struct linsjoar_i16_list_list_list_orphan Widths_outer_inner_both_rest_draft_get_cube(const struct Widths_draft *draft) {
    struct linsjoar_i16_list_list_list_orphan orphan;
    orphan.word = draft->orphans[1];
    return orphan;
}
static inline void Widths_outer_inner_both_rest_set_cube(struct Widths_draft *draft, struct linsjoar_i16_list_list_list_orphan orphan) {
    if (linsjoar_draft_u16(draft->words, 4) != 2)
        Widths_outer_init(draft);
    if (linsjoar_draft_u16(draft->words, 2) != 1)
        Widths_outer_inner_init(draft);
    if (linsjoar_draft_u16(draft->words, 1) != 1)
        Widths_outer_inner_both_init(draft);
    draft->orphans[1] = orphan.word;
}
static inline LINSJOAR_CHECKED enum linsjoar_error Widths_outer_inner_both_rest_copy_cube(const struct Widths_reader *read, struct linsjoar_message *message, struct Widths_draft *draft) {
    struct linsjoar_pointer_reader pointer = linsjoar_get_pointer(&read->fields, 1);
    struct linsjoar_i16_list_list_list_orphan orphan;
    enum linsjoar_error error = linsjoar_add_copy_of(message, &pointer, &orphan.word);
    if (error == LINSJOAR_OK)
        Widths_outer_inner_both_rest_set_cube(draft, orphan);
    return error;
}
static inline struct Widths_orphan Widths_outer_inner_both_rest_draft_get_widths(const struct Widths_draft *draft) {
    struct Widths_orphan orphan;
    orphan.word = draft->orphans[3];
    return orphan;
}
static inline void Widths_outer_inner_both_rest_set_widths(struct Widths_draft *draft, struct Widths_orphan orphan) {
    if (linsjoar_draft_u16(draft->words, 4) != 2)
        Widths_outer_init(draft);
    if (linsjoar_draft_u16(draft->words, 2) != 1)
        Widths_outer_inner_init(draft);
    if (linsjoar_draft_u16(draft->words, 1) != 1)
        Widths_outer_inner_both_init(draft);
    draft->orphans[3] = orphan.word;
}
static inline LINSJOAR_CHECKED enum linsjoar_error Widths_outer_inner_both_rest_copy_widths(const struct Widths_reader *read, struct linsjoar_message *message, struct Widths_draft *draft) {
    struct linsjoar_pointer_reader pointer = linsjoar_get_pointer(&read->fields, 3);
    struct Widths_orphan orphan;
    enum linsjoar_error error = linsjoar_add_copy_of(message, &pointer, &orphan.word);
    if (error == LINSJOAR_OK)
        Widths_outer_inner_both_rest_set_widths(draft, orphan);
    return error;
}
static inline struct linsjoar_pointer_orphan Widths_outer_inner_both_rest_draft_get_any(const struct Widths_draft *draft) {
    struct linsjoar_pointer_orphan orphan;
    orphan.word = draft->orphans[4];
    return orphan;
}
static inline void Widths_outer_inner_both_rest_set_any(struct Widths_draft *draft, struct linsjoar_pointer_orphan orphan) {
    if (linsjoar_draft_u16(draft->words, 4) != 2)
        Widths_outer_init(draft);
    if (linsjoar_draft_u16(draft->words, 2) != 1)
        Widths_outer_inner_init(draft);
    if (linsjoar_draft_u16(draft->words, 1) != 1)
        Widths_outer_inner_both_init(draft);
    draft->orphans[4] = orphan.word;
}
static inline LINSJOAR_CHECKED enum linsjoar_error Widths_outer_inner_both_rest_copy_any(const struct Widths_reader *read, struct linsjoar_message *message, struct Widths_draft *draft) {
    struct linsjoar_pointer_reader pointer = linsjoar_get_pointer(&read->fields, 4);
    struct linsjoar_pointer_orphan orphan;
    enum linsjoar_error error = linsjoar_add_copy_of(message, &pointer, &orphan.word);
    if (error == LINSJOAR_OK)
        Widths_outer_inner_both_rest_set_any(draft, orphan);
    return error;
}

/* Opens a framed message, and reads the Bare at its root: within the default limits, or within these. */
static inline LINSJOAR_CHECKED enum linsjoar_error Bare_root(const uint8_t *bytes, size_t len, struct linsjoar_reader *reader, struct Bare_reader *value) {
    return linsjoar_open_root(bytes, len, NULL, reader, &value->fields);
}
static inline LINSJOAR_CHECKED enum linsjoar_error Bare_root_with_options(const uint8_t *bytes, size_t len, const struct linsjoar_options *options, struct linsjoar_reader *reader, struct Bare_reader *value) {
    return linsjoar_open_root(bytes, len, options, reader, &value->fields);
}

/* Reads the Bare that a pointer points to, or a list of them. Null is an empty one. */
static inline LINSJOAR_CHECKED enum linsjoar_error Bare_read(const struct linsjoar_pointer_reader *pointer, struct Bare_reader *value) {
    return linsjoar_read_struct(pointer, &value->fields);
}
static inline LINSJOAR_CHECKED enum linsjoar_error Bare_list_read(const struct linsjoar_pointer_reader *pointer, struct Bare_list_reader *value) {
    return linsjoar_read_list(pointer, LINSJOAR_STRUCTS, &value->elements);
}

/* The same struct, counted in another reader, as each thread has one: a copy of the reader that opened the message. It
 * dangles without that reader and without the bytes. Threads may share both the bytes and what was read, and no reader. */
static inline struct Bare_reader Bare_bind(struct Bare_reader read, struct linsjoar_reader *reader) {
    read.fields.source.reader = reader;
    return read;
}

/* How many a list has, and one of them; past the last one an empty one. */
static inline uint32_t Bare_list_len(const struct Bare_list_reader *list) {
    return linsjoar_list_len(&list->elements);
}
static inline struct Bare_reader Bare_list_get(const struct Bare_list_reader *list, uint32_t index) {
    struct Bare_reader value;
    if (linsjoar_list_get_struct(&list->elements, index, &value.fields) != LINSJOAR_OK)
        memset(&value.fields.fields, 0, sizeof value.fields.fields);
    return value;
}

/* The draft of a struct that is to be added: whose fields have their defaults, or what was read, with copies of all that
 * it points to. */
static inline struct Bare_draft Bare_new(void) {
    struct Bare_draft draft;
    memset(&draft, 0, sizeof draft);
    return draft;
}
static inline LINSJOAR_CHECKED enum linsjoar_error Bare_draft_of(const struct Bare_reader *read, struct linsjoar_message *message, struct Bare_draft *draft) {
    memset(draft, 0, sizeof *draft);
    return linsjoar_draft_of(&read->fields, message, NULL, 0, NULL, 0);
}

/* Adds the struct of a draft to a message, or finishes the message with it as the root. */
static inline LINSJOAR_CHECKED enum linsjoar_error Bare_add(struct linsjoar_message *message, const struct Bare_draft *draft, struct Bare_orphan *orphan) {
    return linsjoar_add_draft(message, (const uint64_t *)draft, 0, (const uint64_t *)draft, 0, &orphan->word);
}
static inline LINSJOAR_CHECKED enum linsjoar_error Bare_finish(struct linsjoar_message *message, const struct Bare_draft *draft, size_t *len) {
    struct Bare_orphan root;
    enum linsjoar_error error = Bare_add(message, draft, &root);
    *len = 0;
    if (error == LINSJOAR_OK)
        error = linsjoar_message_set_root(message, root.word);
    return error == LINSJOAR_OK ? linsjoar_message_finish(message, len) : error;
}

/* Adds a list of structs: of an array of drafts, or of those that are pushed one by one, and are in the message's memory
 * until then. The latter begin as zeros. A list that is begun after another one is added before it. */
static inline LINSJOAR_CHECKED enum linsjoar_error Bare_add_list(struct linsjoar_message *message, const struct Bare_draft *drafts, size_t count, struct Bare_list_orphan *orphan) {
    return linsjoar_add_draft_list(message, drafts, count, 0, 0, &orphan->word);
}
static inline LINSJOAR_CHECKED enum linsjoar_error Bare_push(struct linsjoar_message *message, struct Bare_drafts *drafts, const struct Bare_draft *draft) {
    return linsjoar_push_draft(message, &drafts->drafts, draft, 8 * 0);
}
static inline LINSJOAR_CHECKED enum linsjoar_error Bare_add_drafts(struct linsjoar_message *message, struct Bare_drafts *drafts, struct Bare_list_orphan *orphan) {
    return linsjoar_add_drafts(message, &drafts->drafts, 0, 0, &orphan->word);
}

/* Opens a framed message, and reads the Targets at its root: within the default limits, or within these. */
static inline LINSJOAR_CHECKED enum linsjoar_error Targets_root(const uint8_t *bytes, size_t len, struct linsjoar_reader *reader, struct Targets_reader *value) {
    return linsjoar_open_root(bytes, len, NULL, reader, &value->fields);
}
static inline LINSJOAR_CHECKED enum linsjoar_error Targets_root_with_options(const uint8_t *bytes, size_t len, const struct linsjoar_options *options, struct linsjoar_reader *reader, struct Targets_reader *value) {
    return linsjoar_open_root(bytes, len, options, reader, &value->fields);
}

/* Reads the Targets that a pointer points to, or a list of them. Null is an empty one. */
static inline LINSJOAR_CHECKED enum linsjoar_error Targets_read(const struct linsjoar_pointer_reader *pointer, struct Targets_reader *value) {
    return linsjoar_read_struct(pointer, &value->fields);
}
static inline LINSJOAR_CHECKED enum linsjoar_error Targets_list_read(const struct linsjoar_pointer_reader *pointer, struct Targets_list_reader *value) {
    return linsjoar_read_list(pointer, LINSJOAR_STRUCTS, &value->elements);
}

/* The same struct, counted in another reader, as each thread has one: a copy of the reader that opened the message. It
 * dangles without that reader and without the bytes. Threads may share both the bytes and what was read, and no reader. */
static inline struct Targets_reader Targets_bind(struct Targets_reader read, struct linsjoar_reader *reader) {
    read.fields.source.reader = reader;
    return read;
}

/* How many a list has, and one of them; past the last one an empty one. */
static inline uint32_t Targets_list_len(const struct Targets_list_reader *list) {
    return linsjoar_list_len(&list->elements);
}
static inline struct Targets_reader Targets_list_get(const struct Targets_list_reader *list, uint32_t index) {
    struct Targets_reader value;
    if (linsjoar_list_get_struct(&list->elements, index, &value.fields) != LINSJOAR_OK)
        memset(&value.fields.fields, 0, sizeof value.fields.fields);
    return value;
}

/* The field `services` is left out: it is an interface, or a list of them. */

static const uint8_t Targets_ranks_default[32] = {
    0, 0, 0, 0, 3, 0, 0, 0,
    1, 0, 0, 0, 14, 0, 0, 0,
    1, 0, 0, 0, 11, 0, 0, 0,
    2, 0, 0, 0, 0, 0, 0, 0,
};
/* ranks :List(List(OwnRank)) */
static inline LINSJOAR_CHECKED enum linsjoar_error Targets_get_ranks(const struct Targets_reader *read, struct OwnRank_list_list_reader *value) {
    struct linsjoar_pointer_reader pointer = linsjoar_get_pointer_or(&read->fields, 1, Targets_ranks_default, sizeof Targets_ranks_default);
    return linsjoar_read_list(&pointer, LINSJOAR_POINTERS, &value->elements);
}
static inline bool Targets_has_ranks(const struct Targets_reader *read) {
    return linsjoar_has_pointer(&read->fields, 1);
}

static const uint8_t Targets_nothings_default[16] = {
    0, 0, 0, 0, 1, 0, 0, 0,
    1, 0, 0, 0, 16, 0, 0, 0,
};
/* nothings :List(Void) */
static inline LINSJOAR_CHECKED enum linsjoar_error Targets_get_nothings(const struct Targets_reader *read, struct linsjoar_void_list_reader *value) {
    struct linsjoar_pointer_reader pointer = linsjoar_get_pointer_or(&read->fields, 2, Targets_nothings_default, sizeof Targets_nothings_default);
    return linsjoar_read_list(&pointer, LINSJOAR_VOID, &value->elements);
}
static inline bool Targets_has_nothings(const struct Targets_reader *read) {
    return linsjoar_has_pointer(&read->fields, 2);
}

static const uint8_t Targets_texts_default[64] = {
    0, 0, 0, 0, 7, 0, 0, 0,
    1, 0, 0, 0, 22, 0, 0, 0,
    5, 0, 0, 0, 22, 0, 0, 0,
    17, 0, 0, 0, 6, 0, 0, 0,
    5, 0, 0, 0, 18, 0, 0, 0,
    5, 0, 0, 0, 10, 0, 0, 0,
    97, 0, 0, 0, 0, 0, 0, 0,
    0, 0, 0, 0, 0, 0, 0, 0,
};
/* texts :List(List(Text)) */
static inline LINSJOAR_CHECKED enum linsjoar_error Targets_get_texts(const struct Targets_reader *read, struct linsjoar_text_list_list_reader *value) {
    struct linsjoar_pointer_reader pointer = linsjoar_get_pointer_or(&read->fields, 3, Targets_texts_default, sizeof Targets_texts_default);
    return linsjoar_read_list(&pointer, LINSJOAR_POINTERS, &value->elements);
}
static inline bool Targets_has_texts(const struct Targets_reader *read) {
    return linsjoar_has_pointer(&read->fields, 3);
}

static const uint8_t Targets_bytes_default[32] = {
    0, 0, 0, 0, 3, 0, 0, 0,
    1, 0, 0, 0, 14, 0, 0, 0,
    1, 0, 0, 0, 10, 0, 0, 0,
    0, 0, 0, 0, 0, 0, 0, 0,
};
/* bytes :List(Data) */
static inline LINSJOAR_CHECKED enum linsjoar_error Targets_get_bytes(const struct Targets_reader *read, struct linsjoar_data_list_reader *value) {
    struct linsjoar_pointer_reader pointer = linsjoar_get_pointer_or(&read->fields, 4, Targets_bytes_default, sizeof Targets_bytes_default);
    return linsjoar_read_list(&pointer, LINSJOAR_POINTERS, &value->elements);
}
static inline bool Targets_has_bytes(const struct Targets_reader *read) {
    return linsjoar_has_pointer(&read->fields, 4);
}

/* anyStruct :AnyPointer
 * Any struct. */
static inline struct linsjoar_pointer_reader Targets_get_anyStruct(const struct Targets_reader *read) {
    return linsjoar_get_pointer(&read->fields, 5);
}
static inline bool Targets_has_anyStruct(const struct Targets_reader *read) {
    return linsjoar_has_pointer(&read->fields, 5);
}

/* anyList :AnyPointer */
static inline struct linsjoar_pointer_reader Targets_get_anyList(const struct Targets_reader *read) {
    return linsjoar_get_pointer(&read->fields, 6);
}
static inline bool Targets_has_anyList(const struct Targets_reader *read) {
    return linsjoar_has_pointer(&read->fields, 6);
}

/* The field `capability` is left out: it is an interface, or a list of them. */

/* keeper :Keeper */
static inline LINSJOAR_CHECKED enum linsjoar_error Targets_get_keeper(const struct Targets_reader *read, struct Keeper_reader *value) {
    struct linsjoar_pointer_reader pointer = linsjoar_get_pointer(&read->fields, 8);
    return linsjoar_read_struct(&pointer, &value->fields);
}
static inline bool Targets_has_keeper(const struct Targets_reader *read) {
    return linsjoar_has_pointer(&read->fields, 8);
}

static const uint8_t Targets_options_default[24] = {
    0, 0, 0, 0, 2, 0, 0, 0,
    0, 0, 0, 0, 1, 0, 0, 0,
    3, 0, 0, 0, 0, 0, 0, 128,
};
/* options :Service.Options
 * A pointer with a default. */
static inline LINSJOAR_CHECKED enum linsjoar_error Targets_get_options(const struct Targets_reader *read, struct Service_Options_reader *value) {
    struct linsjoar_pointer_reader pointer = linsjoar_get_pointer_or(&read->fields, 9, Targets_options_default, sizeof Targets_options_default);
    return linsjoar_read_struct(&pointer, &value->fields);
}
static inline bool Targets_has_options(const struct Targets_reader *read) {
    return linsjoar_has_pointer(&read->fields, 9);
}

static const uint8_t Targets_plain_default[24] = {
    0, 0, 0, 0, 2, 0, 0, 0,
    0, 0, 0, 0, 0, 0, 1, 0,
    0, 0, 0, 0, 0, 0, 0, 0,
};
/* plain :Keeper */
static inline LINSJOAR_CHECKED enum linsjoar_error Targets_get_plain(const struct Targets_reader *read, struct Keeper_reader *value) {
    struct linsjoar_pointer_reader pointer = linsjoar_get_pointer_or(&read->fields, 10, Targets_plain_default, sizeof Targets_plain_default);
    return linsjoar_read_struct(&pointer, &value->fields);
}
static inline bool Targets_has_plain(const struct Targets_reader *read) {
    return linsjoar_has_pointer(&read->fields, 10);
}

static const uint8_t Targets_widths_default[104] = {
    0, 0, 0, 0, 12, 0, 0, 0,
    1, 0, 0, 0, 14, 0, 0, 0,
    1, 0, 0, 0, 79, 0, 0, 0,
    4, 0, 0, 0, 4, 0, 5, 0,
    2, 0, 0, 0, 0, 0, 0, 0,
    0, 0, 0, 0, 0, 0, 0, 0,
    0, 0, 0, 0, 0, 0, 0, 0,
    0, 0, 0, 0, 0, 0, 0, 0,
    0, 0, 0, 0, 0, 0, 0, 0,
    0, 0, 0, 0, 0, 0, 0, 0,
    0, 0, 0, 0, 0, 0, 0, 0,
    0, 0, 0, 0, 0, 0, 0, 0,
    0, 0, 0, 0, 0, 0, 0, 0,
};
/* widths :List(List(Widths)) */
static inline LINSJOAR_CHECKED enum linsjoar_error Targets_get_widths(const struct Targets_reader *read, struct Widths_list_list_reader *value) {
    struct linsjoar_pointer_reader pointer = linsjoar_get_pointer_or(&read->fields, 11, Targets_widths_default, sizeof Targets_widths_default);
    return linsjoar_read_list(&pointer, LINSJOAR_POINTERS, &value->elements);
}
static inline bool Targets_has_widths(const struct Targets_reader *read) {
    return linsjoar_has_pointer(&read->fields, 11);
}

/* The draft of a struct that is to be added: whose fields have their defaults, or what was read, with copies of all that
 * it points to. */
static inline struct Targets_draft Targets_new(void) {
    struct Targets_draft draft;
    memset(&draft, 0, sizeof draft);
    return draft;
}
static inline LINSJOAR_CHECKED enum linsjoar_error Targets_draft_of(const struct Targets_reader *read, struct linsjoar_message *message, struct Targets_draft *draft) {
    memset(draft, 0, sizeof *draft);
    return linsjoar_draft_of(&read->fields, message, NULL, 0, draft->orphans, 12);
}

/* Adds the struct of a draft to a message, or finishes the message with it as the root. */
static inline LINSJOAR_CHECKED enum linsjoar_error Targets_add(struct linsjoar_message *message, const struct Targets_draft *draft, struct Targets_orphan *orphan) {
    return linsjoar_add_draft(message, (const uint64_t *)draft, 0, draft->orphans, 12, &orphan->word);
}
static inline LINSJOAR_CHECKED enum linsjoar_error Targets_finish(struct linsjoar_message *message, const struct Targets_draft *draft, size_t *len) {
    struct Targets_orphan root;
    enum linsjoar_error error = Targets_add(message, draft, &root);
    *len = 0;
    if (error == LINSJOAR_OK)
        error = linsjoar_message_set_root(message, root.word);
    return error == LINSJOAR_OK ? linsjoar_message_finish(message, len) : error;
}

/* Adds a list of structs: of an array of drafts, or of those that are pushed one by one, and are in the message's memory
 * until then. The latter begin as zeros. A list that is begun after another one is added before it. */
static inline LINSJOAR_CHECKED enum linsjoar_error Targets_add_list(struct linsjoar_message *message, const struct Targets_draft *drafts, size_t count, struct Targets_list_orphan *orphan) {
    return linsjoar_add_draft_list(message, drafts, count, 0, 12, &orphan->word);
}
static inline LINSJOAR_CHECKED enum linsjoar_error Targets_push(struct linsjoar_message *message, struct Targets_drafts *drafts, const struct Targets_draft *draft) {
    return linsjoar_push_draft(message, &drafts->drafts, draft, 8 * 12);
}
static inline LINSJOAR_CHECKED enum linsjoar_error Targets_add_drafts(struct linsjoar_message *message, struct Targets_drafts *drafts, struct Targets_list_orphan *orphan) {
    return linsjoar_add_drafts(message, &drafts->drafts, 0, 12, &orphan->word);
}

static inline struct OwnRank_list_list_orphan Targets_draft_get_ranks(const struct Targets_draft *draft) {
    struct OwnRank_list_list_orphan orphan;
    orphan.word = draft->orphans[1];
    return orphan;
}
static inline void Targets_set_ranks(struct Targets_draft *draft, struct OwnRank_list_list_orphan orphan) {
    draft->orphans[1] = orphan.word;
}
static inline LINSJOAR_CHECKED enum linsjoar_error Targets_copy_ranks(const struct Targets_reader *read, struct linsjoar_message *message, struct Targets_draft *draft) {
    struct linsjoar_pointer_reader pointer = linsjoar_get_pointer(&read->fields, 1);
    struct OwnRank_list_list_orphan orphan;
    enum linsjoar_error error = linsjoar_add_copy_of(message, &pointer, &orphan.word);
    if (error == LINSJOAR_OK)
        Targets_set_ranks(draft, orphan);
    return error;
}
static inline struct linsjoar_void_list_orphan Targets_draft_get_nothings(const struct Targets_draft *draft) {
    struct linsjoar_void_list_orphan orphan;
    orphan.word = draft->orphans[2];
    return orphan;
}
static inline void Targets_set_nothings(struct Targets_draft *draft, struct linsjoar_void_list_orphan orphan) {
    draft->orphans[2] = orphan.word;
}
static inline LINSJOAR_CHECKED enum linsjoar_error Targets_copy_nothings(const struct Targets_reader *read, struct linsjoar_message *message, struct Targets_draft *draft) {
    struct linsjoar_pointer_reader pointer = linsjoar_get_pointer(&read->fields, 2);
    struct linsjoar_void_list_orphan orphan;
    enum linsjoar_error error = linsjoar_add_copy_of(message, &pointer, &orphan.word);
    if (error == LINSJOAR_OK)
        Targets_set_nothings(draft, orphan);
    return error;
}
static inline struct linsjoar_text_list_list_orphan Targets_draft_get_texts(const struct Targets_draft *draft) {
    struct linsjoar_text_list_list_orphan orphan;
    orphan.word = draft->orphans[3];
    return orphan;
}
static inline void Targets_set_texts(struct Targets_draft *draft, struct linsjoar_text_list_list_orphan orphan) {
    draft->orphans[3] = orphan.word;
}
static inline LINSJOAR_CHECKED enum linsjoar_error Targets_copy_texts(const struct Targets_reader *read, struct linsjoar_message *message, struct Targets_draft *draft) {
    struct linsjoar_pointer_reader pointer = linsjoar_get_pointer(&read->fields, 3);
    struct linsjoar_text_list_list_orphan orphan;
    enum linsjoar_error error = linsjoar_add_copy_of(message, &pointer, &orphan.word);
    if (error == LINSJOAR_OK)
        Targets_set_texts(draft, orphan);
    return error;
}
static inline struct linsjoar_data_list_orphan Targets_draft_get_bytes(const struct Targets_draft *draft) {
    struct linsjoar_data_list_orphan orphan;
    orphan.word = draft->orphans[4];
    return orphan;
}
static inline void Targets_set_bytes(struct Targets_draft *draft, struct linsjoar_data_list_orphan orphan) {
    draft->orphans[4] = orphan.word;
}
static inline LINSJOAR_CHECKED enum linsjoar_error Targets_copy_bytes(const struct Targets_reader *read, struct linsjoar_message *message, struct Targets_draft *draft) {
    struct linsjoar_pointer_reader pointer = linsjoar_get_pointer(&read->fields, 4);
    struct linsjoar_data_list_orphan orphan;
    enum linsjoar_error error = linsjoar_add_copy_of(message, &pointer, &orphan.word);
    if (error == LINSJOAR_OK)
        Targets_set_bytes(draft, orphan);
    return error;
}
static inline struct linsjoar_pointer_orphan Targets_draft_get_anyStruct(const struct Targets_draft *draft) {
    struct linsjoar_pointer_orphan orphan;
    orphan.word = draft->orphans[5];
    return orphan;
}
static inline void Targets_set_anyStruct(struct Targets_draft *draft, struct linsjoar_pointer_orphan orphan) {
    draft->orphans[5] = orphan.word;
}
static inline LINSJOAR_CHECKED enum linsjoar_error Targets_copy_anyStruct(const struct Targets_reader *read, struct linsjoar_message *message, struct Targets_draft *draft) {
    struct linsjoar_pointer_reader pointer = linsjoar_get_pointer(&read->fields, 5);
    struct linsjoar_pointer_orphan orphan;
    enum linsjoar_error error = linsjoar_add_copy_of(message, &pointer, &orphan.word);
    if (error == LINSJOAR_OK)
        Targets_set_anyStruct(draft, orphan);
    return error;
}
static inline struct linsjoar_pointer_orphan Targets_draft_get_anyList(const struct Targets_draft *draft) {
    struct linsjoar_pointer_orphan orphan;
    orphan.word = draft->orphans[6];
    return orphan;
}
static inline void Targets_set_anyList(struct Targets_draft *draft, struct linsjoar_pointer_orphan orphan) {
    draft->orphans[6] = orphan.word;
}
static inline LINSJOAR_CHECKED enum linsjoar_error Targets_copy_anyList(const struct Targets_reader *read, struct linsjoar_message *message, struct Targets_draft *draft) {
    struct linsjoar_pointer_reader pointer = linsjoar_get_pointer(&read->fields, 6);
    struct linsjoar_pointer_orphan orphan;
    enum linsjoar_error error = linsjoar_add_copy_of(message, &pointer, &orphan.word);
    if (error == LINSJOAR_OK)
        Targets_set_anyList(draft, orphan);
    return error;
}
static inline struct Keeper_orphan Targets_draft_get_keeper(const struct Targets_draft *draft) {
    struct Keeper_orphan orphan;
    orphan.word = draft->orphans[8];
    return orphan;
}
static inline void Targets_set_keeper(struct Targets_draft *draft, struct Keeper_orphan orphan) {
    draft->orphans[8] = orphan.word;
}
static inline LINSJOAR_CHECKED enum linsjoar_error Targets_copy_keeper(const struct Targets_reader *read, struct linsjoar_message *message, struct Targets_draft *draft) {
    struct linsjoar_pointer_reader pointer = linsjoar_get_pointer(&read->fields, 8);
    struct Keeper_orphan orphan;
    enum linsjoar_error error = linsjoar_add_copy_of(message, &pointer, &orphan.word);
    if (error == LINSJOAR_OK)
        Targets_set_keeper(draft, orphan);
    return error;
}
static inline struct Service_Options_orphan Targets_draft_get_options(const struct Targets_draft *draft) {
    struct Service_Options_orphan orphan;
    orphan.word = draft->orphans[9];
    return orphan;
}
static inline void Targets_set_options(struct Targets_draft *draft, struct Service_Options_orphan orphan) {
    draft->orphans[9] = orphan.word;
}
static inline LINSJOAR_CHECKED enum linsjoar_error Targets_copy_options(const struct Targets_reader *read, struct linsjoar_message *message, struct Targets_draft *draft) {
    struct linsjoar_pointer_reader pointer = linsjoar_get_pointer(&read->fields, 9);
    struct Service_Options_orphan orphan;
    enum linsjoar_error error = linsjoar_add_copy_of(message, &pointer, &orphan.word);
    if (error == LINSJOAR_OK)
        Targets_set_options(draft, orphan);
    return error;
}
static inline struct Keeper_orphan Targets_draft_get_plain(const struct Targets_draft *draft) {
    struct Keeper_orphan orphan;
    orphan.word = draft->orphans[10];
    return orphan;
}
static inline void Targets_set_plain(struct Targets_draft *draft, struct Keeper_orphan orphan) {
    draft->orphans[10] = orphan.word;
}
static inline LINSJOAR_CHECKED enum linsjoar_error Targets_copy_plain(const struct Targets_reader *read, struct linsjoar_message *message, struct Targets_draft *draft) {
    struct linsjoar_pointer_reader pointer = linsjoar_get_pointer(&read->fields, 10);
    struct Keeper_orphan orphan;
    enum linsjoar_error error = linsjoar_add_copy_of(message, &pointer, &orphan.word);
    if (error == LINSJOAR_OK)
        Targets_set_plain(draft, orphan);
    return error;
}
static inline struct Widths_list_list_orphan Targets_draft_get_widths(const struct Targets_draft *draft) {
    struct Widths_list_list_orphan orphan;
    orphan.word = draft->orphans[11];
    return orphan;
}
static inline void Targets_set_widths(struct Targets_draft *draft, struct Widths_list_list_orphan orphan) {
    draft->orphans[11] = orphan.word;
}
static inline LINSJOAR_CHECKED enum linsjoar_error Targets_copy_widths(const struct Targets_reader *read, struct linsjoar_message *message, struct Targets_draft *draft) {
    struct linsjoar_pointer_reader pointer = linsjoar_get_pointer(&read->fields, 11);
    struct Widths_list_list_orphan orphan;
    enum linsjoar_error error = linsjoar_add_copy_of(message, &pointer, &orphan.word);
    if (error == LINSJOAR_OK)
        Targets_set_widths(draft, orphan);
    return error;
}

/* A constant that is a number. */
static const int16_t edges_least = -32768;

static const int32_t edges_middle = -2147483648;

static const uint64_t edges_most = UINT64_C(18446744073709551615);

static const int8_t edges_small = -128;

static const double edges_zero = -0.0;

static const float edges_tiny = 1e-45f;

static const double edges_endless = -INFINITY;

static const float edges_unknown = NAN;

static const bool edges_no = false;

static const enum Rank edges_far = Rank_high;

static const uint8_t edges_empty_constant[24] = {
    0, 0, 0, 0, 2, 0, 0, 0,
    1, 0, 0, 0, 10, 0, 0, 0,
    0, 0, 0, 0, 0, 0, 0, 0,
};
static inline LINSJOAR_CHECKED enum linsjoar_error edges_get_empty(struct linsjoar_text_reader *value) {
    struct linsjoar_pointer_reader pointer = linsjoar_constant(edges_empty_constant, sizeof edges_empty_constant);
    return linsjoar_read_text(&pointer, value);
}

static const uint8_t edges_cited_constant[40] = {
    0, 0, 0, 0, 4, 0, 0, 0,
    1, 0, 0, 0, 170, 0, 0, 0,
    36, 82, 101, 115, 117, 108, 116, 32,
    36, 123, 125, 32, 36, 32, 64, 110,
    97, 109, 101, 64, 0, 0, 0, 0,
};
static inline LINSJOAR_CHECKED enum linsjoar_error edges_get_cited(struct linsjoar_text_reader *value) {
    struct linsjoar_pointer_reader pointer = linsjoar_constant(edges_cited_constant, sizeof edges_cited_constant);
    return linsjoar_read_text(&pointer, value);
}

static const uint8_t edges_none_constant[16] = {
    0, 0, 0, 0, 1, 0, 0, 0,
    1, 0, 0, 0, 2, 0, 0, 0,
};
static inline LINSJOAR_CHECKED enum linsjoar_error edges_get_none(struct linsjoar_data_reader *value) {
    struct linsjoar_pointer_reader pointer = linsjoar_constant(edges_none_constant, sizeof edges_none_constant);
    return linsjoar_read_data(&pointer, value);
}

static const uint8_t edges_citing_constant[24] = {
    0, 0, 0, 0, 2, 0, 0, 0,
    1, 0, 0, 0, 58, 0, 0, 0,
    36, 86, 101, 99, 32, 34, 92, 0,
};
static inline LINSJOAR_CHECKED enum linsjoar_error edges_get_citing(struct linsjoar_data_reader *value) {
    struct linsjoar_pointer_reader pointer = linsjoar_constant(edges_citing_constant, sizeof edges_citing_constant);
    return linsjoar_read_data(&pointer, value);
}

static const uint8_t edges_targets_constant[272] = {
    0, 0, 0, 0, 33, 0, 0, 0,
    0, 0, 0, 0, 0, 0, 12, 0,
    0, 0, 0, 0, 0, 0, 0, 0,
    41, 0, 0, 0, 22, 0, 0, 0,
    0, 0, 0, 0, 0, 0, 0, 0,
    0, 0, 0, 0, 0, 0, 0, 0,
    41, 0, 0, 0, 22, 0, 0, 0,
    0, 0, 0, 0, 0, 0, 0, 0,
    0, 0, 0, 0, 0, 0, 0, 0,
    0, 0, 0, 0, 0, 0, 0, 0,
    0, 0, 0, 0, 0, 0, 0, 0,
    0, 0, 0, 0, 0, 0, 0, 0,
    0, 0, 0, 0, 0, 0, 0, 0,
    25, 0, 0, 0, 22, 0, 0, 0,
    5, 0, 0, 0, 19, 0, 0, 0,
    5, 0, 0, 0, 3, 0, 0, 0,
    0, 0, 2, 0, 0, 0, 0, 0,
    5, 0, 0, 0, 18, 0, 0, 0,
    5, 0, 0, 0, 2, 0, 0, 0,
    97, 98, 0, 0, 0, 0, 0, 0,
    5, 0, 0, 0, 79, 0, 0, 0,
    45, 0, 0, 0, 7, 0, 0, 0,
    4, 0, 0, 0, 4, 0, 5, 0,
    0, 0, 0, 0, 0, 0, 0, 0,
    1, 0, 0, 0, 0, 0, 0, 0,
    0, 0, 0, 0, 0, 0, 0, 0,
    0, 0, 0, 0, 0, 0, 0, 0,
    17, 0, 0, 0, 10, 0, 0, 0,
    0, 0, 0, 0, 0, 0, 0, 0,
    0, 0, 0, 0, 0, 0, 0, 0,
    0, 0, 0, 0, 0, 0, 0, 0,
    0, 0, 0, 0, 0, 0, 0, 0,
    120, 0, 0, 0, 0, 0, 0, 0,
    0, 0, 0, 0, 4, 0, 5, 0,
};
/* A constant that is a struct. */
static inline LINSJOAR_CHECKED enum linsjoar_error edges_get_targets(struct Targets_reader *value) {
    struct linsjoar_pointer_reader pointer = linsjoar_constant(edges_targets_constant, sizeof edges_targets_constant);
    return linsjoar_read_struct(&pointer, &value->fields);
}

static const uint8_t edges_widths_constant[256] = {
    0, 0, 0, 0, 31, 0, 0, 0,
    1, 0, 0, 0, 151, 0, 0, 0,
    8, 0, 0, 0, 4, 0, 5, 0,
    3, 0, 0, 0, 0, 0, 0, 0,
    0, 0, 0, 0, 0, 0, 0, 0,
    0, 0, 0, 0, 0, 0, 0, 0,
    0, 0, 0, 0, 0, 0, 0, 0,
    0, 0, 0, 0, 0, 0, 0, 0,
    0, 0, 0, 0, 0, 0, 0, 0,
    0, 0, 0, 0, 0, 0, 0, 0,
    0, 0, 0, 0, 0, 0, 0, 0,
    0, 0, 0, 0, 0, 0, 0, 0,
    0, 0, 1, 0, 1, 0, 0, 0,
    2, 0, 0, 0, 0, 0, 0, 0,
    0, 0, 0, 0, 0, 0, 0, 0,
    0, 0, 0, 0, 0, 0, 0, 0,
    17, 0, 0, 0, 42, 0, 0, 0,
    0, 0, 0, 0, 0, 0, 0, 0,
    0, 0, 0, 0, 0, 0, 0, 0,
    8, 0, 0, 0, 4, 0, 5, 0,
    0, 0, 0, 0, 0, 0, 0, 0,
    100, 101, 101, 112, 0, 0, 0, 0,
    0, 0, 0, 0, 0, 0, 0, 0,
    1, 0, 0, 0, 0, 0, 0, 0,
    0, 0, 0, 0, 0, 0, 0, 0,
    0, 0, 0, 0, 0, 0, 0, 0,
    17, 0, 0, 0, 10, 0, 0, 0,
    0, 0, 0, 0, 0, 0, 0, 0,
    0, 0, 0, 0, 0, 0, 0, 0,
    0, 0, 0, 0, 0, 0, 0, 0,
    0, 0, 0, 0, 0, 0, 0, 0,
    120, 0, 0, 0, 0, 0, 0, 0,
};
static inline LINSJOAR_CHECKED enum linsjoar_error edges_get_widths(struct Widths_list_reader *value) {
    struct linsjoar_pointer_reader pointer = linsjoar_constant(edges_widths_constant, sizeof edges_widths_constant);
    return linsjoar_read_list(&pointer, LINSJOAR_STRUCTS, &value->elements);
}

static const uint8_t edges_cube_constant[56] = {
    0, 0, 0, 0, 6, 0, 0, 0,
    1, 0, 0, 0, 22, 0, 0, 0,
    5, 0, 0, 0, 22, 0, 0, 0,
    13, 0, 0, 0, 6, 0, 0, 0,
    5, 0, 0, 0, 17, 0, 0, 0,
    5, 0, 0, 0, 1, 0, 0, 0,
    1, 0, 0, 0, 0, 0, 0, 0,
};
static inline LINSJOAR_CHECKED enum linsjoar_error edges_get_cube(struct linsjoar_bool_list_list_list_reader *value) {
    struct linsjoar_pointer_reader pointer = linsjoar_constant(edges_cube_constant, sizeof edges_cube_constant);
    return linsjoar_read_list(&pointer, LINSJOAR_POINTERS, &value->elements);
}

static const uint8_t edges_service_constant[16] = {
    0, 0, 0, 0, 1, 0, 0, 0,
    1, 0, 0, 0, 6, 0, 0, 0,
};
static inline LINSJOAR_CHECKED enum linsjoar_error edges_get_service(struct linsjoar_text_list_reader *value) {
    struct linsjoar_pointer_reader pointer = linsjoar_constant(edges_service_constant, sizeof edges_service_constant);
    return linsjoar_read_list(&pointer, LINSJOAR_POINTERS, &value->elements);
}

static const uint8_t edges_cards_constant[56] = {
    0, 0, 0, 0, 6, 0, 0, 0,
    1, 0, 0, 0, 22, 0, 0, 0,
    5, 0, 0, 0, 15, 0, 0, 0,
    9, 0, 0, 0, 7, 0, 0, 0,
    4, 0, 0, 0, 1, 0, 0, 0,
    1, 0, 3, 0, 0, 0, 0, 0,
    0, 0, 0, 0, 1, 0, 0, 0,
};
static inline LINSJOAR_CHECKED enum linsjoar_error edges_get_cards(struct Card_list_list_reader *value) {
    struct linsjoar_pointer_reader pointer = linsjoar_constant(edges_cards_constant, sizeof edges_cards_constant);
    return linsjoar_read_list(&pointer, LINSJOAR_POINTERS, &value->elements);
}

/* The constant `nothing` is left out. */

static const uint8_t edges_bools_constant[24] = {
    0, 0, 0, 0, 2, 0, 0, 0,
    1, 0, 0, 0, 9, 0, 0, 0,
    1, 0, 0, 0, 0, 0, 0, 0,
};
static inline LINSJOAR_CHECKED enum linsjoar_error edges_get_bools(struct linsjoar_bool_list_reader *value) {
    struct linsjoar_pointer_reader pointer = linsjoar_constant(edges_bools_constant, sizeof edges_bools_constant);
    return linsjoar_read_list(&pointer, LINSJOAR_BIT, &value->elements);
}

static const uint8_t edges_bytes_constant[24] = {
    0, 0, 0, 0, 2, 0, 0, 0,
    1, 0, 0, 0, 10, 0, 0, 0,
    255, 0, 0, 0, 0, 0, 0, 0,
};
static inline LINSJOAR_CHECKED enum linsjoar_error edges_get_bytes(struct linsjoar_i8_list_reader *value) {
    struct linsjoar_pointer_reader pointer = linsjoar_constant(edges_bytes_constant, sizeof edges_bytes_constant);
    return linsjoar_read_list(&pointer, LINSJOAR_BYTE, &value->elements);
}

static const uint8_t edges_shorts_constant[24] = {
    0, 0, 0, 0, 2, 0, 0, 0,
    1, 0, 0, 0, 11, 0, 0, 0,
    255, 255, 0, 0, 0, 0, 0, 0,
};
static inline LINSJOAR_CHECKED enum linsjoar_error edges_get_shorts(struct linsjoar_i16_list_reader *value) {
    struct linsjoar_pointer_reader pointer = linsjoar_constant(edges_shorts_constant, sizeof edges_shorts_constant);
    return linsjoar_read_list(&pointer, LINSJOAR_TWO_BYTES, &value->elements);
}

static const uint8_t edges_ints_constant[24] = {
    0, 0, 0, 0, 2, 0, 0, 0,
    1, 0, 0, 0, 12, 0, 0, 0,
    255, 255, 255, 255, 0, 0, 0, 0,
};
static inline LINSJOAR_CHECKED enum linsjoar_error edges_get_ints(struct linsjoar_i32_list_reader *value) {
    struct linsjoar_pointer_reader pointer = linsjoar_constant(edges_ints_constant, sizeof edges_ints_constant);
    return linsjoar_read_list(&pointer, LINSJOAR_FOUR_BYTES, &value->elements);
}

static const uint8_t edges_longs_constant[24] = {
    0, 0, 0, 0, 2, 0, 0, 0,
    1, 0, 0, 0, 13, 0, 0, 0,
    255, 255, 255, 255, 255, 255, 255, 255,
};
static inline LINSJOAR_CHECKED enum linsjoar_error edges_get_longs(struct linsjoar_i64_list_reader *value) {
    struct linsjoar_pointer_reader pointer = linsjoar_constant(edges_longs_constant, sizeof edges_longs_constant);
    return linsjoar_read_list(&pointer, LINSJOAR_EIGHT_BYTES, &value->elements);
}

static const uint8_t edges_plainBytes_constant[24] = {
    0, 0, 0, 0, 2, 0, 0, 0,
    1, 0, 0, 0, 10, 0, 0, 0,
    1, 0, 0, 0, 0, 0, 0, 0,
};
static inline LINSJOAR_CHECKED enum linsjoar_error edges_get_plainBytes(struct linsjoar_u8_list_reader *value) {
    struct linsjoar_pointer_reader pointer = linsjoar_constant(edges_plainBytes_constant, sizeof edges_plainBytes_constant);
    return linsjoar_read_list(&pointer, LINSJOAR_BYTE, &value->elements);
}

static const uint8_t edges_plainShorts_constant[24] = {
    0, 0, 0, 0, 2, 0, 0, 0,
    1, 0, 0, 0, 11, 0, 0, 0,
    1, 0, 0, 0, 0, 0, 0, 0,
};
static inline LINSJOAR_CHECKED enum linsjoar_error edges_get_plainShorts(struct linsjoar_u16_list_reader *value) {
    struct linsjoar_pointer_reader pointer = linsjoar_constant(edges_plainShorts_constant, sizeof edges_plainShorts_constant);
    return linsjoar_read_list(&pointer, LINSJOAR_TWO_BYTES, &value->elements);
}

static const uint8_t edges_plainLongs_constant[24] = {
    0, 0, 0, 0, 2, 0, 0, 0,
    1, 0, 0, 0, 13, 0, 0, 0,
    1, 0, 0, 0, 0, 0, 0, 0,
};
static inline LINSJOAR_CHECKED enum linsjoar_error edges_get_plainLongs(struct linsjoar_u64_list_reader *value) {
    struct linsjoar_pointer_reader pointer = linsjoar_constant(edges_plainLongs_constant, sizeof edges_plainLongs_constant);
    return linsjoar_read_list(&pointer, LINSJOAR_EIGHT_BYTES, &value->elements);
}

static const uint8_t edges_ratios_constant[24] = {
    0, 0, 0, 0, 2, 0, 0, 0,
    1, 0, 0, 0, 12, 0, 0, 0,
    0, 0, 192, 127, 0, 0, 0, 0,
};
static inline LINSJOAR_CHECKED enum linsjoar_error edges_get_ratios(struct linsjoar_float_list_reader *value) {
    struct linsjoar_pointer_reader pointer = linsjoar_constant(edges_ratios_constant, sizeof edges_ratios_constant);
    return linsjoar_read_list(&pointer, LINSJOAR_FOUR_BYTES, &value->elements);
}

static const uint8_t edges_preciseRatios_constant[24] = {
    0, 0, 0, 0, 2, 0, 0, 0,
    1, 0, 0, 0, 13, 0, 0, 0,
    0, 0, 0, 0, 0, 0, 248, 127,
};
static inline LINSJOAR_CHECKED enum linsjoar_error edges_get_preciseRatios(struct linsjoar_double_list_reader *value) {
    struct linsjoar_pointer_reader pointer = linsjoar_constant(edges_preciseRatios_constant, sizeof edges_preciseRatios_constant);
    return linsjoar_read_list(&pointer, LINSJOAR_EIGHT_BYTES, &value->elements);
}

static const uint8_t edges_ranks_constant[24] = {
    0, 0, 0, 0, 2, 0, 0, 0,
    1, 0, 0, 0, 11, 0, 0, 0,
    2, 0, 0, 0, 0, 0, 0, 0,
};
static inline LINSJOAR_CHECKED enum linsjoar_error edges_get_ranks(struct OwnRank_list_reader *value) {
    struct linsjoar_pointer_reader pointer = linsjoar_constant(edges_ranks_constant, sizeof edges_ranks_constant);
    return linsjoar_read_list(&pointer, LINSJOAR_TWO_BYTES, &value->elements);
}

static const uint8_t edges_nothings_constant[16] = {
    0, 0, 0, 0, 1, 0, 0, 0,
    1, 0, 0, 0, 8, 0, 0, 0,
};
static inline LINSJOAR_CHECKED enum linsjoar_error edges_get_nothings(struct linsjoar_void_list_reader *value) {
    struct linsjoar_pointer_reader pointer = linsjoar_constant(edges_nothings_constant, sizeof edges_nothings_constant);
    return linsjoar_read_list(&pointer, LINSJOAR_VOID, &value->elements);
}

#endif
