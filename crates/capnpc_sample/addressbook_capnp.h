/* Types of `addressbook.capnp` for C, made by `capnpc-rattle`: change that file, and make them again.
 * linsjoar_types.h says how they are used. */
#ifndef LINSJOAR_ADDRESSBOOK_CAPNP_dbb9ad1f14bf0b36_H
#define LINSJOAR_ADDRESSBOOK_CAPNP_dbb9ad1f14bf0b36_H

#include "linsjoar_types.h"

#if LINSJOAR_VERSION != 1000
#error "this header needs Linsjoar 0.1.0: make it again with the capnpc-rattle of the version that is there"
#endif

struct Person_reader {
    struct linsjoar_struct_reader fields;
};
struct Person_list_reader {
    struct linsjoar_list_reader elements;
};
struct Person_orphan {
    uint64_t word;
};
struct Person_list_orphan {
    uint64_t word;
};
struct Person_draft {
    uint64_t words[1];
    uint64_t orphans[4];
};
struct Person_drafts {
    struct linsjoar_drafts drafts;
};

/* The members of the union in Person_employment. */
enum Person_employment_which {
    Person_employment_which_unemployed = 0,
    Person_employment_which_employer = 1,
    Person_employment_which_school = 2,
    Person_employment_which_selfEmployed = 3,
    Person_employment_which_notInSchema = 65535,
};

/* The enumerator of a number. */
static inline enum Person_employment_which Person_employment_which_of_number(uint16_t number) {
    return number < 4 ? (enum Person_employment_which)number : Person_employment_which_notInSchema;
}

struct Person_PhoneNumber_reader {
    struct linsjoar_struct_reader fields;
};
struct Person_PhoneNumber_list_reader {
    struct linsjoar_list_reader elements;
};
struct Person_PhoneNumber_orphan {
    uint64_t word;
};
struct Person_PhoneNumber_list_orphan {
    uint64_t word;
};
struct Person_PhoneNumber_draft {
    uint64_t words[1];
    uint64_t orphans[1];
};
struct Person_PhoneNumber_drafts {
    struct linsjoar_drafts drafts;
};

enum Person_PhoneNumber_Type {
    Person_PhoneNumber_Type_mobile = 0,
    Person_PhoneNumber_Type_home = 1,
    Person_PhoneNumber_Type_work = 2,
    Person_PhoneNumber_Type_notInSchema = 65535,
};

/* The enumerator of a number. */
static inline enum Person_PhoneNumber_Type Person_PhoneNumber_Type_of_number(uint16_t number) {
    return number < 3 ? (enum Person_PhoneNumber_Type)number : Person_PhoneNumber_Type_notInSchema;
}

struct Person_PhoneNumber_Type_list_reader {
    struct linsjoar_list_reader elements;
};
struct Person_PhoneNumber_Type_list_orphan {
    uint64_t word;
};

/* How many a list has, and one of them, as an enumerator and as a number; past the last one 0. */
static inline uint32_t Person_PhoneNumber_Type_list_len(const struct Person_PhoneNumber_Type_list_reader *list) {
    return linsjoar_list_len(&list->elements);
}
static inline uint16_t Person_PhoneNumber_Type_list_get_number(const struct Person_PhoneNumber_Type_list_reader *list, uint32_t index) {
    uint64_t number;
    enum linsjoar_error error = linsjoar_list_get_number(&list->elements, index, &number);
    return error == LINSJOAR_OK ? (uint16_t)number : 0;
}
static inline enum Person_PhoneNumber_Type Person_PhoneNumber_Type_list_get(const struct Person_PhoneNumber_Type_list_reader *list, uint32_t index) {
    return Person_PhoneNumber_Type_of_number(Person_PhoneNumber_Type_list_get_number(list, index));
}

/* Adds a list of enums, by their numbers. */
static inline LINSJOAR_CHECKED enum linsjoar_error Person_PhoneNumber_Type_add_list(struct linsjoar_message *message, const uint16_t *numbers, size_t count, struct Person_PhoneNumber_Type_list_orphan *orphan) {
    return linsjoar_add_number_bytes(message, LINSJOAR_TWO_BYTES, count, numbers, 2 * count, &orphan->word);
}

struct AddressBook_reader {
    struct linsjoar_struct_reader fields;
};
struct AddressBook_list_reader {
    struct linsjoar_list_reader elements;
};
struct AddressBook_orphan {
    uint64_t word;
};
struct AddressBook_list_orphan {
    uint64_t word;
};
struct AddressBook_draft {
    uint64_t orphans[1];
};
struct AddressBook_drafts {
    struct linsjoar_drafts drafts;
};

/* Opens a framed message, and reads the Person at its root: within the default limits, or within these. */
static inline LINSJOAR_CHECKED enum linsjoar_error Person_root(const uint8_t *bytes, size_t len, struct linsjoar_reader *reader, struct Person_reader *value) {
    return linsjoar_open_root(bytes, len, NULL, reader, &value->fields);
}
static inline LINSJOAR_CHECKED enum linsjoar_error Person_root_with_options(const uint8_t *bytes, size_t len, const struct linsjoar_options *options, struct linsjoar_reader *reader, struct Person_reader *value) {
    return linsjoar_open_root(bytes, len, options, reader, &value->fields);
}

/* Reads the Person that a pointer points to, or a list of them. Null is an empty one. */
static inline LINSJOAR_CHECKED enum linsjoar_error Person_read(const struct linsjoar_pointer_reader *pointer, struct Person_reader *value) {
    return linsjoar_read_struct(pointer, &value->fields);
}
static inline LINSJOAR_CHECKED enum linsjoar_error Person_list_read(const struct linsjoar_pointer_reader *pointer, struct Person_list_reader *value) {
    return linsjoar_read_list(pointer, LINSJOAR_STRUCTS, &value->elements);
}

/* The same struct, counted in another reader, as each thread has one: a copy of the reader that opened the message. It
 * dangles without that reader and without the bytes. Threads may share both the bytes and what was read, and no reader. */
static inline struct Person_reader Person_bind(struct Person_reader read, struct linsjoar_reader *reader) {
    read.fields.source.reader = reader;
    return read;
}

/* How many a list has, and one of them; past the last one an empty one. */
static inline uint32_t Person_list_len(const struct Person_list_reader *list) {
    return linsjoar_list_len(&list->elements);
}
static inline struct Person_reader Person_list_get(const struct Person_list_reader *list, uint32_t index) {
    struct Person_reader value;
    if (linsjoar_list_get_struct(&list->elements, index, &value.fields) != LINSJOAR_OK)
        memset(&value.fields.fields, 0, sizeof value.fields.fields);
    return value;
}

/* id :UInt32 */
static inline uint32_t Person_get_id(const struct Person_reader *read) {
    return linsjoar_get_u32(&read->fields, 0);
}

/* name :Text */
static inline LINSJOAR_CHECKED enum linsjoar_error Person_get_name(const struct Person_reader *read, struct linsjoar_text_reader *value) {
    struct linsjoar_pointer_reader pointer = linsjoar_get_pointer(&read->fields, 0);
    return linsjoar_read_text(&pointer, value);
}
static inline bool Person_has_name(const struct Person_reader *read) {
    return linsjoar_has_pointer(&read->fields, 0);
}

/* email :Text */
static inline LINSJOAR_CHECKED enum linsjoar_error Person_get_email(const struct Person_reader *read, struct linsjoar_text_reader *value) {
    struct linsjoar_pointer_reader pointer = linsjoar_get_pointer(&read->fields, 1);
    return linsjoar_read_text(&pointer, value);
}
static inline bool Person_has_email(const struct Person_reader *read) {
    return linsjoar_has_pointer(&read->fields, 1);
}

/* phones :List(Person.PhoneNumber) */
static inline LINSJOAR_CHECKED enum linsjoar_error Person_get_phones(const struct Person_reader *read, struct Person_PhoneNumber_list_reader *value) {
    struct linsjoar_pointer_reader pointer = linsjoar_get_pointer(&read->fields, 2);
    return linsjoar_read_list(&pointer, LINSJOAR_STRUCTS, &value->elements);
}
static inline bool Person_has_phones(const struct Person_reader *read) {
    return linsjoar_has_pointer(&read->fields, 2);
}

/* The draft of a struct that is to be added: whose fields have their defaults, or what was read, with copies of all that
 * it points to. */
static inline struct Person_draft Person_new(void) {
    struct Person_draft draft;
    memset(&draft, 0, sizeof draft);
    return draft;
}
static inline LINSJOAR_CHECKED enum linsjoar_error Person_draft_of(const struct Person_reader *read, struct linsjoar_message *message, struct Person_draft *draft) {
    memset(draft, 0, sizeof *draft);
    return linsjoar_draft_of(&read->fields, message, draft->words, 1, draft->orphans, 4);
}

/* Adds the struct of a draft to a message, or finishes the message with it as the root. */
static inline LINSJOAR_CHECKED enum linsjoar_error Person_add(struct linsjoar_message *message, const struct Person_draft *draft, struct Person_orphan *orphan) {
    return linsjoar_add_draft(message, draft->words, 1, draft->orphans, 4, &orphan->word);
}
static inline LINSJOAR_CHECKED enum linsjoar_error Person_finish(struct linsjoar_message *message, const struct Person_draft *draft, size_t *len) {
    struct Person_orphan root;
    enum linsjoar_error error = Person_add(message, draft, &root);
    *len = 0;
    if (error == LINSJOAR_OK)
        error = linsjoar_message_set_root(message, root.word);
    return error == LINSJOAR_OK ? linsjoar_message_finish(message, len) : error;
}

/* Adds a list of structs: of an array of drafts, or of those that are pushed one by one, and are in the message's memory
 * until then. The latter begin as zeros. A list that is begun after another one is added before it. */
static inline LINSJOAR_CHECKED enum linsjoar_error Person_add_list(struct linsjoar_message *message, const struct Person_draft *drafts, size_t count, struct Person_list_orphan *orphan) {
    return linsjoar_add_draft_list(message, drafts, count, 1, 4, &orphan->word);
}
static inline LINSJOAR_CHECKED enum linsjoar_error Person_push(struct linsjoar_message *message, struct Person_drafts *drafts, const struct Person_draft *draft) {
    return linsjoar_push_draft(message, &drafts->drafts, draft, 8 * 5);
}
static inline LINSJOAR_CHECKED enum linsjoar_error Person_add_drafts(struct linsjoar_message *message, struct Person_drafts *drafts, struct Person_list_orphan *orphan) {
    return linsjoar_add_drafts(message, &drafts->drafts, 1, 4, &orphan->word);
}

static inline uint32_t Person_draft_get_id(const struct Person_draft *draft) {
    return linsjoar_draft_u32(draft->words, 0);
}
static inline void Person_set_id(struct Person_draft *draft, uint32_t value) {
    linsjoar_set_u32(draft->words, 0, (uint32_t)value);
}
static inline struct linsjoar_text_orphan Person_draft_get_name(const struct Person_draft *draft) {
    struct linsjoar_text_orphan orphan;
    orphan.word = draft->orphans[0];
    return orphan;
}
static inline void Person_set_name(struct Person_draft *draft, struct linsjoar_text_orphan orphan) {
    draft->orphans[0] = orphan.word;
}
static inline LINSJOAR_CHECKED enum linsjoar_error Person_copy_name(const struct Person_reader *read, struct linsjoar_message *message, struct Person_draft *draft) {
    struct linsjoar_pointer_reader pointer = linsjoar_get_pointer(&read->fields, 0);
    struct linsjoar_text_orphan orphan;
    enum linsjoar_error error = linsjoar_add_copy_of(message, &pointer, &orphan.word);
    if (error == LINSJOAR_OK)
        Person_set_name(draft, orphan);
    return error;
}
static inline struct linsjoar_text_orphan Person_draft_get_email(const struct Person_draft *draft) {
    struct linsjoar_text_orphan orphan;
    orphan.word = draft->orphans[1];
    return orphan;
}
static inline void Person_set_email(struct Person_draft *draft, struct linsjoar_text_orphan orphan) {
    draft->orphans[1] = orphan.word;
}
static inline LINSJOAR_CHECKED enum linsjoar_error Person_copy_email(const struct Person_reader *read, struct linsjoar_message *message, struct Person_draft *draft) {
    struct linsjoar_pointer_reader pointer = linsjoar_get_pointer(&read->fields, 1);
    struct linsjoar_text_orphan orphan;
    enum linsjoar_error error = linsjoar_add_copy_of(message, &pointer, &orphan.word);
    if (error == LINSJOAR_OK)
        Person_set_email(draft, orphan);
    return error;
}
static inline struct Person_PhoneNumber_list_orphan Person_draft_get_phones(const struct Person_draft *draft) {
    struct Person_PhoneNumber_list_orphan orphan;
    orphan.word = draft->orphans[2];
    return orphan;
}
static inline void Person_set_phones(struct Person_draft *draft, struct Person_PhoneNumber_list_orphan orphan) {
    draft->orphans[2] = orphan.word;
}
static inline LINSJOAR_CHECKED enum linsjoar_error Person_copy_phones(const struct Person_reader *read, struct linsjoar_message *message, struct Person_draft *draft) {
    struct linsjoar_pointer_reader pointer = linsjoar_get_pointer(&read->fields, 2);
    struct Person_PhoneNumber_list_orphan orphan;
    enum linsjoar_error error = linsjoar_add_copy_of(message, &pointer, &orphan.word);
    if (error == LINSJOAR_OK)
        Person_set_phones(draft, orphan);
    return error;
}

/* Which member of the union is set, and its number, also where a newer schema has it. */
static inline uint16_t Person_employment_get_which_number(const struct Person_reader *read) {
    return linsjoar_get_u16(&read->fields, 2);
}
static inline enum Person_employment_which Person_employment_which(const struct Person_reader *read) {
    return Person_employment_which_of_number(Person_employment_get_which_number(read));
}

/* employer :Text */
static inline LINSJOAR_CHECKED enum linsjoar_error Person_employment_get_employer(const struct Person_reader *read, struct linsjoar_text_reader *value) {
    struct linsjoar_pointer_reader pointer = linsjoar_get_pointer(&read->fields, 3);
    return linsjoar_read_text(&pointer, value);
}
static inline bool Person_employment_has_employer(const struct Person_reader *read) {
    return linsjoar_has_pointer(&read->fields, 3);
}

/* school :Text */
static inline LINSJOAR_CHECKED enum linsjoar_error Person_employment_get_school(const struct Person_reader *read, struct linsjoar_text_reader *value) {
    struct linsjoar_pointer_reader pointer = linsjoar_get_pointer(&read->fields, 3);
    return linsjoar_read_text(&pointer, value);
}
static inline bool Person_employment_has_school(const struct Person_reader *read) {
    return linsjoar_has_pointer(&read->fields, 3);
}

static inline enum Person_employment_which Person_employment_draft_which(const struct Person_draft *draft) {
    return Person_employment_which_of_number(linsjoar_draft_u16(draft->words, 2));
}

static inline void Person_employment_set_unemployed(struct Person_draft *draft) {
    linsjoar_set_u16(draft->words, 2, 0);
}
static inline struct linsjoar_text_orphan Person_employment_draft_get_employer(const struct Person_draft *draft) {
    struct linsjoar_text_orphan orphan;
    orphan.word = draft->orphans[3];
    return orphan;
}
static inline void Person_employment_set_employer(struct Person_draft *draft, struct linsjoar_text_orphan orphan) {
    linsjoar_set_u16(draft->words, 2, 1);
    draft->orphans[3] = orphan.word;
}
static inline LINSJOAR_CHECKED enum linsjoar_error Person_employment_copy_employer(const struct Person_reader *read, struct linsjoar_message *message, struct Person_draft *draft) {
    struct linsjoar_pointer_reader pointer = linsjoar_get_pointer(&read->fields, 3);
    struct linsjoar_text_orphan orphan;
    enum linsjoar_error error = linsjoar_add_copy_of(message, &pointer, &orphan.word);
    if (error == LINSJOAR_OK)
        Person_employment_set_employer(draft, orphan);
    return error;
}
static inline struct linsjoar_text_orphan Person_employment_draft_get_school(const struct Person_draft *draft) {
    struct linsjoar_text_orphan orphan;
    orphan.word = draft->orphans[3];
    return orphan;
}
static inline void Person_employment_set_school(struct Person_draft *draft, struct linsjoar_text_orphan orphan) {
    linsjoar_set_u16(draft->words, 2, 2);
    draft->orphans[3] = orphan.word;
}
static inline LINSJOAR_CHECKED enum linsjoar_error Person_employment_copy_school(const struct Person_reader *read, struct linsjoar_message *message, struct Person_draft *draft) {
    struct linsjoar_pointer_reader pointer = linsjoar_get_pointer(&read->fields, 3);
    struct linsjoar_text_orphan orphan;
    enum linsjoar_error error = linsjoar_add_copy_of(message, &pointer, &orphan.word);
    if (error == LINSJOAR_OK)
        Person_employment_set_school(draft, orphan);
    return error;
}
static inline void Person_employment_set_selfEmployed(struct Person_draft *draft) {
    linsjoar_set_u16(draft->words, 2, 3);
}

/* Opens a framed message, and reads the Person_PhoneNumber at its root: within the default limits, or within these. */
static inline LINSJOAR_CHECKED enum linsjoar_error Person_PhoneNumber_root(const uint8_t *bytes, size_t len, struct linsjoar_reader *reader, struct Person_PhoneNumber_reader *value) {
    return linsjoar_open_root(bytes, len, NULL, reader, &value->fields);
}
static inline LINSJOAR_CHECKED enum linsjoar_error Person_PhoneNumber_root_with_options(const uint8_t *bytes, size_t len, const struct linsjoar_options *options, struct linsjoar_reader *reader, struct Person_PhoneNumber_reader *value) {
    return linsjoar_open_root(bytes, len, options, reader, &value->fields);
}

/* Reads the Person_PhoneNumber that a pointer points to, or a list of them. Null is an empty one. */
static inline LINSJOAR_CHECKED enum linsjoar_error Person_PhoneNumber_read(const struct linsjoar_pointer_reader *pointer, struct Person_PhoneNumber_reader *value) {
    return linsjoar_read_struct(pointer, &value->fields);
}
static inline LINSJOAR_CHECKED enum linsjoar_error Person_PhoneNumber_list_read(const struct linsjoar_pointer_reader *pointer, struct Person_PhoneNumber_list_reader *value) {
    return linsjoar_read_list(pointer, LINSJOAR_STRUCTS, &value->elements);
}

/* The same struct, counted in another reader, as each thread has one: a copy of the reader that opened the message. It
 * dangles without that reader and without the bytes. Threads may share both the bytes and what was read, and no reader. */
static inline struct Person_PhoneNumber_reader Person_PhoneNumber_bind(struct Person_PhoneNumber_reader read, struct linsjoar_reader *reader) {
    read.fields.source.reader = reader;
    return read;
}

/* How many a list has, and one of them; past the last one an empty one. */
static inline uint32_t Person_PhoneNumber_list_len(const struct Person_PhoneNumber_list_reader *list) {
    return linsjoar_list_len(&list->elements);
}
static inline struct Person_PhoneNumber_reader Person_PhoneNumber_list_get(const struct Person_PhoneNumber_list_reader *list, uint32_t index) {
    struct Person_PhoneNumber_reader value;
    if (linsjoar_list_get_struct(&list->elements, index, &value.fields) != LINSJOAR_OK)
        memset(&value.fields.fields, 0, sizeof value.fields.fields);
    return value;
}

/* number :Text */
static inline LINSJOAR_CHECKED enum linsjoar_error Person_PhoneNumber_get_number(const struct Person_PhoneNumber_reader *read, struct linsjoar_text_reader *value) {
    struct linsjoar_pointer_reader pointer = linsjoar_get_pointer(&read->fields, 0);
    return linsjoar_read_text(&pointer, value);
}
static inline bool Person_PhoneNumber_has_number(const struct Person_PhoneNumber_reader *read) {
    return linsjoar_has_pointer(&read->fields, 0);
}

/* type :Person.PhoneNumber.Type */
static inline enum Person_PhoneNumber_Type Person_PhoneNumber_get_type(const struct Person_PhoneNumber_reader *read) {
    return Person_PhoneNumber_Type_of_number(linsjoar_get_u16(&read->fields, 0));
}
static inline uint16_t Person_PhoneNumber_get_type_number(const struct Person_PhoneNumber_reader *read) {
    return linsjoar_get_u16(&read->fields, 0);
}

/* The draft of a struct that is to be added: whose fields have their defaults, or what was read, with copies of all that
 * it points to. */
static inline struct Person_PhoneNumber_draft Person_PhoneNumber_new(void) {
    struct Person_PhoneNumber_draft draft;
    memset(&draft, 0, sizeof draft);
    return draft;
}
static inline LINSJOAR_CHECKED enum linsjoar_error Person_PhoneNumber_draft_of(const struct Person_PhoneNumber_reader *read, struct linsjoar_message *message, struct Person_PhoneNumber_draft *draft) {
    memset(draft, 0, sizeof *draft);
    return linsjoar_draft_of(&read->fields, message, draft->words, 1, draft->orphans, 1);
}

/* Adds the struct of a draft to a message, or finishes the message with it as the root. */
static inline LINSJOAR_CHECKED enum linsjoar_error Person_PhoneNumber_add(struct linsjoar_message *message, const struct Person_PhoneNumber_draft *draft, struct Person_PhoneNumber_orphan *orphan) {
    return linsjoar_add_draft(message, draft->words, 1, draft->orphans, 1, &orphan->word);
}
static inline LINSJOAR_CHECKED enum linsjoar_error Person_PhoneNumber_finish(struct linsjoar_message *message, const struct Person_PhoneNumber_draft *draft, size_t *len) {
    struct Person_PhoneNumber_orphan root;
    enum linsjoar_error error = Person_PhoneNumber_add(message, draft, &root);
    *len = 0;
    if (error == LINSJOAR_OK)
        error = linsjoar_message_set_root(message, root.word);
    return error == LINSJOAR_OK ? linsjoar_message_finish(message, len) : error;
}

/* Adds a list of structs: of an array of drafts, or of those that are pushed one by one, and are in the message's memory
 * until then. The latter begin as zeros. A list that is begun after another one is added before it. */
static inline LINSJOAR_CHECKED enum linsjoar_error Person_PhoneNumber_add_list(struct linsjoar_message *message, const struct Person_PhoneNumber_draft *drafts, size_t count, struct Person_PhoneNumber_list_orphan *orphan) {
    return linsjoar_add_draft_list(message, drafts, count, 1, 1, &orphan->word);
}
static inline LINSJOAR_CHECKED enum linsjoar_error Person_PhoneNumber_push(struct linsjoar_message *message, struct Person_PhoneNumber_drafts *drafts, const struct Person_PhoneNumber_draft *draft) {
    return linsjoar_push_draft(message, &drafts->drafts, draft, 8 * 2);
}
static inline LINSJOAR_CHECKED enum linsjoar_error Person_PhoneNumber_add_drafts(struct linsjoar_message *message, struct Person_PhoneNumber_drafts *drafts, struct Person_PhoneNumber_list_orphan *orphan) {
    return linsjoar_add_drafts(message, &drafts->drafts, 1, 1, &orphan->word);
}

static inline struct linsjoar_text_orphan Person_PhoneNumber_draft_get_number(const struct Person_PhoneNumber_draft *draft) {
    struct linsjoar_text_orphan orphan;
    orphan.word = draft->orphans[0];
    return orphan;
}
static inline void Person_PhoneNumber_set_number(struct Person_PhoneNumber_draft *draft, struct linsjoar_text_orphan orphan) {
    draft->orphans[0] = orphan.word;
}
static inline LINSJOAR_CHECKED enum linsjoar_error Person_PhoneNumber_copy_number(const struct Person_PhoneNumber_reader *read, struct linsjoar_message *message, struct Person_PhoneNumber_draft *draft) {
    struct linsjoar_pointer_reader pointer = linsjoar_get_pointer(&read->fields, 0);
    struct linsjoar_text_orphan orphan;
    enum linsjoar_error error = linsjoar_add_copy_of(message, &pointer, &orphan.word);
    if (error == LINSJOAR_OK)
        Person_PhoneNumber_set_number(draft, orphan);
    return error;
}
static inline enum Person_PhoneNumber_Type Person_PhoneNumber_draft_get_type(const struct Person_PhoneNumber_draft *draft) {
    return Person_PhoneNumber_Type_of_number(linsjoar_draft_u16(draft->words, 0));
}
static inline void Person_PhoneNumber_set_type(struct Person_PhoneNumber_draft *draft, enum Person_PhoneNumber_Type value) {
    linsjoar_set_u16(draft->words, 0, (uint16_t)value);
}
static inline uint16_t Person_PhoneNumber_draft_get_type_number(const struct Person_PhoneNumber_draft *draft) {
    return linsjoar_draft_u16(draft->words, 0);
}
static inline void Person_PhoneNumber_set_type_number(struct Person_PhoneNumber_draft *draft, uint16_t value) {
    linsjoar_set_u16(draft->words, 0, (uint16_t)value);
}

/* Opens a framed message, and reads the AddressBook at its root: within the default limits, or within these. */
static inline LINSJOAR_CHECKED enum linsjoar_error AddressBook_root(const uint8_t *bytes, size_t len, struct linsjoar_reader *reader, struct AddressBook_reader *value) {
    return linsjoar_open_root(bytes, len, NULL, reader, &value->fields);
}
static inline LINSJOAR_CHECKED enum linsjoar_error AddressBook_root_with_options(const uint8_t *bytes, size_t len, const struct linsjoar_options *options, struct linsjoar_reader *reader, struct AddressBook_reader *value) {
    return linsjoar_open_root(bytes, len, options, reader, &value->fields);
}

/* Reads the AddressBook that a pointer points to, or a list of them. Null is an empty one. */
static inline LINSJOAR_CHECKED enum linsjoar_error AddressBook_read(const struct linsjoar_pointer_reader *pointer, struct AddressBook_reader *value) {
    return linsjoar_read_struct(pointer, &value->fields);
}
static inline LINSJOAR_CHECKED enum linsjoar_error AddressBook_list_read(const struct linsjoar_pointer_reader *pointer, struct AddressBook_list_reader *value) {
    return linsjoar_read_list(pointer, LINSJOAR_STRUCTS, &value->elements);
}

/* The same struct, counted in another reader, as each thread has one: a copy of the reader that opened the message. It
 * dangles without that reader and without the bytes. Threads may share both the bytes and what was read, and no reader. */
static inline struct AddressBook_reader AddressBook_bind(struct AddressBook_reader read, struct linsjoar_reader *reader) {
    read.fields.source.reader = reader;
    return read;
}

/* How many a list has, and one of them; past the last one an empty one. */
static inline uint32_t AddressBook_list_len(const struct AddressBook_list_reader *list) {
    return linsjoar_list_len(&list->elements);
}
static inline struct AddressBook_reader AddressBook_list_get(const struct AddressBook_list_reader *list, uint32_t index) {
    struct AddressBook_reader value;
    if (linsjoar_list_get_struct(&list->elements, index, &value.fields) != LINSJOAR_OK)
        memset(&value.fields.fields, 0, sizeof value.fields.fields);
    return value;
}

/* people :List(Person) */
static inline LINSJOAR_CHECKED enum linsjoar_error AddressBook_get_people(const struct AddressBook_reader *read, struct Person_list_reader *value) {
    struct linsjoar_pointer_reader pointer = linsjoar_get_pointer(&read->fields, 0);
    return linsjoar_read_list(&pointer, LINSJOAR_STRUCTS, &value->elements);
}
static inline bool AddressBook_has_people(const struct AddressBook_reader *read) {
    return linsjoar_has_pointer(&read->fields, 0);
}

/* The draft of a struct that is to be added: whose fields have their defaults, or what was read, with copies of all that
 * it points to. */
static inline struct AddressBook_draft AddressBook_new(void) {
    struct AddressBook_draft draft;
    memset(&draft, 0, sizeof draft);
    return draft;
}
static inline LINSJOAR_CHECKED enum linsjoar_error AddressBook_draft_of(const struct AddressBook_reader *read, struct linsjoar_message *message, struct AddressBook_draft *draft) {
    memset(draft, 0, sizeof *draft);
    return linsjoar_draft_of(&read->fields, message, NULL, 0, draft->orphans, 1);
}

/* Adds the struct of a draft to a message, or finishes the message with it as the root. */
static inline LINSJOAR_CHECKED enum linsjoar_error AddressBook_add(struct linsjoar_message *message, const struct AddressBook_draft *draft, struct AddressBook_orphan *orphan) {
    return linsjoar_add_draft(message, (const uint64_t *)draft, 0, draft->orphans, 1, &orphan->word);
}
static inline LINSJOAR_CHECKED enum linsjoar_error AddressBook_finish(struct linsjoar_message *message, const struct AddressBook_draft *draft, size_t *len) {
    struct AddressBook_orphan root;
    enum linsjoar_error error = AddressBook_add(message, draft, &root);
    *len = 0;
    if (error == LINSJOAR_OK)
        error = linsjoar_message_set_root(message, root.word);
    return error == LINSJOAR_OK ? linsjoar_message_finish(message, len) : error;
}

/* Adds a list of structs: of an array of drafts, or of those that are pushed one by one, and are in the message's memory
 * until then. The latter begin as zeros. A list that is begun after another one is added before it. */
static inline LINSJOAR_CHECKED enum linsjoar_error AddressBook_add_list(struct linsjoar_message *message, const struct AddressBook_draft *drafts, size_t count, struct AddressBook_list_orphan *orphan) {
    return linsjoar_add_draft_list(message, drafts, count, 0, 1, &orphan->word);
}
static inline LINSJOAR_CHECKED enum linsjoar_error AddressBook_push(struct linsjoar_message *message, struct AddressBook_drafts *drafts, const struct AddressBook_draft *draft) {
    return linsjoar_push_draft(message, &drafts->drafts, draft, 8 * 1);
}
static inline LINSJOAR_CHECKED enum linsjoar_error AddressBook_add_drafts(struct linsjoar_message *message, struct AddressBook_drafts *drafts, struct AddressBook_list_orphan *orphan) {
    return linsjoar_add_drafts(message, &drafts->drafts, 0, 1, &orphan->word);
}

static inline struct Person_list_orphan AddressBook_draft_get_people(const struct AddressBook_draft *draft) {
    struct Person_list_orphan orphan;
    orphan.word = draft->orphans[0];
    return orphan;
}
static inline void AddressBook_set_people(struct AddressBook_draft *draft, struct Person_list_orphan orphan) {
    draft->orphans[0] = orphan.word;
}
static inline LINSJOAR_CHECKED enum linsjoar_error AddressBook_copy_people(const struct AddressBook_reader *read, struct linsjoar_message *message, struct AddressBook_draft *draft) {
    struct linsjoar_pointer_reader pointer = linsjoar_get_pointer(&read->fields, 0);
    struct Person_list_orphan orphan;
    enum linsjoar_error error = linsjoar_add_copy_of(message, &pointer, &orphan.word);
    if (error == LINSJOAR_OK)
        AddressBook_set_people(draft, orphan);
    return error;
}

#endif
