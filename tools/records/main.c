/* Reads and builds records by the types that the schema compiler writes for C, as main.cc does in C++.
 *
 *   main read < FRAMED, main texts < FRAMED             prints a sum of what it reads
 *   main build COUNT > FRAMED, main grow COUNT > FRAMED builds as many twice, in one memory or in memory that grows */
#include "linsjoar_types.h"
#include "records_capnp.h"

#include <inttypes.h>
#include <stdio.h>

static void expect(int error) {
    if (error != LINSJOAR_OK)
        exit(error);
}

__attribute__((noinline)) static uint64_t measured_read(const struct Records_reader *records) {
    struct Record_list_reader all;
    uint64_t sum = 0;
    expect(Records_get_all(records, &all));
    for (uint32_t i = 0; i < Record_list_len(&all); i++) {
        struct Record_reader record = Record_list_get(&all, i);
        struct linsjoar_text_reader name, note;
        expect(Record_get_name(&record, &name));
        expect(Record_get_note(&record, &note));
        sum += Record_get_id(&record) + (uint64_t)Record_get_amount(&record) + (uint64_t)Record_get_ratio(&record);
        sum += Record_get_isOpen(&record) + name.len + (uint8_t)note.bytes[0];
    }
    return sum;
}

__attribute__((noinline)) static uint64_t measured_texts(const struct Records_reader *records) {
    struct linsjoar_text_list_reader texts;
    uint64_t sum = 0;
    expect(Records_get_texts(records, &texts));
    for (uint32_t i = 0; i < linsjoar_text_list_len(&texts); i++) {
        struct linsjoar_text_reader text;
        expect(linsjoar_text_list_get(&texts, i, &text));
        sum += text.len + (uint8_t)text.bytes[0];
    }
    return sum;
}

__attribute__((noinline)) static size_t measured_build(struct linsjoar_message *message, uint32_t count) {
    struct Records_draft records = Records_new();
    struct Record_drafts pushed = {{0, 0}};
    struct Record_list_orphan all;
    size_t len;
    expect(linsjoar_message_begin(message, message->region, message->room, linsjoar_heap));
    for (uint32_t i = 0; i < count; i++) {
        struct Record_draft record = Record_new();
        struct linsjoar_text_orphan name, note;
        expect(linsjoar_add_string_with_len(message, "a name", 6, &name));
        expect(linsjoar_add_string_with_len(message, "a note of some letters", 22, &note));
        Record_set_id(&record, i);
        Record_set_amount(&record, -(int32_t)i);
        Record_set_ratio(&record, i);
        Record_set_isOpen(&record, i % 2);
        Record_set_name(&record, name);
        Record_set_note(&record, note);
        expect(Record_push(message, &pushed, &record));
    }
    expect(Record_add_drafts(message, &pushed, &all));
    Records_set_all(&records, all);
    expect(Records_finish(message, &records, &len));
    return len;
}

static int write_built(bool grows, uint32_t count) {
    struct linsjoar_message grown = {{0}, NULL, 0, 0, NULL}, used = {{0}, (uint8_t *)malloc(1 << 24), 1 << 24, 0, NULL};
    struct linsjoar_message *message = grows ? &grown : &used;
    size_t len = measured_build(message, count);
    if (grows)
        linsjoar_message_free(message);
    len = measured_build(message, count);
    return fwrite(message->region, 1, len, stdout) != len;
}

int main(int count, char **words) {
    static uint8_t bytes[1 << 25];
    const struct linsjoar_options options = {LINSJOAR_NO_LIMIT, 64};
    struct linsjoar_reader reader;
    struct Records_reader records;
    if (count > 2)
        return write_built(words[1][0] == 'g', (uint32_t)atol(words[2]));
    expect(Records_root_with_options(bytes, fread(bytes, 1, sizeof bytes, stdin), &options, &reader, &records));
    printf("%" PRIu64 "\n", words[1][0] == 'r' ? measured_read(&records) : measured_texts(&records));
    return 0;
}
