/* As crates/capnp_classic, `carsales` alone, over the types that the schema compiler writes for C and crates/capnp_c. It
 * takes the same words, but memory is always used again, and prints the same. */
#include "carsales.h"

#include <inttypes.h>

enum { ROOM = 1 << 19 };

/* A message that is passed: where it is built, the bytes that it is read of, and its reader. */
struct passed {
    struct linsjoar_message message;
    uint8_t region[ROOM], bytes[ROOM];
    struct linsjoar_reader reader;
};

/* What was passed, and each message's canonical form, framed, where it is wanted. */
struct tally {
    bool writes;
    uint64_t values, bytes, wrong;
};

static struct passed request, response;

static void write_canonical(const uint8_t *framed, size_t len) {
    static uint8_t block[ROOM];
    size_t words;
    uint8_t table[8] = {0};
    expect(linsjoar_canonical(framed, len, block, ROOM, &words));
    for (int i = 0; i < 4; i++)
        table[4 + i] = (uint8_t)(words >> 8 * i);
    fwrite(table, 1, sizeof table, stdout);
    fwrite(block, 8, words, stdout);
}

/* Passes a message that was built, as the mode says, and returns its root. */
static struct linsjoar_pointer_reader pass(struct passed *passed, const char *mode, struct tally *tally) {
    struct linsjoar_message *message = &passed->message;
    struct linsjoar_pointer_reader root;
    const uint8_t *framed = message->region;
    size_t len;
    expect(linsjoar_message_finish(message, &len));
    if (strcmp(mode, "bytes") == 0) {
        memcpy(passed->bytes, framed, len);
        framed = passed->bytes;
    } else if (strcmp(mode, "packed") == 0) {
        static uint8_t packed[ROOM];
        size_t packed_len, packed_read;
        expect(linsjoar_pack_message(framed, len, packed, ROOM, &packed_len));
        expect(linsjoar_unpack_message(packed, packed_len, passed->bytes, ROOM, &len, &packed_read));
        framed = passed->bytes;
    }
    tally->bytes += len - 8;
    if (tally->writes)
        write_canonical(framed, len);
    expect(linsjoar_open(framed, len, &passed->reader));
    expect(linsjoar_read_root(framed, len, &passed->reader, &root));
    return root;
}

static void exchange(struct random *random, const char *mode, struct tally *tally) {
    struct linsjoar_pointer_reader root;
    uint64_t expected, value;
    expect(linsjoar_message_begin(&request.message, request.region, ROOM, NULL));
    expect(linsjoar_message_begin(&response.message, response.region, ROOM, NULL));
    expected = build_request(random, &request.message);
    root = pass(&request, mode, tally);
    respond(&root, &response.message);
    root = pass(&response, mode, tally);
    value = said(&root);
    tally->values += value;
    tally->wrong += value != expected;
}

int main(int count, char **words) {
    struct tally tally = {count > 6, 0, 0, 0};
    struct random random;
    if (count < 6 || strcmp(words[1], "carsales") != 0 || strcmp(words[3], "reused") != 0) {
        fprintf(stderr, "usage: carsales MODE reused SEED TIMES [write]\n");
        return 2;
    }
    random = random_of((uint32_t)atol(words[4]));
    for (long left = atol(words[5]); left > 0; left--)
        exchange(&random, words[2], &tally);
    if (!tally.writes)
        printf("%s %s %s %" PRIu64 " %" PRIu64 "\n", words[1], words[2], words[3], tally.values, tally.bytes);
    return tally.wrong == 0 ? 0 : 1;
}
