/* Lists, packs, unpacks or canonicalizes the messages of standard input, which is read as a file or as a socket is, or of a file
 * that is mapped. `list` prints a line a message: its index, how many segments it has, how many words in all, and the words of
 * each segment. The status is the number of the error, whose name is on standard error, and 0 without one.
 *
 *   messages list | pack | canonical [socket | FILE]
 *   messages unpack [socket] */
#define _POSIX_C_SOURCE 200809L
#include "linsjoar_streams.h"

#include <errno.h>
#include <fcntl.h>
#include <sys/mman.h>
#include <sys/stat.h>
#include <unistd.h>

static enum linsjoar_error write_bytes(const uint8_t *bytes, size_t len) {
    return fwrite(bytes, 1, len, stdout) == len && fflush(stdout) == 0 ? LINSJOAR_OK : LINSJOAR_DEVICE_FAILED;
}

static enum linsjoar_error list(const uint8_t *bytes, size_t len) {
    static size_t index;
    struct linsjoar_bounds message;
    enum linsjoar_error error = linsjoar_message(bytes, len, &message);
    size_t words;
    printf("%zu %zu %zu", index++, message.segments, (message.end - message.start) / 8);
    for (uint32_t id = 0; error == LINSJOAR_OK && id < message.segments; id++) {
        error = linsjoar_segment(bytes, len, id, &words);
        printf(" %zu", words);
    }
    putchar('\n');
    return error;
}

static enum linsjoar_error pack(const uint8_t *bytes, size_t len) {
    size_t room = len / 8 * 10, packed_len = 0;
    uint8_t *packed = (uint8_t *)malloc(room);
    enum linsjoar_error error =
        packed == NULL ? LINSJOAR_OUT_OF_MEMORY : linsjoar_pack_message(bytes, len, packed, room, &packed_len);
    if (error == LINSJOAR_OK)
        error = write_bytes(packed, packed_len);
    free(packed);
    return error;
}

static enum linsjoar_error canonicalize(const uint8_t *bytes, size_t len) {
    size_t words;
    enum linsjoar_error error = linsjoar_canonical_size(bytes, len, &words);
    uint8_t *form = (uint8_t *)malloc(8 * words + 1);
    if (error == LINSJOAR_OK)
        error = form == NULL ? LINSJOAR_OUT_OF_MEMORY : linsjoar_canonical(bytes, len, form, 8 * words, &words);
    if (error == LINSJOAR_OK)
        error = write_bytes(form, 8 * words);
    free(form);
    return error;
}

/* Reads a socket, or whatever has a descriptor. */
static long read_socket(void *descriptor, uint8_t *bytes, size_t len) {
    for (;;) {
        ssize_t count = read(*(int *)descriptor, bytes, len);
        if (count >= 0 || errno != EINTR)
            return (long)count;
    }
}

typedef enum linsjoar_error command(const uint8_t *bytes, size_t len);

static enum linsjoar_error run_over_stream(command *run, int is_packed, int is_socket) {
    static int descriptor = STDIN_FILENO;
    struct linsjoar_stream stream;
    enum linsjoar_error error;
    if (is_socket)
        linsjoar_stream_begin(&stream, read_socket, &descriptor, NULL, linsjoar_heap);
    else
        linsjoar_stream_of_file(&stream, stdin, NULL, linsjoar_heap);
    do {
        error = is_packed ? linsjoar_stream_next_packed(&stream) : linsjoar_stream_next(&stream);
        if (error == LINSJOAR_OK)
            error = run(stream.message.bytes, stream.message.len);
    } while (error == LINSJOAR_OK);
    linsjoar_stream_free(&stream);
    return error == LINSJOAR_PREMATURE_END_OF_FILE ? LINSJOAR_OK : error;
}

static enum linsjoar_error run_over_mapped(command *run, const char *path) {
    enum linsjoar_error error = LINSJOAR_OK;
    int file = open(path, O_RDONLY);
    struct stat about;
    size_t at = 0, len = file >= 0 && fstat(file, &about) == 0 ? (size_t)about.st_size : 0, message_len;
    uint8_t *bytes = len > 0 ? (uint8_t *)mmap(NULL, len, PROT_READ, MAP_PRIVATE, file, 0) : NULL;
    if (file < 0 || bytes == MAP_FAILED)
        return LINSJOAR_DEVICE_FAILED;
    for (; error == LINSJOAR_OK && at < len; at += message_len) {
        error = linsjoar_next_message(bytes + at, len - at, &message_len);
        if (error == LINSJOAR_OK)
            error = run(bytes + at, message_len);
    }
    if (len > 0)
        munmap(bytes, len);
    close(file);
    return error;
}

int main(int count, char **words) {
    static const struct {
        const char *name;
        command *run;
    } commands[] = {{"list", list}, {"pack", pack}, {"canonical", canonicalize}, {"unpack", write_bytes}};
    int is_socket = count > 2 && strcmp(words[2], "socket") == 0, is_mapped = count > 2 && !is_socket;
    for (size_t i = 0; count > 1 && i < sizeof commands / sizeof *commands; i++)
        if (strcmp(words[1], commands[i].name) == 0) {
            enum linsjoar_error error = is_mapped ? run_over_mapped(commands[i].run, words[2])
                                                  : run_over_stream(commands[i].run, commands[i].run == write_bytes, is_socket);
            if (error != LINSJOAR_OK)
                fprintf(stderr, "messages: %s\n", linsjoar_error_name((int)error));
            return (int)error;
        }
    return 255;
}
