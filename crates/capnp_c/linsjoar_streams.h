/* Readers of framed and packed messages over a `FILE *`, or over a function of the caller's, as of a socket. It is C
 * over the calls of linsjoar.h, and no proof covers it.
 *
 *     struct linsjoar_stream stream;
 *     enum linsjoar_error error;
 *     linsjoar_stream_of_file(&stream, stdin, NULL, linsjoar_heap);
 *     while ((error = linsjoar_stream_next(&stream)) == LINSJOAR_OK)
 *         printf("%zu\n", stream.message.len);
 *     linsjoar_stream_free(&stream);
 *     return error == LINSJOAR_PREMATURE_END_OF_FILE ? 0 : error;
 *
 * A reader asks for no byte that follows its message, so that another one may go on there. So a packed message is asked
 * for in parts, of as many bytes as it has at least, and a `FILE *` has small ones in its buffer. */
#ifndef LINSJOAR_STREAMS_H
#define LINSJOAR_STREAMS_H

#include "linsjoar_types.h"

#include <stdio.h>

#ifdef __cplusplus
extern "C" {
#endif

/* Bytes in memory that grows. */
struct linsjoar_block {
    uint8_t *bytes;
    size_t len;
    size_t room;
};

/* A stream, and the message that was read of it last. */
struct linsjoar_stream {
    /* Reads at most `len` bytes, as read(2): returns how many, 0 at the end, and a negative number where it fails. */
    long (*read)(void *source, uint8_t *bytes, size_t len);
    void *source;                             /* what `read` is called with */
    struct linsjoar_options options;          /* the limits of messages */
    void *(*grow)(void *region, size_t room); /* as that of a `struct linsjoar_message` */
    struct linsjoar_block message;            /* framed */
    struct linsjoar_block packed;             /* packed bytes that are not unpacked yet */
};

/* Begins to read a stream: within these limits, or the default ones where they are NULL. */
static inline void linsjoar_stream_begin(
    struct linsjoar_stream *stream, long (*read)(void *, uint8_t *, size_t), void *source,
    const struct linsjoar_options *options, void *(*grow)(void *, size_t)) {
    static const struct linsjoar_options defaults = LINSJOAR_DEFAULT_OPTIONS;
    memset(stream, 0, sizeof *stream);
    stream->read = read;
    stream->source = source;
    stream->options = options == NULL ? defaults : *options;
    stream->grow = grow;
}

/* What reads a file, as linsjoar_stream_begin takes it. */
static inline long linsjoar_read_file(void *file, uint8_t *bytes, size_t len) {
    size_t count = fread(bytes, 1, len, (FILE *)file);
    return count == 0 && ferror((FILE *)file) ? -1 : (long)count;
}

static inline void linsjoar_stream_of_file(
    struct linsjoar_stream *stream, FILE *file, const struct linsjoar_options *options, void *(*grow)(void *, size_t)) {
    linsjoar_stream_begin(stream, linsjoar_read_file, file, options, grow);
}

/* Makes room for a given number of bytes in all. */
static inline LINSJOAR_CHECKED enum linsjoar_error linsjoar_stream_reserve(
    struct linsjoar_stream *stream, struct linsjoar_block *block, size_t room) {
    uint8_t *bytes;
    if (room <= block->room)
        return LINSJOAR_OK;
    if (stream->grow == NULL)
        return LINSJOAR_BUFFER_NOT_LARGE_ENOUGH;
    if (room < 2 * block->room)
        room = 2 * block->room;
    bytes = (uint8_t *)stream->grow(block->bytes, room);
    if (bytes == NULL)
        return LINSJOAR_OUT_OF_MEMORY;
    block->bytes = bytes;
    block->room = room;
    return LINSJOAR_OK;
}

/* Reads a given number of bytes more. */
static inline LINSJOAR_CHECKED enum linsjoar_error linsjoar_stream_fill(
    struct linsjoar_stream *stream, struct linsjoar_block *block, size_t more) {
    size_t end = block->len + more;
    enum linsjoar_error error =
        end > SIZE_MAX / 4 ? LINSJOAR_MESSAGE_SIZE_OVERFLOW : linsjoar_stream_reserve(stream, block, end);
    while (error == LINSJOAR_OK && block->len < end) {
        long count = stream->read(stream->source, block->bytes + block->len, end - block->len);
        if (count < 0)
            error = LINSJOAR_DEVICE_FAILED;
        else if (count == 0)
            error = block->len == 0 ? LINSJOAR_PREMATURE_END_OF_FILE : LINSJOAR_FAILED_TO_FILL_THE_WHOLE_BUFFER;
        else
            block->len += (size_t)count;
    }
    return error;
}

/* Reads the next framed message. It fails with LINSJOAR_PREMATURE_END_OF_FILE where the stream ends before it, and with
 * LINSJOAR_FAILED_TO_FILL_THE_WHOLE_BUFFER where it ends within it. */
static inline LINSJOAR_CHECKED enum linsjoar_error linsjoar_stream_next(struct linsjoar_stream *stream) {
    struct linsjoar_block *message = &stream->message;
    enum linsjoar_error error;
    size_t message_len = 0, needed = 0;
    message->len = 0;
    do {
        error = linsjoar_message_size_with_options(
            message->bytes, message->len, &stream->options, &message_len, &needed);
        if (error == LINSJOAR_OK)
            error = linsjoar_stream_fill(stream, message, needed > 0 ? needed : message_len - message->len);
    } while (error == LINSJOAR_OK && needed > 0);
    return error;
}

/* Reads and unpacks a given number of bytes of a message, which are packed together. */
static inline LINSJOAR_CHECKED enum linsjoar_error linsjoar_stream_unpack(struct linsjoar_stream *stream, size_t more) {
    struct linsjoar_block *message = &stream->message, *packed = &stream->packed;
    size_t end = message->len + more, read, written, needed;
    enum linsjoar_error error = linsjoar_stream_reserve(stream, message, end);
    while (error == LINSJOAR_OK && message->len < end) {
        error = linsjoar_unpack_part(
            packed->bytes, packed->len, message->bytes + message->len, end - message->len, &read, &written, &needed);
        message->len += written;
        packed->len -= read;
        if (read > 0)
            memmove(packed->bytes, packed->bytes + read, packed->len);
        if (error == LINSJOAR_OK && needed > 0)
            error = linsjoar_stream_fill(stream, packed, needed);
    }
    if (error == LINSJOAR_FAILED_TO_FILL_THE_WHOLE_BUFFER ||
        (error == LINSJOAR_PREMATURE_END_OF_FILE && message->len > 0))
        error = LINSJOAR_PREMATURE_END_OF_PACKED_INPUT;
    return error;
}

/* Reads the next packed message, and unpacks it, in time that is linear in it. It fails with
 * LINSJOAR_PREMATURE_END_OF_FILE where the stream ends before it, with LINSJOAR_PREMATURE_END_OF_PACKED_INPUT where it
 * ends within it, and else as linsjoar_unpack_message does, as soon as the front shows it. */
static inline LINSJOAR_CHECKED enum linsjoar_error linsjoar_stream_next_packed(struct linsjoar_stream *stream) {
    struct linsjoar_block *message = &stream->message;
    size_t message_len = 0, needed = 0;
    enum linsjoar_error error;
    message->len = 0;
    stream->packed.len = 0;
    /* the first word, the rest of the table, and the segments are packed one by one */
    do {
        error = linsjoar_message_size_with_options(
            message->bytes, message->len, &stream->options, &message_len, &needed);
        if (error == LINSJOAR_OK)
            error = linsjoar_stream_unpack(stream, needed > 0 ? needed : message_len - message->len);
    } while (error == LINSJOAR_OK && needed > 0);
    return error;
}

/* Frees the memory of a stream. */
static inline void linsjoar_stream_free(struct linsjoar_stream *stream) {
    if (stream->grow != NULL) {
        (void)stream->grow(stream->message.bytes, 0);
        (void)stream->grow(stream->packed.bytes, 0);
    }
    memset(stream, 0, sizeof *stream);
}

#ifdef __cplusplus
}
#endif

#endif
