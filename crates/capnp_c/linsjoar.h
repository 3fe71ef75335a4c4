/* Framed and packed messages of Cap'n Proto over caller-provided buffers. No call takes memory; the functions of
 * linsjoar_types.h over a message that grows take it by a function of the caller's. The library is built for x86-64-v2.
 *
 * Each call returns an `enum linsjoar_error` of 32 bits: LINSJOAR_OK, which is 0, or an error, and then each number
 * that it has to write is 0. A pointer and the length after it are one block; what is written overlaps nothing else
 * that is passed. A call puts its result at the front of the block that it writes. The bytes after that
 * may have changed, and after an error all bytes of the block. Messages have 1 to 511 segments, zeros as
 * the padding of their table, and no more words than a limit. The limit is 8,388,608 (64 MiB), except in
 * the calls that take a `struct linsjoar_options`. */
#ifndef LINSJOAR_H
#define LINSJOAR_H

#include <stddef.h>
#include <stdint.h>
#include <string.h>

#ifdef __cplusplus
extern "C" {
#endif

/* The version of the library, 0.1.0: MAJOR * 1000000 + MINOR * 1000 + PATCH. */
#define LINSJOAR_VERSION 1000

/* What a caller has to look at. */
#if defined(__GNUC__)
#define LINSJOAR_CHECKED __attribute__((warn_unused_result))
#else
#define LINSJOAR_CHECKED
#endif

/* The errors by their numbers, whatever part of the library has them. */
enum linsjoar_error {
    /* No error. */
    LINSJOAR_OK = 0,
    /* The bytes end within a part that is read at once. */
    LINSJOAR_FAILED_TO_FILL_THE_WHOLE_BUFFER = 1,
    /* A buffer has no room for what was to be put there. */
    LINSJOAR_BUFFER_NOT_LARGE_ENOUGH = 2,
    /* A buffer that was to hold a message has no bytes. */
    LINSJOAR_EMPTY_BUFFER = 3,
    /* There are no bytes where a message was to begin. */
    LINSJOAR_EMPTY_SLICE = 4,
    /* A message has not 1 to 511 segments. */
    LINSJOAR_INVALID_NUMBER_OF_SEGMENTS = 5,
    /* A message is cut, or bytes follow the only one. */
    LINSJOAR_MESSAGE_ENDS_PREMATURELY = 6,
    /* A number of words or bytes does not fit size_t. */
    LINSJOAR_MESSAGE_SIZE_OVERFLOW = 7,
    /* A message has more words than the limit: 8,388,608, or the limit of the options. These calls return
     * it: linsjoar_next_message, linsjoar_message_size, linsjoar_pack_message, linsjoar_unpack_message,
     * linsjoar_unpacked_size, linsjoar_message, linsjoar_segment, linsjoar_canonical_size, linsjoar_canonical,
     * linsjoar_open. Their twins .._with_options read larger messages. linsjoar_pack and linsjoar_unpack
     * read no message. */
    LINSJOAR_MESSAGE_TOO_LARGE = 8,
    /* The bytes end where a message was to begin. */
    LINSJOAR_PREMATURE_END_OF_FILE = 9,
    /* Packed bytes end within a word or a run. */
    LINSJOAR_PREMATURE_END_OF_PACKED_INPUT = 10,
    /* A packed run goes past the end of its part. */
    LINSJOAR_PACKED_INPUT_DID_NOT_END_CLEANLY_ON_A_SEGMENT_BOUNDARY = 11,
    /* An allocation failed. */
    LINSJOAR_OUT_OF_MEMORY = 12,
    /* A source or a sink failed. */
    LINSJOAR_DEVICE_FAILED = 13,
    /* What is packed or unpacked is not whole words. */
    LINSJOAR_NOT_WHOLE_WORDS = 14,
    /* An object or a segment of a given number of words can't be had. */
    LINSJOAR_ALLOCATION_TOO_LARGE = 15,
    /* The only segment is handed out already. */
    LINSJOAR_SEGMENT_TAKEN = 16,
    /* A pointer, or what it points to, is outside of its segment. */
    LINSJOAR_POINTER_OUT_OF_BOUNDS = 17,
    /* A message has no segment of this number. */
    LINSJOAR_INVALID_SEGMENT_ID = 18,
    /* Objects are nested too deep. */
    LINSJOAR_NESTING_LIMIT_EXCEEDED = 19,
    /* More words are visited than a reader allows. */
    LINSJOAR_READ_LIMIT_EXCEEDED = 20,
    /* A message has a pointer to a capability. */
    LINSJOAR_CAPABILITY_REFUSED = 21,
    /* A pointer points to another kind of object. */
    LINSJOAR_WRONG_POINTER_KIND = 22,
    /* A text has no zero byte at its end. */
    LINSJOAR_TEXT_NOT_TERMINATED = 23,
    /* A canonical form has more words than a segment may. */
    LINSJOAR_CANONICAL_TOO_LARGE = 24,
    /* What was to be canonical is not in one segment. */
    LINSJOAR_NOT_ONE_SEGMENT = 25,
    /* The padding of a segment table is not zero. */
    LINSJOAR_NON_ZERO_PADDING = 26,
    /* A reader is not one of the bytes, a builder is not one of the region, no call wrote a struct or a list, no
     * list has such a code, or an array has another length. The calls that read in place and those that build
     * alone return it. */
    LINSJOAR_INVALID_ARGUMENT = 27
};

/* The name of an error, as InvalidSegmentId; "" for a number that none has, as 0. */
static inline const char *linsjoar_error_name(int number) {
    switch (number) {
    case LINSJOAR_FAILED_TO_FILL_THE_WHOLE_BUFFER:
        return "FailedToFillTheWholeBuffer";
    case LINSJOAR_BUFFER_NOT_LARGE_ENOUGH:
        return "BufferNotLargeEnough";
    case LINSJOAR_EMPTY_BUFFER:
        return "EmptyBuffer";
    case LINSJOAR_EMPTY_SLICE:
        return "EmptySlice";
    case LINSJOAR_INVALID_NUMBER_OF_SEGMENTS:
        return "InvalidNumberOfSegments";
    case LINSJOAR_MESSAGE_ENDS_PREMATURELY:
        return "MessageEndsPrematurely";
    case LINSJOAR_MESSAGE_SIZE_OVERFLOW:
        return "MessageSizeOverflow";
    case LINSJOAR_MESSAGE_TOO_LARGE:
        return "MessageTooLarge";
    case LINSJOAR_PREMATURE_END_OF_FILE:
        return "PrematureEndOfFile";
    case LINSJOAR_PREMATURE_END_OF_PACKED_INPUT:
        return "PrematureEndOfPackedInput";
    case LINSJOAR_PACKED_INPUT_DID_NOT_END_CLEANLY_ON_A_SEGMENT_BOUNDARY:
        return "PackedInputDidNotEndCleanlyOnASegmentBoundary";
    case LINSJOAR_OUT_OF_MEMORY:
        return "OutOfMemory";
    case LINSJOAR_DEVICE_FAILED:
        return "DeviceFailed";
    case LINSJOAR_NOT_WHOLE_WORDS:
        return "NotWholeWords";
    case LINSJOAR_ALLOCATION_TOO_LARGE:
        return "AllocationTooLarge";
    case LINSJOAR_SEGMENT_TAKEN:
        return "SegmentTaken";
    case LINSJOAR_POINTER_OUT_OF_BOUNDS:
        return "PointerOutOfBounds";
    case LINSJOAR_INVALID_SEGMENT_ID:
        return "InvalidSegmentId";
    case LINSJOAR_NESTING_LIMIT_EXCEEDED:
        return "NestingLimitExceeded";
    case LINSJOAR_READ_LIMIT_EXCEEDED:
        return "ReadLimitExceeded";
    case LINSJOAR_CAPABILITY_REFUSED:
        return "CapabilityRefused";
    case LINSJOAR_WRONG_POINTER_KIND:
        return "WrongPointerKind";
    case LINSJOAR_TEXT_NOT_TERMINATED:
        return "TextNotTerminated";
    case LINSJOAR_CANONICAL_TOO_LARGE:
        return "CanonicalTooLarge";
    case LINSJOAR_NOT_ONE_SEGMENT:
        return "NotOneSegment";
    case LINSJOAR_NON_ZERO_PADDING:
        return "NonZeroPadding";
    case LINSJOAR_INVALID_ARGUMENT:
        return "InvalidArgument";
    default:
        return "";
    }
}

/* Limits against messages that would cost a reader too much. Each call that reads a message has a twin,
 * .._with_options, which reads it within these limits and is the same otherwise. The pointer to them may
 * not be NULL. */
struct linsjoar_options {
    /* How many words a message may have (else 8 is returned), and how many may be visited for its canonical
     * form, or be read in place (else 20): many pointers may point to the same words. LINSJOAR_NO_LIMIT sets
     * no limit. */
    size_t traversal_limit_in_words;
    /* How deep objects may be nested where a canonical form is measured or written, or objects are read in
     * place or copied (else 19 is returned); a number below 0 is as 0. The walk for a canonical form or a copy
     * calls itself at each, so a larger limit may take more of the stack. The other calls look at no object,
     * and don't read this. */
    int32_t nesting_limit;
};

/* The number that sets no limit of words. */
#define LINSJOAR_NO_LIMIT SIZE_MAX

/* The limits of the calls without options: struct linsjoar_options options = LINSJOAR_DEFAULT_OPTIONS; */
#define LINSJOAR_DEFAULT_OPTIONS {8388608, 64}

/* Whole messages. */

/* Counts the bytes of the framed message at the front of a buffer, so that a caller can step from one
 * message to the next. It returns 0 wherever a message is there. Where there are no bytes it returns 0
 * and counts 0; otherwise it counts 0 only where it returns an error. */
LINSJOAR_CHECKED
enum linsjoar_error linsjoar_next_message(const uint8_t *bytes, size_t len, size_t *message_len);
LINSJOAR_CHECKED
enum linsjoar_error linsjoar_next_message_with_options(const uint8_t *bytes, size_t len,
                                                       const struct linsjoar_options *options,
                                                       size_t *message_len);

/* Counts the bytes of the framed message whose front these bytes are, whether or not all of them are there, for readers
 * of streams. Where its table is cut, message_len is 0, and needed is how many more bytes have to be there to tell: these
 * are the message's, whatever they are, so such a reader takes no byte of what follows it. Else needed is 0. The buffer
 * may be empty. It returns 5, 8 or 26 as soon as no bytes that follow could make a message of these. */
LINSJOAR_CHECKED
enum linsjoar_error linsjoar_message_size(const uint8_t *bytes, size_t len, size_t *message_len,
                                          size_t *needed);
LINSJOAR_CHECKED
enum linsjoar_error linsjoar_message_size_with_options(const uint8_t *bytes, size_t len,
                                                       const struct linsjoar_options *options,
                                                       size_t *message_len, size_t *needed);

/* Packs a framed message, and counts the bytes that this takes. The buffer has to be one message and no
 * more. It returns 0 exactly where it is and there is room for the packed encoding, 2 where there is no room,
 * and 6 where the message is cut or bytes follow it. For n words, with the table, a packed encoding has at
 * most 10 n bytes. */
LINSJOAR_CHECKED
enum linsjoar_error linsjoar_pack_message(const uint8_t *framed, size_t framed_len, uint8_t *packed,
                                          size_t packed_room, size_t *packed_len);
LINSJOAR_CHECKED
enum linsjoar_error linsjoar_pack_message_with_options(const uint8_t *framed, size_t framed_len,
                                                       const struct linsjoar_options *options,
                                                       uint8_t *packed, size_t packed_room,
                                                       size_t *packed_len);

/* Unpacks the packed message at the front of a buffer into its framed encoding. It counts the bytes of that
 * encoding, and the packed bytes that it takes: what follows them may be the next message. It returns 0
 * wherever a message is there and its framed encoding has room, and 2 where it has no room. Before all else
 * it returns 2 where there is no room for 8 bytes. It returns 9 where there are no packed bytes. */
LINSJOAR_CHECKED
enum linsjoar_error linsjoar_unpack_message(const uint8_t *packed, size_t packed_len, uint8_t *framed,
                                            size_t framed_room, size_t *framed_len, size_t *packed_read);
LINSJOAR_CHECKED
enum linsjoar_error linsjoar_unpack_message_with_options(const uint8_t *packed, size_t packed_len,
                                                         const struct linsjoar_options *options,
                                                         uint8_t *framed, size_t framed_room,
                                                         size_t *framed_len, size_t *packed_read);

/* Counts the bytes of the framed encoding of the packed message at the front of a buffer, which is the room that
 * linsjoar_unpack_message needs. Only the packed table has to be there. It returns 9 where there are no packed bytes,
 * and else the error of the table. */
LINSJOAR_CHECKED
enum linsjoar_error linsjoar_unpacked_size(const uint8_t *packed, size_t packed_len, size_t *framed_len);
LINSJOAR_CHECKED
enum linsjoar_error linsjoar_unpacked_size_with_options(const uint8_t *packed, size_t packed_len,
                                                        const struct linsjoar_options *options,
                                                        size_t *framed_len);

/* Where a framed message is in a buffer, in bytes. */
struct linsjoar_bounds {
    size_t segments; /* how many segments it has */
    size_t start;    /* where the first of them begins, after their table */
    size_t end;      /* where the last of them ends */
};

/* Finds the framed message at the front of a buffer. It returns 0 wherever a message is there. */
LINSJOAR_CHECKED
enum linsjoar_error linsjoar_message(const uint8_t *bytes, size_t len, struct linsjoar_bounds *message);
LINSJOAR_CHECKED
enum linsjoar_error linsjoar_message_with_options(const uint8_t *bytes, size_t len,
                                                  const struct linsjoar_options *options,
                                                  struct linsjoar_bounds *message);

/* Counts the words of a segment of that message. It returns 18 where the message has no segment of this
 * number. The segments follow one another. */
LINSJOAR_CHECKED
enum linsjoar_error linsjoar_segment(const uint8_t *bytes, size_t len, uint32_t id, size_t *words);
LINSJOAR_CHECKED
enum linsjoar_error linsjoar_segment_with_options(const uint8_t *bytes, size_t len,
                                                  const struct linsjoar_options *options, uint32_t id,
                                                  size_t *words);

/* Counts the words of the canonical form of that message, with its root pointer. It returns 0 wherever
 * there is such a form. */
LINSJOAR_CHECKED
enum linsjoar_error linsjoar_canonical_size(const uint8_t *bytes, size_t len, size_t *words);
LINSJOAR_CHECKED
enum linsjoar_error linsjoar_canonical_size_with_options(const uint8_t *bytes, size_t len,
                                                         const struct linsjoar_options *options,
                                                         size_t *words);

/* Writes that form to the front of a block, and counts its words. It returns 2 where there is no room. */
LINSJOAR_CHECKED
enum linsjoar_error linsjoar_canonical(const uint8_t *bytes, size_t len, uint8_t *block, size_t block_len,
                                       size_t *words);
LINSJOAR_CHECKED
enum linsjoar_error linsjoar_canonical_with_options(const uint8_t *bytes, size_t len,
                                                    const struct linsjoar_options *options, uint8_t *block,
                                                    size_t block_len, size_t *words);

/* Words, the parts that a message is made of. These three calls know no messages. */

/* Packs whole words into an encoding, and counts the bytes that this takes. It returns 0 exactly where the
 * words are whole ones and there is room for what they are packed to. It returns 14 where the last word is
 * cut, and 2 where there is no room. For n words an encoding has at most 8 n + (n + 3) / 2 bytes.
 * Given a framed message it makes an encoding that no reader of packed messages reads. In a packed message
 * the first word of its table, the table's other words, and each segment are packed one by one;
 * linsjoar_pack_message does that. */
LINSJOAR_CHECKED
enum linsjoar_error linsjoar_pack(const uint8_t *words, size_t words_len, uint8_t *encoding,
                                  size_t encoding_len, size_t *written);

/* Fills words with what is packed at the front of an encoding, and counts the bytes of it that this takes. It
 * returns 0 wherever a packing of that many bytes is there. */
LINSJOAR_CHECKED
enum linsjoar_error linsjoar_unpack(const uint8_t *encoding, size_t encoding_len, uint8_t *words,
                                    size_t words_len, size_t *read);

/* Goes on over packed words that come in parts: unpacks as much as is there, of the part at the front of which the
 * encoding goes on, to the front of `words`, which is all that is left of the words that are packed together. It counts
 * the packed bytes that it takes, the bytes that it writes, and how many packed bytes more than those that are there
 * are needed at least, which is 0 exactly where all words are written. What it takes is done with; what it doesn't take
 * is less than 2,050 bytes where more are needed, and the front of the next part. It returns 14 where the last word is
 * cut, and 11 where a run goes past the end of the words; a part that ends anywhere is no error. */
LINSJOAR_CHECKED
enum linsjoar_error linsjoar_unpack_part(const uint8_t *packed, size_t packed_len, uint8_t *words,
                                         size_t words_len, size_t *read, size_t *written, size_t *needed);

/* Objects of a framed message, read in place.
 *
 * A reader, a place, a struct and a list are numbers that the caller keeps, and may copy. They hold no
 * pointer: objects are told by how many bytes of the message are before them, and linsjoar_at makes an address
 * of that. So they stay as good as the message's bytes do, wherever these are moved to. `bytes` and `len` are
 * always the same: a buffer with the message at its front, of which linsjoar_open made the reader. A thread that
 * reads the message while others do has a reader of its own.
 *
 * Each call takes any bytes, and any numbers in these structs. Where they are not what a call wrote for these
 * bytes it returns an error, or finds another object, and it reads nothing outside the bytes. The data, texts and
 * lists that linsjoar_struct, linsjoar_text, linsjoar_data and linsjoar_list find lie within the bytes. What a call
 * has to write is 0 after an error, so such a place is no pointer, such a struct is empty, and such a list has no
 * elements. What it reads it takes from the reader's words_left; a call that fails takes nothing. */

/* What is known of a message that was opened. */
struct linsjoar_reader {
    size_t message_len;    /* how many bytes it has, with its table: what follows may be the next one */
    size_t words_left;     /* how many words may still be read; LINSJOAR_NO_LIMIT sets no limit, and stays */
    uint32_t segments;     /* how many segments it has */
    int32_t nesting_limit; /* how deep objects may be nested; a number below 0 is as 0 */
    size_t begins[31];     /* how many bytes of the message are before segment 16, 32, ..; 0 where there is none */
};

/* The place of a pointer. One that is not there, as past the last pointer of a struct, is null. */
struct linsjoar_place {
    size_t word;      /* how many words of the segment are before it */
    uint32_t segment; /* the number of its segment */
    uint32_t nesting; /* how many objects may follow one another from it on */
    uint8_t is_there; /* 0 where there is no pointer; any other number says that one is there */
};

/* A struct. What lies past its data is 0, and past its pointers null. */
struct linsjoar_struct {
    size_t start;                /* how many bytes of the message are before its data */
    size_t data_len;             /* how many bytes of data it has */
    struct linsjoar_place first; /* its first pointer, where it has one */
    uint16_t pointers;           /* how many pointers it has */
};

/* A list, and as what its elements are read. */
struct linsjoar_list {
    size_t start;                /* how many bytes of the message are before its first element */
    struct linsjoar_place first; /* the first pointer of its first element, where elements have pointers */
    uint32_t count;              /* how many elements it has */
    uint32_t step;               /* how many bits are from one element to the next */
    uint32_t data_len;           /* how many bytes of data each element has as a struct */
    uint16_t pointers;           /* how many pointers each element has as a struct */
    uint8_t code;                /* an enum linsjoar_code: the one that was asked for */
};

/* What a pointer points to. */
enum linsjoar_kind { LINSJOAR_NULL = 0, LINSJOAR_STRUCT = 1, LINSJOAR_LIST = 2 };

/* What elements of a list are: numbers of 0, 1, 8, 16, 32 and 64 bits, pointers, structs. */
enum linsjoar_code {
    LINSJOAR_VOID = 0,
    LINSJOAR_BIT = 1,
    LINSJOAR_BYTE = 2,
    LINSJOAR_TWO_BYTES = 3,
    LINSJOAR_FOUR_BYTES = 4,
    LINSJOAR_EIGHT_BYTES = 5,
    LINSJOAR_POINTERS = 6,
    LINSJOAR_STRUCTS = 7
};

/* Opens the framed message at the front of a buffer: 0 wherever one is there, else what linsjoar_message
 * returns. */
LINSJOAR_CHECKED
enum linsjoar_error linsjoar_open(const uint8_t *bytes, size_t len, struct linsjoar_reader *reader);
LINSJOAR_CHECKED
enum linsjoar_error linsjoar_open_with_options(const uint8_t *bytes, size_t len,
                                               const struct linsjoar_options *options,
                                               struct linsjoar_reader *reader);

/* Finds the root pointer. It returns 17 where the first segment has no word. */
LINSJOAR_CHECKED
enum linsjoar_error linsjoar_root(const uint8_t *bytes, size_t len, const struct linsjoar_reader *reader,
                                  struct linsjoar_place *root);

/* Tells what a pointer points to, an enum linsjoar_kind, and for a list the enum linsjoar_code of its elements. It
 * takes nothing from words_left. */
LINSJOAR_CHECKED
enum linsjoar_error linsjoar_kind(const uint8_t *bytes, size_t len, const struct linsjoar_reader *reader,
                                  const struct linsjoar_place *pointer, uint8_t *kind, uint8_t *code);

/* The calls that follow a pointer return, in this order: 27 where the reader is not one of these bytes; 17, 18,
 * 19, 21 or 22 where the pointer points to no object, or too deep; 20 where the object has more words than are
 * left; 22 where it is of another kind than the call reads. */

/* Reads the struct that a pointer points to. Null is an empty one. */
LINSJOAR_CHECKED
enum linsjoar_error linsjoar_struct(const uint8_t *bytes, size_t len, struct linsjoar_reader *reader,
                                    const struct linsjoar_place *pointer, struct linsjoar_struct *fields);

/* Finds a pointer of a struct. */
LINSJOAR_CHECKED
enum linsjoar_error linsjoar_struct_pointer(const struct linsjoar_struct *fields, uint16_t index,
                                            struct linsjoar_place *pointer);

/* Reads the Text that a pointer points to: how many bytes of the message are before it, and how many it has without
 * the zero byte that follows them. Null is empty, and has no such byte. It returns 23 where no zero byte is at the
 * end. */
LINSJOAR_CHECKED
enum linsjoar_error linsjoar_text(const uint8_t *bytes, size_t len, struct linsjoar_reader *reader,
                                  const struct linsjoar_place *pointer, size_t *start, size_t *text_len);

/* Reads the Data that a pointer points to. Null is empty. */
LINSJOAR_CHECKED
enum linsjoar_error linsjoar_data(const uint8_t *bytes, size_t len, struct linsjoar_reader *reader,
                                  const struct linsjoar_place *pointer, size_t *start, size_t *data_len);

/* Reads the list that a pointer points to, its elements as an enum linsjoar_code says. Null is an empty one. As older
 * and newer writers have them, numbers and pointers are read as structs with these as their first field, and
 * structs as their first number or their first pointer; bits are read as bits alone. */
LINSJOAR_CHECKED
enum linsjoar_error linsjoar_list(const uint8_t *bytes, size_t len, struct linsjoar_reader *reader,
                                  const struct linsjoar_place *pointer, uint8_t code,
                                  struct linsjoar_list *list);

/* Finds an element of a list that is read as numbers, as structs, as pointers: 0, an empty struct, and no pointer past
 * the last one. They return 27 for a list that is read as something else, or whose element does not
 * lie within the bytes or has no place. */
LINSJOAR_CHECKED
enum linsjoar_error linsjoar_list_number(const uint8_t *bytes, size_t len, const struct linsjoar_list *list,
                                         uint32_t index, uint64_t *number);
LINSJOAR_CHECKED
enum linsjoar_error linsjoar_list_struct(const struct linsjoar_list *list, uint32_t index,
                                         struct linsjoar_struct *fields);
LINSJOAR_CHECKED
enum linsjoar_error linsjoar_list_pointer(const struct linsjoar_list *list, uint32_t index,
                                          struct linsjoar_place *pointer);

/* Messages that are built, from the bottom up.
 *
 * A message is built in a region, memory of the caller's: at its front are the message's table and its one segment,
 * in the form that linsjoar_open and linsjoar_pack_message read. Each object is written once, after all that it
 * points to, and is an orphan until a pointer points to it: a pointer of another object that is added later, or the
 * root. So a tree is added from its leaves up, and the root is set last.
 *
 * A builder and an orphan are numbers that the caller keeps, and may copy. They hold no pointer, so the region may be
 * moved: where a call returns 2, a larger region with the same bytes at its front (realloc) goes on with the same
 * builder, and the orphans stay as good. A copy of a builder that is put back forgets what was added since.
 * `region` and `room` are the block that the message is built in; no call reads or changes a byte past `room`.
 *
 * An orphan is one word. 0 is null. An orphan that several pointers point to is in the message once, and is counted
 * by readers once for each of them. One to which none points stays in the message, and no reader finds it.
 *
 * Each call takes any bytes, and any numbers. An orphan that no call wrote for this region does no harm: readers
 * find another object, or fail. A builder that no call wrote for this region, as one of zeros, makes a call return 27.
 * After an error the builder and the bytes of the region are as they were, and what the call had to write is 0.
 *
 * The calls that add an object return, in this order: 27 where the builder is not one of the region, or an argument
 * is wrong, as each says; 15 where no segment has room for the object, since with it the segment would have 2^29
 * words or more, or since no pointer can say its size; 2 where the region has no room for it. So 0 is returned exactly
 * where the object has room. linsjoar_add_copy alone returns other numbers. */

/* What is known of a message that is being built. */
struct linsjoar_builder {
    size_t used; /* how many bytes at the front of the region are the message's, its table among them */
};

/* The orphan of no object. */
#define LINSJOAR_NULL_ORPHAN UINT64_C(0)

/* Begins a message, whose root is null: it takes 16 bytes, whatever is there. It returns 2 where there is no room for
 * them; then the builder is of no region. */
LINSJOAR_CHECKED
enum linsjoar_error linsjoar_begin(struct linsjoar_builder *builder, uint8_t *region, size_t room);

/* Adds a Text of these bytes, which are to be UTF-8 (no call tests it), and a zero byte after them: (len + 8) / 8
 * words. */
LINSJOAR_CHECKED
enum linsjoar_error linsjoar_add_text(struct linsjoar_builder *builder, uint8_t *region, size_t room,
                                      const uint8_t *text, size_t len, uint64_t *orphan);

/* Adds a Data of these bytes: (len + 7) / 8 words. */
LINSJOAR_CHECKED
enum linsjoar_error linsjoar_add_data(struct linsjoar_builder *builder, uint8_t *region, size_t room,
                                      const uint8_t *data, size_t len, uint64_t *orphan);

/* Adds a list of `count` numbers of an enum linsjoar_code from LINSJOAR_VOID to LINSJOAR_EIGHT_BYTES. `elements` are
 * the numbers as the message has them: little-endian, one after the other; bits from the lowest of each byte on, and
 * what is left of the last byte doesn't matter. So on a little-endian machine an array of integers or of floats is
 * passed as it is. `len` is how many bytes these are: the bits of all, rounded up to whole bytes; else 27 is
 * returned, and for other codes. */
LINSJOAR_CHECKED
enum linsjoar_error linsjoar_add_numbers(struct linsjoar_builder *builder, uint8_t *region, size_t room,
                                         uint8_t code, size_t count, const uint8_t *elements, size_t len,
                                         uint64_t *orphan);

/* Adds a struct of these data words, numbers whose lowest byte comes first in the message, and of pointers to these
 * orphans. It returns 15 for 65536 or more of either. */
LINSJOAR_CHECKED
enum linsjoar_error linsjoar_add_struct(struct linsjoar_builder *builder, uint8_t *region, size_t room,
                                        const uint64_t *words, size_t data_words, const uint64_t *orphans,
                                        size_t pointers, uint64_t *orphan);

/* Adds a list of pointers to these orphans: of texts, of data, of lists, or of structs that are added one by one. */
LINSJOAR_CHECKED
enum linsjoar_error linsjoar_add_pointers(struct linsjoar_builder *builder, uint8_t *region, size_t room,
                                          const uint64_t *orphans, size_t count, uint64_t *orphan);

/* Adds a list of `count` structs that have `data_words` data words and `pointers` pointers each. `elements` has each
 * struct in order: its data words, and then its orphans. So an array of structs of C that hold uint64_t words[..] and
 * then uint64_t orphans[..] is passed as it is. It returns 27 where `elements_len`, the number of words, is not
 * count * (data_words + pointers). */
LINSJOAR_CHECKED
enum linsjoar_error linsjoar_add_structs(struct linsjoar_builder *builder, uint8_t *region, size_t room,
                                         const uint64_t *elements, size_t elements_len, size_t count,
                                         uint16_t data_words, uint16_t pointers, uint64_t *orphan);

/* Adds a copy of what a pointer of another message points to, with all below it, untrimmed. `bytes`, `len`, the reader
 * and the place are as linsjoar_kind takes them, and the bytes are not the region's. Null makes the orphan of no
 * object. It takes nothing from words_left. The walk over these objects calls itself as deep as they are nested, as
 * linsjoar_canonical does. Before 15 it returns 27 where the reader is not one of these bytes, or its nesting limit
 * is below the nesting of the place; and then the number of the error with which the walk stops, 20 among them
 * where the objects have more words than are left. */
LINSJOAR_CHECKED
enum linsjoar_error linsjoar_add_copy(struct linsjoar_builder *builder, uint8_t *region, size_t room,
                                      const uint8_t *bytes, size_t len, const struct linsjoar_reader *reader,
                                      const struct linsjoar_place *pointer, uint64_t *orphan);

/* Makes the root point to an orphan, or null. It returns 0, or 27 where the builder is not one of the region. It may be
 * called again, before and after other objects are added. */
LINSJOAR_CHECKED
enum linsjoar_error linsjoar_set_root(const struct linsjoar_builder *builder, uint8_t *region, size_t room,
                                      uint64_t orphan);

/* Writes the table, so that the first `message_len` bytes of the region are the framed message, to be sent, opened by
 * linsjoar_open, or packed by linsjoar_pack_message. message_len is builder->used. It returns 0, or 27 where the
 * builder is not one of the region. More may be added after it: no byte of the message changes by that, so it stays
 * valid until linsjoar_set_root makes its root point past it. Then linsjoar_finish is called again. */
LINSJOAR_CHECKED
enum linsjoar_error linsjoar_finish(const struct linsjoar_builder *builder, uint8_t *region, size_t room,
                                    size_t *message_len);

/* The rest is C, and no proof covers it. It takes structs that a call wrote for these bytes, so that their data lie
 * within these, and tests nothing. */

/* The address of what this many bytes of the message are before. */
static inline const uint8_t *linsjoar_at(const uint8_t *bytes, size_t start) { return bytes + start; }

/* Whether a number in memory has its lowest byte first, as in a message. */
#if defined(__BYTE_ORDER__) && __BYTE_ORDER__ == __ORDER_LITTLE_ENDIAN__
#define LINSJOAR_LITTLE_ENDIAN 1
#else
#define LINSJOAR_LITTLE_ENDIAN 0
#endif

/* The little-endian number of these bytes, at most 8. */
static inline uint64_t linsjoar_number(const uint8_t *bytes, size_t size) {
    uint64_t number = 0;
    if (LINSJOAR_LITTLE_ENDIAN)
        memcpy(&number, bytes, size);
    else
        for (size_t i = 0; i < size; i++)
            number |= (uint64_t)bytes[i] << 8 * i;
    return number;
}

/* The little-endian number of `size` bytes, at most 8, that are `at` bytes after the begin of a struct's data; 0 past
 * its end. */
static inline uint64_t linsjoar_field(const uint8_t *bytes, const struct linsjoar_struct *fields, size_t at,
                                      size_t size) {
    const uint8_t *data = bytes + fields->start;
    if (at >= fields->data_len)
        return 0;
    if (size > fields->data_len - at)
        return linsjoar_number(data + at, fields->data_len - at);
    return linsjoar_number(data + at, size);
}

/* A field of a struct by its index in the schema's layout: how many fields of its size are before it. */
static inline uint8_t linsjoar_u8(const uint8_t *bytes, const struct linsjoar_struct *fields, size_t index) {
    return (uint8_t)linsjoar_field(bytes, fields, index, 1);
}
static inline uint16_t linsjoar_u16(const uint8_t *bytes, const struct linsjoar_struct *fields, size_t index) {
    return (uint16_t)linsjoar_field(bytes, fields, 2 * index, 2);
}
static inline uint32_t linsjoar_u32(const uint8_t *bytes, const struct linsjoar_struct *fields, size_t index) {
    return (uint32_t)linsjoar_field(bytes, fields, 4 * index, 4);
}
static inline uint64_t linsjoar_u64(const uint8_t *bytes, const struct linsjoar_struct *fields, size_t index) {
    return linsjoar_field(bytes, fields, 8 * index, 8);
}
static inline int linsjoar_bool(const uint8_t *bytes, const struct linsjoar_struct *fields, size_t index) {
    return (int)(linsjoar_field(bytes, fields, index / 8, 1) >> index % 8 & 1);
}

/* The pointer of a struct that linsjoar_struct_pointer finds, for an index below fields->pointers. */
static inline struct linsjoar_place linsjoar_pointer_at(const struct linsjoar_struct *fields, uint16_t index) {
    struct linsjoar_place pointer = fields->first;
    pointer.word += index;
    pointer.is_there = 1;
    return pointer;
}

/* The struct that linsjoar_list_struct finds, for a list that is read as structs and an index below list->count. */
static inline struct linsjoar_struct linsjoar_struct_at(const struct linsjoar_list *list, uint32_t index) {
    struct linsjoar_struct fields;
    fields.start = list->start + (size_t)index * (list->step / 8);
    fields.data_len = list->data_len;
    fields.first = list->first;
    fields.first.word += (size_t)index * (list->step / 64);
    fields.first.is_there = 1;
    fields.pointers = list->pointers;
    return fields;
}

/* The next ones set fields of the data words of a struct that is to be added. The words have to have the field; a
 * field that has a default is XORed with it. */

/* A byte of these words, by how many bytes are before it in the message. */
static inline uint8_t *linsjoar_byte(uint64_t *words, size_t index) {
    return (uint8_t *)words + (LINSJOAR_LITTLE_ENDIAN ? index : index ^ 7);
}

/* Sets a field of `size` bytes to the lowest ones of a number; `index` is how many fields of its size are before it. */
static inline void linsjoar_set_bytes(uint64_t *words, size_t index, size_t size, uint64_t value) {
    if (LINSJOAR_LITTLE_ENDIAN)
        memcpy(linsjoar_byte(words, index * size), &value, size);
    else
        for (size_t i = 0; i < size; i++)
            *linsjoar_byte(words, index * size + i) = (uint8_t)(value >> 8 * i);
}

/* Sets a field by its index in the schema's layout: how many fields of its size are before it. */
static inline void linsjoar_set_u8(uint64_t *words, size_t index, uint8_t value) {
    linsjoar_set_bytes(words, index, 1, value);
}
static inline void linsjoar_set_u16(uint64_t *words, size_t index, uint16_t value) {
    linsjoar_set_bytes(words, index, 2, value);
}
static inline void linsjoar_set_u32(uint64_t *words, size_t index, uint32_t value) {
    linsjoar_set_bytes(words, index, 4, value);
}
static inline void linsjoar_set_u64(uint64_t *words, size_t index, uint64_t value) { words[index] = value; }
static inline void linsjoar_set_bool(uint64_t *words, size_t index, int value) {
    uint8_t *byte = linsjoar_byte(words, index / 8);
    unsigned bit = 1u << index % 8;
    *byte = (uint8_t)(value ? *byte | bit : *byte & ~bit);
}

#ifdef __cplusplus
}
#endif

#endif
