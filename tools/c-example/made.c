/* Builds and reads samples by a header that the schema compiler wrote (crates/capnpc_sample/sample_capnp.h), in C or in
 * C++: what a union's group shows after another member, lists that are read as others, drafts that are pushed while the
 * message grows, copies, and memory that ends. */
#include "sample_capnp.h"

#include <stdio.h>

#define EXPECT(is_so) ((is_so) ? (void)0 : exit(fprintf(stderr, "made: line %d is not so: %s\n", __LINE__, #is_so)))
#define OK(call) EXPECT((call) == LINSJOAR_OK)

static struct linsjoar_message message;

/* Memory that grows, but not past `most` bytes. */
static size_t most = SIZE_MAX;
static void *grow(void *region, size_t room) { return room > most ? NULL : linsjoar_heap(region, room); }

static struct linsjoar_text_orphan add(const char *text) {
    struct linsjoar_text_orphan orphan;
    OK(linsjoar_add_string(&message, text, &orphan));
    return orphan;
}

static void try_unions(void) {
    struct Shape_draft shape = Shape_new();
    Shape_set_radius(&shape, -1.5);
    Shape_rectangle_set_width(&shape, 5);
    EXPECT(Shape_draft_which(&shape) == Shape_which_rectangle);
    EXPECT(Shape_rectangle_draft_get_width(&shape) == 5 && Shape_rectangle_draft_get_height(&shape) == 0);
    Shape_rectangle_set_height(&shape, 6);
    EXPECT(Shape_rectangle_draft_get_width(&shape) == 5);
}

/* A list of as many points, each of which is pushed after a text that makes the message larger. */
static struct Point_list_orphan push_points(int32_t count) {
    struct Point_drafts points = {{0, 0}}, others = {{0, 0}};
    struct Point_list_orphan list;
    for (int32_t i = 0; i < count; i++) {
        struct Point_draft point = Point_new();
        Point_set_x(&point, i);
        Point_set_y(&point, -i);
        (void)add("a text between the points");
        OK(Point_push(&message, &points, &point));
    }
    struct Point_draft point = Point_new();
    OK(Point_push(&message, &others, &point));
    EXPECT(Point_push(&message, &points, &point) == LINSJOAR_INVALID_ARGUMENT);
    EXPECT(Point_add_drafts(&message, &points, &list) == LINSJOAR_INVALID_ARGUMENT);
    OK(Point_add_drafts(&message, &others, &list));
    OK(Point_add_drafts(&message, &points, &list));
    return list;
}

static size_t build_sample(void) {
    static const uint32_t numbers[] = {1, 2, 3};
    struct Sample_draft sample = Sample_new();
    struct linsjoar_u32_list_orphan list;
    size_t len;
    OK(linsjoar_u32_add_list(&message, numbers, 3, &list));
    Sample_set_numbers(&sample, list);
    Sample_set_points(&sample, push_points(1000));
    Sample_set_title(&sample, add("a title"));
    Sample_set_color_number(&sample, 700);
    EXPECT(Sample_draft_get_balance(&sample) == -5 && Sample_draft_get_color(&sample) == Color_notInSchema);
    OK(Sample_finish(&message, &sample, &len));
    return len;
}

static void expect_sample(const struct Sample_reader *sample) {
    struct Point_list_reader points;
    struct linsjoar_u32_list_reader numbers;
    struct linsjoar_text_reader text;
    struct linsjoar_struct_reader fields;
    uint64_t number;
    OK(Sample_get_points(sample, &points));
    EXPECT(Point_list_len(&points) == 1000);
    for (uint32_t i = 0; i < 1000; i++) {
        struct Point_reader point = Point_list_get(&points, i);
        EXPECT(Point_get_x(&point) == (int32_t)i && Point_get_y(&point) == -(int32_t)i);
    }
    struct Point_reader past = Point_list_get(&points, 1000);
    EXPECT(Point_get_x(&past) == 0);
    OK(Sample_get_numbers(sample, &numbers));
    EXPECT(linsjoar_u32_list_get(&numbers, 2) == 3);
    EXPECT(linsjoar_list_get_text(&numbers.elements, 0, &text) == LINSJOAR_INVALID_ARGUMENT);
    EXPECT(linsjoar_list_get_struct(&numbers.elements, 0, &fields) == LINSJOAR_INVALID_ARGUMENT);
    EXPECT(linsjoar_list_get_number(&points.elements, 0, &number) == LINSJOAR_INVALID_ARGUMENT);
    EXPECT(Sample_get_color(sample) == Color_notInSchema && Sample_get_color_number(sample) == 700);
    OK(Sample_get_title(sample, &text));
    EXPECT(strcmp(text.bytes, "a title") == 0);
}

static void try_copies(size_t len) {
    struct linsjoar_message copied = message;
    struct linsjoar_reader reader, other;
    struct Sample_reader sample;
    struct Sample_draft draft;
    OK(Sample_root(copied.region, len, &reader, &sample));
    other = reader;
    sample = Sample_bind(sample, &other);
    expect_sample(&sample);
    EXPECT(other.words_left < reader.words_left);
    OK(linsjoar_message_begin(&message, NULL, 0, grow));
    OK(Sample_draft_of(&sample, &message, &draft));
    OK(Sample_finish(&message, &draft, &len));
    OK(Sample_root(message.region, len, &reader, &sample));
    expect_sample(&sample);
    linsjoar_message_free(&copied);
}

/* Memory that ends: after an error the message is as it was. */
static void try_ends(void) {
    uint8_t region[40];
    struct linsjoar_text_orphan text;
    struct linsjoar_message fixed;
    size_t used = message.builder.used;
    most = message.room;
    while (linsjoar_add_string(&message, "a text", &text) == LINSJOAR_OK)
        used = message.builder.used;
    EXPECT(linsjoar_add_string(&message, "a text", &text) == LINSJOAR_OUT_OF_MEMORY && text.word == 0);
    EXPECT(message.builder.used == used);
    OK(linsjoar_message_begin(&fixed, region, sizeof region, NULL));
    OK(linsjoar_add_string_with_len(&fixed, "a text of 23 bytes and more", 23, &text));
    EXPECT(linsjoar_add_string(&fixed, "", &text) == LINSJOAR_BUFFER_NOT_LARGE_ENOUGH);
}

int main(void) {
    try_unions();
    OK(linsjoar_message_begin(&message, NULL, 0, grow));
    try_copies(build_sample());
    try_ends();
    linsjoar_message_free(&message);
    return 0;
}
