"""The templates of c.py."""
from languages import MOST

HEAD = """\
#include "schema%(index)d_capnp.h"
#include "program.h"

%(lists)s%(declared)s
%(structs)s
void root%(index)d(struct program *program, enum task task, uint8_t index) {
    const struct linsjoar_options options = {LINSJOAR_NO_LIMIT, 64};
    struct linsjoar_reader reader;
    struct linsjoar_message copy;
    uint64_t root = LINSJOAR_NULL_ORPHAN;
    expect(linsjoar_message_begin(&copy, NULL, 0, linsjoar_heap));
    switch (index) {
%(roots)s
    }
    if (task == MAKE) {
        expect(linsjoar_message_set_root(&program->message, root));
        expect(linsjoar_message_finish(&program->message, &program->message_len));
    }
    linsjoar_message_free(task == COPY ? &program->message : &copy);
    if (task == COPY)
        program->message = copy;
}

void constants%(index)d(struct program *program) {
    const uint32_t depth = %(depth)d;
    (void)depth;
%(constants)s
}
"""
DECLARED = """\
static void show%(number)d(struct program *program, uint32_t depth, const struct %(type)s_reader *read);
static void fill%(number)d(struct program *program, struct %(type)s_draft *draft);"""
# A struct that is made a builder again goes on as the draft that it was.
STRUCT = """
static void show%(number)d(struct program *program, uint32_t depth, const struct %(type)s_reader *read) {
    if (!show_enters(program, depth))
        return;
    depth--;
%(shown)s
    (void)read;
    show_field(program, "}");
}

static void fill%(number)d(struct program *program, struct %(type)s_draft *draft) {
    if (take_number(program, 1) != 0)
        fill%(number)d(program, draft);
    for (uint64_t left = take_number(program, 2); left > 0; left--)
        switch (take_number(program, 1) & 127) {
%(calls)s
        }
    (void)draft;
}
"""
ROOT = """\
    case %(number)d: {
        struct %(type)s_reader read;
        struct %(type)s_draft draft;
        if (task == SHOW) {
            show_error(program, %(type)s_read(&program->root, &read));
            show%(number)d(program, %(depth)d, &read);
        } else if (task == MAKE) {
            %(made)s
        } else {
            expect(%(type)s_root_with_options(program->message.region, program->message_len, &options, &reader, &read));
            expect(%(type)s_draft_of(&read, &copy, &draft));
            expect(%(type)s_finish(&copy, &draft, &program->message_len));
        }
        break;
    }"""
MADE_STRUCT = "{ struct %(type)s_draft draft%(nesting)d = %(type)s_new(); struct %(type)s_orphan added; " \
    "fill%(number)d(program, &draft%(nesting)d); expect(%(type)s_add(&program->message, &draft%(nesting)d, &added)); " \
    "*(%(orphan)s) = added.word; }"
# Lists of an odd number of structs are pushed one by one.
MADE_STRUCTS = "{ size_t count%(nesting)d = (size_t)take_number(program, 4); struct %(type)s_list_orphan added; " \
    "struct %(type)s_drafts pushed = {{0, 0}}; " \
    "struct %(type)s_draft *drafts = (struct %(type)s_draft *)make_room(NULL, count%(nesting)d * sizeof *drafts); " \
    "for (size_t i = 0; i < count%(nesting)d; i++) { drafts[i] = %(type)s_new(); fill%(number)d(program, &drafts[i]); " \
    "if (count%(nesting)d %% 2) expect(%(type)s_push(&program->message, &pushed, &drafts[i])); } " \
    "expect(count%(nesting)d %% 2 ? %(type)s_add_drafts(&program->message, &pushed, &added) : " \
    "%(type)s_add_list(&program->message, drafts, count%(nesting)d, &added)); " \
    "*(%(orphan)s) = added.word; free(drafts); }"
MADE_POINTERS = "{ size_t count%(nesting)d = (size_t)take_number(program, 4); struct %(type)s_list_orphan added; " \
    "struct %(type)s_orphan *orphans%(nesting)d = (struct %(type)s_orphan *)make_room(NULL, " \
    "count%(nesting)d * sizeof *orphans%(nesting)d); " \
    "for (size_t at%(nesting)d = 0; at%(nesting)d < count%(nesting)d; at%(nesting)d++) { %(made)s } " \
    "expect(%(type)s_add_list(&program->message, orphans%(nesting)d, count%(nesting)d, &added)); " \
    "*(%(orphan)s) = added.word; free(orphans%(nesting)d); }"
SETTER = "{ struct %s_orphan typed; typed.word = LINSJOAR_NULL_ORPHAN; if (take_number(program, 1) != 0) { %s } %s, typed); }"
MAIN = """\
#include "program.h"

%(declared)s

static uint8_t input[1 << 26];

static void root(struct program *program, enum task task, uint8_t schema, uint8_t index) {
    switch (schema) {
%(roots)s
    }
}

static void show(struct program *program) {
    uint8_t schema = (uint8_t)take_number(program, 1), index = (uint8_t)take_number(program, 1);
    size_t len = (size_t)take_number(program, 4);
    const uint8_t *bytes = take(program, len);
    struct linsjoar_reader reader;
    show_field(program, "message");
    show_field(program, "shown");
    program->structs_left = %(most)d;
    show_error(program, (enum linsjoar_error)linsjoar_open(bytes, len, &reader));
    reader.words_left = LINSJOAR_NO_LIMIT;
    show_error(program, linsjoar_read_root(bytes, len, &reader, &program->root));
    root(program, SHOW, schema, index);
}

static void build(struct program *program, bool is_copied, FILE *built) {
    uint8_t schema = (uint8_t)take_number(program, 1), index = (uint8_t)take_number(program, 1);
    uint32_t len;
    expect(linsjoar_message_begin(&program->message, NULL, 0, linsjoar_heap));
    root(program, MAKE, schema, index);
    if (is_copied)
        root(program, COPY, schema, index);
    len = (uint32_t)program->message_len;
    fputc(%(framed)d, built);
    fputc(schema, built);
    fputc(index, built);
    fwrite(&len, sizeof len, 1, built);
    fwrite(program->message.region, 1, program->message_len, built);
    linsjoar_message_free(&program->message);
}

/* What is said of the framed messages that standard input describes goes to the file `argv[1]`, and the others are built into
 * `argv[2]`. */
int main(int argc, char **argv) {
    static struct program program;
    FILE *built = argc > 2 ? fopen(argv[2], "wb") : NULL;
    program.said = argc > 2 ? fopen(argv[1], "w") : NULL;
    if (program.said == NULL || built == NULL)
        return 2;
%(constants)s
    program.left = input;
    program.end = input + fread(input, 1, sizeof input, stdin);
    while (program.left != program.end) {
        uint64_t way = take_number(&program, 1);
        if (way == %(framed)d)
            show(&program);
        else
            build(&program, way, built);
    }
    fprintf(program.said, "\\n");
    return fclose(program.said) != 0 || fclose(built) != 0;
}
"""
CONSTANTS = """\
    show_field(&program, "schema");
    program.structs_left = %d;
    constants%%(at)d(&program);""" % MOST
LIST_OF_LISTS = """\
#ifndef LINSJOAR_HAS_%(name)s_list
#define LINSJOAR_HAS_%(name)s_list
LINSJOAR_LIST_OF_LISTS(%(name)s, %(code)s)
#endif
"""
ROOT_DECLARED = "void root%(at)d(struct program *, enum task, uint8_t);\nvoid constants%(at)d(struct program *);"
