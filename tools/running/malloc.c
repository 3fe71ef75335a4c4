// Preloaded into a program, it makes one of the program's calls of malloc and realloc fail, whose number, counted from 1, FAILED
// names (calls of libraries are not counted), and counts the bytes that are kept: what malloc, calloc and realloc gave and
// free has not taken back, by what the blocks have room for. At the end it writes how many calls there were, and the most
// bytes that were kept at once, to the file that COUNTED names.
#define _GNU_SOURCE
#include <link.h>
#include <malloc.h>
#include <stdint.h>
#include <stdio.h>
#include <stdlib.h>

void *__libc_malloc(size_t);
void *__libc_calloc(size_t, size_t);
void *__libc_realloc(void *, size_t);
void __libc_free(void *);

static uintptr_t first, limit;
static unsigned long calls, failed;
static size_t kept, most;

// The program itself comes first.
static int note(struct dl_phdr_info *info, size_t size, void *data) {
    (void)size, (void)data;
    for (int i = 0; i < info->dlpi_phnum; i++) {
        const ElfW(Phdr) *part = &info->dlpi_phdr[i];
        if (part->p_type == PT_LOAD && part->p_flags & PF_X) {
            first = info->dlpi_addr + part->p_vaddr;
            limit = first + part->p_memsz;
        }
    }
    return 1;
}

__attribute__((constructor)) static void begin(void) {
    const char *number = getenv("FAILED");
    failed = number ? strtoul(number, NULL, 10) : 0;
    dl_iterate_phdr(note, NULL);
}

__attribute__((destructor)) static void end(void) {
    const char *name = getenv("COUNTED");
    FILE *file = name ? fopen(name, "w") : NULL;
    if (file) {
        fprintf(file, "%lu %zu\n", calls, most);
        fclose(file);
    }
}

static int fails(void *caller) {
    uintptr_t at = (uintptr_t)caller;
    return at >= first && at < limit && ++calls == failed;
}

static void *given(void *block, size_t before) {
    if (block) {
        kept += malloc_usable_size(block) - before;
        most = kept > most ? kept : most;
    }
    return block;
}

void *malloc(size_t size) {
    return fails(__builtin_return_address(0)) ? NULL : given(__libc_malloc(size), 0);
}

void *calloc(size_t count, size_t size) {
    return given(__libc_calloc(count, size), 0);
}

void *realloc(void *block, size_t size) {
    size_t before = block ? malloc_usable_size(block) : 0;
    return fails(__builtin_return_address(0)) ? NULL : given(__libc_realloc(block, size), before);
}

void free(void *block) {
    kept -= block ? malloc_usable_size(block) : 0;
    __libc_free(block);
}
