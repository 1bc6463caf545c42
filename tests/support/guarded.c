#include "guarded.h"

#include <stdio.h>
#include <stdlib.h>
#include <string.h>
#include <sys/mman.h>
#include <unistd.h>

#if defined(__has_include)
#if __has_include(<valgrind/memcheck.h>)
#include <valgrind/memcheck.h>
#endif
#endif
#ifndef VALGRIND_MAKE_MEM_NOACCESS
#define VALGRIND_MAKE_MEM_NOACCESS(start, length) ((void)(start), (void)(length))
#define VALGRIND_MAKE_MEM_DEFINED(start, length) ((void)(start), (void)(length))
#define VALGRIND_MAKE_MEM_UNDEFINED(start, length) ((void)(start), (void)(length))
#endif

#if defined(__SANITIZE_ADDRESS__)
#include <sanitizer/asan_interface.h>
#else
#define ASAN_POISON_MEMORY_REGION(start, length) ((void)(start), (void)(length))
#define ASAN_UNPOISON_MEMORY_REGION(start, length) ((void)(start), (void)(length))
#endif

enum { LEAST_ROOM = 4096 };

/* What stands in an area wherever nothing is lent. */
static const uint8_t *guard_octets(void)
{
    static uint8_t pattern[65536];
    static bool is_made;
    for (size_t i = 0; !is_made && i < sizeof pattern; i++) {
        pattern[i] = (uint8_t)(0xA5u ^ (i * 7u) ^ (i >> 8));
    }
    is_made = true;
    return pattern;
}

static void fail(const char *what)
{
    perror(what);
    exit(2);
}

static void forbid(uint8_t *start, size_t length)
{
    VALGRIND_MAKE_MEM_NOACCESS(start, length);
    ASAN_POISON_MEMORY_REGION(start, length);
}

static void allow(uint8_t *start, size_t length)
{
    ASAN_UNPOISON_MEMORY_REGION(start, length);
    VALGRIND_MAKE_MEM_DEFINED(start, length);
}

struct guarded guarded_new(void)
{
    size_t page = (size_t)sysconf(_SC_PAGESIZE);
    size_t room = (LEAST_ROOM + page - 1) / page * page;
    uint8_t *whole = mmap(NULL, room + 2 * page, PROT_NONE, MAP_PRIVATE | MAP_ANONYMOUS, -1, 0);
    if (whole == MAP_FAILED) {
        fail("mmap");
    }
    struct guarded guarded = {whole + page, room, whole + page, room, true};
    guarded_protect(&guarded, LEND_WRITABLE);
    return guarded;
}

void guarded_protect(struct guarded *guarded, enum lend_access access)
{
    if (guarded->is_read_only == (access == LEND_READ_ONLY)) {
        return;
    }
    guarded->is_read_only = access == LEND_READ_ONLY;
    if (mprotect(guarded->area, guarded->room, access == LEND_READ_ONLY ? PROT_READ : PROT_READ | PROT_WRITE) != 0) {
        fail("mprotect");
    }
}

/* The range of the last loan holds guard octets again. */
static void restore_guards(struct guarded *guarded)
{
    size_t before = (size_t)(guarded->range - guarded->area);
    memcpy(guarded->range, guard_octets() + before, guarded->length);
}

uint8_t *guarded_lend(struct guarded *guarded, const void *content, size_t length, enum lend_end end, enum lend_access access)
{
    if (length > guarded->room) {
        fputs("a test lends more than there is room for\n", stderr);
        exit(2);
    }
    restore_guards(guarded);
    size_t before = end == LEND_AT_START ? 0 : guarded->room - length;
    guarded->range = guarded->area + before;
    guarded->length = length;
    memcpy(guarded->range, content, length);
    forbid(guarded->area, before);
    forbid(guarded->range + length, guarded->room - before - length);
    guarded_protect(guarded, access);
    return guarded->range;
}

void guarded_forget(struct guarded *guarded)
{
    (void)guarded; /* for a processor that valgrind does not know */
    VALGRIND_MAKE_MEM_UNDEFINED(guarded->range, guarded->length);
}

bool guarded_take_back(struct guarded *guarded)
{
    size_t before = (size_t)(guarded->range - guarded->area);
    size_t after = before + guarded->length;
    guarded_protect(guarded, LEND_WRITABLE);
    allow(guarded->area, guarded->room);
    return memcmp(guarded->area, guard_octets(), before) == 0
        && memcmp(guarded->area + after, guard_octets() + after, guarded->room - after) == 0;
}
