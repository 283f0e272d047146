/* An allocator for comparing two builds of Lua. The linker puts it in place of the one with which a program makes its state: --wrap=lua_newstate,lua_close.
 *
 * It never reuses memory. So addresses depend only on the sequence of Lua's own requests, and tables with objects as keys have the same order in both builds.
 * Freed memory is overwritten. The blocks of the finalizers are stored separately, are checked when they change, and must all be freed before the state is
 * closed.
 *
 * LUA_REFUSED=N: after the first 3,000, each N-th request of Lua's own is refused once; a collection without finalizers follows, and the request is repeated.
 * FINALIZERS_REFUSED=N: the N-th request of the finalizers is refused; if N has a minus, this one and all later ones.
 */
#include <stdint.h>
#include <stdio.h>
#include <stdlib.h>
#include <string.h>
#include <sys/mman.h>

#include "lua.h"

enum { KIND = 1 << 16 };  /* the kind of the finalizers' blocks, as in lgc.c */

#define SIZE ((size_t)64 << 30)

static char *arena, *next;
static long requests, refused, own_requests, own_refused;
static size_t own_blocks;

static long number_of(const char *name)
{
    const char *value = getenv(name);

    return value ? atol(value) : 0;
}

static void stop(const char *why)
{
    fprintf(stderr, "the allocator: %s\n", why);
    abort();
}

/* A block of Lua's own. */
static void *changed(char *block, size_t had, size_t size)
{
    char *other = next;

    if (size && (!block || size > had) && refused && ++requests > 3000 && requests % refused == 0)
        return NULL;
    if (size) {
        size = (size + 15) & ~(size_t)15;
        if ((size_t)(arena + SIZE - next) < size)
            return NULL;
        next += size;
        if (block)
            memcpy(other, block, had < size ? had : size);
    }
    if (block)
        memset(block, 0xDB, had);
    return size ? other : NULL;
}

/* A block of the finalizers. Its size and a number are stored before it. */
static void *own_changed(char *block, size_t had, size_t size)
{
    size_t *head = block ? (size_t *)(void *)block - 2 : NULL, *other = NULL;

    if (head && (head[0] != had || head[1] != KIND))
        stop("a block of the finalizers has another size");
    if (size) {
        own_requests++;
        if (own_requests == own_refused || (own_refused < 0 && own_requests >= -own_refused))
            return NULL;
        other = (size_t *)malloc(size + 16);
        if (!other)
            return NULL;
        other[0] = size;
        other[1] = KIND;
        memset(other + 2, 0xDB, size);
        if (head)
            memcpy(other + 2, block, had < size ? had : size);
        own_blocks++;
    }
    if (head) {
        memset(head, 0xDB, had + 16);
        free(head);
        own_blocks--;
    }
    return other ? other + 2 : NULL;
}

static void *steady(void *data, void *block, size_t had, size_t size)
{
    const int is_own = block ? (char *)block < arena || (char *)block >= arena + SIZE : had == KIND;

    (void)data;
    return is_own ? own_changed((char *)block, had, size) : changed((char *)block, block ? had : 0, size);
}

lua_State *__real_lua_newstate(lua_Alloc allocator, void *data);

lua_State *__wrap_lua_newstate(lua_Alloc allocator, void *data)
{
    (void)allocator;
    (void)data;
    arena = next = (char *)mmap((void *)0x200000000000, SIZE, PROT_READ | PROT_WRITE, MAP_PRIVATE | MAP_ANONYMOUS | MAP_NORESERVE | MAP_FIXED_NOREPLACE, -1, 0);
    if (arena == MAP_FAILED)
        stop("there is no room for the memory of Lua");
    refused = number_of("LUA_REFUSED");
    own_refused = number_of("FINALIZERS_REFUSED");
    return __real_lua_newstate(steady, NULL);
}

void __real_lua_close(lua_State *L);

void __wrap_lua_close(lua_State *L)
{
    __real_lua_close(L);
    if (own_blocks)
        stop("blocks of the finalizers are left");
    if (getenv("FINALIZERS_REFUSED"))
        fprintf(stderr, "the allocator: %ld requests of the finalizers\n", own_requests);
}
