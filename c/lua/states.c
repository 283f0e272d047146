/* Several states of Lua in one process, each with its own allocator. What one of them registers, collects or closes changes nothing in another, and each frees
 * all of its memory. */
#include <stdio.h>
#include <stdlib.h>
#include <string.h>

#include "lauxlib.h"
#include "lua.h"
#include "lualib.h"

enum { STATES = 4 };

struct memory {
    size_t bytes, blocks;
};

static void *allocate(void *data, void *block, size_t had, size_t size)
{
    struct memory *memory = (struct memory *)data;
    void *other;

    if (size == 0) {
        if (block) {
            memory->bytes -= had;
            memory->blocks--;
        }
        free(block);
        return NULL;
    }
    other = realloc(block, size);
    if (other) {
        memory->bytes += size - (block ? had : 0);
        memory->blocks += !block;
    }
    return other;
}

/* Prints the numbers of finalized objects, for all states. */
static int called(lua_State *L)
{
    printf(" %d.%d", (int)lua_tointeger(L, lua_upvalueindex(1)), (int)lua_rawlen(L, 1));
    return 0;
}

/* Pushes a new object with a finalizer. Its size is its number. */
static void push_object(lua_State *L, int number)
{
    lua_newuserdatauv(L, (size_t)number, 0);
    lua_getfield(L, LUA_REGISTRYINDEX, "meta");
    lua_setmetatable(L, -2);
}

int main(void)
{
    static struct memory memory[STATES];
    lua_State *states[STATES];
    int i, n;

    for (i = 0; i < STATES; i++) {
        lua_State *L = states[i] = lua_newstate(allocate, &memory[i]);

        lua_newtable(L);
        lua_pushinteger(L, i);
        lua_pushcclosure(L, called, 1);
        lua_setfield(L, -2, "__gc");
        lua_setfield(L, LUA_REGISTRYINDEX, "meta");
        if (i % 2)
            lua_gc(L, LUA_GCGEN, 0, 0);
        lua_gc(L, LUA_GCSTOP);
    }
    for (n = 1; n <= 200; n++) {
        lua_State *L = states[n % STATES % 3]; /* the last one has no finalizers */

        push_object(L, n);
        if (n % 5)
            lua_pop(L, 1); /* the others stay on the stack until the end */
        luaL_checkstack(L, 10, NULL);
        if (n % 60 == 0) {
            printf("collect %d:", n % STATES % 3);
            lua_gc(L, LUA_GCCOLLECT);
            printf("\n");
        }
    }
    for (i = STATES - 1; i >= 0; i--) {
        printf("close %d:", i);
        lua_close(states[i]);
        printf("\nleft %d, %d\n", (int)memory[i].bytes, (int)memory[i].blocks);
    }
    return 0;
}
