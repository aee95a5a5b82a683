// What `beside/host_times embedding` does, by Lua's C API: prints the nanoseconds of a call from a script to a function of the host, of a call of a
// script's function by the host, of an item of an array that is handed in and added up there, and of one that the script only takes. Usage: lua ROUNDS
#include <lauxlib.h>
#include <lua.h>
#include <lualib.h>
#include <stdio.h>
#include <stdlib.h>
#include <time.h>

static const int ITEMS = 1000;

static double now(void) {
    struct timespec time;
    clock_gettime(CLOCK_PROCESS_CPUTIME_ID, &time);
    return time.tv_sec * 1e9 + time.tv_nsec;
}

static int next_of(lua_State *lua) {
    lua_pushinteger(lua, luaL_checkinteger(lua, 1) + 1);
    return 1;
}

static void must(lua_State *lua, int status) {
    if (status != LUA_OK) {
        fprintf(stderr, "%s\n", lua_tostring(lua, -1));
        exit(1);
    }
}

static void wants(lua_Integer found, lua_Integer wanted) {
    if (found != wanted) {
        fprintf(stderr, "%lld, and %lld was wanted\n", (long long)found, (long long)wanted);
        exit(1);
    }
}

// A loop of the script that calls the host, less the same loop without the call.
static double to_the_host(lua_State *lua, lua_Integer rounds) {
    double taken[2];
    const char *texts[2] = {"local x = 0; for i = 1, ... do x = x + 1 end; return x", "local x = 0; for i = 1, ... do x = next_of(x) end; return x"};
    for (int i = 0; i < 2; i++) {
        must(lua, luaL_loadstring(lua, texts[i]));
        lua_pushinteger(lua, rounds);
        double began = now();
        must(lua, lua_pcall(lua, 1, 1, 0));
        taken[i] = now() - began;
        wants(lua_tointeger(lua, -1), rounds);
        lua_pop(lua, 1);
    }
    return (taken[1] - taken[0]) / rounds;
}

static double of_a_function(lua_State *lua, lua_Integer rounds) {
    must(lua, luaL_dostring(lua, "function sum(a, b) return a + b end"));
    lua_Integer total = 0;
    double began = now();
    for (lua_Integer i = 0; i < rounds; i++) {
        lua_getglobal(lua, "sum");
        lua_pushinteger(lua, total);
        lua_pushinteger(lua, i);
        must(lua, lua_pcall(lua, 2, 1, 0));
        total = lua_tointeger(lua, -1);
        lua_pop(lua, 1);
    }
    double taken = now() - began;
    wants(total, rounds * (rounds - 1) / 2);
    return taken / rounds;
}

static double of_an_array(lua_State *lua, lua_Integer rounds, const char *text, lua_Integer wanted) {
    must(lua, luaL_dostring(lua, text));
    double began = now();
    for (lua_Integer round = 0; round < rounds; round++) {
        lua_getglobal(lua, "take");
        lua_createtable(lua, ITEMS, 0);
        for (int i = 1; i <= ITEMS; i++) {
            lua_pushinteger(lua, i);
            lua_rawseti(lua, -2, i);
        }
        must(lua, lua_pcall(lua, 1, 1, 0));
        wants(lua_tointeger(lua, -1), wanted);
        lua_pop(lua, 1);
    }
    return (now() - began) / rounds / ITEMS;
}

int main(int count, char **words) {
    lua_Integer rounds = count > 1 ? atoll(words[1]) : 100000;
    lua_State *lua = luaL_newstate();
    luaL_openlibs(lua);
    lua_register(lua, "next_of", next_of);
    double host = to_the_host(lua, rounds), function = of_a_function(lua, rounds);
    lua_Integer sum = (lua_Integer)ITEMS * (ITEMS + 1) / 2, arrays = rounds / 100 + 1;
    double added = of_an_array(lua, arrays, "function take(a) local s = 0; for i = 1, #a do s = s + a[i] end; return s end", sum);
    double taken = of_an_array(lua, arrays, "function take(a) return #a end", ITEMS);
    printf("%.1f %.1f %.2f %.2f\n", host, function, added, taken);
    lua_close(lua);
    return 0;
}
