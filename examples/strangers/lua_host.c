/*
 * A host of Lua's library with a slot that is to be closed, as it may be used (the manual's lua_toclose): the slot is popped, its closing function calls itself so deep
 * that Lua moves its stack, and then the host pushes `closed` and prints what is there.
 */
#include <lauxlib.h>
#include <lua.h>
#include <lualib.h>
#include <stdio.h>

static const char opened[] = "local function deep(n) if n > 0 then return 1 + deep(n - 1) end return 0 end "
                             "return setmetatable({}, {__close = function() deep(150) end})";

static int session(lua_State *lua)
{
    if (luaL_dostring(lua, opened) != LUA_OK)
        return lua_error(lua);
    lua_toclose(lua, -1);
    lua_pop(lua, 1);
    lua_pushstring(lua, "closed");
    printf("%s: %d\n", luaL_tolstring(lua, -1, NULL), lua_gettop(lua) > 0);
    return 0;
}

int main(void)
{
    lua_State *lua = luaL_newstate();
    luaL_openlibs(lua);
    lua_pushcfunction(lua, session);
    int status = lua_pcall(lua, 0, 0, 0);
    if (status != LUA_OK)
        printf("%s\n", lua_tostring(lua, -1));
    lua_close(lua);
    return status;
}
