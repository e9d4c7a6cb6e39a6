/*
 * crypt as the C library of Debian 12 has it: a null pointer for a password whose method or salt it doesn't know. musl's makes something of any.
 */
#include <errno.h>
#include <stdbool.h>
#include <stddef.h>
#include <string.h>

char *__real_crypt(const char *, const char *);

static bool is_in(const char *set, char c)
{
    return c && strchr(set, c);
}

static bool is_known(const char *setting)
{
    static const char salt[] = "./0123456789ABCDEFGHIJKLMNOPQRSTUVWXYZabcdefghijklmnopqrstuvwxyz";
    if (setting[0] == '$')
        return is_in("1256", setting[1]);
    return is_in(salt, setting[0]) && is_in(salt, setting[1]);
}

char *__wrap_crypt(const char *password, const char *setting)
{
    if (is_known(setting))
        return __real_crypt(password, setting);
    errno = EINVAL;
    return NULL;
}
