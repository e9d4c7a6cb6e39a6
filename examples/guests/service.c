/* A service that keeps names and their values. A request is a line: put NAME VALUE, get NAME, or drop NAME. Each gets a line. */
#include "store.h"
#include <stdio.h>
#include <string.h>

static const char *answer(char *request)
{
    char *word = strtok(request, " \n");
    char *name = strtok(NULL, " \n");
    char *value = strtok(NULL, "\n");
    if (word == NULL || name == NULL)
        return "what?";
    if (strcmp(word, "put") == 0 && value != NULL)
        return put(name, value) ? "kept" : "no room";
    if (strcmp(word, "drop") == 0)
        return drop(name) ? "dropped" : "not there";
    if (strcmp(word, "get") != 0)
        return "what?";
    value = (char *)find(name);
    return value != NULL ? value : "not there";
}

int main(void)
{
    char request[100];
    while (fgets(request, sizeof request, stdin) != NULL)
        puts(answer(request));
    return 0;
}
