/* A service that keeps one note: `keep TEXT` and `show`, a line each. It survives its error. */
#include <stdio.h>
#include <stdlib.h>
#include <string.h>

static char *note;

static void keep(const char *text)
{
    free(note);
    note = malloc(strlen(text));
    strcpy(note, text);
}

int main(void)
{
    static char line[128];
    while (fgets(line, sizeof line, stdin) != NULL) {
        line[strcspn(line, "\n")] = 0;
        if (strncmp(line, "keep ", 5) == 0)
            keep(line + 5);
        printf("%s\n", note == NULL ? "nothing" : note);
    }
    return 0;
}
