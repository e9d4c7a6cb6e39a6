/* Reads lines, puts each into the file that its first byte asks for, and shows what the files have. */
#include <ctype.h>
#include <stdio.h>
#include <string.h>
#include <unistd.h>

static int show(const char *name)
{
    char line[80];
    unsigned count = 0;
    FILE *file = fopen(name, "r");
    if (file == NULL) {
        perror(name);
        return 1;
    }
    fseek(file, 0, SEEK_END);
    printf("%s, %ld bytes\n", name, ftell(file));
    rewind(file);
    while (fgets(line, sizeof line, file) != NULL)
        printf("%3u %s", ++count, line);
    fclose(file);
    return 0;
}

int main(void)
{
    char line[80];
    FILE *numbers = fopen("numbers", "w");
    FILE *words = fopen("words", "a");
    if (numbers == NULL || words == NULL) {
        perror("lines");
        return 2;
    }
    while (fgets(line, sizeof line, stdin) != NULL)
        fputs(line, isdigit((unsigned char)line[0]) ? numbers : words);
    fclose(numbers);
    fclose(words);
    int missing = show("numbers") + show("words");
    unlink("numbers");
    missing += show("numbers");
    printf("%d missing\n", missing);
    return 0;
}
