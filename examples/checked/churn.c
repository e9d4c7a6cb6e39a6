/* Much memory that is made, made again and freed, many times what waits before it is used again: a checked build finds nothing in it. */
#include <stdio.h>
#include <stdlib.h>
#include <string.h>

enum { OBJECTS = 64, ROUNDS = 150 };

int main(void)
{
    static char *objects[OBJECTS];
    static size_t sizes[OBJECTS];
    unsigned number = 1, sum = 0;
    for (int round = 0; round < ROUNDS; round++) {
        number = number * 1103515245u + 12345u;
        unsigned place = number >> 16 & (OBJECTS - 1);
        size_t size = number >> 8 & 1023;
        if (sizes[place] > 0)
            sum += objects[place][0] + objects[place][sizes[place] - 1];
        if (number >> 24 & 1) {
            free(objects[place]);
            objects[place] = malloc(size);
        } else
            objects[place] = realloc(objects[place], size);
        if (objects[place] == NULL && size > 0)
            return 1;
        sizes[place] = objects[place] == NULL ? 0 : size;
        if (sizes[place] > 0)
            memset(objects[place], round, sizes[place]);
    }
    printf("%u\n", sum);
    return 0;
}
