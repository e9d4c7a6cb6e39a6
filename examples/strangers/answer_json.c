/* JSON: the text is parsed by its length, from a copy of just so many bytes, and printed without spaces; or where the error is. */
#include "service.h"
#include <cJSON.h>
#include <stdlib.h>
#include <string.h>

void begin(void)
{
}

void answer(const char *text, size_t length, FILE *to)
{
    const char *end = NULL;
    char *own = malloc(length);
    if (own == NULL)
        exit(2);
    memcpy(own, text, length);
    cJSON *item = cJSON_ParseWithLengthOpts(own, length, &end, 0);
    char *printed = item != NULL ? cJSON_PrintUnformatted(item) : NULL;
    if (printed != NULL)
        fprintf(to, "%s\n", printed);
    else
        fprintf(to, "no JSON from %d on\n", (int)(end - own));
    free(printed);
    cJSON_Delete(item);
    free(own);
}
