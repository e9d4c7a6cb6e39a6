/* XML: how many elements and characters a document has and how deep it is, or the error and its line. */
#include "service.h"
#include <expat.h>

struct counted {
    int elements, characters, depth, deepest;
};

static void start(void *data, const XML_Char *name, const XML_Char **attributes)
{
    struct counted *counted = data;
    (void)name;
    (void)attributes;
    counted->elements++;
    if (++counted->depth > counted->deepest)
        counted->deepest = counted->depth;
}

static void end(void *data, const XML_Char *name)
{
    (void)name;
    ((struct counted *)data)->depth--;
}

static void characters(void *data, const XML_Char *text, int length)
{
    (void)text;
    ((struct counted *)data)->characters += length;
}

void begin(void)
{
}

void answer(const char *text, size_t length, FILE *to)
{
    struct counted counted = {0};
    XML_Parser parser = XML_ParserCreate(NULL);
    XML_SetUserData(parser, &counted);
    XML_SetElementHandler(parser, start, end);
    XML_SetCharacterDataHandler(parser, characters);
    if (XML_Parse(parser, text, length, 1) == XML_STATUS_OK)
        fprintf(to, "%d elements, %d characters, %d deep\n", counted.elements, counted.characters, counted.deepest);
    else
        fprintf(to, "line %lu: %s\n", (unsigned long)XML_GetCurrentLineNumber(parser), XML_ErrorString(XML_GetErrorCode(parser)));
    XML_ParserFree(parser);
}
