#include <stdio.h>

/* Before the first client. */
void begin(void);
/* What this text is answered by. */
void answer(const char *text, size_t length, FILE *to);
