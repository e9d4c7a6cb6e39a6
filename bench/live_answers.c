/* Speaks the lines of `varan serve --clients` with no guest behind: each client is accepted at once, gets a fixed answer to the first that it sends, and is closed.
 * It ends once no more clients come and all are closed.
 *
 *     live_answers HEX     the answer's bytes
 *     live_answers         each client gets what it sends, and stays until it has left
 */
#include <stdbool.h>
#include <stdio.h>
#include <string.h>

enum { MOST_CLIENTS = 1 << 24 };

static bool is_closed[MOST_CLIENTS];
static unsigned clients, closed;

/* Closes the client, after these bytes. Once it is closed it gets no more. */
static void end(unsigned client, const char *hex)
{
    if (is_closed[client])
        return;
    if (hex != NULL)
        printf("data %u %s\n", client, hex);
    printf("close %u\n", client);
    is_closed[client] = true;
    closed++;
}

int main(int count, char **words)
{
    static char line[8192];
    bool is_last = false;
    unsigned client;
    if (count > 2)
        return 2;
    while (!(is_last && closed == clients) && fgets(line, sizeof line, stdin) != NULL) {
        if (strncmp(line, "connect ", 8) == 0)
            printf("accept %u\n", clients++);
        else if (strcmp(line, "end clients\n") == 0)
            is_last = true;
        else if (sscanf(line, "data %u ", &client) == 1 && count == 2)
            end(client, words[1]);
        else if (strncmp(line, "data ", 5) == 0)
            fputs(line, stdout);
        else if (sscanf(line, "end %u", &client) == 1)
            end(client, NULL);
        fflush(stdout);
    }
    return 0;
}
