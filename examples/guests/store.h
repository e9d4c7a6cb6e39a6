/* A store of names and their values. */

/* The value of a name, or NULL. */
const char *find(const char *name);

/* Gives a name a value, and answers whether there was memory for it. */
int put(const char *name, const char *value);

/* Forgets a name, and answers whether it was there. */
int drop(const char *name);
