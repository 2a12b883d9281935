/* Texts, messages on standard error, and the end of standard output. */
#ifndef MESSAGES_H
#define MESSAGES_H

#include <stddef.h>

/* Memory, and a text as printf makes it, to be freed. Without memory the program ends, with a message. */
void *memory(size_t count, size_t size);
char *text(const char *format, ...) __attribute__((format(printf, 1, 2)));

/* A message on standard error, after the program's name and behind what was printed before it. */
void complain(const char *format, ...) __attribute__((format(printf, 1, 2)));

/* The status, or STATUS_NOT_ASKED with a message where standard output could not be written. */
int finished(int status);

#endif
