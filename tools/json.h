/* JSON on standard output: one object, whose fields follow one another. A name is null for an item of a list. */
#ifndef JSON_H
#define JSON_H

#include <stdbool.h>
#include <stdint.h>

void json_object(const char *name);
void json_object_end(void);
void json_list(const char *name);
void json_list_end(void);
void json_number(const char *name, uint64_t number);
void json_null(const char *name);

/* A value that is written as it is: a number in words, true or false. */
void json_word(const char *name, const char *word);

/* A number, or null where it is not known; a string, or null where the text is null. */
void json_known(const char *name, bool is_known, uint64_t number);
void json_text(const char *name, const char *given);

/* The object that every command prints begins with these fields, and ends with json_end. `error` may be null. */
void json_begin(const char *command, int status, const char *error);
void json_end(void);

#endif
