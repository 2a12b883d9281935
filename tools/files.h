/*
 * The files of a table. table.dat is read into memory; a data manager's file, which may have gigabytes, is mapped, so its
 * bytes can change or go away while they are used. What was found out over the bytes of a file counts only if file_use found
 * no fault and file_changed, asked after the last use of them, finds the file as it was.
 */
#ifndef FILES_H
#define FILES_H

#include "names.h"

#include <sys/stat.h>

/* Where the buckets of a data manager's file begin: behind its header. */
enum { BUCKETS_START = 512 };

struct file {
    char *path;
    char *shown; /* the path, escaped */
    int descriptor;
    struct stat before;
    struct bytes bytes;
    bool mapped; /* else `bytes` are in memory, or there are none */
};

/* DIRECTORY/FILE, to be freed; the directory is not empty. */
char *path_of_table(const char *directory);
char *path_of_manager(const char *directory, uint64_t sequence);

/*
 * Opens table.dat, or a manager's file. Gives null, or in words, to be freed, why it can not be read. file_close is called
 * in both cases.
 */
char *file_open_table(struct file *file, const char *directory);
char *file_open_manager(struct file *file, const char *directory, uint64_t sequence);
void file_close(struct file *file);

/*
 * Calls use(what), which uses the bytes of the file and nothing else that could fault. Gives null, or in words, to be freed,
 * why the bytes could not be used; then `use` came to no end. One file at a time.
 */
char *file_use(struct file *file, void (*use)(void *what), void *what);

/* Null, or in words, to be freed, that the file is no longer as it was when it was opened. */
char *file_changed(const struct file *file);

#endif
