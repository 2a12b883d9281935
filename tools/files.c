#include "files.h"

#include "dump.h"
#include "messages.h"

#include <errno.h>
#include <fcntl.h>
#include <inttypes.h>
#include <setjmp.h>
#include <signal.h>
#include <stdlib.h>
#include <string.h>
#include <sys/mman.h>
#include <unistd.h>

/* A table.dat of more than 65,536 bytes is refused for its length, at byte 65,536: no more is needed than the dump shows. */
enum { TABLE_READ_MOST = 65536 + 2 * DUMP_LINE };

/* DIRECTORY/FILE, without a second slash after one that the directory ends in. */
static char *path_of(const char *directory, const char *file)
{
    return text("%s%s%s", directory, directory[strlen(directory) - 1] == '/' ? "" : "/", file);
}

char *path_of_table(const char *directory)
{
    return path_of(directory, "table.dat");
}

char *path_of_manager(const char *directory, uint64_t sequence)
{
    char *file = text("table.f%" PRIu64, sequence);
    char *path = path_of(directory, file);

    free(file);
    return path;
}

static char *cannot(const char *do_what, const struct file *file, const char *why)
{
    return text("cannot %s %s: %s", do_what, file->shown, why);
}

static char *has_changed(const struct file *file)
{
    return text("%s changed while it was read", file->shown);
}

/* Opens the file, whose path is taken over. */
static char *file_open(struct file *file, char *path)
{
    file->path = path;
    file->shown = escaped_text(path);
    file->bytes = nothing;
    file->mapped = false;
    /* Without waiting: a pipe is to be refused, not waited for. */
    file->descriptor = open(path, O_RDONLY | O_CLOEXEC | O_NONBLOCK);
    if (file->descriptor < 0)
        return cannot("open", file, strerror(errno));
    if (fstat(file->descriptor, &file->before) != 0)
        return cannot("read", file, strerror(errno));
    if (!S_ISREG(file->before.st_mode))
        return cannot("read", file, "it is no regular file");
    return NULL;
}

static char *read_bytes(struct file *file, size_t most)
{
    uint8_t *at = memory(most, 1);
    size_t len = 0;
    ssize_t got = 1;

    file->bytes.at = at;
    while (len < most && got != 0) {
        got = read(file->descriptor, at + len, most - len);
        if (got < 0 && errno != EINTR)
            return cannot("read", file, strerror(errno));
        len += got > 0 ? (size_t)got : 0;
    }
    file->bytes.len = len;
    if (len != most && (off_t)len != file->before.st_size)
        return has_changed(file);
    return NULL;
}

static bool is_file(const char *path)
{
    struct stat status;

    return stat(path, &status) == 0 && S_ISREG(status.st_mode);
}

/* A file was given in place of a directory: it is the one that can not be read as a table. */
static char *no_directory(struct file *file, const char *given)
{
    struct bytes of_table = {(const uint8_t *)given, 1};
    const char *slash = strrchr(given, '/');
    char *shown, *why;

    if (slash != NULL && slash != given)
        of_table.len = (size_t)(slash - given);
    shown = slash == NULL ? text(".") : escaped(of_table);
    free(file->path);
    free(file->shown);
    file->path = text("%s", given);
    file->shown = escaped_text(given);
    why = text("%s is a file; give the directory of its table: %s", file->shown, shown);
    free(shown);
    return why;
}

char *file_open_table(struct file *file, const char *directory)
{
    char *why = file_open(file, path_of_table(directory));

    if (why == NULL)
        return read_bytes(file, TABLE_READ_MOST);
    if (file->descriptor < 0 && is_file(directory)) {
        free(why);
        return no_directory(file, directory);
    }
    return why;
}

char *file_open_manager(struct file *file, const char *directory, uint64_t sequence)
{
    char *why = file_open(file, path_of_manager(directory, sequence));
    void *at;

    /* An empty file can not be mapped. */
    if (why != NULL || file->before.st_size == 0)
        return why;
    at = mmap(NULL, (size_t)file->before.st_size, PROT_READ, MAP_PRIVATE, file->descriptor, 0);
    if (at == MAP_FAILED)
        return cannot("map", file, strerror(errno));
    file->bytes.at = at;
    file->bytes.len = (size_t)file->before.st_size;
    file->mapped = true;
    return NULL;
}

void file_close(struct file *file)
{
    if (file->mapped)
        munmap((void *)file->bytes.at, file->bytes.len);
    else if (file->bytes.at != nothing.at)
        free((void *)file->bytes.at);
    if (file->descriptor >= 0)
        close(file->descriptor);
    free(file->path);
    free(file->shown);
}

static bool is_same(const struct stat *one, const struct stat *other)
{
    return one->st_dev == other->st_dev && one->st_ino == other->st_ino && one->st_size == other->st_size &&
           one->st_mtim.tv_sec == other->st_mtim.tv_sec && one->st_mtim.tv_nsec == other->st_mtim.tv_nsec &&
           one->st_ctim.tv_sec == other->st_ctim.tv_sec && one->st_ctim.tv_nsec == other->st_ctim.tv_nsec;
}

char *file_changed(const struct file *file)
{
    struct stat now, of_path;

    /* The path may lead to another file now: then the files that were opened under it may be of two tables. */
    if (fstat(file->descriptor, &now) == 0 && is_same(&now, &file->before) && stat(file->path, &of_path) == 0 &&
        is_same(&of_path, &file->before))
        return NULL;
    return has_changed(file);
}

/* The faults that file_use waits for, and how it was before them. */
static const int faults[] = {SIGBUS, SIGSEGV};
enum { FAULTS = sizeof faults / sizeof *faults };

static struct {
    sigjmp_buf back;
    struct bytes bytes;
    int signal;
    uintptr_t address;
} guard;

/*
 * A fault while the bytes are used. SIGBUS: they are no longer in the file, which was cut, or can not be loaded. SIGSEGV: the
 * library, which is proved for bytes that stay as they are, was led astray by bytes that changed under it. A signal that was
 * sent, and SIGBUS elsewhere, is not ours, and the program ends by it.
 */
static void on_fault(int signal, siginfo_t *info, void *context)
{
    uintptr_t start = (uintptr_t)guard.bytes.at;
    uintptr_t address = (uintptr_t)info->si_addr;

    (void)context;
    if (info->si_code > 0 && (signal == SIGSEGV || (address >= start && address - start < guard.bytes.len))) {
        guard.signal = signal;
        guard.address = address;
        siglongjmp(guard.back, 1);
    }
    sigaction(signal, &(struct sigaction){.sa_handler = SIG_DFL}, NULL);
    raise(signal);
}

static char *after_fault(const struct file *file)
{
    char *changed = file_changed(file);
    uint8_t byte;

    if (guard.signal == SIGBUS) {
        off_t offset = (off_t)(guard.address - (uintptr_t)guard.bytes.at);
        if (changed == NULL && pread(file->descriptor, &byte, 1, offset) < 0)
            return cannot("read", file, strerror(errno));
        return changed == NULL ? has_changed(file) : changed;
    }
    if (changed == NULL) {
        /* Nothing changed, so this is an error of the program, and it is not to be hidden. */
        complain("the program failed while it read %s", file->shown);
        raise(SIGSEGV);
        abort();
    }
    return changed;
}

char *file_use(struct file *file, void (*use)(void *what), void *what)
{
    struct sigaction action = {.sa_sigaction = on_fault, .sa_flags = SA_SIGINFO}, before[FAULTS];
    volatile bool is_used = false;
    int i;

    guard.bytes = file->bytes;
    sigemptyset(&action.sa_mask);
    for (i = 0; i < FAULTS; i++)
        sigaction(faults[i], &action, &before[i]);
    if (sigsetjmp(guard.back, 1) == 0) {
        use(what);
        is_used = true;
    }
    for (i = 0; i < FAULTS; i++)
        sigaction(faults[i], &before[i], NULL);
    return is_used ? NULL : after_fault(file);
}
