/*
 * For LD_PRELOAD: changes a file right after a program mapped it or read from it, so that a change in the midst of the work
 * comes every time. CHANGE_AT is the call: mmap, read or sigaction. CHANGE_IN is a part of the path. CHANGE_DO is what is
 * done: one or more of
 *   cut       cuts the file to 0 bytes
 *   rewrite   writes its last byte anew, another one
 *   restore   writes that byte as it was
 *   backdate  sets its times as they were
 *   replace   puts a copy in its place
 *   swap      puts the directory DIRECTORY.other in the place of its directory
 *   lock      takes the mapped bytes away from the program, not from the file: SIGSEGV
 *   lose      the same, as if they could not be loaded: SIGBUS
 *   fail      lets pread fail
 *   send      sends SIGBUS
 */
#define _GNU_SOURCE
#include <dlfcn.h>
#include <errno.h>
#include <fcntl.h>
#include <signal.h>
#include <stdio.h>
#include <stdlib.h>
#include <string.h>
#include <sys/mman.h>
#include <sys/stat.h>
#include <unistd.h>

static int is_asked(const char *at, int descriptor, char *path, size_t size)
{
    const char *asked = getenv("CHANGE_AT"), *in = getenv("CHANGE_IN");
    char link[64];
    ssize_t len;

    if (asked == NULL || in == NULL || strcmp(asked, at) != 0)
        return 0;
    snprintf(link, sizeof link, "/proc/self/fd/%d", descriptor);
    len = readlink(link, path, size - 1);
    path[len < 0 ? 0 : len] = '\0';
    return len > 0 && strstr(path, in) != NULL;
}

static int is_done(const char *what)
{
    const char *all = getenv("CHANGE_DO");

    return all != NULL && strstr(all, what) != NULL;
}

static void check(int is_right, const char *what)
{
    if (!is_right) {
        perror(what);
        _exit(99);
    }
}

static void flip_last_byte(int file, off_t size)
{
    unsigned char byte;

    check(pread(file, &byte, 1, size - 1) == 1, "pread");
    byte ^= 0xff;
    check(pwrite(file, &byte, 1, size - 1) == 1, "pwrite");
}

static void replace(const char *path, int file, off_t size)
{
    char *bytes = malloc((size_t)size), other[4096];
    int copy;

    snprintf(other, sizeof other, "%s.other", path);
    copy = open(other, O_WRONLY | O_CREAT | O_TRUNC, 0666);
    check(pread(file, bytes, (size_t)size, 0) == size && write(copy, bytes, (size_t)size) == size, "copy");
    check(rename(other, path) == 0, "rename");
    close(copy);
    free(bytes);
}

static void swap(const char *path)
{
    char directory[4096], other[4112], away[4112];

    snprintf(directory, sizeof directory, "%s", path);
    *strrchr(directory, '/') = '\0';
    snprintf(other, sizeof other, "%s.other", directory);
    snprintf(away, sizeof away, "%s.away", directory);
    check(rename(directory, away) == 0 && rename(other, directory) == 0, "rename");
}

static void change(const char *path, void *mapped, size_t len)
{
    int file = open(path, O_RDWR);
    struct stat before;

    check(file >= 0 && fstat(file, &before) == 0, path);
    if (is_done("rewrite") || is_done("restore"))
        flip_last_byte(file, before.st_size);
    if (is_done("restore"))
        flip_last_byte(file, before.st_size);
    if (is_done("cut"))
        check(ftruncate(file, 0) == 0, "ftruncate");
    if (is_done("replace"))
        replace(path, file, before.st_size);
    if (is_done("swap"))
        swap(path);
    if (is_done("lock"))
        check(mprotect(mapped, len, PROT_NONE) == 0, "mprotect");
    if (is_done("lose"))
        check(mmap(mapped, len, PROT_READ, MAP_PRIVATE | MAP_FIXED, memfd_create("empty", 0), 0) == mapped, "mmap");
    if (is_done("backdate")) {
        struct timespec times[] = {before.st_atim, before.st_mtim};
        check(futimens(file, times) == 0, "futimens");
    }
    close(file);
}

void *mmap(void *at, size_t len, int protection, int flags, int descriptor, off_t offset)
{
    void *(*next)(void *, size_t, int, int, int, off_t) = dlsym(RTLD_NEXT, "mmap");
    void *mapped = next(at, len, protection, flags, descriptor, offset);
    char path[4096];

    if (descriptor >= 0 && mapped != MAP_FAILED && is_asked("mmap", descriptor, path, sizeof path))
        change(path, mapped, len);
    return mapped;
}

ssize_t pread(int descriptor, void *bytes, size_t len, off_t offset)
{
    ssize_t (*next)(int, void *, size_t, off_t) = dlsym(RTLD_NEXT, "pread");

    if (is_done("fail")) {
        errno = EIO;
        return -1;
    }
    return next(descriptor, bytes, len, offset);
}

ssize_t read(int descriptor, void *bytes, size_t len)
{
    ssize_t (*next)(int, void *, size_t) = dlsym(RTLD_NEXT, "read");
    ssize_t got = next(descriptor, bytes, len);
    static int is_changed;
    char path[4096];

    if (!is_changed && is_asked("read", descriptor, path, sizeof path)) {
        is_changed = 1;
        change(path, NULL, 0);
    }
    return got;
}

int sigaction(int signal, const struct sigaction *action, struct sigaction *before)
{
    int (*next)(int, const struct sigaction *, struct sigaction *) = dlsym(RTLD_NEXT, "sigaction");
    int got = next(signal, action, before);
    const char *at = getenv("CHANGE_AT");
    int is_now = at != NULL && strcmp(at, "sigaction") == 0 && is_done("send");

    if (is_now && signal == SIGBUS && action != NULL && (action->sa_flags & SA_SIGINFO) != 0)
        raise(SIGBUS);
    return got;
}
