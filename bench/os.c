/* What the kit's `os` has in C, for a program of bench/native: the kit has it for x86-64 alone. The arguments of the program, errno, and the three ways
   in which migrate opens a file. */
#include <errno.h>
#include <fcntl.h>
#include <stddef.h>
#include <string.h>
#include <sys/types.h>

static size_t count;
static char **words;

__attribute__((constructor)) static void keep(int argc, char **argv) {
    count = (size_t)argc;
    words = argv;
}

size_t rattle_arg_count(void) { return count; }

/* The argument's length; -1 when there is none, -2 when it doesn't fit. */
ssize_t rattle_arg(size_t i, char *buffer, size_t room) {
    if (i >= count) return -1;
    size_t n = strlen(words[i]);
    memcpy(buffer, words[i], n < room ? n : room);
    return n <= room ? (ssize_t)n : -2;
}

int rattle_errno(void) { return errno; }

void rattle_set_errno(int error) { errno = error; }

int rattle_open_to_read(const char *path) { return open(path, O_RDONLY | O_CLOEXEC); }

int rattle_open_new(const char *path, unsigned mode) { return open(path, O_WRONLY | O_CREAT | O_EXCL | O_CLOEXEC, mode); }

int rattle_open_to_update(const char *path) { return open(path, O_RDWR | O_CLOEXEC); }
