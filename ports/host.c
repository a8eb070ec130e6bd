// The arguments, the environment and errno of the program: what the toolchain's crate `os` declares and the C library has in another form. The toolchain has
// it built for x86-64 alone. Nothing proves this file.
#define _GNU_SOURCE
#include <errno.h>
#include <fcntl.h>
#include <pthread.h>
#include <stdint.h>
#include <stdlib.h>
#include <string.h>
#include <unistd.h>

#ifdef __riscv
// The module is one for x86-64, with its room for the attributes of a thread.
_Static_assert(sizeof(pthread_attr_t) <= 56, "the attributes of a thread need more room than the module has for them");
#endif

enum { NONE = -1, TOO_LONG = -2 };

static int count;
static char **words;

// glibc passes these to what runs before `main`.
__attribute__((constructor)) static void keep(int argc, char **argv) {
    count = argc;
    words = argv;
}

// Puts a text into a buffer, and returns its length. TOO_LONG if it doesn't fit; then the buffer is full.
static int64_t put(const char *text, char *buffer, uint64_t size) {
    if (text == NULL) return NONE;
    size_t length = strlen(text);
    memcpy(buffer, text, length < size ? length : size);
    return length <= size ? (int64_t)length : TOO_LONG;
}

uint64_t rattle_arg_count(void) { return (uint64_t)count; }

int64_t rattle_arg(uint64_t index, char *buffer, uint64_t size) {
    return put(index < (uint64_t)count ? words[index] : NULL, buffer, size);
}

int64_t rattle_env(const char *name, char *buffer, uint64_t size) { return put(getenv(name), buffer, size); }

int64_t rattle_env_at(uint64_t index, char *buffer, uint64_t size) {
    for (uint64_t at = 0; environ != NULL && environ[at] != NULL; at++) {
        if (at == index) return put(environ[at], buffer, size);
    }
    return NONE;
}

// Opens a folder for reading. It refuses a file, and a link that the name ends in.
int rattle_open_dir_at(int folder, const char *name) { return openat(folder, name, O_RDONLY | O_DIRECTORY | O_NOFOLLOW | O_CLOEXEC); }

int rattle_errno(void) { return errno; }

void rattle_set_errno(int error) { errno = error; }
