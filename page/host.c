// What the program needs of a system, under WebAssembly: thin calls of the host in JavaScript (unixvol.mjs), which answers with the negative number of an error
// on Linux. The functions are those that the toolchain's crates `libc` and `os` declare. Nothing proves this file.
#include "host.h"

#define HOST(name) __attribute__((import_module("host"), import_name(#name)))

HOST(arg_count) int64_t host_arg_count(void);
HOST(arg) int64_t host_arg(uint64_t index, char *buffer, uint64_t size);
HOST(env) int64_t host_env(const char *name, char *buffer, uint64_t size);
HOST(env_at) int64_t host_env_at(uint64_t index, char *buffer, uint64_t size);
HOST(open) int64_t host_open(const char *path, int flags, int mode);
HOST(read) int64_t host_read(int file, void *buffer, uint64_t size);
HOST(write) int64_t host_write(int file, const void *buffer, uint64_t size);
HOST(close) int64_t host_close(int file);
HOST(stats) int64_t host_stats(int file, void *found);
HOST(stats_at) int64_t host_stats_at(const char *path, int follows, void *found);
HOST(truncate) int64_t host_truncate(int file, int64_t size);
HOST(seek) int64_t host_seek(int file, int64_t offset, int from);
HOST(chmod) int64_t host_chmod(int file, int mode);
HOST(chown) int64_t host_chown(int file, int user, int group);
HOST(times) int64_t host_times(int file, const void *times);
HOST(sync) int64_t host_sync(int file);
HOST(rename) int64_t host_rename(const char *from, const char *to);
HOST(unlink) int64_t host_unlink(const char *path);
HOST(mkdir) int64_t host_mkdir(const char *path, int mode);
HOST(open_folder) int64_t host_open_folder(const char *path);
HOST(entries) int64_t host_entries(int folder, void *buffer, uint64_t size);
HOST(readlink) int64_t host_readlink(const char *path, char *buffer, uint64_t size);
HOST(isatty) int host_isatty(int file);
HOST(clock) void host_clock(int which, void *now);
HOST(exit) _Noreturn void host_exit(int status);

enum {
    ABORTED = 134,
    O_CREAT = 0100,
    AT_FDCWD = -100,
    AT_SYMLINK_NOFOLLOW = 0x100,
    AT_EMPTY_PATH = 0x1000,
    ESRCH = 3,
    EAGAIN = 11,
    EINVAL = 22,
    ENOTTY = 25,
    ERANGE = 34,
    ENOSYS = 38,
};

static int error;

int rattle_errno(void) { return error; }

void rattle_set_errno(int number) { error = number; }

static int refused(int number) {
    error = number;
    return -1;
}

// Returns what the host gave, or -1 with its error.
static int64_t answered(int64_t given) { return given < 0 ? refused((int)-given) : given; }

// The command line and the environment. The host's numbers are those that are wanted: -1 for none, -2 for one that doesn't fit.

uint64_t rattle_arg_count(void) { return (uint64_t)host_arg_count(); }
int64_t rattle_arg(uint64_t index, char *buffer, uint64_t size) { return host_arg(index, buffer, size); }
int64_t rattle_env(const char *name, char *buffer, uint64_t size) { return host_env(name, buffer, size); }
int64_t rattle_env_at(uint64_t index, char *buffer, uint64_t size) { return host_env_at(index, buffer, size); }

// Files.

int open(const char *path, int flags, ...) {
    int mode = 0;
    if ((flags & O_CREAT) != 0) {
        __builtin_va_list rest;
        __builtin_va_start(rest, flags);
        mode = __builtin_va_arg(rest, int);
        __builtin_va_end(rest);
    }
    return (int)answered(host_open(path, flags, mode));
}

int64_t read(int file, void *buffer, uint64_t size) { return answered(host_read(file, buffer, size)); }
int64_t write(int file, const void *buffer, uint64_t size) { return answered(host_write(file, buffer, size)); }
int close(int file) { return (int)answered(host_close(file)); }

int statx(int folder, const char *path, int flags, unsigned wanted, void *found) {
    (void)wanted;
    if ((flags & AT_EMPTY_PATH) != 0 && path[0] == 0) return (int)answered(host_stats(folder, found));
    if (folder != AT_FDCWD && path[0] != '/') return refused(EINVAL);
    return (int)answered(host_stats_at(path, (flags & AT_SYMLINK_NOFOLLOW) == 0, found));
}

int ftruncate(int file, int64_t size) { return (int)answered(host_truncate(file, size)); }
int64_t lseek(int file, int64_t offset, int from) { return answered(host_seek(file, offset, from)); }
int fchmod(int file, int mode) { return (int)answered(host_chmod(file, mode)); }
int fchown(int file, int user, int group) { return (int)answered(host_chown(file, user, group)); }
int futimens(int file, const void *times) { return (int)answered(host_times(file, times)); }
int fsync(int file) { return (int)answered(host_sync(file)); }
int fdatasync(int file) { return (int)answered(host_sync(file)); }
int rename(const char *from, const char *to) { return (int)answered(host_rename(from, to)); }
int unlink(const char *path) { return (int)answered(host_unlink(path)); }
int mkdir(const char *path, unsigned mode) { return (int)answered(host_mkdir(path, (int)mode)); }

int rattle_open_dir_at(int folder, const char *name) {
    if (folder != AT_FDCWD && name[0] != '/') return refused(EINVAL);
    return (int)answered(host_open_folder(name));
}

int64_t getdents64(int folder, void *buffer, uint64_t size) { return answered(host_entries(folder, buffer, size)); }
int64_t readlink(const char *path, char *buffer, uint64_t size) { return answered(host_readlink(path, buffer, size)); }

// The host has no locks, as some file systems haven't. Then the program goes on without.
int flock(int file, int how) {
    (void)file, (void)how;
    return refused(ENOSYS);
}

int isatty(int file) {
    if (host_isatty(file) != 0) return 1;
    error = ENOTTY;
    return 0;
}

// Time, and the end. Only another thread or program could end a wait, and here is none.

int clock_gettime(int which, void *now) {
    host_clock(which, now);
    return 0;
}

int nanosleep(const void *time, void *left) {
    (void)time, (void)left;
    return 0;
}

int sched_yield(void) { return 0; }

_Noreturn void _exit(int status) { host_exit(status); }
_Noreturn void abort(void) { host_exit(ABORTED); }

// There are no signals to be caught.
int64_t __sysv_signal(int number, int64_t how) {
    (void)number, (void)how;
    return 0;
}

// Threads: none can be started, and the program goes on in one.

int pthread_create(uint64_t *thread, const void *attributes, void *run, void *with) {
    (void)thread, (void)attributes, (void)run, (void)with;
    return EAGAIN;
}

int pthread_attr_init(void *attributes) {
    (void)attributes;
    return 0;
}

int pthread_attr_setguardsize(void *attributes, uint64_t size) {
    (void)attributes, (void)size;
    return 0;
}

int pthread_attr_setstacksize(void *attributes, uint64_t size) {
    (void)attributes, (void)size;
    return 0;
}

int pthread_attr_destroy(void *attributes) {
    (void)attributes;
    return 0;
}

uint64_t pthread_self(void) { return 1; }

int pthread_join(uint64_t thread, void **result) {
    (void)thread, (void)result;
    return ESRCH;
}

int pthread_detach(uint64_t thread) {
    (void)thread;
    return ESRCH;
}

// The program calls only futex so. There is no other thread to wait for or to wake.
int64_t syscall(int64_t number, void *word, int64_t how, int64_t value, void *time, int64_t mask) {
    (void)number, (void)word, (void)how, (void)value, (void)time, (void)mask;
    return refused(EAGAIN);
}

// The texts of errors, as glibc has them.

static const struct {
    int number;
    const char *text;
} texts[] = {
    {1, "Operation not permitted"},
    {2, "No such file or directory"},
    {4, "Interrupted system call"},
    {5, "Input/output error"},
    {6, "No such device or address"},
    {9, "Bad file descriptor"},
    {11, "Resource temporarily unavailable"},
    {12, "Cannot allocate memory"},
    {13, "Permission denied"},
    {16, "Device or resource busy"},
    {17, "File exists"},
    {18, "Invalid cross-device link"},
    {19, "No such device"},
    {20, "Not a directory"},
    {21, "Is a directory"},
    {22, "Invalid argument"},
    {23, "Too many open files in system"},
    {24, "Too many open files"},
    {25, "Inappropriate ioctl for device"},
    {26, "Text file busy"},
    {27, "File too large"},
    {28, "No space left on device"},
    {29, "Illegal seek"},
    {30, "Read-only file system"},
    {31, "Too many links"},
    {32, "Broken pipe"},
    {36, "File name too long"},
    {38, "Function not implemented"},
    {39, "Directory not empty"},
    {40, "Too many levels of symbolic links"},
    {95, "Operation not supported"},
    {122, "Disk quota exceeded"},
};

int __xpg_strerror_r(int number, char *buffer, uint64_t size) {
    const char *text = "Unknown error";
    for (unsigned at = 0; at < sizeof texts / sizeof *texts; at++) {
        if (texts[at].number == number) text = texts[at].text;
    }
    for (uint64_t at = 0; at < size; at++) {
        buffer[at] = text[at];
        if (text[at] == 0) return 0;
    }
    return ERANGE;
}
