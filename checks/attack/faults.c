/* Stands between a program and the C library, by LD_PRELOAD, and lets the calls of the program's own fail. The calls that
 * the C library and the loader make for themselves are left alone, and are not counted.
 *
 *   FAULT_KINDS  the letters of the calls that are counted: m memory, o open, s status, r read, w write, l seek, y sync,
 *                c close, C close of a file that was written and not synced since, f locks and all else, n change of names
 *   FAULT_FROM   the number of the first call that fails, from 1
 *   FAULT_TO     the number of the last one
 *   FAULT_STEP   how many calls one failing call is behind the other, 1 where it isn't given
 *   FAULT_DO     an error's number; or `kill`, before the call is made; or `short`, where a read or write moves one byte
 *   FAULT_LOG    a file to which the letter of each counted call is added
 *   FAULT_STORE  a file with this in its name is a database's, and its close is always c: it looks after itself; so is a
 *                folder, which nothing else syncs, but for the root folder
 *   FAULT_WHOSE  `store`, where the calls on a database's files alone are counted; `own`, where all others are
 */
#define _GNU_SOURCE
#include <dlfcn.h>
#include <errno.h>
#include <fcntl.h>
#include <link.h>
#include <signal.h>
#include <stdarg.h>
#include <stdlib.h>
#include <string.h>
#include <sys/file.h>
#include <sys/mman.h>
#include <sys/stat.h>
#include <sys/syscall.h>
#include <sys/uio.h>
#include <unistd.h>

enum { KILL = -1, SHORT = -2, DESCRIPTORS = 1024 };
enum verdict { GO, FAIL, MOVE_ONE };

static uintptr_t text_start, text_end;
static const char *kinds = "";
static long from, to, step, calls;
static int action, log_file = -1, whose = -1;
static char written[DESCRIPTORS], stores[DESCRIPTORS];

static int find_program(struct dl_phdr_info *info, size_t size, void *unused) {
    (void)size, (void)unused;
    for (int i = 0; i < info->dlpi_phnum; i++) {
        const ElfW(Phdr) *segment = &info->dlpi_phdr[i];
        if (segment->p_type == PT_LOAD && (segment->p_flags & PF_X)) {
            text_start = info->dlpi_addr + segment->p_vaddr;
            text_end = text_start + segment->p_memsz;
        }
    }
    return 1; /* the program itself is the first */
}

static const char *setting(const char *name) {
    const char *value = getenv(name);
    return value ? value : "";
}

__attribute__((constructor)) static void begin(void) {
    const char *what = setting("FAULT_DO");
    from = atol(setting("FAULT_FROM"));
    to = atol(setting("FAULT_TO"));
    step = *setting("FAULT_STEP") ? atol(setting("FAULT_STEP")) : 1;
    action = !strcmp(what, "kill") ? KILL : !strcmp(what, "short") ? SHORT : atoi(what);
    if (*setting("FAULT_LOG"))
        log_file = syscall(SYS_openat, AT_FDCWD, setting("FAULT_LOG"), O_WRONLY | O_CREAT | O_APPEND | O_CLOEXEC, 0600);
    if (log_file >= 0) { /* out of the way of the numbers that the program gets */
        int high = syscall(SYS_fcntl, log_file, F_DUPFD_CLOEXEC, 900);
        syscall(SYS_close, log_file);
        log_file = high;
    }
    kinds = setting("FAULT_KINDS");
    if (*setting("FAULT_WHOSE"))
        whose = !strcmp(setting("FAULT_WHOSE"), "store");
    dl_iterate_phdr(find_program, 0);
}

static int is_store(const char *path) { return *setting("FAULT_STORE") && strstr(path, setting("FAULT_STORE")); }
static int holds_store(int fd) { return fd >= 0 && fd < DESCRIPTORS && stores[fd]; }

/* Counts a call of the kind, on a database's file or another, and says what becomes of it. */
static enum verdict count(char kind, int on_store, void *caller) {
    uintptr_t at = (uintptr_t)caller;
    if (at < text_start || at >= text_end || !strchr(kinds, kind) || (whose >= 0 && whose != on_store))
        return GO;
    calls++;
    if (log_file >= 0)
        syscall(SYS_write, log_file, &kind, 1);
    if (calls < from || calls > to || (calls - from) % step)
        return GO;
    if (action == KILL)
        syscall(SYS_kill, getpid(), SIGKILL);
    if (action == SHORT)
        return MOVE_ONE;
    errno = action;
    return FAIL;
}

#define COUNT(kind) count(kind, 0, __builtin_return_address(0))
#define COUNT_ON(fd, kind) count(kind, holds_store(fd), __builtin_return_address(0))
#define COUNT_AT(path, kind) count(kind, is_store(path), __builtin_return_address(0))
#define NEXT(name) ((__typeof__(&name))dlsym(RTLD_NEXT, #name))

extern void *__libc_malloc(size_t), *__libc_calloc(size_t, size_t), *__libc_realloc(void *, size_t);
extern void *__libc_memalign(size_t, size_t);

void *malloc(size_t size) { return COUNT('m') == FAIL ? NULL : __libc_malloc(size); }
void *calloc(size_t count_of, size_t size) { return COUNT('m') == FAIL ? NULL : __libc_calloc(count_of, size); }
void *realloc(void *old, size_t size) { return COUNT('m') == FAIL ? NULL : __libc_realloc(old, size); }
void *aligned_alloc(size_t align, size_t size) { return COUNT('m') == FAIL ? NULL : __libc_memalign(align, size); }

int posix_memalign(void **out, size_t align, size_t size) {
    if (COUNT('m') == FAIL || !(*out = __libc_memalign(align, size)))
        return ENOMEM;
    return 0;
}

void *mmap(void *at, size_t size, int protection, int flags, int fd, off_t offset) {
    return COUNT('m') == FAIL ? MAP_FAILED : NEXT(mmap)(at, size, protection, flags, fd, offset);
}

static int is_folder(int fd) {
    struct stat about;
    return syscall(SYS_fstat, fd, &about) == 0 && S_ISDIR(about.st_mode);
}

static int opened(int fd, const char *path) {
    if (fd >= 0 && fd < DESCRIPTORS) {
        stores[fd] = is_store(path) || (is_folder(fd) && strcmp(path, "/"));
        written[fd] = 0;
    }
    return fd;
}

static void note(int fd, char is_written) {
    if (fd >= 0 && fd < DESCRIPTORS)
        written[fd] = is_written;
}

static int mode_of(int flags, va_list rest) { return flags & (O_CREAT | O_TMPFILE) ? va_arg(rest, int) : 0; }

#define OPEN(name)                                                                                                     \
    int name(const char *path, int flags, ...) {                                                                       \
        va_list rest;                                                                                                  \
        va_start(rest, flags);                                                                                         \
        int mode = mode_of(flags, rest);                                                                               \
        va_end(rest);                                                                                                  \
        return COUNT_AT(path, 'o') == FAIL ? -1 : opened(NEXT(name)(path, flags, mode), path);                        \
    }
#define OPEN_AT(name)                                                                                                  \
    int name(int folder, const char *path, int flags, ...) {                                                           \
        va_list rest;                                                                                                  \
        va_start(rest, flags);                                                                                         \
        int mode = mode_of(flags, rest);                                                                               \
        va_end(rest);                                                                                                  \
        return COUNT_AT(path, 'o') == FAIL ? -1 : opened(NEXT(name)(folder, path, flags, mode), path);                \
    }
OPEN(open)
OPEN(open64)
OPEN_AT(openat)
OPEN_AT(openat64)

#define MOVE(name, kind, data)                                                                                         \
    ssize_t name(int fd, data bytes, size_t length) {                                                                  \
        enum verdict verdict = COUNT_ON(fd, kind);                                                                     \
        if (kind == 'w')                                                                                               \
            note(fd, 1);                                                                                               \
        return verdict == FAIL ? -1 : NEXT(name)(fd, bytes, verdict == MOVE_ONE && length ? 1 : length);               \
    }
MOVE(read, 'r', void *)
MOVE(write, 'w', const void *)

#define MOVE_AT(name, kind, data)                                                                                      \
    ssize_t name(int fd, data bytes, size_t length, off_t at) {                                                        \
        enum verdict verdict = COUNT_ON(fd, kind);                                                                     \
        return verdict == FAIL ? -1 : NEXT(name)(fd, bytes, verdict == MOVE_ONE && length ? 1 : length, at);           \
    }
MOVE_AT(pread, 'r', void *)
MOVE_AT(pread64, 'r', void *)
MOVE_AT(pwrite, 'w', const void *)
MOVE_AT(pwrite64, 'w', const void *)

ssize_t writev(int fd, const struct iovec *parts, int length) {
    return COUNT_ON(fd, 'w') == FAIL ? -1 : NEXT(writev)(fd, parts, length);
}

int close(int fd) {
    char kind = fd >= 0 && fd < DESCRIPTORS && written[fd] && !stores[fd] ? 'C' : 'c';
    if (COUNT_ON(fd, kind) != FAIL)
        return NEXT(close)(fd);
    NEXT(close)(fd); /* a close that fails has let the file go all the same */
    errno = action;
    return -1;
}

int statx(int folder, const char *path, int flags, unsigned mask, struct statx *into) {
    return COUNT_AT(path, 's') == FAIL ? -1 : NEXT(statx)(folder, path, flags, mask, into);
}
int fstat(int fd, struct stat *into) { return COUNT_ON(fd, 's') == FAIL ? -1 : NEXT(fstat)(fd, into); }
int stat(const char *path, struct stat *into) { return COUNT_AT(path, 's') == FAIL ? -1 : NEXT(stat)(path, into); }
int fstatat(int folder, const char *path, struct stat *into, int flags) {
    return COUNT_AT(path, 's') == FAIL ? -1 : NEXT(fstatat)(folder, path, into, flags);
}

off_t lseek(int fd, off_t to_place, int whence) { return COUNT_ON(fd, 'l') == FAIL ? -1 : NEXT(lseek)(fd, to_place, whence); }
off64_t lseek64(int fd, off64_t to_place, int whence) {
    return COUNT_ON(fd, 'l') == FAIL ? -1 : NEXT(lseek64)(fd, to_place, whence);
}

int fsync(int fd) { return note(fd, 0), COUNT_ON(fd, 'y') == FAIL ? -1 : NEXT(fsync)(fd); }
int fdatasync(int fd) { return note(fd, 0), COUNT_ON(fd, 'y') == FAIL ? -1 : NEXT(fdatasync)(fd); }
int ftruncate(int fd, off_t length) { return COUNT_ON(fd, 'w') == FAIL ? -1 : NEXT(ftruncate)(fd, length); }
int ftruncate64(int fd, off64_t length) { return COUNT_ON(fd, 'w') == FAIL ? -1 : NEXT(ftruncate64)(fd, length); }

int flock(int fd, int operation) { return COUNT_ON(fd, 'f') == FAIL ? -1 : NEXT(flock)(fd, operation); }
int fchmod(int fd, mode_t mode) { return COUNT_ON(fd, 'f') == FAIL ? -1 : NEXT(fchmod)(fd, mode); }
int fchown(int fd, uid_t user, gid_t group) { return COUNT_ON(fd, 'f') == FAIL ? -1 : NEXT(fchown)(fd, user, group); }
int getentropy(void *into, size_t length) { return COUNT('f') == FAIL ? -1 : NEXT(getentropy)(into, length); }
char *realpath(const char *path, char *into) { return COUNT_AT(path, 'f') == FAIL ? NULL : NEXT(realpath)(path, into); }

int rename(const char *old, const char *new) { return COUNT_AT(old, 'n') == FAIL ? -1 : NEXT(rename)(old, new); }
int unlink(const char *path) { return COUNT_AT(path, 'n') == FAIL ? -1 : NEXT(unlink)(path); }

int fcntl(int fd, int command, ...) {
    va_list rest;
    va_start(rest, command);
    void *argument = va_arg(rest, void *);
    va_end(rest);
    return COUNT_ON(fd, 'f') == FAIL ? -1 : NEXT(fcntl)(fd, command, argument);
}
