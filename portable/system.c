/* portable/system.c: the calls of the system that the program makes, for WebAssembly with addresses
 * of 64 bits. Each hands its words on to the host (host.js), which answers as Linux's own calls do:
 * with what they give, or with the number of an error below 0. None of this is proved. It stands in
 * the place of the C library under the program; the heap is page/runtime.c. */

typedef __SIZE_TYPE__ size;
typedef __INT16_TYPE__ i16;
typedef __INT32_TYPE__ i32;
typedef __INT64_TYPE__ i64;
typedef __UINT16_TYPE__ u16;
typedef __UINT32_TYPE__ u32;
typedef __UINT64_TYPE__ u64;

enum { EIO = 5, ENOSYS = 38, PATH_MAX = 4096, O_CREAT = 0100 };

/* An address as the host has it: the memory ends below 4 GB. */
typedef u32 place;

#define HOST(name) __attribute__((import_module("host"), import_name(#name)))
HOST(open) i32 host_open(place path, u32 length, i32 flags, u32 mode);
HOST(close) i32 host_close(i32 file);
HOST(read) i32 host_read(i32 file, place into, u32 count);
HOST(pread) i32 host_pread(i32 file, place into, u32 count, i64 at);
HOST(write) i32 host_write(i32 file, place from, u32 count);
HOST(pwrite) i32 host_pwrite(i32 file, place from, u32 count, i64 at);
HOST(seek) i64 host_seek(i32 file, i64 by, i32 from);
HOST(resize) i32 host_resize(i32 file, i64 length);
HOST(sync) i32 host_sync(i32 file);
HOST(sync_data) i32 host_sync_data(i32 file);
HOST(change_mode) i32 host_change_mode(i32 file, u32 mode);
HOST(change_owner) i32 host_change_owner(i32 file, u32 owner, u32 group);
HOST(status) i32 host_status(i32 file, place path, u32 length, i32 flags, place found);
HOST(read_link) i32 host_read_link(place path, u32 length, place into, u32 room);
HOST(real_path) i32 host_real_path(place path, u32 length, place into, u32 room);
HOST(lock) i32 host_lock(i32 file, i32 kind, i64 start, i64 length);
HOST(advise) i32 host_advise(i32 file, i64 from, i64 length, i32 advice);
HOST(random) i32 host_random(place into, u32 count);
HOST(time) i64 host_time(i32 clock);
HOST(word_count) i32 host_word_count(void);
HOST(word) i32 host_word(u32 number, place into, u32 room);

static i32 error_number;

i32 rattle_errno(void) { return error_number; }
void rattle_set_errno(i32 number) { error_number = number; }

/* What the caller gets: the answer, or -1, and then errno says why. */
static i64 told(i64 answer) {
  if (answer >= 0) return answer;
  error_number = (i32)-answer;
  return -1;
}

static place at(const void *pointer) { return (place)(size)pointer; }

/* How much is asked of one call. The caller asks for the rest again. */
static u32 some(size count) { return count < 1 << 30 ? (u32)count : 1 << 30; }

static u32 length_of(const char *path) {
  u32 length = 0;
  while (path[length]) length++;
  return length;
}

/* ---- files ---- */

/* A mode comes with the flag alone that may make the file, as in C. */
i32 open(const char *path, i32 flags, ...) {
  u32 mode = 0;
  if (flags & O_CREAT) {
    __builtin_va_list rest;
    __builtin_va_start(rest, flags);
    mode = __builtin_va_arg(rest, u32);
    __builtin_va_end(rest);
  }
  return (i32)told(host_open(at(path), length_of(path), flags, mode));
}

i32 close(i32 file) { return (i32)told(host_close(file)); }

i64 read(i32 file, void *into, size count) { return told(host_read(file, at(into), some(count))); }

i64 pread(i32 file, void *into, size count, i64 from) {
  return told(host_pread(file, at(into), some(count), from));
}

i64 write(i32 file, const void *from, size count) {
  return told(host_write(file, at(from), some(count)));
}

i64 pwrite(i32 file, const void *from, size count, i64 to) {
  return told(host_pwrite(file, at(from), some(count), to));
}

i64 lseek(i32 file, i64 by, i32 from) { return told(host_seek(file, by, from)); }
i32 ftruncate(i32 file, i64 length) { return (i32)told(host_resize(file, length)); }
i32 fsync(i32 file) { return (i32)told(host_sync(file)); }
i32 fdatasync(i32 file) { return (i32)told(host_sync_data(file)); }
i32 fchmod(i32 file, u32 mode) { return (i32)told(host_change_mode(file, mode)); }

i32 fchown(i32 file, u32 owner, u32 group) {
  return (i32)told(host_change_owner(file, owner, group));
}

/* Linux's lock of an open file on a range of its bytes (F_OFD_SETLK). */
i32 rattle_lock_range(i32 file, i16 kind, i64 start, i64 length) {
  return (i32)told(host_lock(file, kind, start, length));
}

/* It answers the number of the error itself. */
i32 posix_fadvise(i32 file, i64 from, i64 length, i32 advice) {
  return -host_advise(file, from, length, advice);
}

/* The program asks for neither: a second number for a file that has one from 0 to 2, as none has
 * here, and a lock on a whole file. */
i32 fcntl(i32 file, i32 command, ...) {
  (void)file, (void)command;
  return (i32)told(-ENOSYS);
}

i32 flock(i32 file, i32 operation) {
  (void)file, (void)operation;
  return (i32)told(-ENOSYS);
}

/* ---- names ---- */

struct moment { i64 seconds; u32 nanoseconds; i32 unused; };

/* Linux's struct statx. */
struct statx {
  u32 mask, block_size;
  u64 attributes;
  u32 links, owner, group;
  u16 mode, unused;
  u64 node, size, blocks, attributes_mask;
  struct moment read, made, changed, written;
  u32 of_device_major, of_device_minor, device_major, device_minor;
  u64 more[14];
};
_Static_assert(sizeof(struct statx) == 256, "the size of statx");

/* What the host finds, in this order. Times are in nanoseconds. */
struct found {
  i64 mode, links, owner, group, node, size, blocks, block_size, device_major, device_minor,
      of_device_major, of_device_minor, read, written, changed, made;
};

static struct moment moment_of(i64 nanoseconds) {
  i64 seconds = nanoseconds / 1000000000, rest = nanoseconds % 1000000000;
  if (rest < 0) seconds--, rest += 1000000000;
  return (struct moment){seconds, (u32)rest, 0};
}

i32 statx(i32 file, const char *path, i32 flags, u32 mask, struct statx *into) {
  struct found found = {0};
  i32 answer = host_status(file, at(path), length_of(path), flags, at(&found));
  if (answer < 0) return (i32)told(answer);
  *into = (struct statx){
      .mask = mask,
      .block_size = (u32)found.block_size,
      .links = (u32)found.links,
      .owner = (u32)found.owner,
      .group = (u32)found.group,
      .mode = (u16)found.mode,
      .node = (u64)found.node,
      .size = (u64)found.size,
      .blocks = (u64)found.blocks,
      .read = moment_of(found.read),
      .made = moment_of(found.made),
      .changed = moment_of(found.changed),
      .written = moment_of(found.written),
      .of_device_major = (u32)found.of_device_major,
      .of_device_minor = (u32)found.of_device_minor,
      .device_major = (u32)found.device_major,
      .device_minor = (u32)found.device_minor,
  };
  return 0;
}

i64 readlink(const char *path, char *into, size room) {
  return told(host_read_link(at(path), length_of(path), at(into), some(room)));
}

char *realpath(const char *path, char *into) {
  i64 length = told(host_real_path(at(path), length_of(path), at(into), PATH_MAX - 1));
  if (length < 0) return 0;
  into[length] = 0;
  return into;
}

/* ---- the rest ---- */

i32 getentropy(void *into, size count) {
  return (i32)told(count > 256 ? -EIO : host_random(at(into), (u32)count));
}

struct timespec { i64 seconds, nanoseconds; };

i32 clock_gettime(i32 clock, struct timespec *into) {
  i64 now = host_time(clock);
  if (now < 0) return (i32)told(now);
  *into = (struct timespec){now / 1000000000, now % 1000000000};
  return 0;
}

/* How many words there are, the program's own name among them. */
size rattle_arg_count(void) { return (size)host_word_count(); }

/* The length of a word, which is put there; -1 where there is none, -2 where it has no room. */
i64 rattle_arg(size number, char *into, size room) {
  return host_word(some(number), at(into), some(room));
}

/* The compiler's own library: numbers of 128 bits that are moved by so many bits. */
__int128 __ashlti3(__int128 number, int by) {
  u64 low = (u64)number, high = (u64)((unsigned __int128)number >> 64);
  if (by >= 64) {
    high = low << (by - 64);
    low = 0;
  } else if (by > 0) {
    high = high << by | low >> (64 - by);
    low <<= by;
  }
  return (__int128)((unsigned __int128)high << 64 | low);
}

__int128 __lshrti3(__int128 number, int by) {
  u64 low = (u64)number, high = (u64)((unsigned __int128)number >> 64);
  if (by >= 64) {
    low = high >> (by - 64);
    high = 0;
  } else if (by > 0) {
    low = low >> by | high << (64 - by);
    high >>= by;
  }
  return (__int128)((unsigned __int128)high << 64 | low);
}
