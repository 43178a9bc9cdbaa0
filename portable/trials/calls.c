/* portable/trials/calls.c: the calls of the system that the program makes, one by one and each in
 * several ways, in the folder that it is started in. It prints a line for each: what was asked, what
 * was answered, and the number of the error. Built for Linux and for node, both have to print the
 * same. Numbers of files, of nodes and of devices differ from run to run: it prints how they compare.
 * Words: `all`; then any, of which it prints how they are handed over. */

typedef __SIZE_TYPE__ size;
typedef __INT64_TYPE__ i64;
typedef __UINT32_TYPE__ u32;
typedef __UINT64_TYPE__ u64;

enum { READ = 0, WRITE = 1, UPDATE = 2, MAKE = 0100, NEW = 0200, CUT = 01000, APPEND = 02000 };
enum { NO_TERMINAL = 0400, CLOSE_ON_EXEC = 02000000, ALWAYS = NO_TERMINAL | CLOSE_ON_EXEC };
enum { HERE = -100, OF_FILE = 0x1000, OF_LINK = 0x100, BASIC = 0x7ff, BIRTH = 0x800 };

struct moment { i64 seconds; u32 nanoseconds; int unused; };
struct statx {
  u32 mask, block_size;
  u64 attributes;
  u32 links, owner, group;
  unsigned short mode, unused;
  u64 node, size, blocks, attributes_mask;
  struct moment read, made, changed, written;
  u32 of_device_major, of_device_minor, device_major, device_minor;
  u64 more[14];
};
struct timespec { i64 seconds, nanoseconds; };

int open(const char *, int, ...);
int close(int);
i64 read(int, void *, size);
i64 pread(int, void *, size, i64);
i64 write(int, const void *, size);
i64 pwrite(int, const void *, size, i64);
i64 lseek(int, i64, int);
int ftruncate(int, i64);
int fsync(int);
int fdatasync(int);
int fchmod(int, u32);
int fchown(int, u32, u32);
int posix_fadvise(int, i64, i64, int);
int statx(int, const char *, int, u32, struct statx *);
i64 readlink(const char *, char *, size);
char *realpath(const char *, char *);
int getentropy(void *, size);
int clock_gettime(int, struct timespec *);
int rattle_errno(void);
void rattle_set_errno(int);
int rattle_lock_range(int, short, i64, i64);
size rattle_arg_count(void);
i64 rattle_arg(size, char *, size);

static char line[16384];
static size used;

static void put(const char *text) {
  while (*text) line[used++] = *text++;
}

static void number(i64 value) {
  char digits[24];
  int count = 0;
  u64 rest = value < 0 ? -(u64)value : (u64)value;
  if (value < 0) line[used++] = '-';
  do digits[count++] = (char)('0' + rest % 10), rest /= 10;
  while (rest);
  while (count) line[used++] = digits[--count];
}

static void bytes(const char *from, i64 count) {
  put(" '");
  for (i64 at = 0; at < count; at++) line[used++] = from[at] ? from[at] : '.';
  put("'");
}

static void end(void) {
  line[used++] = '\n';
  for (size at = 0; at < used;) {
    i64 count = write(1, line + at, used - at);
    if (count <= 0) return;
    at += (size)count;
  }
  used = 0;
}

/* A line: what was asked, the answer, and of -1 the error. */
static void head(const char *what, i64 answer) {
  int error = rattle_errno();
  put(what);
  put(": ");
  number(answer);
  if (answer == -1) put(" error "), number(error);
  rattle_set_errno(0);
}

static void say(const char *what, i64 answer) {
  head(what, answer);
  end();
}

/* The same of a new file, whose number is only told to be one above 2. */
static int file_of(const char *what, int file) {
  head(what, file > 2 ? 3 : file);
  end();
  return file;
}

static int opened(const char *what, const char *name, int flags, u32 mode) {
  return file_of(what, open(name, flags | ALWAYS, mode));
}

static struct statx found;

static void status(const char *what, int file, const char *name, int flags) {
  int answer = statx(file, name, flags, BASIC | BIRTH, &found);
  head(what, answer);
  if (answer == 0) {
    put(" mode "), number(found.mode), put(" links "), number(found.links);
    put(" owner "), number(found.owner), put(" group "), number(found.group);
    put(" size "), number((i64)found.size), put(" blocks "), number((i64)found.blocks);
    put(" block "), number(found.block_size);
    put(" device "), number(found.of_device_major), put(":"), number(found.of_device_minor);
    put(found.written.nanoseconds < 1000000000 && found.written.seconds > 1600000000 ? " now" : " then");
  }
  end();
}

static void content(const char *what, const char *name) {
  char text[64];
  int file = open(name, READ | ALWAYS);
  i64 count = file < 0 ? -1 : read(file, text, sizeof text);
  head(what, count);
  bytes(text, count);
  end();
  if (file >= 0) close(file);
}

static void opening(void) {
  opened("open what isn't there", "none", READ, 0);
  opened("open through a file", "file/below", READ, 0);
  opened("open a loop of links", "loop", READ, 0);
  opened("open a name of no bytes", "", READ, 0);
  status("nothing was made", HERE, "none", 0);
  close(opened("make", "made", WRITE | MAKE | NEW, 0600));
  status("its mode", HERE, "made", 0);
  close(opened("make for all, as the umask narrows it", "wide", WRITE | MAKE, 0666));
  status("its mode", HERE, "wide", 0);
  opened("make what is there", "file", WRITE | MAKE | NEW, 0600);
  opened("make where a link to nothing is", "lost", WRITE | MAKE | NEW, 0600);
  opened("make in a folder that isn't there", "none/new", WRITE | MAKE | NEW, 0600);
  close(opened("open to write", "file", WRITE, 0));
  content("it is as it was", "file");
  close(opened("make or open", "file", WRITE | MAKE, 0600));
  content("it is as it was", "file");
  close(opened("open and cut", "cut", WRITE | CUT, 0));
  content("it is cut", "cut");
  close(opened("open a folder", ".", READ, 0));
  opened("open a folder to write", ".", WRITE, 0);
  say("close what isn't open", close(999));
}

static void reading(void) {
  char text[64];
  int file = opened("open", "file", READ, 0), other = open("file", WRITE | ALWAYS);
  i64 count = read(file, text, 4);
  head("read", count), bytes(text, count), end();
  count = pread(file, text, 3, 1);
  head("read at a place", count), bytes(text, count), end();
  count = read(file, text, sizeof text);
  head("read on", count), bytes(text, count), end();
  say("read at the end", read(file, text, 4));
  say("read nothing", read(file, text, 0));
  say("read behind the end", pread(file, text, 4, 100));
  say("read before the start", pread(file, text, 4, -1));
  say("read far behind the end", pread(file, text, 4, (i64)1 << 40));
  say("read what is open to write", read(other, text, 4));
  close(other);
  close(file);
  say("read what is closed", read(file, text, 4));
  file = open(".", READ | ALWAYS);
  say("read a folder", read(file, text, 4));
  close(file);
  file = open("/dev/zero", READ | ALWAYS);
  say("read a device", read(file, text, 4));
  close(file);
}

static void writing(void) {
  int file = opened("make", "written", WRITE | MAKE | NEW, 0600), other;
  say("write", write(file, "abcdef", 6));
  say("write on", write(file, "gh", 2));
  say("write at a place", pwrite(file, "XY", 2, 1));
  say("write on, behind the last", write(file, "i", 1));
  content("it has", "written");
  say("write behind the end", pwrite(file, "z", 1, 12));
  content("it has", "written");
  say("write before the start", pwrite(file, "z", 1, -1));
  say("write nothing", write(file, "", 0));
  other = opened("open to append", "written", WRITE | APPEND, 0);
  say("append", write(other, "1", 1));
  say("write on meanwhile", write(file, "J", 1));
  say("append again", write(other, "2", 1));
  content("it has", "written");
  close(other);
  close(file);
  file = open("written", READ | ALWAYS);
  say("write what is open to read", write(file, "z", 1));
  say("write at a place of it", pwrite(file, "z", 1, 0));
  close(file);
  file = open("/dev/full", WRITE | ALWAYS);
  say("write to a full disk", write(file, "z", 1));
  close(file);
}

static void places(void) {
  char text[8];
  int file = open("file", READ | ALWAYS);
  say("seek", lseek(file, 3, 0));
  say("read from there", read(file, text, 2));
  say("seek from here", lseek(file, -1, 1));
  say("seek from the end", lseek(file, -2, 2));
  i64 count = read(file, text, sizeof text);
  head("read from there", count), bytes(text, count), end();
  say("seek before the start", lseek(file, -1, 0));
  say("seek from nowhere", lseek(file, 0, 77));
  say("seek behind the end", lseek(file, 500, 0));
  say("read from there", read(file, text, 2));
  close(file);
  say("seek in what is closed", lseek(file, 0, 0));
}

static void lengths(void) {
  int file = open("length", UPDATE | MAKE | ALWAYS, 0600);
  write(file, "abcdef", 6);
  say("cut", ftruncate(file, 2));
  content("it has", "length");
  say("write on, where the last call ended", write(file, "z", 1));
  content("it has", "length");
  say("make longer", ftruncate(file, 9));
  content("it has", "length");
  say("cut before the start", ftruncate(file, -1));
  close(file);
  file = open("length", READ | ALWAYS);
  say("cut what is open to read", ftruncate(file, 1));
  close(file);
  say("cut what is closed", ftruncate(file, 1));
}

static void syncing(void) {
  int file = open("file", WRITE | ALWAYS), folder = open(".", READ | ALWAYS);
  int device = open("/dev/null", WRITE | ALWAYS);
  say("sync", fsync(file));
  say("sync the bytes", fdatasync(file));
  say("sync a folder", fsync(folder));
  say("sync a device", fsync(device));
  say("sync the bytes of a device", fdatasync(device));
  say("drop copies of pages", posix_fadvise(file, 0, 0, 4));
  say("drop copies of some", posix_fadvise(file, 4096, 8192, 4));
  say("read as it comes", posix_fadvise(file, 0, 0, 0));
  close(file), close(folder), close(device);
  say("drop copies of what is closed", posix_fadvise(file, 0, 0, 4));
  say("sync what is closed", fsync(file));
  say("sync the bytes of what is closed", fdatasync(file));
}

static void rights(void) {
  int file = open("rights", UPDATE | MAKE | ALWAYS, 0644);
  say("change the mode", fchmod(file, 0600));
  status("it is", file, "", OF_FILE);
  say("change it to more", fchmod(file, 0664));
  status("it is", file, "", OF_FILE);
  say("leave owner and group", fchown(file, (u32)-1, (u32)-1));
  status("they are", file, "", OF_FILE);
  say("change the group to root's", fchown(file, (u32)-1, 0));
  say("change the owner to root", fchown(file, 0, (u32)-1));
  status("they are", file, "", OF_FILE);
  say("change the owner to another", fchown(file, 1, (u32)-1));
  status("they are", file, "", OF_FILE);
  close(file);
  say("change the mode of what is closed", fchmod(file, 0600));
  say("change the owner of what is closed", fchown(file, 0, 0));
}

static void statuses(void) {
  struct statx first;
  int file = open("file", READ | ALWAYS);
  status("a file that is open", file, "", OF_FILE);
  first = found;
  status("the same by its name", HERE, "file", 0);
  say("it is one file", first.node == found.node && first.device_major == found.device_major &&
                            first.device_minor == found.device_minor && first.node != 0);
  say("at one time", first.written.seconds == found.written.seconds &&
                         first.written.nanoseconds == found.written.nanoseconds &&
                         first.made.seconds == found.made.seconds);
  status("by a link", HERE, "link", 0);
  say("it is that file", first.node == found.node);
  status("by another name of its own", HERE, "twin", 0);
  say("it is that file", first.node == found.node);
  status("the link itself", HERE, "link", OF_LINK);
  say("it is another file", first.node != found.node);
  status("a link to nothing", HERE, "lost", 0);
  status("that link itself", HERE, "lost", OF_LINK);
  status("a folder's mode", HERE, "inner", 0);
  status("a device", HERE, "/dev/null", 0);
  status("what isn't there", HERE, "none", 0);
  status("through a file", HERE, "file/below", 0);
  status("a loop of links", HERE, "loop", 0);
  status("a name of no bytes", HERE, "", 0);
  close(file);
  status("what is closed", file, "", OF_FILE);
}

static void links(void) {
  char path[4096], here[4096];
  i64 count = readlink("link", path, sizeof path);
  head("read a link", count), bytes(path, count), end();
  count = readlink("lost", path, 3);
  head("read a link with little room", count), bytes(path, count), end();
  say("read what is no link", readlink("file", path, sizeof path));
  say("read a link that isn't there", readlink("none", path, sizeof path));
  say("the real path of the folder", realpath(".", here) == here);
  size length = 0;
  while (here[length]) length++;
  say("the real path of a link", realpath("inner/../link", path) == path);
  size at = 0;
  while (at < length && path[at] == here[at]) at++;
  say("it is below the folder", at == length);
  put("it ends with "), put(path + at), end();
  say("the real path of nothing", realpath("none", path) ? 0 : -1);
  say("of a link to nothing", realpath("lost", path) ? 0 : -1);
  say("of a loop of links", realpath("loop", path) ? 0 : -1);
}

static void locks(void) {
  int file = open("locked", UPDATE | MAKE | ALWAYS, 0600), other = open("locked", UPDATE | ALWAYS);
  int reader = open("locked", READ | ALWAYS);
  say("lock", rattle_lock_range(file, 1, 1 << 30, 512));
  say("lock it again by the same file", rattle_lock_range(file, 1, 1 << 30, 512));
  say("lock it by another", rattle_lock_range(other, 1, 1 << 30, 512));
  say("lock a part of it by another", rattle_lock_range(other, 1, (1 << 30) + 511, 1));
  say("lock what is beside it by another", rattle_lock_range(other, 1, (1 << 30) + 512, 1));
  say("share it by another", rattle_lock_range(reader, 0, 1 << 30, 512));
  close(file);
  say("lock it by another, once it is closed", rattle_lock_range(other, 1, 1 << 30, 512));
  say("give it up", rattle_lock_range(other, 2, 1 << 30, 512));
  say("share it by another", rattle_lock_range(reader, 0, 1 << 30, 512));
  say("lock it by another", rattle_lock_range(other, 1, 1 << 30, 512));
  say("lock what is open to read", rattle_lock_range(reader, 1, 0, 1));
  close(other), close(reader);
  say("lock what is closed", rattle_lock_range(reader, 1, 0, 1));
}

static void others(void) {
  char one[32] = {0}, two[32] = {0}, large[300];
  struct timespec now = {0}, then = {0};
  say("draw", getentropy(one, sizeof one));
  say("draw again", getentropy(two, sizeof two));
  int same = 0;
  for (size at = 0; at < sizeof one; at++) same += one[at] == two[at];
  say("both are other bytes", same < 8);
  say("draw too many", getentropy(large, sizeof large));
  say("the clock", clock_gettime(1, &then) || clock_gettime(1, &now));
  say("it goes on", now.seconds > then.seconds ||
                        (now.seconds == then.seconds && now.nanoseconds >= then.nanoseconds));
  say("the day", clock_gettime(0, &now));
  say("it is after 2020", now.seconds > 1577836800 && now.nanoseconds < 1000000000);
}

static void words(void) {
  char word[64];
  i64 count = (i64)rattle_arg_count();
  say("words", count);
  for (i64 at = 1; at < count; at++) {
    i64 length = rattle_arg((size)at, word, sizeof word);
    head("word", length);
    if (length >= 0) bytes(word, length);
    end();
  }
  say("no word", rattle_arg((size)count, word, sizeof word));
  say("a word with little room", rattle_arg(1, word, 2));
  say("a word with just its room", rattle_arg(1, word, 3));
}

/* Numbers of 128 bits, moved by numbers of bits that the compiler doesn't know. */
static void shifts(void) {
  static volatile int by[] = {0, 1, 63, 64, 65, 127};
  unsigned __int128 number = (unsigned __int128)0xfedcba9876543210 << 64 | 0x0f1e2d3c4b5a6978;
  for (size at = 0; at < sizeof by / sizeof *by; at++) {
    unsigned __int128 left = number << by[at], right = number >> by[at];
    say("left, the high half", (i64)(u64)(left >> 64)), say("the low half", (i64)(u64)left);
    say("right, the high half", (i64)(u64)(right >> 64)), say("the low half", (i64)(u64)right);
  }
}

int program_start(void) {
  void (*const parts[])(void) = {opening, reading, writing, places, lengths, syncing,
                                 rights,  statuses, links,  locks,  others,  words, shifts};
  for (size at = 0; at < sizeof parts / sizeof *parts; at++) parts[at]();
  return 7;
}
