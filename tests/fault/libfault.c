/* Loaded before a program (LD_PRELOAD), lets calls of the C library fail. tests/fault/inject runs it. No header is included, so that
   the kit's own clang compiles it where the machine has no C library to compile against. It goes by the environment:

   FAIL_KIND  which calls: `memory`, those on standard `input` or `output`, or those on the `database` or its `log`
   FAIL_FILE  the path of the database; its log is beside it, under this path and `-wal`
   FAIL_AT    which of them, counted from 1; 0: none, and how many there were is told at the end
   FAIL_WAY   alone  it fails
              on     it and each later one fail
              half   it moves half of its bytes, and each later one that moves bytes the same way fails: a disk that is full, a peer that is gone
              short  it moves one byte
              each   it and each later one move one byte
              dies   the program ends instead of it
              torn   it moves half of its bytes, and the program ends
              byte   all of them together move FAIL_AT - 1 bytes, and then they fail
              ends   all of them together move FAIL_AT - 1 bytes, and then there are no more: an input that ends early
   FAIL_MUTE  set: each write to standard error fails
   FAIL_SEED  a number: the random bytes that the program asks for come of it, so that runs which write the same leave equal files
   FAIL_TELL  a file descriptor, to which a line goes that says which call was disturbed, and how much of standard output was written before it
   FAIL_KEEP  a path: after each sync of the database, or of its log, that succeeds, a copy lies under this path, or under it and `-wal`. What
              lies there at the beginning has to be a copy too: from then on only what was changed is written */

typedef unsigned long size_t;
typedef long ssize_t;
typedef long off_t;

extern void *__libc_malloc(size_t size);
extern void *__libc_calloc(size_t count, size_t size);
extern void *__libc_realloc(void *old, size_t size);
extern void *dlsym(void *handle, const char *name);
extern char *getenv(const char *name);
extern long atol(const char *text);
extern int strcmp(const char *one, const char *other);
extern size_t strlen(const char *text);
extern int snprintf(char *to, size_t size, const char *format, ...);
extern void _exit(int status);
extern int *__errno_location(void);

/* the object that is loaded behind this one: the C library */
#define NEXT ((void *)-1l)

enum { E_IO = 5, E_NO_MEMORY = 12, E_NO_SPACE = 28, E_PIPE = 32 };
enum { WRITE_ONLY = 01, CREATE = 0100, TRUNCATE = 01000 };
/* further than any file reaches */
#define FAR (1l << 62)
enum { ENDED = 137, FILES = 1024, PATH = 4096 };

enum kind { NONE, MEMORY, INPUT, OUTPUT, DATABASE, LOG };
static const char *const KINDS[] = {"", "memory", "input", "output", "database", "log", 0};

enum way { ALONE, ON, HALF, SHORT, EACH, DIES, TORN, BYTE, ENDS };
static const char *const WAYS[] = {"alone", "on", "half", "short", "each", "dies", "torn", "byte", "ends", 0};

/* what a call does */
enum call { ASKS, READS, WRITES };

static int begun, kind, way, tell = -1, mute, told, ends;
static long at, seen;
static size_t moved, output;
static unsigned long random;
static const char *file, *keep;
static unsigned char kinds[FILES];

/* of the database and the log, since the last sync: from where to where they may have changed, and to what length they were cut */
static struct { off_t first, behind, length; } changed[] = {{FAR, 0, FAR}, {FAR, 0, FAR}, {FAR, 0, FAR}, {FAR, 0, FAR}, {FAR, 0, FAR}, {FAR, 0, FAR}};

static ssize_t (*next_read)(int, void *, size_t);
static ssize_t (*next_write)(int, const void *, size_t);
static ssize_t (*next_pread)(int, void *, size_t, off_t);
static ssize_t (*next_pwrite)(int, const void *, size_t, off_t);
static int (*next_open)(const char *, int, unsigned);
static int (*next_close)(int);
static int (*next_fsync)(int);
static int (*next_fdatasync)(int);
static int (*next_ftruncate)(int, off_t);
static int (*next_statx)(int, const char *, int, unsigned, void *);

static int place_of(const char *word, const char *const *words) {
  for (int place = 0; word && words[place]; place++)
    if (!strcmp(word, words[place]))
      return place;
  return 0;
}

static long number_of(const char *name, long other) {
  const char *text = getenv(name);
  return text ? atol(text) : other;
}

__attribute__((constructor)) static void begin(void) {
  if (begun)
    return;
  begun = 1;
  next_write = (ssize_t(*)(int, const void *, size_t))dlsym(NEXT, "write");
  next_pread = (ssize_t(*)(int, void *, size_t, off_t))dlsym(NEXT, "pread");
  next_pwrite = (ssize_t(*)(int, const void *, size_t, off_t))dlsym(NEXT, "pwrite");
  next_open = (int (*)(const char *, int, unsigned))dlsym(NEXT, "open");
  next_close = (int (*)(int))dlsym(NEXT, "close");
  next_fsync = (int (*)(int))dlsym(NEXT, "fsync");
  next_fdatasync = (int (*)(int))dlsym(NEXT, "fdatasync");
  next_ftruncate = (int (*)(int, off_t))dlsym(NEXT, "ftruncate");
  next_statx = (int (*)(int, const char *, int, unsigned, void *))dlsym(NEXT, "statx");
  next_read = (ssize_t(*)(int, void *, size_t))dlsym(NEXT, "read");
  kinds[0] = INPUT;
  kinds[1] = OUTPUT;
  file = getenv("FAIL_FILE");
  keep = getenv("FAIL_KEEP");
  tell = (int)number_of("FAIL_TELL", -1);
  mute = getenv("FAIL_MUTE") != 0;
  at = number_of("FAIL_AT", 0);
  random = (unsigned long)number_of("FAIL_SEED", 0);
  way = place_of(getenv("FAIL_WAY"), WAYS);
  kind = place_of(getenv("FAIL_KIND"), KINDS);
}

static void say(const char *what, size_t size) {
  char line[100];
  if (tell < 0 || told++)
    return;
  int length = snprintf(line, sizeof line, "%s of %lu bytes, behind %lu bytes of output\n", what, size, output);
  next_write(tell, line, (size_t)length);
}

/* How many calls there were, for the run that only counts. */
__attribute__((destructor)) static void end(void) {
  if (!at)
    say("all", (size_t)seen);
}

static int error_of(enum call call) {
  if (kind == MEMORY)
    return E_NO_MEMORY;
  if (kind == OUTPUT)
    return E_PIPE;
  return way == HALF && call == WRITES ? E_NO_SPACE : E_IO;
}

/* Whether the way of failing has something to do with such a call. */
static int concerns(enum call call, size_t size) {
  if (way == HALF || way == TORN)
    return size > 1 && call == (kind == INPUT ? READS : WRITES);
  return (way != SHORT && way != EACH) || (size > 1 && call != ASKS);
}

/* The error with which a call fails once so many bytes were moved; or none, after which it moves no more than these. */
static int cut_off(const char *what, size_t *size) {
  size_t left = (size_t)at - 1 - moved;
  if (!left)
    say(what, *size);
  if (!left && way == BYTE)
    return E_IO;
  if (*size > left)
    *size = left;
  return 0;
}

/* The error with which a call fails; or none, after which it moves no more than this size. */
static int failure(int of, enum call call, const char *what, size_t *size) {
  begin();
  if (of == NONE || of != kind)
    return 0;
  if (way == BYTE || way == ENDS)
    return at ? cut_off(what, size) : 0;
  if (!concerns(call, *size))
    return 0;
  seen++;
  if (at && seen > at && (way == ON || way == HALF))
    return error_of(call);
  if (at && seen > at && way == EACH)
    *size = 1;
  if (seen != at)
    return 0;
  say(what, *size);
  if (way == DIES)
    _exit(ENDED);
  if (way == ALONE || way == ON)
    return error_of(call);
  ends = way == TORN;
  *size = way == SHORT || way == EACH ? 1 : *size / 2;
  return 0;
}

static int fail(int error) {
  *__errno_location() = error;
  return -1;
}

/* Notes how many bytes a call moved, and ends the program where that was to be half of them. The end of the input counts as one. */
static ssize_t done(int of, ssize_t count) {
  if (of == OUTPUT && count > 0)
    output += (size_t)count;
  if (of == kind && count >= 0) {
    moved += (size_t)count;
    if ((way == BYTE || way == ENDS) && !at)
      seen += count ? count : 1;
  }
  if (ends)
    _exit(ENDED);
  return count;
}

void *malloc(size_t size) {
  size_t asked = size;
  int error = failure(MEMORY, ASKS, "malloc", &asked);
  return error ? (fail(error), (void *)0) : __libc_malloc(size);
}

void *calloc(size_t count, size_t size) {
  size_t asked = size;
  int error = failure(MEMORY, ASKS, "calloc", &asked);
  return error ? (fail(error), (void *)0) : __libc_calloc(count, size);
}

void *realloc(void *old, size_t size) {
  size_t asked = size;
  int error = failure(MEMORY, ASKS, "realloc", &asked);
  return error ? (fail(error), (void *)0) : __libc_realloc(old, size);
}

/* The kind of a descriptor. */
static int kind_of(int descriptor) { return descriptor >= 0 && descriptor < FILES ? kinds[descriptor] : NONE; }

/* The kind of a path: that of the database, of its log, or of the folder, which counts as the log's since a new log is synced there. */
static int kind_of_path(const char *path) {
  if (!file)
    return NONE;
  size_t length = strlen(file), place = 0;
  while (place < length && path[place] == file[place])
    place++;
  if (place == length)
    return !path[place] ? DATABASE : !strcmp(path + place, "-wal") ? LOG : NONE;
  if (path[place] || file[place] != '/')
    return NONE;
  for (place++; place < length; place++)
    if (file[place] == '/')
      return NONE;
  return LOG;
}

/* Notes that a file changed from one place to another. */
static void changes(int of, off_t first, off_t behind) {
  if (first < changed[of].first)
    changed[of].first = first;
  if (behind > changed[of].behind)
    changed[of].behind = behind;
}

/* Notes that a file was cut, or made longer, to a length. */
static void cuts(int of, off_t length) {
  changes(of, length, FAR);
  if (length < changed[of].length)
    changed[of].length = length;
}

/* Brings the kept copy of a file that was synced up to what it is. A folder has no bytes to copy. */
static void copy(int from) {
  char path[PATH], part[65536];
  int of = kind_of(from);
  if (!keep || of < DATABASE || next_pread(from, part, 1, 0) < 0)
    return;
  snprintf(path, sizeof path, "%s%s", keep, of == LOG ? "-wal" : "");
  int to = next_open(path, WRITE_ONLY | CREATE, 0600);
  if (changed[of].length < FAR)
    next_ftruncate(to, changed[of].length);
  for (off_t place = changed[of].first; place < changed[of].behind;) {
    size_t left = (size_t)(changed[of].behind - place);
    ssize_t count = next_pread(from, part, left < sizeof part ? left : sizeof part, place);
    if (count <= 0)
      break;
    next_pwrite(to, part, (size_t)count, place);
    place += count;
  }
  next_close(to);
  changed[of].first = changed[of].length = FAR;
  changed[of].behind = 0;
}

int open(const char *path, int flags, ...) {
  __builtin_va_list more;
  size_t size = 0;
  int of = kind_of_path(path), error = failure(of, ASKS, "open", &size);
  if (error)
    return fail(error);
  __builtin_va_start(more, flags);
  unsigned mode = flags & CREATE ? __builtin_va_arg(more, unsigned) : 0;
  __builtin_va_end(more);
  int opened = next_open(path, flags, mode);
  if (opened >= 0 && flags & TRUNCATE)
    cuts(of, 0);
  if (opened >= 0 && opened < FILES)
    kinds[opened] = (unsigned char)of;
  return opened;
}

int close(int descriptor) {
  begin();
  if (descriptor >= 0 && descriptor < FILES)
    kinds[descriptor] = NONE;
  return next_close(descriptor);
}

ssize_t read(int from, void *to, size_t size) {
  int of = kind_of(from), error = failure(of, READS, "read", &size);
  return error ? fail(error) : done(of, next_read(from, to, size));
}

ssize_t pread(int from, void *to, size_t size, off_t place) {
  int of = kind_of(from), error = failure(of, READS, "read", &size);
  return error ? fail(error) : done(of, next_pread(from, to, size, place));
}

ssize_t write(int to, const void *from, size_t size) {
  int of = kind_of(to), error = failure(of, WRITES, "write", &size);
  if (mute && to == 2)
    return fail(E_IO);
  if (of >= DATABASE)
    changes(of, 0, FAR);
  return error ? fail(error) : done(of, next_write(to, from, size));
}

ssize_t __write(int to, const void *from, size_t size) { return write(to, from, size); }

ssize_t pwrite(int to, const void *from, size_t size, off_t place) {
  int of = kind_of(to), error = failure(of, WRITES, "write", &size);
  if (error)
    return fail(error);
  changes(of, place, place + (off_t)size);
  return done(of, next_pwrite(to, from, size, place));
}

int fsync(int descriptor) {
  size_t size = 0;
  int error = failure(kind_of(descriptor), ASKS, "sync", &size);
  if (error || next_fsync(descriptor))
    return error ? fail(error) : -1;
  copy(descriptor);
  return 0;
}

int fdatasync(int descriptor) {
  size_t size = 0;
  int error = failure(kind_of(descriptor), ASKS, "sync", &size);
  if (error || next_fdatasync(descriptor))
    return error ? fail(error) : -1;
  copy(descriptor);
  return 0;
}

int ftruncate(int descriptor, off_t length) {
  size_t size = (size_t)length;
  int error = failure(kind_of(descriptor), ASKS, "truncation", &size);
  if (error)
    return fail(error);
  cuts(kind_of(descriptor), length);
  return next_ftruncate(descriptor, length);
}

int statx(int descriptor, const char *path, int flags, unsigned mask, void *to) {
  size_t size = 0;
  int of = *path ? kind_of_path(path) : kind_of(descriptor), error = failure(of, ASKS, "statx", &size);
  return error ? fail(error) : next_statx(descriptor, path, flags, mask, to);
}

/* The salts of a log are such bytes. They come of the seed by splitmix64. */
int getentropy(void *to, size_t size) {
  begin();
  for (size_t place = 0; place < size; place++) {
    unsigned long mixed = random += 0x9e3779b97f4a7c15ul;
    mixed = (mixed ^ mixed >> 30) * 0xbf58476d1ce4e5b9ul;
    mixed = (mixed ^ mixed >> 27) * 0x94d049bb133111ebul;
    ((unsigned char *)to)[place] = (unsigned char)(mixed ^ mixed >> 31);
  }
  return 0;
}
