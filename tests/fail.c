/* Lets calls of the system fail, for the program that it is preloaded into (LD_PRELOAD).

   FAIL says which: KIND FIRST LAST ERROR PIECE. The calls of one kind are counted from 1: reads of the standard input (`i`), writes to the
   standard output (`o`), or calls on files (`f`). Those from FIRST to LAST fail with this number of an error, or do nothing if it is 0. A
   read of the standard input, and every write but one to the standard error, takes at most PIECE bytes, if PIECE is not 0.

   Each call is a line of the file that FAIL_LOG names: the call and the name of the file, with `!` before them if it failed.

   It includes no header, since the kit's clang comes without any:
   clang -fuse-ld=lld -O2 -fPIC -nostdlib -shared -o fail.so fail.c */
typedef unsigned long u64;

enum { READ = 0, WRITE = 1, OPEN = 2, FLOCK = 73, FSYNC = 74, FDATASYNC = 75, FTRUNCATE = 77, RENAME = 82, UNLINK = 87, READLINK = 89, FCHMOD = 91, STATX = 332 };
/* Bits of how a file is opened: to write, only if it is not there, and as the log. */
enum { TO_WRITE = 3, NEW = 0200, LOG = 02101 };
enum { FILES = 64, LENGTH = 64 };

long syscall(long, ...);
char *getenv(const char *);
int *__errno_location(void);

static char kind;
static u64 count, first, last, error, piece;
static int noted = -1;

/* The names of open files, by their numbers. */
static char names[FILES][LENGTH] = {"input", "output", "messages"};

static u64 put(char *to, u64 at, const char *text) {
    while (*text && at < LENGTH - 1) to[at++] = *text++;
    to[at] = 0;
    return at;
}

static u64 number(const char **text) {
    u64 value = 0;
    while (**text == ' ') ++*text;
    for (; **text >= '0' && **text <= '9'; ++*text) value = 10 * value + (u64)(**text - '0');
    return value;
}

__attribute__((constructor)) static void begin(void) {
    const char *text = getenv("FAIL");
    if (!text) return;
    noted = (int)syscall(OPEN, getenv("FAIL_LOG"), LOG, 0600);
    kind = *text++;
    first = number(&text);
    last = number(&text);
    error = number(&text);
    piece = number(&text);
}

static void note(int is_failed, const char *call, const char *name) {
    char line[3 * LENGTH];
    u64 at = 0;
    if (is_failed) line[at++] = '!';
    at += put(line + at, 0, call);
    line[at++] = ' ';
    at += put(line + at, 0, name);
    line[at++] = '\n';
    syscall(WRITE, noted, line, at);
}

static int fails(char its_kind, const char *call, const char *name) {
    int is_failed = its_kind == kind && ++count >= first && count <= last;
    note(is_failed, call, name);
    if (is_failed) *__errno_location() = (int)error;
    return is_failed;
}

static int fails_of(int file, const char *call) { return fails(file < 3 ? "ioe"[file] : 'f', call, names[file % FILES]); }

static long failure(void) { return error ? -1 : 0; }

static u64 most(u64 size) { return piece && piece < size ? piece : size; }

int open(const char *path, int how, unsigned mode) {
    const char *call = how & NEW ? "create" : how & TO_WRITE ? "open-to-write" : "open";
    /* The program opens a device to see which standard streams are closed. */
    if (path[0] != '/' && fails('f', call, path)) return (int)failure();
    int file = (int)syscall(OPEN, path, how, mode);
    if (file >= 0) put(names[file % FILES], 0, path);
    return file;
}

long read(int file, void *to, u64 size) { return fails_of(file, "read") ? failure() : syscall(READ, file, to, file ? size : most(size)); }
long write(int file, const void *from, u64 size) { return fails_of(file, "write") ? failure() : syscall(WRITE, file, from, file == 2 ? size : most(size)); }
int flock(int file, int how) { return fails_of(file, "flock") ? (int)failure() : (int)syscall(FLOCK, file, how); }
int fsync(int file) { return fails_of(file, "fsync") ? (int)failure() : (int)syscall(FSYNC, file); }
int fdatasync(int file) { return fails_of(file, "fdatasync") ? (int)failure() : (int)syscall(FDATASYNC, file); }
int ftruncate(int file, long size) { return fails_of(file, "ftruncate") ? (int)failure() : (int)syscall(FTRUNCATE, file, size); }
int fchmod(int file, unsigned mode) { return fails_of(file, "fchmod") ? (int)failure() : (int)syscall(FCHMOD, file, mode); }
int rename(const char *from, const char *to) { return fails('f', "rename", from) ? (int)failure() : (int)syscall(RENAME, from, to); }
int unlink(const char *path) { return fails('f', "unlink", path) ? (int)failure() : (int)syscall(UNLINK, path); }
long readlink(const char *path, char *to, u64 size) { return fails('f', "readlink", path) ? failure() : syscall(READLINK, path, to, size); }

int statx(int folder, const char *path, int how, unsigned mask, void *found) {
    int is_failed = *path ? fails('f', "statx", path) : fails_of(folder, "statx");
    return is_failed ? (int)failure() : (int)syscall(STATX, folder, path, how, mask, found);
}
