/* Counts the allocations of the program that it is preloaded into (LD_PRELOAD), and refuses those that the test asks for.

   The test and the program share a page, in the file that REFUSE_PAGE names. The page says which allocations fail, holds the standard
   input, and collects the counts. The program stops before main, and before each read of standard input that finds the page's input used
   up. There it reports `R` and waits for an order:

       G   go on
       F   fork: the child reports and waits for its own orders; its parent waits until the child ends, and reports `D`
       E   go on, and find the end of the input after what the page has
       X   exit

   A fork keeps the state of the program, so that the test can refuse one allocation after another from the same state.

   It includes no header, since the kit's clang comes without any:
   clang -fuse-ld=lld -O2 -fPIC -nostdlib -shared -o refuse.so refuse.c */
typedef unsigned long u64;

enum { ORDERS = 100, REPORTS = 101, SECONDS = 60, PAGE = 1 << 20 };

void *__libc_malloc(u64), *__libc_calloc(u64, u64), *__libc_realloc(void *, u64), *__libc_memalign(u64, u64);
void __libc_free(void *), *mmap(void *, u64, int, int, int, long), *memcpy(void *, const void *, u64), _exit(int);
long __read(int, void *, u64), write(int, const void *, u64);
int open(const char *, int, ...), fork(void), waitpid(int, int *, int), *__errno_location(void);
unsigned alarm(unsigned);
char *getenv(const char *);

/* tests/refusing.py has the same fields in the same order. */
static struct page {
    u64 count;       /* allocations so far */
    u64 first, last; /* those of these numbers fail */
    u64 refused;     /* how many failed */
    u64 live;        /* blocks that are not freed */
    u64 waits;       /* whether the program stops for orders */
    u64 at, length;  /* how much of the input was read, and how long it is */
    u64 status;      /* how the last child ended, as waitpid says it */
    u64 rest[503];
    char input[];
} unshared, *page = &unshared;

static int is_shared;

static void wait_for_order(void) {
    char order, report = 'R';
    for (;;) {
        write(REPORTS, &report, 1);
        if (__read(ORDERS, &order, 1) != 1) _exit(98);
        alarm(SECONDS);
        if (order == 'G') return;
        if (order == 'X') _exit(0);
        if (order == 'E') {
            page->waits = 0;
            return;
        }
        int status = 0, child = fork();
        report = 'R';
        if (child) {
            waitpid(child, &status, 0);
            page->status = (u64)(unsigned)status;
            report = 'D';
        }
    }
}

__attribute__((constructor)) static void begin(void) {
    const char *name = getenv("REFUSE_PAGE");
    if (!name) return;
    alarm(SECONDS);
    page = mmap(0, PAGE, 3, 1, open(name, 2), 0);
    if (page == (void *)-1) _exit(99);
    is_shared = 1;
    if (page->waits) wait_for_order();
}

static int is_refused(void) {
    page->count++;
    if (page->count < page->first || page->count > page->last) return 0;
    page->refused++;
    *__errno_location() = 12;
    return 1;
}

static void *counted(void *block) {
    page->live += block != 0;
    return block;
}

void *malloc(u64 size) { return is_refused() ? 0 : counted(__libc_malloc(size)); }
void *calloc(u64 count, u64 size) { return is_refused() ? 0 : counted(__libc_calloc(count, size)); }
void *memalign(u64 align, u64 size) { return is_refused() ? 0 : counted(__libc_memalign(align, size)); }
void *aligned_alloc(u64 align, u64 size) { return memalign(align, size); }

int posix_memalign(void **block, u64 align, u64 size) {
    void *made = memalign(align, size);
    if (!made) return 12;
    *block = made;
    return 0;
}

void *realloc(void *block, u64 size) {
    if (!block) return malloc(size);
    return is_refused() ? 0 : __libc_realloc(block, size);
}

void free(void *block) {
    page->live -= block != 0;
    __libc_free(block);
}

long read(int file, void *to, u64 most) {
    if (file || !is_shared) return __read(file, to, most);
    if (page->at == page->length && page->waits) wait_for_order();
    u64 left = page->length - page->at, count = left < most ? left : most;
    memcpy(to, page->input + page->at, count);
    page->at += count;
    return (long)count;
}
