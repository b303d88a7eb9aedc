/*
 * Sessions in threads, for a sanitizer: tests/threads builds it, with the library.
 *
 *   threads apart      two threads with a session each get the answers that one thread gets
 *   threads stopped    threads end the searches of others: between two slices, while a slice runs, before the first one, twice, and after the last one
 *   threads shared     two threads use one session, which they must not: the sanitizer has to tell of it
 *
 * It ends with status 0, or with 1 after a message.
 */
#include <xw_lines.h>

#include <pthread.h>
#include <semaphore.h>
#include <stdio.h>

/*
 * What a newer compiler than cc has calls of memcpy and its kin go to, in the watched library. The sanitizer of cc watches the functions of the C library, which are
 * called by pointers here, so that a compiler does not send the calls back.
 */
static void *(*volatile copies)(void *, const void *, size_t) = memcpy;
static void *(*volatile moves)(void *, const void *, size_t) = memmove;
static void *(*volatile sets)(void *, int, size_t) = memset;

void *__tsan_memcpy(void *to, const void *from, size_t length);
void *__tsan_memmove(void *to, const void *from, size_t length);
void *__tsan_memset(void *to, int byte, size_t length);

__attribute__((weak)) void *__tsan_memcpy(void *to, const void *from, size_t length) {
    return copies(to, from, length);
}

__attribute__((weak)) void *__tsan_memmove(void *to, const void *from, size_t length) {
    return moves(to, from, length);
}

__attribute__((weak)) void *__tsan_memset(void *to, int byte, size_t length) {
    return sets(to, byte, length);
}

/* The threads of a part. */
#define THREADS 2
/* The words of the list: many fills of a grid of 6 by 6, and no proof of the best one in the time of a test. */
#define WORDS 3000

static char list[WORDS * 12];
static size_t list_length;

static void expect(bool is_so, const char *what) {
    if (is_so)
        return;
    fprintf(stderr, "threads: %s\n", what);
    exit(1);
}

/* The next number of a row, below `most`. */
static unsigned draw(unsigned *state, unsigned most) {
    *state = *state * 1103515245u + 12345u;
    return (*state >> 16) % most;
}

static void make_list(void) {
    unsigned state = 1;
    int word, at;
    for (word = 0; word < WORDS; word++) {
        for (at = 0; at < 6; at++)
            list[list_length++] = (char)('a' + draw(&state, 8));
        list_length += (size_t)sprintf(list + list_length, ";%u\n", draw(&state, 101));
    }
}

static void open_session(struct xw *xw) {
    static const char size[] = "size 6 6";
    expect(xw_open(xw, list, list_length, NULL, 0) == XW_ACCEPTED, "a session is not opened");
    expect(xw_line(xw, size, strlen(size)) == XW_ACCEPTED, "a grid is not made");
}

static void start(pthread_t *threads, void *(*run)(void *), void *jobs, size_t size) {
    int at;
    for (at = 0; at < THREADS; at++)
        expect(!pthread_create(&threads[at], NULL, run, (char *)jobs + (size_t)at * size), "a thread is not started");
}

static void join(pthread_t *threads) {
    int at;
    for (at = 0; at < THREADS; at++)
        expect(!pthread_join(threads[at], NULL), "a thread is not joined");
}

/* ---- apart */

/* A conversation with a session, which depends on the seed alone. */
struct talk {
    unsigned seed;
    char answers[1 << 16];
    size_t length;
};

static void keep(struct talk *talk, struct xw_span answer) {
    expect(talk->length + answer.length < sizeof talk->answers, "the answers are too long");
    memcpy(talk->answers + talk->length, answer.at, answer.length);
    talk->length += answer.length;
}

/* A clock that stands still: the slices do not depend on the machine. */
static double stands(void) {
    return 0;
}

static void *converse(void *given) {
    static const char *const lines[] = {"add abcdef 50", "words 1 across 9", "choices 1 across 3", "fill 2000", "clear 1 1", "clear 2 2", "suggest", "stats",
                                        "cells", "set 1 1 h", "why 1 across", "size 6 6", "title One", "texts", "strike abcdef", "record"};
    struct talk *talk = (struct talk *)given;
    struct xw xw = XW_NO_SESSION, copy = XW_NO_SESSION;
    struct xw_asked asked = XW_NOT_ASKED;
    struct xw_search search = XW_SEARCH;
    struct xw_progress found;
    size_t at;
    open_session(&xw);
    for (at = 0; at < sizeof lines / sizeof *lines; at++) {
        uint32_t status = xw_ask(&xw, lines[at], &asked);
        expect(status == XW_ACCEPTED || status == XW_REFUSED, "a line is not answered");
        keep(talk, asked.answer);
    }
    search.seed = talk->seed;
    search.limit = 6000;
    search.clock = stands;
    expect(xw_best(&xw, &search, &found) == XW_ACCEPTED && found.found == XW_FILLED, "there is no best fill");
    expect(xw_copy(&xw, &copy, list, list_length) == XW_ACCEPTED, "a session is not copied");
    expect(xw_ask(&copy, "show", &asked) == XW_ACCEPTED, "a copy does not answer");
    keep(talk, asked.answer);
    expect(xw_puz(&copy) == XW_ACCEPTED, "a filled grid is no puzzle");
    xw_forget(&asked);
    xw_close(&copy);
    xw_close(&xw);
    return NULL;
}

static void apart(void) {
    static struct talk alone[THREADS], beside[THREADS];
    pthread_t threads[THREADS];
    int at;
    for (at = 0; at < THREADS; at++) {
        alone[at].seed = beside[at].seed = (unsigned)at;
        converse(&alone[at]);
    }
    start(threads, converse, beside, sizeof *beside);
    join(threads);
    for (at = 0; at < THREADS; at++)
        expect(alone[at].length == beside[at].length && !memcmp(alone[at].answers, beside[at].answers, alone[at].length), "another thread changes an answer");
}

/* ---- stopped */

/* A search of a thread. */
struct work {
    struct xw xw;
    struct xw_search search;
    struct xw_progress found;
    uint32_t status;
    bool is_autofill;
    /* between two slices it says that it has begun, and waits until it may go on */
    sem_t begun, may_go_on;
    unsigned steps;
};

static bool waits(void *data, const struct xw_progress *progress) {
    struct work *work = (struct work *)data;
    (void)progress;
    work->steps++;
    sem_post(&work->begun);
    sem_wait(&work->may_go_on);
    return false;
}

/* Says that it has begun, and goes on at once. */
static bool goes_on(void *data, const struct xw_progress *progress) {
    (void)progress;
    sem_post(&((struct work *)data)->begun);
    return false;
}

static void *search(void *given) {
    struct work *work = (struct work *)given;
    work->status = (work->is_autofill ? xw_autofill : xw_best)(&work->xw, &work->search, &work->found);
    return NULL;
}

static void prepare(struct work *works, const struct xw_flag *flag, xw_told *told) {
    static const struct work none = {XW_NO_SESSION, XW_SEARCH, {XW_LIMIT, 0, 0, 0}, 0, false, {{0}}, {{0}}, 0};
    int at;
    for (at = 0; at < THREADS; at++) {
        works[at] = none;
        works[at].search.flag = flag;
        works[at].search.told = told;
        works[at].search.data = &works[at];
        works[at].search.seed = (uint32_t)at;
        sem_init(&works[at].begun, 0, 0);
        sem_init(&works[at].may_go_on, 0, 0);
        open_session(&works[at].xw);
    }
}

static void post_all(struct work *works) {
    int at;
    for (at = 0; at < THREADS; at++)
        sem_post(&works[at].may_go_on);
}

static void wait_for_all(struct work *works) {
    int at;
    for (at = 0; at < THREADS; at++)
        sem_wait(&works[at].begun);
}

/* How many cells are empty. */
static size_t empty_cells(struct xw *xw) {
    struct xw_asked asked = XW_NOT_ASKED;
    size_t count = 0, at;
    expect(xw_ask(xw, "show", &asked) == XW_ACCEPTED, "a session does not answer after a search");
    for (at = 0; at < asked.answer.length; at++)
        count += asked.answer.at[at] == '-';
    xw_forget(&asked);
    return count;
}

/* A search that was stopped has a fill whole, or leaves the grid as it was. */
static void expect_whole(struct work *works) {
    int at;
    for (at = 0; at < THREADS; at++) {
        struct work *work = &works[at];
        expect(work->status == XW_ACCEPTED && work->found.found != XW_NOFILL, "a search that is stopped ends in another way");
        expect(empty_cells(&work->xw) == (work->found.found == XW_FILLED ? 0 : 36), "half a fill is in the grid");
        expect(work->found.found != XW_FILLED || work->found.worst + 1 < work->found.bound, "the search has ended by itself");
        sem_destroy(&work->begun);
        sem_destroy(&work->may_go_on);
        xw_close(&work->xw);
    }
}

/* Starts two searches with one flag, and waits until both have told of a slice. */
static void begin(struct work *works, pthread_t *threads, const struct xw_flag *flag, xw_told *told) {
    prepare(works, flag, told);
    start(threads, search, works, sizeof *works);
    wait_for_all(works);
}

/* The flag is set, twice, while both searches wait between their first two slices: no other slice is told. */
static void stop_between_slices(void) {
    static struct work works[THREADS];
    struct xw_flag flag = XW_FLAG;
    pthread_t threads[THREADS];
    begin(works, threads, &flag, waits);
    xw_stop(&flag);
    xw_stop(&flag);
    post_all(works);
    join(threads);
    xw_stop(&flag);
    expect(works[0].steps == 1 && works[1].steps == 1 && works[0].found.placements == 1000, "a search goes on after it was stopped");
    expect_whole(works);
}

/* The flag is set while slices run. */
static void stop_in_a_slice(void) {
    static struct work works[THREADS];
    struct xw_flag flag = XW_FLAG;
    pthread_t threads[THREADS];
    begin(works, threads, &flag, goes_on);
    xw_stop(&flag);
    join(threads);
    expect_whole(works);
}

/* The flag is set before the searches begin: they place nothing, and still tell what is wrong. */
static void stop_before(void) {
    static struct work works[THREADS];
    struct xw_flag flag = XW_FLAG;
    pthread_t threads[THREADS];
    int at;
    xw_stop(&flag);
    prepare(works, &flag, NULL);
    works[1].is_autofill = true;
    start(threads, search, works, sizeof *works);
    join(threads);
    for (at = 0; at < THREADS; at++) {
        expect(works[at].found.placements == 0, "a search that is stopped begins");
        works[at].search.lights = "99 across";
        search(&works[at]);
        expect(works[at].status == XW_REFUSED, "a search of no light is not refused");
        works[at].search.lights = NULL;
        xw_close(&works[at].xw);
        search(&works[at]);
        expect(works[at].status == XW_CLOSED, "a search without a session is not refused");
        open_session(&works[at].xw);
        search(&works[at]);
    }
    expect_whole(works);
}

static void stopped(void) {
    stop_between_slices();
    stop_in_a_slice();
    stop_before();
}

/* ---- shared */

static void *ask_often(void *given) {
    int at;
    for (at = 0; at < 1000; at++)
        xw_line(*(struct xw **)given, "show", 4);
    return NULL;
}

static void shared(void) {
    struct xw xw = XW_NO_SESSION, *both[THREADS] = {&xw, &xw};
    pthread_t threads[THREADS];
    open_session(&xw);
    start(threads, ask_often, both, sizeof *both);
    join(threads);
}

int main(int count, char **words) {
    static const struct {
        const char *name;
        void (*run)(void);
    } parts[] = {{"apart", apart}, {"stopped", stopped}, {"shared", shared}};
    size_t at;
    make_list();
    for (at = 0; at < sizeof parts / sizeof *parts; at++) {
        if (count == 2 && !strcmp(words[1], parts[at].name)) {
            parts[at].run();
            return 0;
        }
    }
    return 2;
}
