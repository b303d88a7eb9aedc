/*
 * xw_lines.h: reads the answers of xw.h, searches in slices, and copies a session. It is a header alone, for C99 and C++, over the calls of xw.h.
 *
 * READING. A text is a range of bytes. The functions below take its first line, field, number or light off it:
 *
 *     struct xw_asked asked = XW_NOT_ASKED;
 *     if (xw_ask(&xw, "lights", &asked) == XW_ACCEPTED) {
 *         struct xw_span answer = asked.answer, line;
 *         struct xw_light light;
 *         uint32_t row, column;
 *         while (xw_next_line(&answer, &line) && xw_next_light(&line, &light) && xw_next_number(&line, &row) && xw_next_number(&line, &column))
 *             printf("%u %s begins in row %u\n", light.number, xw_direction(light), row);
 *     }
 *     xw_forget(&asked);
 *
 * SEARCHING. xw_autofill and xw_best search in slices of about 0.1 s. Between two of them they call a function of yours, which can end them:
 *
 *     static bool told(void *data, const struct xw_progress *progress) { return stop_was_clicked(data, progress->placements); }
 *
 *     struct xw_search search = XW_SEARCH;
 *     struct xw_progress found;
 *     search.told = told;
 *     uint32_t status = xw_best(&xw, &search, &found);
 *
 * STOPPING. A search also ends after a number of milliseconds, or by a flag that another thread sets:
 *
 *     static struct xw_flag flag = XW_FLAG;
 *
 *     search.milliseconds = 10000;
 *     search.flag = &flag;
 *     uint32_t status = xw_best(&xw, &search, &found);   in one thread
 *     xw_stop(&flag);                                    in another one
 *
 * Names that begin with xw_own_ are private. A program has the code of this header in it, so no name here is part of the binary interface.
 */
#ifndef XW_LINES_H
#define XW_LINES_H

#include "xw.h"

#include <stdlib.h>
#include <string.h>
#include <time.h>

#ifdef __cplusplus
extern "C" {
#endif

/* ---- reading */

/* Some bytes, which have no NUL at their end. If there are none, the pointer may be null. */
struct xw_span {
    const char *at;
    size_t length;
};

/* The text of a string. */
static inline struct xw_span xw_span_of(const char *string) {
    struct xw_span text;
    text.at = string;
    text.length = strlen(string);
    return text;
}

static inline bool xw_is(struct xw_span text, const char *string) {
    return text.length == strlen(string) && (!text.length || !memcmp(text.at, string, text.length));
}

/* Takes what stands before the first byte of this kind off a text, and the byte with it. A text without one is taken whole. */
static inline bool xw_own_next_part(struct xw_span *text, char end, struct xw_span *part) {
    const char *stop = text->length ? (const char *)memchr(text->at, end, text->length) : NULL;
    if (!text->length)
        return false;
    part->at = text->at;
    part->length = stop ? (size_t)(stop - text->at) : text->length;
    text->at += part->length + (stop ? 1 : 0);
    text->length -= part->length + (stop ? 1 : 0);
    return true;
}

/* Takes the first line off an answer. Returns whether there was one. */
static inline bool xw_next_line(struct xw_span *answer, struct xw_span *line) {
    return xw_own_next_part(answer, '\n', line);
}

/* Takes the first field off a line: what stands before the next space. Returns whether there was one. */
static inline bool xw_next_field(struct xw_span *line, struct xw_span *field) {
    return xw_own_next_part(line, ' ', field);
}

/* The number that a field is. Returns false, and changes nothing, if it is none or does not fit. */
static inline bool xw_number(struct xw_span field, uint32_t *number) {
    uint64_t found = 0;
    size_t at;
    for (at = 0; at < field.length; at++) {
        if (field.at[at] < '0' || field.at[at] > '9')
            return false;
        found = 10 * found + (uint64_t)(field.at[at] - '0');
        if (found > UINT32_MAX)
            return false;
    }
    if (!field.length)
        return false;
    *number = (uint32_t)found;
    return true;
}

/* Takes a number off a line. If the first field is none, nothing changes. */
static inline bool xw_next_number(struct xw_span *line, uint32_t *number) {
    struct xw_span rest = *line, field;
    if (!xw_next_field(&rest, &field) || !xw_number(field, number))
        return false;
    *line = rest;
    return true;
}

/* The name of a light. */
struct xw_light {
    uint32_t number;
    bool is_down;
};

static inline const char *xw_direction(struct xw_light light) {
    return light.is_down ? "down" : "across";
}

/* Takes the name of a light off a line: its number and direction. If the line does not begin with one, nothing changes. */
static inline bool xw_next_light(struct xw_span *line, struct xw_light *light) {
    struct xw_span rest = *line, direction;
    uint32_t number;
    if (!xw_next_number(&rest, &number) || !xw_next_field(&rest, &direction))
        return false;
    if (!xw_is(direction, "across") && !xw_is(direction, "down"))
        return false;
    light->number = number;
    light->is_down = xw_is(direction, "down");
    *line = rest;
    return true;
}

/* ---- asking */

/* An answer, in a room that grows. Begin with XW_NOT_ASKED, use it for any number of calls, and free the room by xw_forget. */
struct xw_asked {
    /* the lines before `ok`; after a refusal its name, such as `NoLight` */
    struct xw_span answer;
    /* the room is private */
    char *room;
    size_t size;
};

#define XW_NOT_ASKED {{NULL, 0}, NULL, 0}

static inline void xw_forget(struct xw_asked *asked) {
    static const struct xw_asked none = XW_NOT_ASKED;
    free(asked->room);
    *asked = none;
}

/* Makes room for so many bytes. Returns whether there is memory. */
static inline bool xw_own_reserve(struct xw_asked *asked, size_t size) {
    char *room = size > asked->size ? (char *)realloc(asked->room, size) : asked->room;
    if (size > asked->size && !room)
        return false;
    asked->room = room;
    asked->size = size > asked->size ? size : asked->size;
    return true;
}

/* Copies what the last call of a session wrote: XW_ACCEPTED, or XW_MEMORY, and then the answer is empty. */
static inline uint32_t xw_own_take(struct xw *xw, struct xw_asked *asked) {
    size_t length;
    asked->answer.length = 0;
    if (!xw_own_reserve(asked, 256))
        return XW_MEMORY;
    length = xw_answer(xw, asked->room, asked->size);
    if (length > asked->size) {
        if (!xw_own_reserve(asked, length))
            return XW_MEMORY;
        length = xw_answer(xw, asked->room, asked->size);
    }
    asked->answer.at = asked->room;
    asked->answer.length = length;
    return XW_ACCEPTED;
}

/*
 * Sends a line, which ends with a NUL, and takes its answer without `ok`; of a refusal it takes the name. Returns what xw_line returns. After XW_MEMORY
 * the line may have been executed.
 */
static inline uint32_t xw_ask(struct xw *xw, const char *line, struct xw_asked *asked) {
    uint32_t status = xw_line(xw, line, strlen(line));
    asked->answer.length = 0;
    if ((status == XW_ACCEPTED || status == XW_REFUSED) && xw_own_take(xw, asked) != XW_ACCEPTED)
        return XW_MEMORY;
    if (status == XW_ACCEPTED)
        asked->answer.length -= strlen("ok\n");
    if (status == XW_REFUSED) {
        asked->answer.at += strlen("no ");
        asked->answer.length -= strlen("no \n");
    }
    /* there was no memory for the command, which changed nothing */
    return status == XW_REFUSED && xw_is(asked->answer, "Memory") ? (uint32_t)XW_MEMORY : status;
}

/* ---- stopping */

/*
 * Ends searches from another thread. Begin with XW_FLAG, and keep it as long as a search or a thread has its address. A flag that is set stays set, so the next
 * search needs another one. Several searches may have the same flag.
 */
struct xw_flag {
    /* private: all threads read and write it by the atomic calls of the compiler */
    int is_set;
};

#define XW_FLAG {0}

/*
 * Ends each search that has this flag after the slice that runs, and each one that begins later. It may be called in any thread, in a handler of signals, before,
 * during and after a search, and again. A search sees what the thread wrote before.
 */
static inline void xw_stop(struct xw_flag *flag) {
    __atomic_store_n(&flag->is_set, 1, __ATOMIC_RELEASE);
}

static inline bool xw_is_stopped(const struct xw_flag *flag) {
    return __atomic_load_n(&flag->is_set, __ATOMIC_ACQUIRE) != 0;
}

/* ---- searching */

/* How a search ends. */
enum xw_found {
    /* the search did not decide it, or was ended: the grid is as it was */
    XW_LIMIT,
    /* a fill stands in the grid */
    XW_FILLED,
    /* there is no fill, which is proved: the grid is as it was */
    XW_NOFILL
};

/* How far a search is, and what it has found. */
struct xw_progress {
    enum xw_found found;
    /* at most so many placements were made */
    uint64_t placements;
    /* xw_best: the grade of the worst new word of the best fill so far, if one was found */
    uint32_t worst;
    /*
     * xw_best: there is no fill of which all new words have this grade or a better one. If it is worst + 1, no fill is better. Since no grade is above 100, 101
     * alone says nothing. A grid that was full has no new word: worst is 100, and bound is 101
     */
    uint32_t bound;
};

/* Is told how far a search is, and returns whether it ends here. It must not use the session. */
typedef bool xw_told(void *data, const struct xw_progress *progress);

/* A time in seconds. */
typedef double xw_clock(void);

/* What to search for. Begin with XW_SEARCH, and set what differs. */
struct xw_search {
    /* the most placements; 0 for no limit */
    uint64_t limit;
    /* another seed takes another way */
    uint32_t seed;
    /* xw_best: the least grade of new words. It is the least grade of the session afterwards */
    uint32_t least;
    /* the names of the lights to fill, as in "1 across 2 down"; "" or null for all lights */
    const char *lights;
    /* is called between two slices, unless it is null, with `data`. Without it and a flag the slices get longer, up to a tenth of the time so far */
    xw_told *told;
    void *data;
    /* a slice takes about so many milliseconds where `told` or `flag` may end the search after it; 0 for 100 */
    uint32_t every;
    /* the clock by which slices are measured, or null for that of the system */
    xw_clock *clock;
    /* the search ends when its slices have taken so many milliseconds; 0 for no limit. The last slice ends about then. What `told` takes does not count */
    uint32_t milliseconds;
    /* ends the search after a slice once xw_stop has set it, unless it is null */
    const struct xw_flag *flag;
};

#define XW_SEARCH {0, 0, 0, "", NULL, NULL, 0, NULL, 0, NULL}

/* The placements of the first slice, and the fewest of a later one. */
#define XW_OWN_FIRST 1000
#define XW_OWN_FEWEST 100
/* The most in a second: a slice that ended early says little of the next. */
#define XW_OWN_FASTEST 1e6
/* How long a slice takes, in seconds. */
#define XW_OWN_SPAN 0.1
/*
 * The part of the time so far that a slice may take where nothing is told between slices. Each slice begins at the grid again, so only a search whose slices grow
 * is sure to end.
 */
#define XW_OWN_PART 0.1

/* A search at work. */
struct xw_own_work {
    struct xw *xw;
    const struct xw_search *search;
    struct xw_progress progress;
    struct xw_asked asked;
    /* the line that is sent */
    char *line;
    size_t size;
    /* the placements of the next slice, and how many seconds the earlier ones took */
    uint64_t due;
    double spent;
};

/* The time by the clock of the search, or of the system. In strict C99 that is the time of the processors, which counts all threads of the program. */
static inline double xw_own_time(const struct xw_search *search) {
#if defined(CLOCK_MONOTONIC) || defined(TIME_UTC)
    struct timespec now;
#endif
    if (search->clock)
        return search->clock();
#if defined(CLOCK_MONOTONIC)
    if (!clock_gettime(CLOCK_MONOTONIC, &now))
        return (double)now.tv_sec + (double)now.tv_nsec / 1e9;
#elif defined(TIME_UTC)
    if (timespec_get(&now, TIME_UTC) == TIME_UTC)
        return (double)now.tv_sec + (double)now.tv_nsec / 1e9;
#endif
    return (double)clock() / (double)CLOCKS_PER_SEC;
}

/* The names of the lights to fill. */
static inline const char *xw_own_lights(const struct xw_search *search) {
    return search->lights ? search->lights : "";
}

static inline bool xw_own_begin(struct xw_own_work *work, struct xw *xw, const struct xw_search *search) {
    static const struct xw_own_work none = {NULL, NULL, {XW_LIMIT, 0, 0, 101}, XW_NOT_ASKED, NULL, 0, XW_OWN_FIRST, 0};
    *work = none;
    work->xw = xw;
    work->search = search;
    work->size = strlen(xw_own_lights(search)) + 64;
    work->line = (char *)malloc(work->size);
    return work->line != NULL;
}

static inline void xw_own_end(struct xw_own_work *work) {
    xw_forget(&work->asked);
    free(work->line);
}

/* Writes a number, with a space before it. */
static inline char *xw_own_put(char *at, uint64_t number) {
    char digits[20];
    int length = 0;
    *at++ = ' ';
    do {
        digits[length++] = (char)('0' + number % 10);
        number /= 10;
    } while (number);
    while (length)
        *at++ = digits[--length];
    *at = 0;
    return at;
}

/* Sends a command with up to two numbers, and a text after them. */
static inline uint32_t xw_own_send(struct xw_own_work *work, const char *command, const uint64_t *numbers, int count, const char *rest) {
    char *at = work->line + strlen(command);
    int which;
    memcpy(work->line, command, strlen(command));
    for (which = 0; which < count; which++)
        at = xw_own_put(at, numbers[which]);
    *at++ = ' ';
    memcpy(at, rest, strlen(rest) + 1);
    return xw_ask(work->xw, work->line, &work->asked);
}

/* How long the next slice may take, in seconds. */
static inline double xw_own_span(const struct xw_own_work *work) {
    const struct xw_search *search = work->search;
    double span = search->every ? (double)search->every / 1000 : XW_OWN_SPAN, left = (double)search->milliseconds / 1000 - work->spent;
    if (!search->told && !search->flag && work->spent * XW_OWN_PART > span)
        span = work->spent * XW_OWN_PART;
    if (search->milliseconds && left < span)
        span = left > 0 ? left : 0;
    return span;
}

/* The placements of the slice after one that took so many seconds: as many as it made in the time of a slice, and at most twice as many as it had. */
static inline uint64_t xw_own_after(const struct xw_own_work *work, uint64_t placements, double taken) {
    double span = xw_own_span(work), due = (double)placements * 2;
    if (taken > 0 && span / taken < 2)
        due = (double)placements * (span / taken);
    if (due > span * XW_OWN_FASTEST)
        due = span * XW_OWN_FASTEST;
    return due < XW_OWN_FEWEST ? XW_OWN_FEWEST : (uint64_t)due;
}

/* Whether another thread ends the search. */
static inline bool xw_own_is_stopped(const struct xw_search *search) {
    return search->flag && xw_is_stopped(search->flag);
}

/* Sends a slice of a search, and measures it. Once the search is stopped the slice has no placements, and only tells what is wrong with the session or the lights. */
static inline uint32_t xw_own_slice(struct xw_own_work *work, const char *command) {
    const struct xw_search *search = work->search;
    uint64_t rest = search->limit - work->progress.placements, numbers[2];
    double began = xw_own_time(search), taken;
    uint32_t status;
    numbers[0] = search->limit && rest < work->due ? rest : work->due;
    if (xw_own_is_stopped(search))
        numbers[0] = 0;
    numbers[1] = search->seed;
    work->progress.placements += numbers[0];
    status = xw_own_send(work, command, numbers, 2, xw_own_lights(search));
    taken = xw_own_time(search) - began;
    work->spent += taken;
    work->due = xw_own_after(work, numbers[0], taken);
    return status;
}

/* Whether a search that has decided nothing ends after a slice: its placements or its time are used up, or the caller or another thread ends it. */
static inline bool xw_own_is_over(const struct xw_own_work *work) {
    const struct xw_search *search = work->search;
    if (search->told && search->told(search->data, &work->progress))
        return true;
    if (xw_own_is_stopped(search) || (search->milliseconds && work->spent >= (double)search->milliseconds / 1000))
        return true;
    return search->limit && work->progress.placements >= search->limit;
}

/*
 * Fills the named lights, as the command `autofill` does, in slices. `progress` has how it ended, in `found`.
 *
 * Returns XW_ACCEPTED; XW_REFUSED if there is no such light; XW_CLOSED; or XW_MEMORY. In all cases but a fill the grid is as it was, but after XW_MEMORY
 * a fill may stand in it.
 */
static inline uint32_t xw_autofill(struct xw *xw, const struct xw_search *search, struct xw_progress *progress) {
    struct xw_own_work work;
    uint32_t status = xw_own_begin(&work, xw, search) ? XW_ACCEPTED : XW_MEMORY;
    while (status == XW_ACCEPTED) {
        struct xw_span answer, line;
        status = xw_own_slice(&work, "autofill");
        answer = work.asked.answer;
        if (status == XW_ACCEPTED && xw_next_line(&answer, &line))
            work.progress.found = xw_is(line, "filled") ? XW_FILLED : xw_is(line, "nofill") ? XW_NOFILL : XW_LIMIT;
        if (status != XW_ACCEPTED || work.progress.found != XW_LIMIT || xw_own_is_over(&work))
            break;
    }
    *progress = work.progress;
    xw_own_end(&work);
    return status;
}

/* The cells of a grid, row after row: a letter, `#` for a block, `-` for an empty cell. */
struct xw_own_cells {
    char *at;
    size_t length, width;
};

/* Takes the cells out of the answer to `show`, which has a byte between two cells, and lines of bars between the rows. The room is that of the answer. */
static inline uint32_t xw_own_show(struct xw_own_work *work, struct xw_own_cells *cells) {
    struct xw_span answer, line;
    uint32_t status = xw_ask(work->xw, "show", &work->asked);
    size_t at;
    answer = work->asked.answer;
    cells->at = work->asked.room;
    cells->length = cells->width = 0;
    while (status == XW_ACCEPTED && xw_next_line(&answer, &line)) {
        if (line.at[0] == '.' || line.at[0] == '=')
            continue;
        for (at = 0; at < line.length; at += 2)
            cells->at[cells->length++] = line.at[at];
        cells->width = (line.length + 1) / 2;
    }
    return status;
}

/* Takes a copy of the cells in the grid. */
static inline uint32_t xw_own_copy_cells(struct xw_own_work *work, struct xw_own_cells *copy) {
    struct xw_own_cells shown;
    uint32_t status = xw_own_show(work, &shown);
    char *room = status == XW_ACCEPTED ? (char *)realloc(copy->at, shown.length + 1) : NULL;
    if (status != XW_ACCEPTED)
        return status;
    if (!room)
        return XW_MEMORY;
    memcpy(room, shown.at, shown.length);
    copy->at = room;
    copy->length = shown.length;
    copy->width = shown.width;
    return XW_ACCEPTED;
}

/* Makes the letters of one grid those of another, which has the same blocks. */
static inline uint32_t xw_own_turn(struct xw_own_work *work, const struct xw_own_cells *from, const struct xw_own_cells *to) {
    uint32_t status = XW_ACCEPTED;
    char letter[2] = {0, 0};
    uint64_t place[2];
    size_t at;
    for (at = 0; at < to->length && status == XW_ACCEPTED; at++) {
        place[0] = at / to->width + 1;
        place[1] = at % to->width + 1;
        letter[0] = to->at[at];
        if (from->at[at] != to->at[at])
            status = to->at[at] == '-' ? xw_own_send(work, "clear", place, 2, "") : xw_own_send(work, "set", place, 2, letter);
    }
    return status;
}

static inline uint32_t xw_own_set_least(struct xw_own_work *work, uint32_t grade) {
    uint64_t number = grade;
    return xw_own_send(work, "least", &number, 1, "");
}

/* Reads the answer to `best`. Returns whether it is a better fill. A search that has a fill keeps it: with no better one the bound is its grade and one. */
static inline bool xw_own_read_best(struct xw_own_work *work, uint32_t least) {
    struct xw_progress *progress = &work->progress;
    struct xw_span answer = work->asked.answer, line, field;
    bool is_better = false;
    uint32_t grade, bound = 101;
    while (xw_next_line(&answer, &line) && xw_next_field(&line, &field)) {
        if (xw_is(field, "nofill")) {
            bound = least;
            progress->found = progress->found == XW_FILLED ? XW_FILLED : XW_NOFILL;
        }
        if (xw_is(field, "bound"))
            xw_next_number(&line, &bound);
        if (xw_is(field, "least") && xw_next_number(&line, &grade)) {
            is_better = true;
            progress->worst = grade;
            progress->found = XW_FILLED;
        }
    }
    progress->bound = bound < progress->bound ? bound : progress->bound;
    return is_better;
}

/* Whether nothing is left to search for: there is no fill, or no better one. */
static inline bool xw_own_is_proved(const struct xw_progress *progress) {
    return progress->found == XW_NOFILL || (progress->found == XW_FILLED && progress->worst + 1 >= progress->bound);
}

/* Searches for better and better fills. Between two slices the grid is as it was at the start. `best` gets the cells of the best fill. */
static inline uint32_t xw_own_climb(struct xw_own_work *work, const struct xw_own_cells *start, struct xw_own_cells *best) {
    uint32_t status = XW_ACCEPTED;
    do {
        uint32_t least = work->progress.found == XW_FILLED ? work->progress.worst + 1 : work->search->least;
        if ((status = xw_own_set_least(work, least)) != XW_ACCEPTED || (status = xw_own_slice(work, "best")) != XW_ACCEPTED)
            return status;
        if (xw_own_read_best(work, least)) {
            if ((status = xw_own_copy_cells(work, best)) != XW_ACCEPTED || (status = xw_own_turn(work, best, start)) != XW_ACCEPTED)
                return status;
        }
    } while (!xw_own_is_proved(&work->progress) && !xw_own_is_over(work));
    return XW_ACCEPTED;
}

/*
 * Looks for the fill whose worst new word has the best grade, as the command `best` does, in slices. `progress` has how it ended: `found`, `worst` and
 * `bound`. Your function is told each fill that is found. If the search is ended, the best fill so far stands in the grid.
 *
 * Returns XW_ACCEPTED; XW_REFUSED if there is no such light; XW_CLOSED; or XW_MEMORY. In all cases but a fill the grid is as it was. Only after XW_MEMORY
 * some letters of a fill may be in it: free some memory, and enter the letters that you want.
 */
static inline uint32_t xw_best(struct xw *xw, const struct xw_search *search, struct xw_progress *progress) {
    struct xw_own_work work;
    struct xw_own_cells start = {NULL, 0, 0}, best = {NULL, 0, 0};
    uint32_t status = xw_own_begin(&work, xw, search) ? XW_ACCEPTED : XW_MEMORY, ended;
    if (status == XW_ACCEPTED)
        status = xw_own_copy_cells(&work, &start);
    if (status == XW_ACCEPTED) {
        status = xw_own_climb(&work, &start, &best);
        ended = xw_own_set_least(&work, search->least);
        status = status == XW_ACCEPTED ? ended : status;
        if (best.at) {
            ended = xw_own_turn(&work, &start, &best);
            status = status == XW_ACCEPTED ? ended : status;
        }
    }
    *progress = work.progress;
    free(start.at);
    free(best.at);
    xw_own_end(&work);
    return status;
}

/* ---- copying */

/*
 * Opens a second session in the state of the first, over the same word list: it replays the record of the first. The two share nothing, so another thread may
 * use the second. The answer of the first is then its record.
 *
 * Returns XW_ACCEPTED; XW_CLOSED if the first is not open; XW_OPEN if the second is; XW_MEMORY; XW_FULL; or XW_REFUSED if the list is another one. In all
 * cases but the first the second is as it was.
 */
static inline uint32_t xw_copy(struct xw *from, struct xw *to, const void *list, size_t list_length) {
    struct xw_asked asked = XW_NOT_ASKED;
    uint32_t status = xw_record(from);
    if (status == XW_ACCEPTED)
        status = xw_own_take(from, &asked);
    if (status == XW_ACCEPTED)
        status = xw_open(to, list, list_length, "", 0);
    if (status == XW_ACCEPTED) {
        status = xw_resume(to, asked.room, asked.answer.length);
        if (status != XW_ACCEPTED)
            xw_close(to);
    }
    xw_forget(&asked);
    return status;
}

#ifdef __cplusplus
}
#endif

#endif
