/*
 * A session on the library, with the arguments, the answers and the exit statuses of `xw edit`:
 *
 *   session edit [--dict FILE] [--from FILE] [--resume FILE] [--to FILE] [--save FILE] <LINES
 *
 * Its messages are those of the program, except that it reports no counts of a word list and no rebus cells, and calls the
 * file of --resume `record`.
 *
 * It counts the blocks that it and the library allocate, and ends with a message if a closed session has not freed all of its own. For that
 * it is linked with --wrap=malloc, --wrap=realloc and --wrap=free.
 */
#include "xw.h"

#include <stdio.h>
#include <stdlib.h>
#include <string.h>
#include <strings.h>

/* The exit statuses of the program. */
enum { ACCEPTED, REFUSED, USAGE, FORMAT, FAILED };

struct bytes {
    uint8_t *at;
    size_t length;
};

/* The blocks that are allocated and not freed. */
static size_t blocks;

void *__real_malloc(size_t), *__real_realloc(void *, size_t), __real_free(void *);

void *__wrap_malloc(size_t size) {
    void *block = __real_malloc(size);
    blocks += block != NULL;
    return block;
}

void *__wrap_realloc(void *block, size_t size) {
    void *moved = __real_realloc(block, size);
    blocks += !block && moved;
    return moved;
}

void __wrap_free(void *block) {
    blocks -= block != NULL;
    __real_free(block);
}

/* Ends the run with a message. */
static void end(int status, const char *file, const char *what) {
    fflush(stdout);
    if (file)
        fprintf(stderr, "xw: %s: %s\n", file, what);
    else
        fprintf(stderr, "xw: %s\n", what);
    exit(status);
}

static struct bytes room(size_t length) {
    struct bytes made = {malloc(length ? length : 1), length};
    if (!made.at)
        end(FAILED, NULL, "memory");
    return made;
}

/* All bytes of a stream. */
static struct bytes all_of(FILE *stream, const char *file) {
    struct bytes all = room(1 << 16);
    size_t length = 0;
    for (;;) {
        length += fread(all.at + length, 1, all.length - length, stream);
        if (length < all.length)
            break;
        struct bytes more = room(2 * all.length);
        memcpy(more.at, all.at, length);
        free(all.at);
        all = more;
    }
    if (ferror(stream))
        end(FAILED, file, "cannot read");
    all.length = length;
    return all;
}

static struct bytes file_of(const char *file) {
    FILE *stream = file ? fopen(file, "rb") : NULL;
    if (!file)
        return room(0);
    if (!stream)
        end(FAILED, file, "cannot read");
    struct bytes all = all_of(stream, file);
    fclose(stream);
    return all;
}

/* The answer to the last call: its length first, then its bytes. */
static struct bytes answer_of(struct xw *xw) {
    uint8_t none;
    struct bytes answer = room(xw_answer(xw, &none, 0));
    if (xw_answer(xw, answer.at, answer.length) != answer.length)
        end(FAILED, NULL, "the answer has two lengths");
    return answer;
}

static void put(struct xw *xw, FILE *stream) {
    struct bytes answer = answer_of(xw);
    fwrite(answer.at, 1, answer.length, stream);
    fflush(stream);
    free(answer.at);
}

static void put_file(struct xw *xw, const char *file) {
    FILE *stream = fopen(file, "wb");
    if (!stream)
        end(FAILED, file, "cannot write");
    put(xw, stream);
    if (fclose(stream))
        end(FAILED, file, "cannot write");
}

/* Ends the run unless the call was done. */
static void expect_done(uint32_t status, const char *file) {
    if (status == XW_MEMORY)
        end(FAILED, NULL, "memory");
    if (status != XW_ACCEPTED)
        end(FORMAT, file, xw_status_name(status));
}

static void open_session(struct xw *xw, const char *dict, const char *from) {
    struct bytes list = file_of(dict), puzzle = file_of(from);
    uint32_t status = xw_open(xw, list.at, list.length, puzzle.at, puzzle.length);
    expect_done(status, status == XW_FULL ? dict : from);
    if (xw_open(xw, list.at, list.length, puzzle.at, puzzle.length) != XW_OPEN)
        end(FAILED, NULL, "a session was opened twice");
    free(list.at);
    free(puzzle.at);
}

/* Whether the answer to a replay names a refused line. */
static bool has_refused(struct xw *xw) {
    static const char line[] = "xw: record: line ";
    struct bytes answer = answer_of(xw);
    bool is_found = false;
    for (size_t at = 0; at + sizeof line <= answer.length; at++)
        is_found |= !memcmp(answer.at + at, line, sizeof line - 1);
    free(answer.at);
    return is_found;
}

/* Replays a file, and returns whether a line was refused. */
static bool resume(struct xw *xw, const char *file) {
    struct bytes lines = file_of(file);
    uint32_t status = xw_resume(xw, lines.at, lines.length);
    free(lines.at);
    put(xw, stderr);
    if (status == XW_NO_COMMAND)
        exit(FORMAT);
    if (status != XW_REFUSED && status != XW_CUT)
        expect_done(status, file);
    return has_refused(xw);
}

/* Answers the lines, and returns whether one was refused. */
static bool converse(struct xw *xw, struct bytes lines) {
    bool is_refused = false;
    for (size_t from = 0; from < lines.length;) {
        const uint8_t *line = lines.at + from, *stop = memchr(line, '\n', lines.length - from);
        size_t length = stop ? (size_t)(stop - line) : lines.length - from;
        uint32_t status = xw_line(xw, line, length);
        put(xw, stdout);
        if (status == XW_REFUSED)
            is_refused = true;
        else if (status != XW_SILENT)
            expect_done(status, NULL);
        from += length + 1;
    }
    return is_refused;
}

int main(int count, char **words) {
    static const char *const names[] = {"--dict", "--from", "--resume", "--to", "--save"};
    const char *files[] = {NULL, NULL, NULL, NULL, NULL};
    if (count % 2 || strcmp(words[1], "edit"))
        return USAGE;
    for (int at = 2; at < count; at += 2) {
        int which = 0;
        while (which < 5 && strcmp(words[at], names[which]))
            which++;
        if (which == 5)
            return USAGE;
        files[which] = words[at + 1];
    }

    struct xw xw = {0};
    size_t before = blocks;
    if (xw_line(&xw, (const uint8_t *)"show", 4) != XW_CLOSED)
        end(FAILED, NULL, "a line was answered without a session");
    open_session(&xw, files[0], files[1]);
    bool is_refused = files[2] && resume(&xw, files[2]);
    struct bytes lines = all_of(stdin, "input");
    is_refused |= converse(&xw, lines);
    free(lines.at);
    if (files[4]) {
        expect_done(xw_record(&xw), files[4]);
        put_file(&xw, files[4]);
    }
    if (files[3]) {
        size_t length = strlen(files[3]);
        bool is_puz = length >= 4 && !strcasecmp(files[3] + length - 4, ".puz");
        expect_done(is_puz ? xw_puz(&xw) : xw_text(&xw), files[3]);
        put_file(&xw, files[3]);
    }
    xw_close(&xw);
    if (xw.is_open || xw.held.at || xw_puz(&xw) != XW_CLOSED)
        end(FAILED, NULL, "a closed session is open");
    xw_close(&xw);
    if (blocks != before)
        end(FAILED, NULL, "a closed session has blocks that are not freed");
    return is_refused ? REFUSED : ACCEPTED;
}
