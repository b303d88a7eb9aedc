/*
 * A small front end, written from include/xw.h and docs/: it fills a grid from a word list and writes the puzzle.
 *
 *   front_end WORDS PUZZLE.puz
 */
#include <xw.h>

#include <stdio.h>
#include <stdlib.h>
#include <string.h>

/* The session as the rest of a program knows it. */
typedef struct xw session;

static int fail(const char *what, const char *why) {
    fprintf(stderr, "front_end: %s: %s\n", what, why);
    return 1;
}

/* The bytes of a file, with their number; null if it cannot be read. */
static uint8_t *contents(const char *path, size_t *length) {
    FILE *file = fopen(path, "rb");
    uint8_t *bytes = NULL;
    *length = 0;
    while (file) {
        uint8_t *longer = realloc(bytes, *length + 4096);
        if (!longer)
            break;
        bytes = longer;
        size_t read = fread(bytes + *length, 1, 4096, file);
        *length += read;
        if (read < 4096)
            break;
    }
    if (file)
        fclose(file);
    return bytes;
}

/* The answer to the last call, with a NUL after it; null if there is no memory. */
static char *answer(session *xw, size_t *length) {
    uint8_t none;
    *length = xw_answer(xw, &none, 0);
    char *text = malloc(*length + 1);
    if (text) {
        xw_answer(xw, (uint8_t *)text, *length);
        text[*length] = 0;
    }
    return text;
}

/* Sends a line and prints it with its answer. Returns whether the answer begins so. */
static bool ask(session *xw, const char *line, const char *beginning) {
    size_t length;
    uint32_t status = xw_line(xw, (const uint8_t *)line, strlen(line));
    char *text = answer(xw, &length);
    bool begins = text && !strncmp(text, beginning, strlen(beginning));
    printf("%s (%s)\n%s", line, xw_status_name(status), text ? text : "");
    free(text);
    return begins;
}

/* Searches in slices, so that a program could stop between two of them. */
static bool fill(session *xw) {
    for (int slice = 0; slice < 100; slice++) {
        if (!ask(xw, "autofill 2000 0", "limit"))
            return ask(xw, "show", "");
    }
    return false;
}

static int save(session *xw, const char *path) {
    size_t length;
    uint32_t status = xw_puz(xw);
    if (status != XW_ACCEPTED)
        return fail(path, xw_status_name(status));
    char *bytes = answer(xw, &length);
    FILE *file = fopen(path, "wb");
    bool is_written = bytes && file && fwrite(bytes, 1, length, file) == length;
    if (file)
        is_written = !fclose(file) && is_written;
    free(bytes);
    return is_written ? 0 : fail(path, "cannot write");
}

int main(int count, char **words) {
    if (count != 3)
        return fail("usage", "front_end WORDS PUZZLE.puz");
    size_t length;
    uint8_t *list = contents(words[1], &length);
    if (!list)
        return fail(words[1], "cannot read");
    session *xw = calloc(1, sizeof(struct xw));
    uint32_t status = xw ? xw_open(xw, list, length, list, 0) : XW_MEMORY;
    free(list);
    if (status != XW_ACCEPTED) {
        free(xw);
        return fail(words[1], xw_status_name(status));
    }
    int ended = 1;
    /* the bytes of a text are Windows-1252 */
    if (ask(xw, "size 5 5", "ok") && ask(xw, "title Caf\xe9 \x92", "ok") && !ask(xw, "set 9 99 A", "ok") && fill(xw))
        ended = save(xw, words[2]);
    xw_close(xw);
    free(xw);
    return ended;
}
