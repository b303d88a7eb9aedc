/*
 * xw: a crossword construction engine. docs/embedding.md has a whole program. Link libxw.so or libxw.a. xw_lines.h reads answers, searches in slices
 * and copies a session, by these calls.
 *
 * SESSIONS. A session is a struct xw of yours. Begin with XW_NO_SESSION, or with all bytes zero, open it, send lines, read answers, close it:
 *
 *     struct xw xw = XW_NO_SESSION;
 *     uint32_t status = xw_open(&xw, list, list_length, puzzle, puzzle_length);
 *     if (status != XW_ACCEPTED)
 *         return fail(xw_status_name(status));
 *     xw_line(&xw, line, line_length);
 *     size_t length = xw_answer(&xw, buffer, sizeof buffer);
 *     xw_close(&xw);
 *
 * The fields are private. Do not change them, and do not copy the struct while the session is open. To keep them out of your own headers,
 * use the struct as an opaque handle. The name is enough to pass pointers around:
 *
 *     typedef struct xw session;                        in your header, which need not include xw.h
 *     session *opened = calloc(1, sizeof(struct xw));   in the file that opens sessions
 *     xw_close(opened), free(opened);                   in the file that closes them
 *
 * POINTERS. A range of bytes whose length is 0 may be at a null pointer. No other pointer may be null. The ranges of bytes given to one call
 * do not overlap each other or the struct. A call reads or writes only the bytes that it is given, and keeps no pointer to them. A range may
 * have any bytes and needs no NUL at its end.
 *
 * THREADS. A session is used by one thread at a time. Different sessions may be used by different threads at once: they share nothing.
 * xw_stop of xw_lines.h ends a search from another thread.
 *
 * MEMORY. The library calls malloc, realloc and free. It opens no file and prints nothing. If an allocation fails, the call returns
 * XW_MEMORY. A session that was open is still open: free some memory and repeat the call, or save by xw_record and close.
 *
 * TEXTS. Titles, clues and notes are bytes. Solving programs read those of a .puz file as Windows-1252, so convert your strings.
 *
 * STATUSES. Each call returns one of enum xw_status, except xw_answer, xw_close, xw_version and xw_status_name. A later library may return others:
 * treat an unknown one as a refusal.
 */
#ifndef XW_H
#define XW_H

#include <stdbool.h>
#include <stddef.h>
#include <stdint.h>

#ifdef __cplusplus
extern "C" {
#endif

/* The version of this header: 1,000,000 for each major version, 1,000 for each minor one, and 1 for each patch. 0.3.0 is 3000. */
#define XW_LIBRARY_VERSION 3000

/* An open session, or none if all bytes are zero. The fields are private. */
struct xw {
    struct {
        uint8_t *at;
    } held;
    bool is_open;
};

/* The value of a struct xw without a session, to begin with. */
#define XW_NO_SESSION {{NULL}, false}

/* How a call ends. The numbers stay; a later library may have more. */
enum xw_status {
    /* the call was done; a line was accepted */
    XW_ACCEPTED = 0,
    /* the line was refused, or some lines of a record were: the answer has the name */
    XW_REFUSED = 1,
    /* the line is blank or a comment, which has no answer */
    XW_SILENT = 2,
    /* there is no open session */
    XW_CLOSED = 3,
    /* there is an open session already */
    XW_OPEN = 4,
    /* an allocation failed; an open session stays open */
    XW_MEMORY = 5,
    /* a line of a record is not a command: the answer has its number and the reason */
    XW_NO_COMMAND = 6,
    /* the word list has too many words of one length */
    XW_FULL = 7,

    /* why a puzzle is not read: docs/formats.md */
    XW_SHORT = 8,
    XW_MAGIC = 9,
    XW_VERSION = 10,
    XW_SCRAMBLED = 11,
    XW_SIZE = 12,
    XW_NO_NUL = 13,
    XW_BAD_SUM = 14,
    XW_BAD_CELL = 15,
    XW_CLUE_COUNT = 16,
    XW_HEADER = 17,
    XW_TAG = 18,
    XW_SIZE_LINE = 19,
    XW_GRID_LINE = 20,
    XW_ACROSS_COUNT = 21,
    XW_DOWN_COUNT = 22,
    XW_NUL_BYTE = 23,
    XW_GEXT_SIZE = 24,
    XW_GEXT_SUM = 25,

    /* why a puzzle is not written in a format: docs/formats.md */
    XW_BARRED = 26,
    XW_NOT_FILLED = 27,
    XW_FIELD = 28,
    XW_CIRCLED = 29,

    /* the end of a record was cut off, and was dropped */
    XW_CUT = 30
};

/*
 * Opens a session.
 *
 * `list` is a word list, one word on each line (docs/formats.md, "Word lists"). `puzzle` is a .puz or text file; if it has no bytes, the
 * session starts with an empty grid of 15 rows and columns. Lines of the list that are not words are skipped. The answer is empty.
 *
 * Returns
 *   XW_ACCEPTED                      the session is open; close it by xw_close
 *   XW_OPEN                          the struct has an open session already, which stays as it was: close it first
 *   XW_FULL                          the list has more than 1,048,576 words of one length: use a shorter list
 *   XW_SHORT to XW_GEXT_SUM          the puzzle is not read: show xw_status_name
 *   XW_MEMORY                        an allocation failed
 * In all cases but the first the struct stays as it was.
 *
 * Time: it grows with the list. 280,000 words in alphabetical order take 0.1 to 0.2 s.
 */
uint32_t xw_open(struct xw *xw, const void *list, size_t list_length, const void *puzzle, size_t puzzle_length);

/*
 * Replays the lines of a record, such as xw_record makes and `xw edit --save` writes. It stops after the first line that is not a command.
 * The answer has a line "xw: record: line N: NAME" for each refused line, and for the line that is not a command.
 *
 * A record that begins with the line "# xw session 1", such as a file of `xw edit`, may have been cut off while it was written. As in `xw edit`,
 * a last line without a line feed and a search without its line "# xw end" are dropped. The answer then begins with the line
 * "xw: record: an incomplete last command is ignored". If a kill may cut your file, write "# xw session 1" before what xw_record makes.
 *
 * Returns
 *   XW_ACCEPTED       all lines were accepted
 *   XW_REFUSED        some were refused, and have no effect: show the answer
 *   XW_CUT            the end of the record was cut off, and was dropped: show the answer, which also names each refused line
 *   XW_NO_COMMAND     a line is not a command, so this is not a record. The lines before it were executed: close the session
 *   XW_CLOSED         there is no open session
 *   XW_MEMORY         an allocation failed. Some lines may have been executed: close the session and start again
 *
 * Time: the sum over its lines.
 */
uint32_t xw_resume(struct xw *xw, const void *record, size_t record_length);

/*
 * Answers one line of commands, without a line feed at its end (docs/commands.md). The answer is what `xw edit` prints: lines and then
 * "ok", or "no NAME", each with a line feed.
 *
 * Returns
 *   XW_ACCEPTED       the answer ends with "ok"
 *   XW_REFUSED        the answer is "no NAME", and nothing has changed. docs/front-ends.md says what each name means to a user
 *   XW_SILENT         the line is blank or a comment, and the answer is empty
 *   XW_CLOSED         there is no open session
 *   XW_MEMORY         there was no memory for the answer, which is empty. The line may have been executed: send `show`
 * If there is no memory for the command itself, it is refused like any other: XW_REFUSED, and "no Memory".
 *
 * Time, in a grid of 15 by 15 with 280,000 words: an edit of a letter takes some hundredths of a millisecond, and a query at most some
 * milliseconds. But `choices` takes 0.1 to 1 ms for each word that it lists, and `suggest` and `why` take up to 0.2 s. A search takes as long as
 * its number of placements allows, and cannot be stopped while it runs: call xw_autofill or xw_best of xw_lines.h, which search in slices, or send
 * `autofill` with 1,000 to 3,000 placements, 0.1 to 0.3 s, again and again (docs/embedding.md, "Searches").
 */
uint32_t xw_line(struct xw *xw, const void *line, size_t line_length);

/*
 * Makes a .puz file of the puzzle. The answer has its bytes.
 *
 * Returns
 *   XW_ACCEPTED                      the answer is the file
 *   XW_BARRED to XW_FIELD            the format cannot hold the puzzle, for example because a cell is empty; keep it by xw_record
 *   XW_CLOSED                        there is no open session
 *   XW_MEMORY                        an allocation failed
 * In all cases but the first the answer is empty.
 *
 * Time: it grows with the cells and the texts, and is some milliseconds for the largest grid.
 */
uint32_t xw_puz(struct xw *xw);

/*
 * Makes a text file of the puzzle, as xw_puz. It also returns XW_CIRCLED: a text file has no circles.
 */
uint32_t xw_text(struct xw *xw);

/*
 * Makes the record of the session: lines of commands. Replaying them by xw_resume, in a new session over the same word list, restores the
 * session. A record holds what no puzzle file can, such as bars and empty cells. To save it, write it to a new file, and rename that over
 * the old one.
 *
 * Returns
 *   XW_ACCEPTED       the answer is the record
 *   XW_CLOSED         there is no open session
 *   XW_MEMORY         an allocation failed; the answer is empty
 *
 * Time: it grows with the word list, the cells and the texts.
 */
uint32_t xw_record(struct xw *xw);

/*
 * Copies the answer to the last call into `out`, as much of it as there is room for, and returns its whole length. If this is more than
 * `out_length`, call again with more room: the answer stays until the next other call. It has no NUL at its end. Without an open session it
 * is empty, and the length is 0.
 *
 * Time: that of copying the bytes.
 */
size_t xw_answer(struct xw *xw, void *out, size_t out_length);

/*
 * Closes the session and frees all that it holds. All bytes of the struct that matter are zero again, so it can be opened again. Without an
 * open session it does nothing, so it can be called twice.
 *
 * Time: it grows with the word list and the cells, and is some milliseconds for 280,000 words.
 */
void xw_close(struct xw *xw);

/*
 * Copies the version of the library into `out`, as much of it as there is room for, and returns its whole length. The text is that of
 * `xw --version`, such as "xw 0.3.0 (protocol 1)", without a line feed or a NUL. It needs no session. It takes the time of copying the text.
 *
 * This is the version of the library that is loaded. XW_LIBRARY_VERSION is that of the header.
 */
size_t xw_version(void *out, size_t out_length);

/*
 * The name of a status, as the program spells it, such as "NotFilled", or "Unknown" for a number that is no status of the library. It needs no
 * session. The string is constant, ends with a NUL, and stays as long as the library is loaded; the pointer is never null.
 *
 * Time: some nanoseconds.
 */
const char *xw_status_name(uint32_t status);

/*
 * The functions of the library take no null pointer. In C and C++ these macros give them the address of a byte in place of one. Other languages, and
 * calls by the address of a function, pass the address of any byte for an empty range. Names that begin with xw_own_ are private.
 */
static inline const void *xw_own_range(const void *at) {
    return at ? at : "";
}

static inline void *xw_own_room(void *at) {
    static char none;
    return at ? at : &none;
}

#define xw_open(xw, list, list_length, puzzle, puzzle_length) \
    xw_open(xw, xw_own_range(list), list_length, xw_own_range(puzzle), puzzle_length)
#define xw_resume(xw, record, record_length) xw_resume(xw, xw_own_range(record), record_length)
#define xw_line(xw, line, line_length) xw_line(xw, xw_own_range(line), line_length)
#define xw_answer(xw, out, out_length) xw_answer(xw, xw_own_room(out), out_length)
#define xw_version(out, out_length) xw_version(xw_own_room(out), out_length)

#ifdef __cplusplus
}
#endif

#endif
