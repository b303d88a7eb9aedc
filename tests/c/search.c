/*
 * Searches by xw_lines.h, and tells each step:
 *
 *   search WORDS RECORD autofill|best LIMIT STOP SEED [LIGHTS]
 *
 * By the clock of the search each slice takes as long as it may, and each fifth half as long, so that slices have twice as many placements after every five; with
 * the variable PACE each takes so many milliseconds. The search is ended when the function has been called STOP times; 0 for never; after the time of the variable
 * MILLISECONDS, if it is there; and before it begins by a flag, with the variable STOPPED. It runs in a copy of the session, whose first is closed. The last lines
 * are how the search ended, and the grid.
 */
#include <xw_lines.h>

#include <stdio.h>

struct steps {
    unsigned left;
    bool is_counted;
};

static bool told(void *data, const struct xw_progress *progress) {
    struct steps *steps = (struct steps *)data;
    printf("%llu %d %u\n", (unsigned long long)progress->placements, progress->found == XW_FILLED ? (int)progress->worst : -1, (unsigned)progress->bound);
    return steps->is_counted && --steps->left == 0;
}

/* How long a slice may take, in milliseconds. */
#define SPAN 125.0

/* A clock that is read when a slice begins, and when it ends; it begins at 0 with each slice. */
static double paced(void) {
    static unsigned reads = 0;
    const char *pace = getenv("PACE");
    double span = pace ? atof(pace) : reads % 10 == 9 ? SPAN / 2 : SPAN;
    return reads++ % 2 ? span / 1000 : 0;
}

/* The bytes of a file, which the caller frees; null if it cannot be read. */
static char *contents(const char *path, size_t *length) {
    FILE *file = fopen(path, "rb");
    char *bytes = (char *)malloc(1 << 24);
    *length = file && bytes ? fread(bytes, 1, 1 << 24, file) : 0;
    if (file)
        fclose(file);
    return bytes;
}

/* A copy of a session on these files. The first session is closed. */
static uint32_t open_copy(struct xw *copy, const char *words, const char *commands) {
    struct xw xw = XW_NO_SESSION;
    size_t list_length, record_length;
    char *list = contents(words, &list_length), *record = contents(commands, &record_length);
    uint32_t status = list && record ? xw_open(&xw, list, list_length, "", 0) : (uint32_t)XW_MEMORY;
    if (status == XW_ACCEPTED)
        status = xw_resume(&xw, record, record_length);
    if (status == XW_ACCEPTED)
        status = xw_copy(&xw, copy, list, list_length);
    xw_close(&xw);
    free(list);
    free(record);
    return status;
}

int main(int count, char **words) {
    static const char *const found[] = {"limit", "filled", "nofill"};
    struct xw xw = XW_NO_SESSION;
    struct xw_asked asked = XW_NOT_ASKED;
    struct xw_search search = XW_SEARCH;
    struct xw_progress progress;
    struct xw_flag flag = XW_FLAG;
    struct steps steps;
    uint32_t status;
    if (count < 7)
        return 2;
    status = open_copy(&xw, words[1], words[2]);
    steps.left = (unsigned)atoi(words[5]);
    steps.is_counted = steps.left > 0;
    search.limit = strtoull(words[4], NULL, 10);
    search.seed = (uint32_t)atoi(words[6]);
    search.lights = count > 7 ? words[7] : NULL;
    search.told = told;
    search.clock = paced;
    search.every = getenv("PACE") ? 0 : (uint32_t)SPAN;
    search.data = &steps;
    search.milliseconds = getenv("MILLISECONDS") ? (uint32_t)atoi(getenv("MILLISECONDS")) : 0;
    if (getenv("STOPPED")) {
        search.flag = &flag;
        xw_stop(&flag);
    }
    if (status == XW_ACCEPTED)
        status = strcmp(words[3], "best") ? xw_autofill(&xw, &search, &progress) : xw_best(&xw, &search, &progress);
    if (status != XW_ACCEPTED) {
        printf("%s\n", xw_status_name(status));
    } else {
        printf("%s\n", found[progress.found]);
        if (progress.found == XW_FILLED && !strcmp(words[3], "best"))
            printf("%u %u\n", (unsigned)progress.worst, (unsigned)progress.bound);
    }
    if (xw_ask(&xw, "show", &asked) == XW_ACCEPTED)
        printf("%.*s", (int)asked.answer.length, asked.answer.at);
    xw_forget(&asked);
    xw_close(&xw);
    return 0;
}
