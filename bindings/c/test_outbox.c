/* Outboxes over files, in a folder that is made here: what each call answers, that a site takes
 * their rows, also in the same file, and that all that was answered is there after the process was
 * killed. The last line is 'N passed, M failed'. */
#define _DEFAULT_SOURCE
#include "jumbetai.h"
#include "test.h"
#include <fcntl.h>
#include <signal.h>
#include <stdio.h>
#include <stdlib.h>
#include <string.h>
#include <sys/wait.h>
#include <unistd.h>

#define NOON "2024-02-29T12:00:00Z"
#define LARGEST 9223372036854775807u

/* The event of a row, without a line end. `source` is as JSON has it. */
static const char *event_of(const char *source, uint64_t number, uint64_t order, const char *kind) {
    static char made[4096];
    unsigned long long n = number, o = order;
    snprintf(made, sizeof made,
             "{\"id\":\"%020llu\",\"sequence\":\"%020llu\",\"source\":\"%s\",\"specversion\":"
             "\"1.0\",\"subject\":\"%llu\",\"time\":\"" NOON "\",\"type\":\"order.%s\"}",
             n, n, source, o, kind);
    return made;
}

/* Whether a text is this one with an end, and all of it. Gives it back. */
static int is_text(jumbetai_text *text, const char *want, const char *end) {
    size_t length = strlen(want);
    int is = text->bytes && text->length == length + strlen(end) && text->events == 0 &&
             !memcmp(text->bytes, want, length) && !strcmp(text->bytes + length, end);
    jumbetai_free(text);
    return is && !text->bytes;
}

static int is_nothing(const jumbetai_text *text) {
    return !text->bytes && !text->length && !text->events;
}

static int has(const jumbetai_outbox *outbox, uint64_t base, uint64_t last, uint64_t orders) {
    jumbetai_order_counts counts = {9, 9, 9};
    jumbetai_outbox_counts(outbox, &counts);
    return counts.base == base && counts.last == last && counts.orders == orders;
}

/* Does something with an order at noon; whether it is done, with this event. */
static int does(jumbetai_outbox *outbox, int action, uint64_t order, const char *want) {
    jumbetai_text event;
    return !jumbetai_order(outbox, action, order, NOON, &event) && is_text(&event, want, "\n");
}

/* The status of something that isn't done; -1 where it tells an event or changes the counts. */
static int refused(jumbetai_outbox *outbox, int action, uint64_t order, const char *time) {
    jumbetai_order_counts before, after;
    jumbetai_text event;
    jumbetai_outbox_counts(outbox, &before);
    int status = jumbetai_order(outbox, action, order, time, &event);
    jumbetai_outbox_counts(outbox, &after);
    return is_nothing(&event) && !memcmp(&before, &after, sizeof after) ? status : -1;
}

static void try_orders(void) {
    jumbetai_outbox *outbox = NULL;
    jumbetai_text event;
    IS(jumbetai_open_outbox("a.db", NULL, 0, 0, &outbox), JUMBETAI_DONE);
    IS(has(outbox, 0, 0, 0), 1);
    IS(refused(outbox, JUMBETAI_SHIP, 7, NOON), JUMBETAI_NO_ORDER);
    IS(refused(outbox, JUMBETAI_CANCEL, 7, NOON), JUMBETAI_NO_ORDER);
    IS(does(outbox, JUMBETAI_PLACE, 7, event_of("/orders", 1, 7, "placed")), 1);
    IS(has(outbox, 0, 1, 1), 1);
    IS(refused(outbox, JUMBETAI_PLACE, 7, NOON), JUMBETAI_ORDER_EXISTS);
    IS(does(outbox, JUMBETAI_SHIP, 7, event_of("/orders", 2, 7, "shipped")), 1);
    IS(has(outbox, 0, 2, 1), 1);
    IS(refused(outbox, JUMBETAI_SHIP, 7, NOON), JUMBETAI_WRONG_STATE);
    IS(refused(outbox, JUMBETAI_CANCEL, 7, NOON), JUMBETAI_WRONG_STATE);
    IS(refused(outbox, JUMBETAI_PLACE, 7, NOON), JUMBETAI_ORDER_EXISTS);
    IS(does(outbox, JUMBETAI_PLACE, LARGEST, event_of("/orders", 3, LARGEST, "placed")), 1);
    IS(does(outbox, JUMBETAI_CANCEL, LARGEST, event_of("/orders", 4, LARGEST, "cancelled")), 1);
    IS(refused(outbox, JUMBETAI_SHIP, LARGEST, NOON), JUMBETAI_WRONG_STATE);
    IS(jumbetai_order(outbox, JUMBETAI_PLACE, 8, "2024-02-29T12:00:00.123456789+01:00", NULL),
       JUMBETAI_DONE);
    IS(jumbetai_order(outbox, JUMBETAI_PLACE, 8, NOON, NULL), JUMBETAI_ORDER_EXISTS);
    IS(has(outbox, 0, 5, 3), 1);
    /* What isn't a number, a moment or an action. */
    IS(refused(outbox, JUMBETAI_PLACE, 0, NOON), JUMBETAI_BAD_ORDER);
    IS(refused(outbox, JUMBETAI_PLACE, LARGEST + 1, NOON), JUMBETAI_BAD_ORDER);
    IS(refused(outbox, JUMBETAI_SHIP, UINT64_MAX, NOON), JUMBETAI_BAD_ORDER);
    IS(refused(outbox, JUMBETAI_PLACE, 9, ""), JUMBETAI_BAD_TIME);
    IS(refused(outbox, JUMBETAI_PLACE, 9, "yesterday"), JUMBETAI_BAD_TIME);
    IS(refused(outbox, JUMBETAI_PLACE, 9, "2024-02-30T12:00:00Z"), JUMBETAI_BAD_TIME);
    IS(refused(outbox, JUMBETAI_PLACE, 9, "2024-02-29 12:00:00"), JUMBETAI_BAD_TIME);
    IS(refused(outbox, JUMBETAI_PLACE, 9, NOON "\n"), JUMBETAI_BAD_TIME);
    IS(refused(outbox, JUMBETAI_PLACE, 9, "\xff"), JUMBETAI_BAD_TIME);
    IS(refused(outbox, JUMBETAI_PLACE, 9,
               "2024-02-29T12:00:00.000000000000000000000000000000000000000000000Z"),
       JUMBETAI_BAD_TIME);
    IS(refused(outbox, 0, 9, NOON), JUMBETAI_NO_SUCH_ACTION);
    IS(refused(outbox, JUMBETAI_CANCEL + 1, 9, NOON), JUMBETAI_NO_SUCH_ACTION);
    IS(refused(outbox, -1, 9, NOON), JUMBETAI_NO_SUCH_ACTION);
    IS(refused(outbox, JUMBETAI_PLACE, 9, NULL), JUMBETAI_BAD_ARGUMENT);
    IS(jumbetai_order(NULL, JUMBETAI_PLACE, 9, NOON, &event), JUMBETAI_BAD_ARGUMENT);
    IS(is_nothing(&event), 1);
    /* A text is the caller's, whatever becomes of the outbox. */
    IS(jumbetai_order(outbox, JUMBETAI_CANCEL, 8, NOON, &event), JUMBETAI_DONE);
    jumbetai_close_outbox(outbox);
    IS(is_text(&event, event_of("/orders", 6, 8, "cancelled"), "\n"), 1);
    IS(jumbetai_open_outbox("a.db", NULL, 0, 0, &outbox), JUMBETAI_DONE);
    IS(has(outbox, 0, 6, 3), 1);
    IS(refused(outbox, JUMBETAI_PLACE, 8, NOON), JUMBETAI_ORDER_EXISTS);
    IS(refused(outbox, JUMBETAI_SHIP, 7, NOON), JUMBETAI_WRONG_STATE);
    jumbetai_close_outbox(outbox);
}

static void try_rows(void) {
    jumbetai_outbox *outbox;
    jumbetai_text text;
    char want[5000] = "";
    IS(jumbetai_open_outbox("r.db", "/north", 0, 0, &outbox), JUMBETAI_DONE);
    IS(jumbetai_rows(outbox, 0, &text), JUMBETAI_DONE);
    IS(text.events, 0);
    IS(is_text(&text, "[]", "\n"), 1);
    for (uint64_t order = 1; order <= 250; order++)
        IS(jumbetai_order(outbox, JUMBETAI_PLACE, order, NOON, NULL), JUMBETAI_DONE);
    uint64_t after = 0, pages = 0;
    for (;; pages++) {
        IS(jumbetai_rows(outbox, after, &text), JUMBETAI_DONE);
        IS(text.events, pages < 2 ? 100 : pages == 2 ? 50 : 0);
        uint64_t events = text.events;
        if (events) {
            const char *first = event_of("/north", after + 1, after + 1, "placed");
            IS(strncmp(text.bytes + 1, first, strlen(first)), 0);
            const char *last = event_of("/north", after + events, after + events, "placed");
            IS(strncmp(text.bytes + text.length - 2 - strlen(last), last, strlen(last)), 0);
        }
        jumbetai_free(&text);
        if (!events) break;
        after += events;
    }
    IS(pages, 3);
    IS(after, 250);
    strcat(strcat(want, "["), event_of("/north", 249, 249, "placed"));
    strcat(strcat(want, ","), event_of("/north", 250, 250, "placed"));
    IS(jumbetai_rows(outbox, 248, &text), JUMBETAI_DONE);
    IS(text.events, 2);
    text.events = 0;
    IS(is_text(&text, want, "]\n"), 1);
    IS(jumbetai_rows(outbox, UINT64_MAX, &text), JUMBETAI_DONE);
    IS(is_text(&text, "[]", "\n"), 1);
    IS(jumbetai_rows(NULL, 0, &text), JUMBETAI_BAD_ARGUMENT);
    IS(is_nothing(&text), 1);
    IS(jumbetai_rows(outbox, 0, NULL), JUMBETAI_BAD_ARGUMENT);
    IS(has(outbox, 0, 250, 250), 1);
    jumbetai_outbox_counts(outbox, NULL);
    IS(has(NULL, 0, 0, 0), 1);
    jumbetai_close_outbox(outbox);
    jumbetai_close_outbox(NULL);
}

/* What opening with a source and a base answers; what was opened is closed. */
static int opened_as(const char *path, const char *source, uint64_t base) {
    jumbetai_outbox *outbox;
    int status = jumbetai_open_outbox(path, source, base, 0, &outbox);
    if (!status != (outbox != NULL)) status = -1;
    jumbetai_close_outbox(outbox);
    return status;
}

static void try_sources(void) {
    static char longest[1026], escaped[2049];
    jumbetai_outbox *outbox;
    jumbetai_text text;
    memset(longest, '"', 1025);
    for (int i = 0; i < 2048; i += 2)
        memcpy(escaped + i, "\\\"", 2);
    IS(opened_as("s.db", "", 0), JUMBETAI_BAD_SOURCE);
    IS(opened_as("s.db", longest, 0), JUMBETAI_BAD_SOURCE);
    IS(opened_as("s.db", "a\nb", 0), JUMBETAI_BAD_SOURCE);
    IS(opened_as("s.db", "\xff", 0), JUMBETAI_BAD_SOURCE);
    IS(opened_as("s.db", NULL, LARGEST + 1), JUMBETAI_BAD_SOURCE);
    IS(opened_as("s.db", "/west", UINT64_MAX), JUMBETAI_BAD_SOURCE);
    /* None of them has made one, and what is there keeps its source and its base. */
    IS(opened_as("s.db", "/west", 100), JUMBETAI_DONE);
    IS(opened_as("s.db", "/east", 100), JUMBETAI_ANOTHER_SOURCE);
    IS(opened_as("s.db", "/west/", 100), JUMBETAI_ANOTHER_SOURCE);
    IS(opened_as("s.db", "/orders", 100), JUMBETAI_ANOTHER_SOURCE);
    IS(jumbetai_open_outbox("s.db", NULL, 7, 1, &outbox), JUMBETAI_DONE);
    IS(has(outbox, 100, 100, 0), 1);
    IS(does(outbox, JUMBETAI_PLACE, 1, event_of("/west", 101, 1, "placed")), 1);
    IS(has(outbox, 100, 101, 1), 1);
    IS(jumbetai_rows(outbox, 0, &text), JUMBETAI_DONE);
    IS(text.events, 1);
    jumbetai_free(&text);
    IS(jumbetai_rows(outbox, 101, &text), JUMBETAI_DONE);
    IS(text.events, 0);
    jumbetai_free(&text);
    jumbetai_close_outbox(outbox);
    IS(opened_as("s.db", "/west", 0), JUMBETAI_DONE);
    IS(jumbetai_open_outbox("full.db", NULL, LARGEST - 1, 0, &outbox), JUMBETAI_DONE);
    IS(does(outbox, JUMBETAI_PLACE, 1, event_of("/orders", LARGEST, 1, "placed")), 1);
    IS(refused(outbox, JUMBETAI_PLACE, 2, NOON), JUMBETAI_FULL);
    IS(refused(outbox, JUMBETAI_SHIP, 1, NOON), JUMBETAI_FULL);
    IS(refused(outbox, JUMBETAI_SHIP, 2, NOON), JUMBETAI_NO_ORDER);
    IS(has(outbox, LARGEST - 1, LARGEST, 1), 1);
    jumbetai_close_outbox(outbox);
    /* The longest source, each byte of which is two in a text: a page has more than 64 KiB. */
    longest[1024] = 0;
    IS(jumbetai_open_outbox("long.db", longest, 0, 0, &outbox), JUMBETAI_DONE);
    for (uint64_t order = 1; order <= 100; order++)
        IS(does(outbox, JUMBETAI_PLACE, order, event_of(escaped, order, order, "placed")), 1);
    for (int again = 0; again < 2; again++) {
        IS(jumbetai_rows(outbox, 0, &text), JUMBETAI_DONE);
        IS(text.events, 100);
        const char *last = event_of(escaped, 100, 100, "placed");
        IS(text.length > 100 * 2048, 1);
        IS(strncmp(text.bytes + text.length - 2 - strlen(last), last, strlen(last)), 0);
        IS(strlen(text.bytes), text.length);
        jumbetai_free(&text);
    }
    jumbetai_close_outbox(outbox);
}

/* What another process is answered that opens the file, as an outbox or as a site. */
static int opened_elsewhere(const char *path, int as_site) {
    int status = -1;
    pid_t child = fork();
    if (child == 0) {
        jumbetai_site *site = NULL;
        int answer = as_site ? jumbetai_open_file(path, 0, &site) : opened_as(path, NULL, 0);
        jumbetai_close(site);
        _exit(answer);
    }
    waitpid(child, &status, 0);
    return WIFEXITED(status) ? WEXITSTATUS(status) : -1;
}

static void write_file(const char *path, const char *bytes) {
    FILE *file = fopen(path, "w");
    if (!file) return;
    fputs(bytes, file);
    fclose(file);
}

static void try_files(void) {
    jumbetai_outbox *outbox;
    jumbetai_site *site;
    IS(jumbetai_open_outbox(NULL, NULL, 0, 0, &outbox), JUMBETAI_BAD_ARGUMENT);
    IS(outbox == NULL, 1);
    IS(jumbetai_open_outbox("f.db", NULL, 0, 0, NULL), JUMBETAI_BAD_ARGUMENT);
    IS(access("f.db", F_OK), -1);
    IS(opened_as("none/f.db", NULL, 0), JUMBETAI_SYSTEM);
    IS(jumbetai_open_outbox("f.db", NULL, 0, 0, &outbox), JUMBETAI_DONE);
    IS(opened_as("f.db", NULL, 0), JUMBETAI_BUSY);
    IS(jumbetai_open_file("f.db", 0, &site), JUMBETAI_BUSY);
    IS(opened_elsewhere("f.db", 0), JUMBETAI_BUSY);
    IS(opened_elsewhere("f.db", 1), JUMBETAI_BUSY);
    IS(does(outbox, JUMBETAI_PLACE, 1, event_of("/orders", 1, 1, "placed")), 1);
    jumbetai_close_outbox(outbox);
    IS(opened_elsewhere("f.db", 0), JUMBETAI_DONE);
    IS(symlink("f.db", "link.db"), 0);
    IS(jumbetai_open_outbox("link.db", NULL, 0, 0, &outbox), JUMBETAI_DONE);
    IS(has(outbox, 0, 1, 1), 1);
    jumbetai_close_outbox(outbox);
    IS(link("f.db", "second.db"), 0);
    IS(opened_as("f.db", NULL, 0), JUMBETAI_NO_FILE);
    IS(unlink("second.db"), 0);
    write_file("f.db-journal", "\xd9");
    IS(opened_as("f.db", NULL, 0), JUMBETAI_JOURNAL);
    IS(unlink("f.db-journal"), 0);
    IS(opened_as(".", NULL, 0), JUMBETAI_NO_FILE);
    write_file("text.db",
               "this is no database, whatever its name says, and long enough to be read");
    IS(opened_as("text.db", NULL, 0), JUMBETAI_NO_DATABASE);
    IS(opened_as("f.db", NULL, 0), JUMBETAI_DONE);
}

/* Takes the rows of an outbox, page by page, until there are none; how many were new. */
static uint64_t bring(jumbetai_outbox *outbox, jumbetai_site *site) {
    jumbetai_order_counts mark;
    uint64_t fresh = 0;
    jumbetai_outbox_counts(outbox, &mark);
    for (uint64_t after = mark.base;;) {
        jumbetai_counts counts;
        jumbetai_text page;
        IS(jumbetai_rows(outbox, after, &page), JUMBETAI_DONE);
        uint64_t events = page.events;
        if (events) IS(jumbetai_take(site, page.bytes, page.length, &counts), JUMBETAI_DONE);
        jumbetai_free(&page);
        if (!events) return fresh;
        IS(counts.fresh + counts.repeated, events);
        after += events, fresh += counts.fresh;
    }
}

/* The summary of the site of a file, which the caller frees. */
static char *summary_of(const char *path) {
    jumbetai_site *site;
    jumbetai_text text = {0};
    if (jumbetai_open_file(path, 0, &site)) return NULL;
    jumbetai_summary(site, &text);
    jumbetai_close(site);
    return text.bytes;
}

static void try_sites(void) {
    jumbetai_outbox *outbox;
    jumbetai_site *site, *held;
    jumbetai_text text;
    IS(jumbetai_open_outbox("r.db", "/north", 0, 0, &outbox), JUMBETAI_DONE);
    IS(has(outbox, 0, 250, 250), 1);
    site = jumbetai_open();
    IS(bring(outbox, site), 250);
    IS(bring(outbox, site), 0);
    IS(jumbetai_order(outbox, JUMBETAI_SHIP, 3, NOON, &text), JUMBETAI_DONE);
    IS(jumbetai_take(site, text.bytes, text.length, NULL), JUMBETAI_DONE);
    jumbetai_free(&text);
    IS(bring(outbox, site), 0);
    IS(jumbetai_ask(site, JUMBETAI_KINDS, &text), JUMBETAI_DONE);
    IS(is_text(&text, "[\"order.placed\",250]\n[\"order.shipped\",1]", "\n"), 1);
    IS(jumbetai_ask(site, JUMBETAI_COVER, &text), JUMBETAI_DONE);
    IS(is_text(&text, "{\"sources\":{\"/north\":[[1,251]]},\"version\":1}", "\n"), 1);
    /* Beside the outbox the same file has a site, which it leaves as it is. */
    jumbetai_close_outbox(outbox);
    IS(jumbetai_open_file("r.db", 0, &held), JUMBETAI_DONE);
    IS(jumbetai_count(held), 0);
    IS(jumbetai_page(site, 0, &text), JUMBETAI_DONE);
    IS(jumbetai_take(held, text.bytes, text.length, NULL), JUMBETAI_DONE);
    jumbetai_free(&text);
    jumbetai_close(held);
    char *before = summary_of("r.db");
    IS(before != NULL, 1);
    IS(jumbetai_open_outbox("r.db", NULL, 0, 0, &outbox), JUMBETAI_DONE);
    IS(has(outbox, 0, 251, 250), 1);
    IS(does(outbox, JUMBETAI_CANCEL, 4, event_of("/north", 252, 4, "cancelled")), 1);
    jumbetai_close_outbox(outbox);
    char *after = summary_of("r.db");
    if (before && after) IS(strcmp(before, after), 0);
    IS(jumbetai_open_file("r.db", 0, &held), JUMBETAI_DONE);
    IS(jumbetai_count(held), 100);
    jumbetai_close(held);
    free(before), free(after);
    jumbetai_close(site);
    /* An outbox is made in the file of a site. */
    IS(jumbetai_open_file("both.db", 0, &held), JUMBETAI_DONE);
    jumbetai_close(held);
    IS(jumbetai_open_outbox("both.db", "/both", 5, 0, &outbox), JUMBETAI_DONE);
    IS(does(outbox, JUMBETAI_PLACE, 1, event_of("/both", 6, 1, "placed")), 1);
    jumbetai_close_outbox(outbox);
    IS(jumbetai_open_file("both.db", 0, &held), JUMBETAI_DONE);
    IS(jumbetai_count(held), 0);
    jumbetai_close(held);
}

/* Places order after order and tells each number once it is answered, until it is killed. */
static void place_on(const char *path, int from, int to) {
    jumbetai_outbox *outbox;
    if (jumbetai_open_outbox(path, NULL, 0, 0, &outbox)) _exit(1);
    for (int order = from;; order++) {
        if (jumbetai_order(outbox, JUMBETAI_PLACE, (uint64_t)order, NOON, NULL)) _exit(1);
        if (write(to, &order, sizeof order) != sizeof order) _exit(1);
    }
}

static void try_kills(void) {
    int answered = 0;
    jumbetai_outbox *outbox;
    jumbetai_text text;
    for (int round = 0; round < 20; round++) {
        int ends[2], order;
        if (pipe(ends)) return;
        pid_t child = fork();
        if (child == 0) place_on("k.db", answered + 1, ends[1]);
        close(ends[1]);
        for (int i = 0; i < 3 + round; i++)
            if (read(ends[0], &order, sizeof order) == sizeof order) answered = order;
        usleep((unsigned)(round * 137 % 900));
        kill(child, SIGKILL);
        while (read(ends[0], &order, sizeof order) == sizeof order)
            answered = order;
        waitpid(child, NULL, 0);
        close(ends[0]);
        IS(jumbetai_open_outbox("k.db", NULL, 0, 0, &outbox), JUMBETAI_DONE);
        if (!outbox) return;
        jumbetai_order_counts counts;
        jumbetai_outbox_counts(outbox, &counts);
        /* One more may be there than was told, and each order has the row of its number. */
        IS(counts.last == (uint64_t)answered || counts.last == (uint64_t)answered + 1, 1);
        IS(counts.orders, counts.last);
        answered = (int)counts.last;
        IS(jumbetai_rows(outbox, counts.last - 1, &text), JUMBETAI_DONE);
        IS(text.events, 1);
        const char *last = event_of("/orders", counts.last, counts.last, "placed");
        IS(text.bytes && !strncmp(text.bytes + 1, last, strlen(last)), 1);
        jumbetai_free(&text);
        IS(refused(outbox, JUMBETAI_PLACE, counts.last, NOON), JUMBETAI_ORDER_EXISTS);
        IS(refused(outbox, JUMBETAI_SHIP, counts.last + 1, NOON), JUMBETAI_NO_ORDER);
        jumbetai_close_outbox(outbox);
    }
    IS(answered > 100, 1);
}

/* The least number that no open file has. */
static int free_number(void) {
    int number = dup(STDOUT_FILENO);
    close(number);
    return number;
}

int main(void) {
    char folder[] = "test-outbox-XXXXXX";
    if (!mkdtemp(folder) || chdir(folder)) return 2;
    int number = free_number();
    try_orders();
    try_rows();
    try_sources();
    try_files();
    try_sites();
    try_kills();
    IS(free_number(), number);
    printf("%d passed, %d failed\n", passed, failed);
    return failed > 0;
}
