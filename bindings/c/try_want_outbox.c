/* Refuses the nth request for memory, for each n in turn, while an outbox is opened, an order
 * placed and shipped, and rows are asked for; and compares each answer with what the outbox has
 * then. What is told to want memory must be done when it is asked again. Linked with
 * -Wl,--wrap=malloc,--wrap=realloc, so that requests of outbox.c are among them. It works in a
 * folder that it makes. The last line is 'N requests refused'. */
#define _DEFAULT_SOURCE
#include "jumbetai.h"
#include <stdio.h>
#include <stdlib.h>
#include <string.h>
#include <unistd.h>

/* How many requests are still granted. */
static long granted;
static long refused;

void *__real_malloc(size_t size);
void *__real_realloc(void *block, size_t size);
void *__wrap_malloc(size_t size);
void *__wrap_realloc(void *block, size_t size);

void *__wrap_malloc(size_t size) { return granted-- > 0 ? __real_malloc(size) : NULL; }

void *__wrap_realloc(void *block, size_t size) {
    return granted-- > 0 ? __real_realloc(block, size) : NULL;
}

enum { ENOUGH = 1000000 };
#define NOON "2024-02-29T12:00:00Z"

/* Ends the program where something isn't as it must be. */
static void must(int holds, const char *what, long at) {
    if (holds) return;
    printf("wrong: %s, at request %ld\n", what, at);
    exit(1);
}

/* Whether a call was done, where the only other answer is want of memory. */
static int is_done(int status, const char *what, long at) {
    must(status == JUMBETAI_DONE || status == JUMBETAI_OUT_OF_MEMORY, what, at);
    refused += status != JUMBETAI_DONE;
    return status == JUMBETAI_DONE;
}

static int has(const jumbetai_outbox *outbox, uint64_t last, uint64_t orders) {
    jumbetai_order_counts counts;
    jumbetai_outbox_counts(outbox, &counts);
    return counts.base == 0 && counts.last == last && counts.orders == orders;
}

static int opened(const char *path, long requests, jumbetai_outbox **outbox) {
    granted = requests;
    /* The pages of the cache are asked for one by one: 1 MiB of them is enough. */
    int status = jumbetai_open_outbox(path, "/shop", 0, 1, outbox);
    must((status == JUMBETAI_DONE) == (*outbox != NULL), "an outbox without an answer", requests);
    granted = ENOUGH;
    return status;
}

/* Opens with a request refused, then with memory: what is there then has so many rows and orders.
 * It is closed without memory. Answers whether the first was done. */
static int try_open(const char *path, uint64_t rows, uint64_t orders, long requests) {
    jumbetai_outbox *outbox;
    int done = is_done(opened(path, requests, &outbox), "status of an opening", requests);
    if (!done) must(!opened(path, ENOUGH, &outbox), "an opening with memory", requests);
    must(has(outbox, rows, orders), "what was opened", requests);
    granted = 0;
    jumbetai_close_outbox(outbox);
    granted = ENOUGH;
    return done;
}

static void remove_files(const char *path) {
    char log[20];
    snprintf(log, sizeof log, "%s-wal", path);
    unlink(path), unlink(log);
}

/* Does something with a request refused, then with memory. Answers whether the first was done. */
static int try_order(jumbetai_outbox *outbox, int action, uint64_t order, long requests) {
    jumbetai_order_counts before, after;
    jumbetai_text event;
    char number[40];
    jumbetai_outbox_counts(outbox, &before);
    granted = requests;
    int done = is_done(jumbetai_order(outbox, action, order, NOON, &event), "status of an order",
                       requests);
    granted = ENOUGH;
    if (!done) {
        must(!event.bytes && has(outbox, before.last, before.orders), "a refused order", requests);
        must(!jumbetai_order(outbox, action, order, NOON, &event), "an order with memory",
             requests);
    }
    jumbetai_outbox_counts(outbox, &after);
    must(has(outbox, before.last + 1, before.orders + (action == JUMBETAI_PLACE)),
         "the counts of an order", requests);
    snprintf(number, sizeof number, "{\"id\":\"%020llu\"", (unsigned long long)after.last);
    must(!strncmp(event.bytes, number, strlen(number)) && event.length == strlen(event.bytes) &&
             event.bytes[event.length - 1] == '\n',
         "an event", requests);
    jumbetai_free(&event);
    return done;
}

/* Asks for rows with a request refused, then with memory. Answers whether the first was done. */
static int try_rows(jumbetai_outbox *outbox, const jumbetai_text *want, long requests) {
    jumbetai_text text;
    granted = requests;
    int done = is_done(jumbetai_rows(outbox, 0, &text), "status of rows", requests);
    granted = ENOUGH;
    if (!done) {
        must(!text.bytes && !text.events, "rows without an answer", requests);
        must(!jumbetai_rows(outbox, 0, &text), "rows with memory", requests);
    }
    must(text.events == want->events && text.length == want->length &&
             !memcmp(text.bytes, want->bytes, want->length),
         "rows", requests);
    jumbetai_free(&text);
    return done;
}

int main(void) {
    /* In memory where that is had: the thousands of syncs of all turns say nothing here. */
    char in_memory[] = "/dev/shm/try-want-XXXXXX", here[] = "try-want-XXXXXX";
    jumbetai_outbox *outbox;
    jumbetai_text rows;
    uint64_t orders = 0;
    char *folder = mkdtemp(in_memory) ? in_memory : mkdtemp(here);
    if (!folder || chdir(folder)) return 2;
    for (long n = 0, done = 0; !done; n++) {
        done = try_open("new.db", 0, 0, n);
        remove_files("new.db");
    }
    must(!opened("held.db", ENOUGH, &outbox), "an opening", ENOUGH);
    for (long n = 0, done = 0; !done; n++) {
        done = try_order(outbox, JUMBETAI_PLACE, ++orders, n);
        done &= try_order(outbox, n % 2 ? JUMBETAI_SHIP : JUMBETAI_CANCEL, orders, n);
    }
    must(has(outbox, 2 * orders, orders), "the orders", (long)orders);
    must(!jumbetai_rows(outbox, 0, &rows) && rows.events > 2, "rows", ENOUGH);
    for (long n = 0, done = 0; !done; n++)
        done = try_rows(outbox, &rows, n);
    jumbetai_free(&rows);
    jumbetai_close_outbox(outbox);
    /* An opening asks for each row, so few are enough. */
    must(!opened("few.db", ENOUGH, &outbox), "an opening", ENOUGH);
    try_order(outbox, JUMBETAI_PLACE, 1, ENOUGH), try_order(outbox, JUMBETAI_SHIP, 1, ENOUGH);
    jumbetai_close_outbox(outbox);
    for (long n = 0, done = 0; !done; n++)
        done = try_open("few.db", 2, 1, n);
    remove_files("held.db"), remove_files("few.db");
    rmdir(folder);
    printf("%ld requests refused\n", refused);
    return 0;
}
