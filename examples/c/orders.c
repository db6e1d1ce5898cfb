/* Does something with an order in a database file, and prints its event; or hands the events of
 * such a file to a site over another one, from the row behind a mark on, and prints the new mark.
 *
 *     orders place|ship|cancel ORDER TIME DB
 *     orders relay MARK DB SITE
 *
 * Whoever relays keeps the mark that was printed. Where that is lost, an earlier one does as well:
 * the site keeps each event once.
 *
 * cc orders.c -ljumbetai -o orders */
#include <inttypes.h>
#include <jumbetai.h>
#include <stdio.h>
#include <stdlib.h>
#include <string.h>

static const char *const actions[] = {"", "place", "ship", "cancel"};

/* The number that a word of digits spells; 0, which is no order's, where it is no such word. */
static uint64_t number_of(const char *word) {
    size_t digits = strspn(word, "0123456789");
    return digits < 20 && !word[digits] ? strtoull(word, NULL, 10) : 0;
}

static int act(jumbetai_outbox *outbox, int action, const char *order, const char *time) {
    jumbetai_text event;
    int status = jumbetai_order(outbox, action, number_of(order), time, &event);
    if (!status) fwrite(event.bytes, 1, event.length, stdout);
    jumbetai_free(&event);
    return status;
}

/* Hands the rows behind a mark on, a page at a time. Each page is on the site's disk before the
 * mark moves behind it. */
static int relay(jumbetai_outbox *outbox, const char *to, uint64_t mark) {
    jumbetai_site *site;
    jumbetai_order_counts counts;
    int status = jumbetai_open_file(to, 0, &site);
    jumbetai_outbox_counts(outbox, &counts);
    if (mark < counts.base) mark = counts.base;
    while (!status && mark < counts.last) {
        jumbetai_text page;
        status = jumbetai_rows(outbox, mark, &page);
        if (!status) status = jumbetai_take(site, page.bytes, page.length, NULL);
        if (!status) mark += page.events;
        jumbetai_free(&page);
    }
    jumbetai_close(site);
    printf("%" PRIu64 "\n", mark);
    return status;
}

int main(int count, char **words) {
    if (count != 5) {
        fprintf(stderr, "usage: orders place|ship|cancel ORDER TIME DB\n"
                        "       orders relay MARK DB SITE\n");
        return 2;
    }
    int action = JUMBETAI_CANCEL;
    while (action > 0 && strcmp(words[1], actions[action]))
        action--;
    jumbetai_outbox *outbox;
    int status = jumbetai_open_outbox(words[action ? 4 : 3], NULL, 0, 0, &outbox);
    if (!status)
        status = action ? act(outbox, action, words[2], words[3])
                        : relay(outbox, words[4], number_of(words[2]));
    jumbetai_close_outbox(outbox);
    if (status) fprintf(stderr, "orders: %s\n", jumbetai_words(status));
    return status ? 1 : 0;
}
