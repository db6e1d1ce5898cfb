/* What the functions of jumbetai.h answer, well given and not. The last line is 'N passed, M
 * failed'. */
#include "jumbetai.h"
#include <stdio.h>
#include <string.h>

static int passed, failed;

static void must(int holds, const char *what) {
    passed += holds, failed += !holds;
    if (!holds) printf("wrong: %s\n", what);
}

#define EVENT(id, number, rest)                                                                    \
    "{\"specversion\":\"1.0\",\"id\":\"" id                                                        \
    "\",\"source\":\"/shop\",\"type\":\"sold\",\"sequence\":\"" number "\"" rest "}"
#define ONE EVENT("a", "00000000000000000001", "")
#define TWO EVENT("b", "00000000000000000002", "")
#define UNNUMBERED EVENT("c", "3", "")

static int take(jumbetai_site *site, const char *bytes, jumbetai_counts *counts) {
    return jumbetai_take(site, bytes, strlen(bytes), counts);
}

/* Whether a call was done and answered this text, which it gives back. */
static int is_text(int status, jumbetai_text *text, const char *want) {
    int is = status == JUMBETAI_DONE && text->bytes && text->length == strlen(want) &&
             !memcmp(text->bytes, want, text->length + 1);
    jumbetai_free(text);
    return is && !text->bytes && !text->length;
}

/* Whether a call was refused so, and answered no text. */
static int is_refused(int status, const jumbetai_text *text, int want) {
    return status == want && !text->bytes && !text->length && !text->events;
}

static void try_events(jumbetai_site *site) {
    jumbetai_counts counts;
    jumbetai_text text;
    must(jumbetai_count(site) == 0, "count of an empty site");
    must(is_text(jumbetai_ask(site, JUMBETAI_KINDS, &text), &text, ""), "kinds of an empty site");
    must(take(site, "[" ONE "," TWO "," ONE "]", &counts) == 0 && counts.fresh == 2 &&
             counts.repeated == 1,
         "take of a batch");
    must(take(site, ONE, &counts) == 0 && counts.fresh == 0 && counts.repeated == 1,
         "take of an event again");
    must(take(site, "[" UNNUMBERED "]", &counts) == JUMBETAI_NO_NUMBER && counts.fresh == 0,
         "take without a number");
    must(take(site, "{}", &counts) == JUMBETAI_NO_EVENTS && counts.fresh == 0, "take of no event");
    must(jumbetai_take(site, NULL, 0, NULL) == JUMBETAI_NO_EVENTS, "take of nothing");
    must(jumbetai_count(site) == 2, "count");
    must(is_text(jumbetai_ask(site, JUMBETAI_KINDS, &text), &text, "[\"sold\",2]\n"), "kinds");
    must(is_text(jumbetai_ask(site, JUMBETAI_COVER, &text), &text,
                 "{\"sources\":{\"/shop\":[[1,2]]},\"version\":1}\n"),
         "cover");
    must(is_text(jumbetai_check(site, ONE, strlen(ONE), &text), &text, ""), "check of an event");
    must(jumbetai_check(site, "[" ONE "," UNNUMBERED "]", strlen("[" ONE "," UNNUMBERED "]"),
                        &text) == 0 &&
             strstr(text.bytes, "\"index\":1") && strstr(text.bytes, "\"fault\":\"BadSequence\""),
         "check of an event without a number");
    jumbetai_free(&text);
}

static void try_pages(jumbetai_site *site) {
    jumbetai_text text, summary;
    const char *empty = "{\"blocks\":{},\"sources\":{},\"version\":2}";
    must(jumbetai_page(site, 0, &text) == 0 && text.events == 2, "events of a page");
    must(is_text(0, &text,
                 "[{\"id\":\"a\",\"sequence\":\"00000000000000000001\",\"source\":\"/"
                 "shop\",\"specversion\":\"1.0\",\"type\":\"sold\"},"
                 "{\"id\":\"b\",\"sequence\":\"00000000000000000002\",\"source\":\"/"
                 "shop\",\"specversion\":\"1.0\",\"type\":\"sold\"}]\n"),
         "page");
    must(jumbetai_page(site, 2, &text) == 0 && text.events == 0, "events behind the last page");
    must(is_text(0, &text, "[]\n"), "the page behind the last");
    must(jumbetai_delta(site, empty, strlen(empty), 1, &text) == 0 && text.events == 1,
         "events of a delta from a place");
    must(is_text(0, &text,
                 "[{\"id\":\"b\",\"sequence\":\"00000000000000000002\",\"source\":\"/"
                 "shop\",\"specversion\":\"1.0\",\"type\":\"sold\"}]\n"),
         "delta");
    must(jumbetai_summary(site, &summary) == 0, "summary");
    must(jumbetai_delta(site, summary.bytes, summary.length, 0, &text) == 0 && text.events == 0,
         "what the own summary lacks");
    must(is_text(0, &text, "[]\n"), "nothing lacks");
    jumbetai_free(&summary);
    must(is_refused(jumbetai_delta(site, "", 0, 0, &text), &text, JUMBETAI_SUMMARY_NOT_JSON),
         "a summary that is no JSON");
    must(is_refused(jumbetai_delta(site, "{}", 2, 0, &text), &text, JUMBETAI_SUMMARY_SHAPE),
         "a summary of another shape");
    must(is_refused(jumbetai_delta(site, "{\"version\":3}", 13, 0, &text), &text,
                    JUMBETAI_SUMMARY_VERSION),
         "a later summary");
    must(is_refused(jumbetai_delta(site, " {\"sources\":{},\"version\":1}", 27, 0, &text), &text,
                    JUMBETAI_SUMMARY_NOT_CANONICAL),
         "a summary with a space");
}

static void try_arguments(jumbetai_site *site) {
    jumbetai_text text;
    size_t large = (size_t)1 << 63;
    must(is_refused(jumbetai_ask(site, 0, &text), &text, JUMBETAI_NO_SUCH_QUESTION), "question 0");
    must(is_refused(jumbetai_ask(site, 8, &text), &text, JUMBETAI_NO_SUCH_QUESTION), "question 8");
    must(is_refused(jumbetai_ask(site, -1, &text), &text, JUMBETAI_NO_SUCH_QUESTION),
         "question -1");
    must(is_refused(jumbetai_ask(NULL, 1, &text), &text, JUMBETAI_BAD_ARGUMENT),
         "ask without a site");
    must(jumbetai_ask(site, 1, NULL) == JUMBETAI_BAD_ARGUMENT, "ask without a text");
    must(is_refused(jumbetai_summary(NULL, &text), &text, JUMBETAI_BAD_ARGUMENT),
         "summary without a site");
    must(is_refused(jumbetai_page(NULL, 0, &text), &text, JUMBETAI_BAD_ARGUMENT),
         "page without a site");
    must(is_refused(jumbetai_delta(site, NULL, 1, 0, &text), &text, JUMBETAI_BAD_ARGUMENT),
         "delta of null");
    must(is_refused(jumbetai_delta(site, "", large, 0, &text), &text, JUMBETAI_BAD_ARGUMENT),
         "delta of too many bytes");
    must(is_refused(jumbetai_check(site, NULL, 1, &text), &text, JUMBETAI_BAD_ARGUMENT),
         "check of null");
    must(jumbetai_take(NULL, ONE, strlen(ONE), NULL) == JUMBETAI_BAD_ARGUMENT,
         "take without a site");
    must(jumbetai_take(site, NULL, 1, NULL) == JUMBETAI_BAD_ARGUMENT, "take of null");
    must(jumbetai_take(site, "", large, NULL) == JUMBETAI_BAD_ARGUMENT, "take of too many bytes");
    must(jumbetai_keep_views(NULL) == JUMBETAI_BAD_ARGUMENT, "views without a site");
    must(jumbetai_count(NULL) == 0, "count without a site");
    jumbetai_close(NULL), jumbetai_free(NULL);
    must(!strcmp(jumbetai_version(), JUMBETAI_VERSION), "version");
    must(!strcmp(jumbetai_words(JUMBETAI_NO_EVENTS), "the bytes spell no events"),
         "words of a status");
    must(!strcmp(jumbetai_words(JUMBETAI_OVERLAP + 1), "no such status") &&
             !strcmp(jumbetai_words(-1), "no such status"),
         "words of no status");
}

static void try_views(jumbetai_site *site) {
    jumbetai_counts counts;
    jumbetai_text text;
    must(jumbetai_keep_views(site) == JUMBETAI_DONE, "views of the events that are there");
    must(is_text(jumbetai_ask(site, JUMBETAI_KINDS, &text), &text, "[\"sold\",2]\n"), "kept kinds");
    must(take(site, EVENT("d", "00000000000000000004", ""), &counts) == 0, "take into views");
    must(is_text(jumbetai_ask(site, JUMBETAI_KINDS, &text), &text, "[\"sold\",3]\n"), "more kinds");
}

int main(void) {
    jumbetai_site *site = jumbetai_open();
    must(site != NULL, "open");
    try_events(site);
    try_pages(site);
    try_arguments(site);
    try_views(site);
    jumbetai_close(site);
    printf("%d passed, %d failed\n", passed, failed);
    return failed != 0;
}
