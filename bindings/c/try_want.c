/* Refuses the nth request for memory, for each n in turn, and compares each answer with what the
 * site has then. It gives the proved library its memory itself, so it is linked with the objects
 * beside heap.c; where site.c asks, it asks malloc. The last line is 'N requests refused'. */
#include "jumbetai.h"
#include <stdbool.h>
#include <stdio.h>
#include <stdlib.h>
#include <string.h>

struct tried {
    bool ok;
    void *block;
};

/* How many requests are still granted. */
static long granted;

static struct tried tried(void *block) { return (struct tried){block != NULL, block}; }

struct tried rattle_alloc(size_t size, size_t align) {
    (void)align;
    return tried(granted-- > 0 ? malloc(size ? size : 1) : NULL);
}

struct tried rattle_realloc(void *block, size_t kept, size_t size, size_t align) {
    (void)kept, (void)align;
    return tried(granted-- > 0 ? realloc(block, size ? size : 1) : NULL);
}

void rattle_dealloc(void *block) { free(block); }

#define EVENT(id, rest)                                                                            \
    "{\"specversion\":\"1.0\",\"id\":\"" id                                                        \
    "\",\"source\":\"/shop\",\"type\":\"order.placed\"" rest "}"
#define NUMBER(digit) ",\"sequence\":\"0000000000000000000" digit "\""

enum { ENOUGH = 1000000 };
static const char three[] =
    "[" EVENT("a", NUMBER("1")) "," EVENT("b", NUMBER("2")) "," EVENT("c", NUMBER("3")) "]";
static const char unnumbered[] = "[" EVENT("d", NUMBER("4")) "," EVENT("e", "") "]";
static const char nothing[] = "{\"blocks\":{},\"sources\":{},\"version\":2}";

/* Ends the program where something isn't as it must be. */
static void must(int holds, const char *what, long at) {
    if (holds) return;
    printf("wrong: %s, at request %ld\n", what, at);
    exit(1);
}

static int take(jumbetai_site *site, const char *bytes, jumbetai_counts *counts, long requests) {
    granted = requests;
    return jumbetai_take(site, bytes, strlen(bytes), counts);
}

/* Takes the three events with a request refused, then again; answers whether the first take was
 * done. */
static bool try_take(jumbetai_site *site, long requests) {
    jumbetai_counts first, again;
    int status = take(site, three, &first, requests);
    must(status == JUMBETAI_DONE || status == JUMBETAI_OUT_OF_MEMORY, "status of the first take",
         requests);
    must(first.fresh <= 3 && first.repeated == 0 && jumbetai_count(site) == first.fresh,
         "the first take", requests);
    must(status != JUMBETAI_DONE || first.fresh == 3, "count of the first take", requests);
    must(take(site, three, &again, ENOUGH) == JUMBETAI_DONE, "status of the second take", requests);
    must(first.fresh + again.fresh == 3 && again.repeated == first.fresh, "the second take",
         requests);
    must(take(site, unnumbered, &again, ENOUGH) == JUMBETAI_NO_NUMBER && again.fresh == 0,
         "an event without a number", requests);
    return status == JUMBETAI_DONE;
}

/* The calls that answer a text: the questions, then these. */
enum {
    SUMMARY = JUMBETAI_GAPS + 1,
    DELTA,
    PAGE,
    CHECK,
    VIEWS,
    PART,
    ARRIVALS,
    GET,
    SPLIT,
    COMBINE,
    JOIN,
    CALLS
};

/* An answer of two parts, each with the cover of its part. */
static int combine(jumbetai_site *site, jumbetai_text *text) {
    static const char kinds[] = "[\"t\",1]\n",
                      *covers[] = {"{\"sources\":{\"/a\":[[1,1]]},\"version\":1}\n",
                                   "{\"sources\":{\"/b\":[[1,1]]},\"version\":1}\n"};
    jumbetai_body answers[] = {{kinds, sizeof kinds - 1}, {kinds, sizeof kinds - 1}};
    jumbetai_body beside[] = {{covers[0], strlen(covers[0])}, {covers[1], strlen(covers[1])}};
    return jumbetai_combine(site, JUMBETAI_KINDS, answers, 2, beside, 2, NULL, text);
}

/* The summary of two parts, of which one has no events. */
static int join(jumbetai_site *site, jumbetai_text *text) {
    static const char one[] =
        "{\"blocks\":{\"/a\":[[0,\"e3b0c44298fc1c149afbf4c8996fb92427ae41e4649b934c"
        "a495991b7852b855\"]]},\"sources\":{\"/a\":[[1,1]]},\"version\":2}\n",
                      none[] = "{\"blocks\":{},\"sources\":{},\"version\":2}\n";
    jumbetai_body summaries[] = {{one, sizeof one - 1}, {none, sizeof none - 1}};
    return jumbetai_combine_summaries(site, summaries, 2, NULL, text);
}

static int call(jumbetai_site *site, int which, jumbetai_text *text) {
    int status;
    switch (which) {
    case SUMMARY: return jumbetai_summary(site, text);
    case DELTA: return jumbetai_delta(site, nothing, sizeof nothing - 1, 0, text);
    case PAGE: return jumbetai_page(site, 0, text);
    case PART: return jumbetai_delta_part(site, nothing, sizeof nothing - 1, 0, 2000, 0, text);
    case ARRIVALS: return jumbetai_arrivals(site, 0, text);
    case GET: return jumbetai_get(site, "/shop", 5, "a", 1, text);
    case SPLIT: return jumbetai_split(site, three, sizeof three - 1, 2, text);
    case COMBINE: return combine(site, text);
    case JOIN: return join(site, text);
    /* Views, and an answer that they give. */
    case VIEWS:
        *text = (jumbetai_text){0};
        status = jumbetai_keep_views(site);
        return status ? status : jumbetai_ask(site, JUMBETAI_KINDS, text);
    case CHECK: return jumbetai_check(site, unnumbered, sizeof unnumbered - 1, text);
    default: return jumbetai_ask(site, which, text);
    }
}

/* Calls with a request refused, then with memory; answers whether the first text came. */
static bool try_text(jumbetai_site *site, int which, const jumbetai_text *want, long requests) {
    jumbetai_text text, again;
    granted = requests;
    int status = call(site, which, &text);
    must(status == JUMBETAI_DONE || status == JUMBETAI_OUT_OF_MEMORY, "status of an answer",
         requests);
    must((status == JUMBETAI_DONE) == (text.bytes != NULL), "a text without an answer", requests);
    granted = ENOUGH;
    must(call(site, which, &again) == JUMBETAI_DONE, "an answer with memory", requests);
    must(again.length == want->length && !memcmp(again.bytes, want->bytes, want->length),
         "the text after a refusal", requests);
    must(!text.bytes ||
             (text.length == want->length && !memcmp(text.bytes, want->bytes, want->length)),
         "the text", requests);
    must(jumbetai_count(site) == 3, "count", requests);
    jumbetai_free(&text), jumbetai_free(&again);
    return status == JUMBETAI_DONE;
}

/* Bodies taken with a request refused: those that were answered are there, and all after they are
 * given again. Answers whether all were taken at once. */
static bool try_bodies(jumbetai_site *site, long requests) {
    jumbetai_body bodies[] = {
        {three, sizeof three - 1}, {unnumbered, sizeof unnumbered - 1}, {three, sizeof three - 1}};
    jumbetai_answer first[3], again[3];
    granted = requests;
    int status = jumbetai_take_each(site, bodies, 3, first);
    must(status == JUMBETAI_DONE || status == JUMBETAI_OUT_OF_MEMORY, "status of bodies", requests);
    must(jumbetai_count(site) == first[0].counts.fresh + first[2].counts.fresh, "the bodies",
         requests);
    must(status || (first[0].counts.fresh == 3 && first[1].status == JUMBETAI_NO_NUMBER &&
                    first[2].counts.repeated == 3),
         "the answers", requests);
    granted = ENOUGH;
    must(!jumbetai_take_each(site, bodies, 3, again) &&
             again[0].counts.fresh + again[0].counts.repeated == 3 &&
             again[1].status == JUMBETAI_NO_NUMBER && jumbetai_count(site) == 3,
         "the bodies again", requests);
    return !status;
}

/* Calls without a text, with a request refused: a name, a lag, a copy and a test of bytes. Answers
 * whether all were done. */
static bool try_others(jumbetai_site *site, long requests) {
    unsigned char name[32], want[32];
    jumbetai_lag lag;
    jumbetai_site *copy;
    uint64_t events, part;
    granted = 0;
    must(!jumbetai_part("/shop", 5, 7, &part), "the part of a source, without memory", requests);
    granted = ENOUGH;
    must(!jumbetai_name(site, want), "a name with memory", requests);
    granted = requests;
    int status = jumbetai_name(site, name);
    must(status || !memcmp(name, want, sizeof name), "a name", requests);
    if (!status) status = jumbetai_compare(site, nothing, sizeof nothing - 1, &lag);
    must(status || (lag.ahead == 3 && lag.blocks == 1 && !lag.lacking), "a lag", requests);
    if (!status) status = jumbetai_test(three, sizeof three - 1, &events);
    must(status || events == 3, "a test", requests);
    if (!status) {
        status = jumbetai_copy(site, &copy);
        must((status == JUMBETAI_DONE) == (copy != NULL), "a copy", requests);
        must(status || jumbetai_count(copy) == 3, "the events of a copy", requests);
        jumbetai_close(copy);
    }
    must(status == JUMBETAI_DONE || status == JUMBETAI_OUT_OF_MEMORY, "a status", requests);
    must(jumbetai_count(site) == 3, "count", requests);
    return !status;
}

int main(void) {
    long refused = 0;
    bool done = false;
    for (long n = 0; !done; n++, refused += !done) {
        jumbetai_site *site = jumbetai_open();
        done = try_take(site, n);
        jumbetai_close(site);
    }
    for (int which = 1; which < CALLS; which++) {
        jumbetai_text want;
        jumbetai_site *whole = jumbetai_open();
        try_take(whole, ENOUGH), granted = ENOUGH;
        must(call(whole, which, &want) == JUMBETAI_DONE, "an answer", which);
        jumbetai_close(whole);
        done = false;
        for (long n = 0; !done; n++, refused += !done) {
            jumbetai_site *site = jumbetai_open();
            try_take(site, ENOUGH);
            done = try_text(site, which, &want, n);
            jumbetai_close(site);
        }
        jumbetai_free(&want);
    }
    done = false;
    for (long n = 0; !done; n++, refused += !done) {
        jumbetai_site *site = jumbetai_open();
        done = try_bodies(site, n);
        jumbetai_close(site);
    }
    done = false;
    for (long n = 0; !done; n++, refused += !done) {
        jumbetai_site *site = jumbetai_open();
        try_take(site, ENOUGH);
        done = try_others(site, n);
        jumbetai_close(site);
    }
    printf("%ld requests refused\n", refused);
    return 0;
}
