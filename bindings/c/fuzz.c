/* What libFuzzer calls with bytes of its own: `take`, `check`, `split` and `delta` of a site in
 * memory, `open_file` of a file that has them, and `combine`. The first byte says which. Whatever
 * the bytes are, each call answers a status of its own and no two answers contradict each other.
 * tools/fuzz_library.py compiles and runs it. */
#define _DEFAULT_SOURCE /* unlink */
#include "jumbetai.h"
#include <stdio.h>
#include <stdlib.h>
#include <string.h>
#include <unistd.h>

int LLVMFuzzerTestOneInput(const unsigned char *bytes, size_t length);

static void must(int holds, const char *what) {
    if (holds) return;
    fprintf(stderr, "wrong: %s\n", what);
    abort();
}

static int is_one_of(int status, const int *those) {
    while (*those >= 0 && *those != status)
        those++;
    return *those == status;
}

/* What `take` takes `check` finds nothing wrong with, and the other way round; once it is there, it
 * is there. */
static void try_take(const unsigned char *bytes, size_t length) {
    static const int answers[] = {JUMBETAI_DONE, JUMBETAI_NO_EVENTS, JUMBETAI_NO_NUMBER, -1};
    jumbetai_counts counts, again;
    jumbetai_text told, summary, page;
    jumbetai_site *site = jumbetai_open();
    must(site != NULL, "a site");
    must(!jumbetai_check(site, bytes, length, &told), "a check");
    int status = jumbetai_take(site, bytes, length, &counts);
    must(is_one_of(status, answers), "the status of a take");
    uint64_t events;
    must(jumbetai_test(bytes, length, &events) == status, "a test that says what the take says");
    must(events == counts.fresh + counts.repeated, "how many events a test finds");
    must((status == JUMBETAI_DONE) == (told.length == 0), "a check that says what the take says");
    must(jumbetai_count(site) == counts.fresh, "the count");
    if (!status) {
        must(!jumbetai_take(site, bytes, length, &again) && !again.fresh, "a second take");
        must(again.repeated == counts.fresh + counts.repeated, "how many are repeated");
        must(!jumbetai_page(site, 0, &page) && page.events <= counts.fresh, "a page");
        must(!jumbetai_take(site, page.bytes, page.length, &again) && !again.fresh, "its events");
        jumbetai_free(&page);
        must(!jumbetai_summary(site, &summary), "a summary");
        must(!jumbetai_delta(site, summary.bytes, summary.length, 0, &page) && !page.events,
             "what its own summary lacks");
        jumbetai_free(&page);
        jumbetai_free(&summary);
    }
    jumbetai_free(&told);
    jumbetai_close(site);
}

/* What `take` takes, and nothing else, is split, into as many events. */
static void try_split(const unsigned char *bytes, size_t length) {
    jumbetai_text lines;
    jumbetai_counts counts;
    uint64_t events;
    jumbetai_site *site = jumbetai_open();
    must(site != NULL, "a site");
    int status = jumbetai_split(site, bytes, length, 2, &lines);
    must(jumbetai_test(bytes, length, &events) == status && lines.events == events, "a split");
    must((status == JUMBETAI_DONE) == (lines.bytes != NULL), "its text");
    if (!status) {
        const char *second = strchr(lines.bytes, '\n') + 1;
        size_t first = (size_t)(second - lines.bytes);
        must(!jumbetai_take(site, lines.bytes, first, &counts), "the events of the first part");
        uint64_t had = counts.fresh + counts.repeated;
        must(!jumbetai_take(site, second, lines.length - first, &counts), "those of the second");
        must(had + counts.fresh + counts.repeated == events, "the events of both");
    }
    jumbetai_free(&lines);
    jumbetai_close(site);
}

/* Bytes as the answer of a part and its cover, alone and beside another part. */
static void try_combine(const unsigned char *bytes, size_t length) {
    static const int refused[] = {JUMBETAI_DONE,     JUMBETAI_NOT_A_COVER, JUMBETAI_NOT_AN_ANSWER,
                                  JUMBETAI_TOO_MANY, JUMBETAI_OVERLAP,     -1};
    static const char none[] = "{\"sources\":{},\"version\":1}\n";
    jumbetai_site *site = jumbetai_open();
    must(site != NULL, "a site");
    for (int question = JUMBETAI_COVER; question <= JUMBETAI_GAPS; question++) {
        int is_cover = question == JUMBETAI_COVER;
        jumbetai_body given[] = {{bytes, length}, {none, is_cover ? sizeof none - 1 : 0}};
        jumbetai_body covers[] = {{bytes, length}, {none, sizeof none - 1}};
        jumbetai_text one, both;
        int status = jumbetai_combine(site, question, given, 1, covers, 1, NULL, &one);
        must(is_one_of(status, refused), "the status of one part");
        must(jumbetai_combine(site, question, given, 2, covers, 2, NULL, &both) == status,
             "the same beside a part without events");
        must(one.length == both.length &&
                 (!one.length || !memcmp(one.bytes, both.bytes, one.length)),
             "the same text");
        jumbetai_free(&one), jumbetai_free(&both);
    }
    /* A summary of version 2 is that of a region of one part. */
    jumbetai_body summary = {bytes, length};
    jumbetai_text text;
    int status = jumbetai_combine_summaries(site, &summary, 1, NULL, &text);
    must(status == JUMBETAI_DONE || status == JUMBETAI_NOT_AN_ANSWER, "the status of a summary");
    must(status || (text.length == length && !memcmp(text.bytes, bytes, length)), "its own text");
    jumbetai_free(&text);
    jumbetai_close(site);
}

/* Bytes that are a summary have their delta, which a peer takes. */
static void try_delta(const unsigned char *bytes, size_t length) {
    static const int answers[] = {JUMBETAI_DONE,
                                  JUMBETAI_SUMMARY_NOT_JSON,
                                  JUMBETAI_SUMMARY_SHAPE,
                                  JUMBETAI_SUMMARY_VERSION,
                                  JUMBETAI_SUMMARY_NOT_CANONICAL,
                                  -1};
    static const char events[] =
        "[{\"specversion\":\"1.0\",\"id\":\"1\",\"source\":\"/a\",\"type\":\"t\","
        "\"sequence\":\"00000000000000000001\"},"
        "{\"specversion\":\"1.0\",\"id\":\"2\",\"source\":\"/b\",\"type\":\"t\","
        "\"sequence\":\"00000000000000000007\"}]";
    jumbetai_text page = {0};
    jumbetai_counts counts;
    jumbetai_site *site = jumbetai_open();
    must(site && !jumbetai_take(site, events, sizeof events - 1, NULL), "a site");
    int status = jumbetai_delta(site, bytes, length, 0, &page);
    must(is_one_of(status, answers), "the status of a delta");
    must((status == JUMBETAI_DONE) == (page.bytes != NULL) && page.events <= 2, "a page");
    if (!status) {
        must(!jumbetai_take(site, page.bytes, page.length, &counts) && !counts.fresh &&
                 counts.repeated == page.events,
             "the events of a page");
    }
    jumbetai_free(&page);
    jumbetai_close(site);
}

static long long count_in(const char *path, int *status) {
    jumbetai_site *site;
    *status = jumbetai_open_file(path, 1, &site);
    must((*status == JUMBETAI_DONE) == (site != NULL), "a site without an answer");
    long long count = site ? (long long)jumbetai_count(site) : -1;
    jumbetai_close(site);
    return count;
}

/* A file of any bytes, in the folder where this runs, is opened or refused, each time alike. */
static void try_file(const unsigned char *bytes, size_t length) {
    static const int answers[] = {
        JUMBETAI_DONE,    JUMBETAI_NO_DATABASE,   JUMBETAI_DAMAGED,   JUMBETAI_STORE,
        JUMBETAI_FOREIGN, JUMBETAI_OUT_OF_MEMORY, JUMBETAI_NO_EVENTS, -1};
    static const char path[] = "fuzzed.db";
    int first, second;
    unlink("fuzzed.db-wal");
    FILE *file = fopen(path, "wb");
    must(file && fwrite(bytes, 1, length, file) == length && !fclose(file), "a file");
    long long count = count_in(path, &first);
    must(is_one_of(first, answers), "the status of an opening");
    must(count_in(path, &second) == count && second == first, "the same opening again");
}

int LLVMFuzzerTestOneInput(const unsigned char *bytes, size_t length) {
    if (!length) return 0;
    switch (bytes[0] % 4) {
    case 0:
        try_take(bytes + 1, length - 1);
        try_split(bytes + 1, length - 1);
        break;
    case 1: try_delta(bytes + 1, length - 1); break;
    case 2: try_file(bytes + 1, length - 1); break;
    default: try_combine(bytes + 1, length - 1);
    }
    return 0;
}
