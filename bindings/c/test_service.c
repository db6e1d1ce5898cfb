/* What the calls answer that a service stands on, of a site in memory and of one over a file, well
 * given and not. It makes its files in the folder where it is run. The last line is 'N passed, M
 * failed'. */
#define _DEFAULT_SOURCE /* mkdtemp, usleep */
#include "jumbetai.h"
#include <signal.h>
#include <stdio.h>
#include <stdlib.h>
#include <string.h>
#include <sys/wait.h>
#include <unistd.h>

static int passed, failed;

static void must(int holds, const char *kind, const char *what) {
    passed += holds, failed += !holds;
    if (!holds) printf("wrong: %s: %s\n", kind, what);
}

#define EVENT(id, number)                                                                          \
    "{\"id\":\"" id "\",\"sequence\":\"000000000000000000" number                                  \
    "\",\"source\":\"/shop\",\"specversion\":\"1.0\",\"type\":\"sold\"}"
#define NONE "{\"sources\":{},\"version\":1}"

static jumbetai_body body(const char *bytes) { return (jumbetai_body){bytes, strlen(bytes)}; }

/* Whether a call was done and answered this text with so many events; the text is given back. */
static int is_text(int status, jumbetai_text *text, uint64_t events, const char *want) {
    int is = status == JUMBETAI_DONE && text->bytes && text->events == events &&
             text->length == strlen(want) && !memcmp(text->bytes, want, text->length + 1);
    jumbetai_free(text);
    return is;
}

static int is_refused(int status, const jumbetai_text *text, int want) {
    return status == want && !text->bytes && !text->length && !text->events;
}

static int is_answer(const jumbetai_answer *answer, int status, uint64_t fresh, uint64_t repeated) {
    return answer->status == status && answer->counts.fresh == fresh &&
           answer->counts.repeated == repeated;
}

/* Bodies of several callers: those at fault are refused alone. */
static void try_take_each(jumbetai_site *site, const char *kind) {
    jumbetai_answer answers[7];
    jumbetai_body bodies[7] = {body("[" EVENT("b", "02") "," EVENT("a", "01") "]"),
                               body("{}"),
                               body(EVENT("a", "01")),
                               body("[" EVENT("c", "03") "," EVENT("c", "03") "]"),
                               body(EVENT("d", "x4")),
                               body("[]"),
                               {NULL, 0}};
    must(jumbetai_take_each(site, bodies, 7, answers) == JUMBETAI_DONE, kind, "seven bodies");
    must(is_answer(answers, JUMBETAI_DONE, 2, 0), kind, "a batch");
    must(is_answer(answers + 1, JUMBETAI_NO_EVENTS, 0, 0), kind, "a body without events");
    must(is_answer(answers + 2, JUMBETAI_DONE, 0, 1), kind, "an event of a body before");
    must(is_answer(answers + 3, JUMBETAI_DONE, 1, 1), kind, "an event twice in a body");
    must(is_answer(answers + 4, JUMBETAI_NO_NUMBER, 0, 0), kind, "a body without a number");
    must(is_answer(answers + 5, JUMBETAI_DONE, 0, 0), kind, "an empty batch");
    must(is_answer(answers + 6, JUMBETAI_NO_EVENTS, 0, 0), kind, "no bytes");
    must(jumbetai_count(site) == 3, kind, "the count behind seven bodies");
    must(jumbetai_take_each(site, bodies, 3, answers) == JUMBETAI_DONE &&
             is_answer(answers, JUMBETAI_DONE, 0, 2) &&
             is_answer(answers + 1, JUMBETAI_NO_EVENTS, 0, 0) &&
             is_answer(answers + 2, JUMBETAI_DONE, 0, 1),
         kind, "the same bodies again");
    must(jumbetai_take_each(site, NULL, 0, NULL) == JUMBETAI_DONE, kind, "no bodies");
    must(jumbetai_take_each(NULL, bodies, 1, answers) == JUMBETAI_BAD_ARGUMENT &&
             is_answer(answers, JUMBETAI_BAD_ARGUMENT, 0, 0),
         kind, "bodies without a site");
    must(jumbetai_take_each(site, NULL, 1, answers) == JUMBETAI_BAD_ARGUMENT, kind, "null bodies");
    must(jumbetai_take_each(site, bodies, 1, NULL) == JUMBETAI_BAD_ARGUMENT, kind, "null answers");
    must(jumbetai_take_each(site, bodies, SIZE_MAX / 2, answers) == JUMBETAI_BAD_ARGUMENT, kind,
         "too many bodies");
    bodies[0] = body(EVENT("e", "05")), bodies[1] = (jumbetai_body){NULL, 1};
    must(jumbetai_take_each(site, bodies, 2, answers) == JUMBETAI_BAD_ARGUMENT &&
             is_answer(answers, JUMBETAI_BAD_ARGUMENT, 0, 0),
         kind, "a null body among two");
    bodies[1] = (jumbetai_body){"", (size_t)1 << 63};
    must(jumbetai_take_each(site, bodies, 2, answers) == JUMBETAI_BAD_ARGUMENT, kind,
         "a body of too many bytes");
    must(jumbetai_count(site) == 3, kind, "the count behind faulty calls");
}

/* Events in the order in which they came. */
static void try_arrivals(jumbetai_site *site, const char *kind) {
    jumbetai_text text;
    must(is_text(jumbetai_arrivals(site, 0, &text), &text, 3,
                 "[" EVENT("b", "02") "," EVENT("a", "01") "," EVENT("c", "03") "]\n"),
         kind, "all arrivals");
    must(is_text(jumbetai_arrivals(site, 2, &text), &text, 1, "[" EVENT("c", "03") "]\n"), kind,
         "the last arrival");
    must(is_text(jumbetai_arrivals(site, 3, &text), &text, 0, "[]\n"), kind, "no arrival");
    must(is_text(jumbetai_arrivals(site, UINT64_MAX, &text), &text, 0, "[]\n"), kind,
         "the page behind all numbers");
    must(is_refused(jumbetai_arrivals(NULL, 0, &text), &text, JUMBETAI_BAD_ARGUMENT), kind,
         "arrivals without a site");
    must(jumbetai_arrivals(site, 0, NULL) == JUMBETAI_BAD_ARGUMENT, kind,
         "arrivals without a text");
}

/* The SHA-256 of the summary of the three events, as sha256sum has it. */
static const char name_of_three[] =
    "81c5fa2a2f0c033a23092a5a59e09da5f69b00c3fdb53b20d4cd08845b5f44ed";

static void try_names(jumbetai_site *site, const char *kind) {
    unsigned char name[32];
    char hex[65];
    must(jumbetai_name(site, name) == JUMBETAI_DONE, kind, "a name");
    for (int i = 0; i < 32; i++)
        snprintf(hex + 2 * i, 3, "%02x", name[i]);
    must(!strcmp(hex, name_of_three), kind, "the name of three events");
    must(jumbetai_name(NULL, name) == JUMBETAI_BAD_ARGUMENT, kind, "a name without a site");
    must(jumbetai_name(site, NULL) == JUMBETAI_BAD_ARGUMENT, kind, "a name without room");
    jumbetai_text text;
    must(is_text(jumbetai_cover(site, &text), &text, 0,
                 "{\"sources\":{\"/shop\":[[1,3]]},\"version\":1}\n"),
         kind, "the cover");
    must(is_refused(jumbetai_cover(NULL, &text), &text, JUMBETAI_BAD_ARGUMENT), kind,
         "a cover without a site");
}

static int is_lag(int status, const jumbetai_lag *lag, uint64_t lacking, uint64_t ahead,
                  uint64_t blocks) {
    return status == JUMBETAI_DONE && lag->lacking == lacking && lag->ahead == ahead &&
           lag->blocks == blocks;
}

/* The site has the numbers 1 to 3 of /shop. */
static void try_lags(jumbetai_site *site, const char *kind) {
    static const char half[] =
        "{\"sources\":{\"/else\":[[1,4],[9,9]],\"/shop\":[[2,7]]},\"version\":1}\n";
    jumbetai_lag lag;
    jumbetai_text text;
    must(is_lag(jumbetai_compare(site, NONE, strlen(NONE), &lag), &lag, 0, 3, 0), kind,
         "the lag of nothing");
    must(is_lag(jumbetai_compare(site, half, strlen(half), &lag), &lag, 9, 1, 0), kind,
         "the lag of half");
    must(jumbetai_summary(site, &text) == JUMBETAI_DONE &&
             is_lag(jumbetai_compare(site, text.bytes, text.length, &lag), &lag, 0, 0, 0),
         kind, "the lag of itself");
    /* Another digest of the block, and one more block. */
    char *digest = text.bytes ? strstr(text.bytes, "[0,\"") : NULL;
    if (digest) digest[4] = digest[4] == 'f' ? 'e' : 'f';
    must(is_lag(jumbetai_compare(site, text.bytes, text.length, &lag), &lag, 0, 0, 1), kind,
         "the lag of another digest");
    jumbetai_free(&text);
    static const char nothing[] = "{\"blocks\":{},\"sources\":{},\"version\":2}";
    must(is_lag(jumbetai_compare(site, nothing, sizeof nothing - 1, &lag), &lag, 0, 3, 1), kind,
         "the lag of no block");
    must(jumbetai_compare(site, "{\"version\":3}", 13, &lag) == JUMBETAI_SUMMARY_VERSION &&
             !lag.lacking && !lag.ahead && !lag.blocks,
         kind, "the lag of a later summary");
    must(jumbetai_compare(NULL, NONE, strlen(NONE), &lag) == JUMBETAI_BAD_ARGUMENT, kind,
         "a lag without a site");
    must(jumbetai_compare(site, NULL, 1, &lag) == JUMBETAI_BAD_ARGUMENT, kind, "a lag of null");
    must(jumbetai_compare(site, "", (size_t)1 << 63, &lag) == JUMBETAI_BAD_ARGUMENT, kind,
         "a lag of too many bytes");
    must(jumbetai_compare(site, NONE, strlen(NONE), NULL) == JUMBETAI_BAD_ARGUMENT, kind,
         "a lag without room");
}

static void try_parts(jumbetai_site *site, const char *kind) {
    jumbetai_text text;
    size_t none = strlen(NONE);
    must(is_text(jumbetai_delta_part(site, NONE, none, 1, 1, 0, &text), &text, 1,
                 "[" EVENT("b", "02") "]\n"),
         kind, "a part of one event");
    must(is_text(jumbetai_delta_part(site, NONE "\n", none + 1, 0, 0, 0, &text), &text, 3,
                 "[" EVENT("a", "01") "," EVENT("b", "02") "," EVENT("c", "03") "]\n"),
         kind, "a part of a page");
    must(is_text(jumbetai_delta_part(site, NONE, none, 3, 5000, 1, &text), &text, 0, "[]\n"), kind,
         "the part behind the last event");
    must(is_text(jumbetai_delta_part(site, NONE, none, UINT64_MAX, UINT64_MAX, UINT64_MAX, &text),
                 &text, 0, "[]\n"),
         kind, "the part behind all numbers");
    must(is_refused(jumbetai_delta_part(site, "{\"version\":3}", 13, 0, 9, 9, &text), &text,
                    JUMBETAI_SUMMARY_VERSION),
         kind, "a part by a later summary");
    must(is_refused(jumbetai_delta_part(site, NULL, 1, 0, 9, 9, &text), &text,
                    JUMBETAI_BAD_ARGUMENT),
         kind, "a part by null");
    must(is_refused(jumbetai_delta_part(site, "", (size_t)1 << 63, 0, 9, 9, &text), &text,
                    JUMBETAI_BAD_ARGUMENT),
         kind, "a part by too many bytes");
}

/* More events than a part has, whose sizes count. */
static void try_sizes(jumbetai_site *site, const char *kind) {
    enum { MOST = 2500, ROOM = 400000 };
    static char batch[ROOM];
    jumbetai_text text;
    size_t length = 0;
    for (int i = 1; i <= MOST; i++)
        length += (size_t)snprintf(batch + length, ROOM - length,
                                   "%c{\"id\":\"%d\",\"source\":\"/part\",\"specversion\":\"1.0\","
                                   "\"sequence\":\"%020d\",\"type\":\"t\"}",
                                   i == 1 ? '[' : ',', i, i);
    batch[length++] = ']';
    must(jumbetai_take(site, batch, length, NULL) == JUMBETAI_DONE, kind, "many events");
    static const char peer[] = "{\"sources\":{\"/shop\":[[1,9]]},\"version\":1}";
    static const uint64_t rows[][4] = {
        /* from, events, bytes, and how many come */
        {0, 2000, 0, 2000}, {0, 9999, 0, 2000}, {2000, 2000, 0, 500}, {0, 0, 0, 100},
        {0, 150, 0, 150},   {50, 2000, 1, 100}, {0, 2000, 20000, 300}};
    for (size_t i = 0; i < sizeof rows / sizeof *rows; i++) {
        int status = jumbetai_delta_part(site, peer, sizeof peer - 1, rows[i][0], rows[i][1],
                                         rows[i][2], &text);
        must(status == JUMBETAI_DONE && text.events == rows[i][3], kind, "a part of its size");
        if (text.events != rows[i][3])
            printf("row %zu: %llu events\n", i, (unsigned long long)text.events);
        jumbetai_free(&text);
    }
}

#define OTHER(type)                                                                                \
    "{\"id\":\"k\",\"sequence\":\"00000000000000000007\",\"source\":\"/a b\",\"specversion\":"     \
    "\"1.0\",\"type\":\"" type "\"}"

static int get(jumbetai_site *site, const char *source, const char *id, jumbetai_text *text) {
    return jumbetai_get(site, source, strlen(source), id, strlen(id), text);
}

/* Events by their source and id: one, those of a conflict by their texts, whatever came first, and
 * none. */
static void try_get(jumbetai_site *site, const char *kind) {
    jumbetai_text text;
    must(is_text(get(site, "/shop", "b", &text), &text, 1, EVENT("b", "02") "\n"), kind,
         "an event");
    must(is_text(get(site, "/shop", "a", &text), &text, 1, EVENT("a", "01") "\n"), kind,
         "another event");
    must(is_text(get(site, "/a b", "k", &text), &text, 0, ""), kind, "an event that isn't there");
    must(jumbetai_take(site, OTHER("n"), strlen(OTHER("n")), NULL) == JUMBETAI_DONE &&
             is_text(get(site, "/a b", "k", &text), &text, 1, OTHER("n") "\n"),
         kind, "an event that came");
    must(jumbetai_take(site, OTHER("m"), strlen(OTHER("m")), NULL) == JUMBETAI_DONE &&
             jumbetai_take(site, OTHER("o"), strlen(OTHER("o")), NULL) == JUMBETAI_DONE &&
             is_text(get(site, "/a b", "k", &text), &text, 3,
                     OTHER("m") "\n" OTHER("n") "\n" OTHER("o") "\n"),
         kind, "three events in conflict");
    static const char *const none[][2] = {{"/shop", ""},      {"", "a"},         {"", ""},
                                          {"/sho", "pa"},     {"a", "/shop"},    {"/shop", "A"},
                                          {"/shop\xff", "a"}, {"/shop", "\xc3"}, {"/shop", "k"}};
    for (size_t i = 0; i < sizeof none / sizeof *none; i++)
        must(is_text(get(site, none[i][0], none[i][1], &text), &text, 0, ""), kind,
             "a source and an id of no event");
    must(is_text(jumbetai_get(site, "/shop\0", 6, "a", 1, &text), &text, 0, ""), kind,
         "a source with a zero byte");
    must(is_text(jumbetai_get(site, "/shops", 5, "ab", 1, &text), &text, 1, EVENT("a", "01") "\n"),
         kind, "lengths that end a text");
    must(is_text(jumbetai_get(site, NULL, 0, NULL, 0, &text), &text, 0, ""), kind, "no bytes");
    must(is_refused(jumbetai_get(site, NULL, 1, "a", 1, &text), &text, JUMBETAI_BAD_ARGUMENT) &&
             is_refused(jumbetai_get(site, "a", 1, NULL, 1, &text), &text, JUMBETAI_BAD_ARGUMENT),
         kind, "a null source or id");
    must(is_refused(jumbetai_get(site, "", (size_t)1 << 63, "a", 1, &text), &text,
                    JUMBETAI_BAD_ARGUMENT) &&
             is_refused(jumbetai_get(site, "a", 1, "", (size_t)1 << 63, &text), &text,
                        JUMBETAI_BAD_ARGUMENT),
         kind, "a source or an id of too many bytes");
    must(is_refused(jumbetai_get(NULL, "a", 1, "a", 1, &text), &text, JUMBETAI_BAD_ARGUMENT), kind,
         "an event without a site");
    must(jumbetai_get(site, "a", 1, "a", 1, NULL) == JUMBETAI_BAD_ARGUMENT, kind,
         "an event without a text");
}

static void try_copy(jumbetai_site *site, const char *kind) {
    jumbetai_site *copy;
    jumbetai_text text, same;
    must(jumbetai_copy(site, &copy) == JUMBETAI_DONE && copy, kind, "a copy");
    if (!copy) return;
    must(jumbetai_count(copy) == jumbetai_count(site), kind, "the events of a copy");
    for (uint64_t from = 0; from <= jumbetai_count(site); from += 100) {
        jumbetai_arrivals(site, from, &text), jumbetai_arrivals(copy, from, &same);
        must(text.length == same.length && !memcmp(text.bytes, same.bytes, text.length), kind,
             "the arrivals of a copy");
        jumbetai_free(&text), jumbetai_free(&same);
    }
    must(jumbetai_take(copy, EVENT("z", "09"), strlen(EVENT("z", "09")), NULL) == 0 &&
             jumbetai_count(copy) == jumbetai_count(site) + 1,
         kind, "a copy that goes on alone");
    jumbetai_close(copy);
    must(jumbetai_copy(NULL, &copy) == JUMBETAI_BAD_ARGUMENT && !copy, kind,
         "a copy without a site");
    must(jumbetai_copy(site, NULL) == JUMBETAI_BAD_ARGUMENT, kind, "a copy without room");
}

static void try_test(void) {
    uint64_t events = 9;
    must(jumbetai_test(EVENT("a", "01"), strlen(EVENT("a", "01")), &events) == 0 && events == 1,
         "no site", "a test of an event");
    must(jumbetai_test("[]", 2, &events) == JUMBETAI_DONE && events == 0, "no site",
         "a test of an empty batch");
    must(jumbetai_test("{}", 2, &events) == JUMBETAI_NO_EVENTS && events == 0, "no site",
         "a test of no event");
    must(jumbetai_test(EVENT("d", "x4"), strlen(EVENT("d", "x4")), NULL) == JUMBETAI_NO_NUMBER,
         "no site", "a test of an event without a number");
    must(jumbetai_test(NULL, 0, &events) == JUMBETAI_NO_EVENTS, "no site", "a test of nothing");
    must(jumbetai_test(NULL, 1, &events) == JUMBETAI_BAD_ARGUMENT, "no site", "a test of null");
    must(jumbetai_test("", (size_t)1 << 63, &events) == JUMBETAI_BAD_ARGUMENT && !events, "no site",
         "a test of too many bytes");
}

static void try_all(jumbetai_site *site, const char *kind) {
    must(site != NULL, kind, "a site");
    if (!site) return;
    try_take_each(site, kind);
    try_arrivals(site, kind);
    try_names(site, kind);
    try_lags(site, kind);
    try_parts(site, kind);
    try_sizes(site, kind);
    try_get(site, kind);
    try_copy(site, kind);
    jumbetai_release(site), jumbetai_release(NULL);
    must(jumbetai_count(site) == 2506, kind, "the count in the end");
    jumbetai_close(site);
}

/* What came by bodies is there when the file is opened again, at the same numbers. */
static void try_again(void) {
    jumbetai_site *site = NULL;
    jumbetai_text text;
    must(jumbetai_open_file("service.db", 0, &site) == JUMBETAI_DONE, "the file", "opened again");
    must(jumbetai_count(site) == 2506, "the file", "the count again");
    must(jumbetai_arrivals(site, 1, &text) == JUMBETAI_DONE && text.events == 100 &&
             !strncmp(text.bytes, "[" EVENT("a", "01") "," EVENT("c", "03") ",",
                      strlen("[" EVENT("a", "01") "," EVENT("c", "03") ",")),
         "the file", "the arrivals again");
    jumbetai_free(&text);
    jumbetai_close(site);
}

/* Bodies of a transaction, and the events of each. */
enum { BODIES = 8, EVENTS = 2, TOGETHER = BODIES * EVENTS };

/* Takes bodies together and tells how many events were answered, until it is killed. */
static void take_on(const char *path, int from, int to) {
    static char bytes[BODIES][400];
    jumbetai_body bodies[BODIES];
    jumbetai_answer answers[BODIES];
    jumbetai_site *site;
    if (jumbetai_open_file(path, 0, &site)) _exit(1);
    for (int next = from;; next += TOGETHER) {
        for (int i = 0; i < BODIES; i++) {
            int first = next + i * EVENTS;
            snprintf(bytes[i], sizeof bytes[i],
                     "[{\"id\":\"%d\",\"source\":\"/k\",\"specversion\":\"1.0\",\"sequence\":"
                     "\"%020d\",\"type\":\"t\"},{\"id\":\"%d\",\"source\":\"/k\","
                     "\"specversion\":\"1.0\",\"sequence\":\"%020d\",\"type\":\"t\"}]",
                     first, first, first + 1, first + 1);
            bodies[i] = body(bytes[i]);
        }
        if (jumbetai_take_each(site, bodies, BODIES, answers)) _exit(1);
        for (int i = 0; i < BODIES; i++)
            if (!is_answer(answers + i, JUMBETAI_DONE, EVENTS, 0)) _exit(1);
        int answered = next + TOGETHER - 1;
        if (write(to, &answered, sizeof answered) != sizeof answered) _exit(1);
    }
}

/* A process that is killed leaves all bodies that were answered, and all of the next ones or none.
 */
static void try_kills(void) {
    int answered = 0, rounds = getenv("JUMBETAI_KILLS") ? atoi(getenv("JUMBETAI_KILLS")) : 20;
    for (int round = 0; round < rounds; round++) {
        int ends[2], last;
        jumbetai_site *site = NULL;
        if (pipe(ends)) return;
        pid_t child = fork();
        if (child == 0) take_on("killed.db", answered + 1, ends[1]);
        close(ends[1]);
        for (int i = 0; i < 1 + round % 5; i++)
            if (read(ends[0], &last, sizeof last) == sizeof last) answered = last;
        usleep((unsigned)(round * 137 % 900));
        kill(child, SIGKILL);
        while (read(ends[0], &last, sizeof last) == sizeof last)
            answered = last;
        waitpid(child, NULL, 0);
        close(ends[0]);
        int status = jumbetai_open_file("killed.db", 0, &site);
        int has = (int)jumbetai_count(site);
        jumbetai_close(site);
        must(!status && (has == answered || has == answered + TOGETHER), "the killed file",
             "what was answered, and all of a transaction or none");
        answered = has;
    }
    must(answered > 0, "the killed file", "some events");
}

int main(void) {
    char folder[] = "test-service-XXXXXX";
    if (!mkdtemp(folder) || chdir(folder)) return 2;
    jumbetai_site *site = NULL;
    try_test();
    try_all(jumbetai_open(), "in memory");
    must(jumbetai_open_file("service.db", 0, &site) == JUMBETAI_DONE, "the file", "opened");
    try_all(site, "the file");
    try_again();
    try_kills();
    printf("%d passed, %d failed\n", passed, failed);
    return failed > 0;
}
