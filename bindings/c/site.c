/* The functions of jumbetai.h on sites and texts, over the library's exports. Nothing of this file
 * is proved: it tests what C lets a caller get wrong, keeps the room that a site lies in, and puts
 * a text together of its pieces. */
#define _DEFAULT_SOURCE /* getentropy */
#include "site.h"
#include <stdlib.h>
#include <string.h>
#include <unistd.h>

/* What a site is asked by: the numbers of the questions, and these behind them. */
enum { SUMMARY = 8, DELTA, PAGE, CHECK, KEEP_VIEWS, ARRIVALS, RELEASE };

/* Asks a site. */
static void tell(jumbetai_site *site, uint32_t what, const void *bytes, size_t length,
                 uint64_t from, struct jumbetai_reply *reply) {
    jumbetai_site_tell(site->room, what, jumbetai_start_of(bytes), length, from, reply);
}

void jumbetai_write(void *room, void (*read)(void *, uint32_t, struct jumbetai_piece *),
                    size_t length, char *bytes) {
    struct jumbetai_piece piece;
    size_t had = 0;
    for (uint32_t i = 0; had < length; i++, had += piece.length) {
        read(room, i, &piece);
        memcpy(bytes + had, piece.bytes, piece.length);
    }
    bytes[length] = 0;
}

int jumbetai_copy_text(void *room, void (*read)(void *, uint32_t, struct jumbetai_piece *),
                       uint64_t length, uint64_t listed, jumbetai_text *text) {
    char *bytes = length < PTRDIFF_MAX ? malloc((size_t)length + 1) : NULL;
    if (!bytes) return JUMBETAI_OUT_OF_MEMORY;
    jumbetai_write(room, read, (size_t)length, bytes);
    *text = (jumbetai_text){bytes, (size_t)length, listed};
    return JUMBETAI_DONE;
}

/* The text that the site keeps since the call that replied so. */
static int copy_text(jumbetai_site *site, const struct jumbetai_reply *reply, jumbetai_text *text) {
    if (reply->status != JUMBETAI_DONE) return (int)reply->status;
    int status =
        jumbetai_copy_text(site->room, jumbetai_site_read, reply->length, reply->listed, text);
    /* The site keeps its last text, but for a large one. */
    if (reply->length > JUMBETAI_LARGE) jumbetai_release(site);
    return status;
}

/* Room for a site, in which none lies. */
static jumbetai_site *room_of_one(int is_file) {
    jumbetai_site *site = malloc(sizeof *site + jumbetai_site_size());
    if (site) site->events = 0, site->is_file = is_file;
    return site;
}

jumbetai_site *jumbetai_open(void) {
    jumbetai_site *site = room_of_one(0);
    if (site) jumbetai_site_open(site->room);
    return site;
}

int jumbetai_open_file(const char *path, uint32_t cache_mib, jumbetai_site **site) {
    struct jumbetai_files files = {.cache_mib = cache_mib};
    struct jumbetai_reply reply;
    if (site) *site = NULL;
    if (!site || !path) return JUMBETAI_BAD_ARGUMENT;
    jumbetai_site *made = room_of_one(1);
    if (!made) return JUMBETAI_OUT_OF_MEMORY;
    jumbetai_begin();
    int status = jumbetai_open_files(path, &files, made->locks);
    if (!status) {
        jumbetai_site_open_files(made->room, &files, &reply);
        status = jumbetai_end((int)reply.status);
        if (status) {
            jumbetai_site_close(made->room);
            jumbetai_unlock(made->locks);
        }
    }
    if (status) {
        free(made);
        return jumbetai_end(status);
    }
    made->events = reply.events;
    *site = made;
    return JUMBETAI_DONE;
}

void jumbetai_close(jumbetai_site *site) {
    if (!site) return;
    jumbetai_site_close(site->room);
    if (site->is_file) jumbetai_unlock(site->locks);
    free(site);
}

uint64_t jumbetai_count(const jumbetai_site *site) { return site ? site->events : 0; }

int jumbetai_take(jumbetai_site *site, const void *bytes, size_t length, jumbetai_counts *counts) {
    struct jumbetai_reply reply;
    if (counts) *counts = (jumbetai_counts){0, 0};
    if (!site || !jumbetai_is_range(bytes, length)) return JUMBETAI_BAD_ARGUMENT;
    jumbetai_begin();
    jumbetai_site_take(site->room, jumbetai_start_of(bytes), length, &reply);
    site->events = reply.events;
    if (counts) *counts = (jumbetai_counts){reply.fresh, reply.repeated};
    return jumbetai_end((int)reply.status);
}

/* Sets the statuses of the answers from a place on, but for those of bodies that are refused. */
static void refuse_all(jumbetai_answer *answers, size_t count, int status) {
    for (size_t i = 0; i < count; i++) {
        int is_refused =
            answers[i].status == JUMBETAI_NO_EVENTS || answers[i].status == JUMBETAI_NO_NUMBER;
        answers[i] = (jumbetai_answer){is_refused ? answers[i].status : status, {0, 0}};
    }
}

/* Takes the bodies into a file, in one transaction. */
static int take_together(jumbetai_site *site, const jumbetai_body *bodies, size_t count,
                         jumbetai_answer *answers) {
    struct jumbetai_reply reply;
    jumbetai_release(site); /* nothing is offered */
    for (size_t i = 0; i < count; i++) {
        jumbetai_site_offer(site->room, jumbetai_start_of(bodies[i].bytes), bodies[i].length,
                            &reply);
        answers[i].status = (int)reply.status;
        if (reply.status == JUMBETAI_OUT_OF_MEMORY) {
            refuse_all(answers, count, JUMBETAI_OUT_OF_MEMORY);
            return JUMBETAI_OUT_OF_MEMORY;
        }
    }
    jumbetai_begin();
    jumbetai_site_keep(site->room, &reply);
    int status = jumbetai_end((int)reply.status);
    site->events = reply.events;
    for (size_t i = 0; i < count; i++) {
        jumbetai_site_answer(site->room, i, &reply);
        answers[i] = (jumbetai_answer){(int)reply.status, {reply.fresh, reply.repeated}};
    }
    jumbetai_release(site);
    return status;
}

int jumbetai_take_each(jumbetai_site *site, const jumbetai_body *bodies, size_t count,
                       jumbetai_answer *answers) {
    if (count > PTRDIFF_MAX / sizeof *answers || (count && !answers)) return JUMBETAI_BAD_ARGUMENT;
    for (size_t i = 0; i < count; i++)
        answers[i] = (jumbetai_answer){JUMBETAI_DONE, {0, 0}};
    int is_wrong = !site || (count && !bodies);
    for (size_t i = 0; i < count && !is_wrong; i++)
        is_wrong = !jumbetai_is_range(bodies[i].bytes, bodies[i].length);
    if (is_wrong) {
        refuse_all(answers, count, JUMBETAI_BAD_ARGUMENT);
        return JUMBETAI_BAD_ARGUMENT;
    }
    if (site->is_file) return take_together(site, bodies, count, answers);
    for (size_t i = 0; i < count; i++) {
        answers[i].status =
            jumbetai_take(site, bodies[i].bytes, bodies[i].length, &answers[i].counts);
        if (answers[i].status == JUMBETAI_OUT_OF_MEMORY) {
            refuse_all(answers + i + 1, count - i - 1, JUMBETAI_OUT_OF_MEMORY);
            return JUMBETAI_OUT_OF_MEMORY;
        }
    }
    return JUMBETAI_DONE;
}

int jumbetai_test(const void *bytes, size_t length, uint64_t *events) {
    struct jumbetai_reply reply;
    if (events) *events = 0;
    if (!jumbetai_is_range(bytes, length)) return JUMBETAI_BAD_ARGUMENT;
    jumbetai_bytes_test(jumbetai_start_of(bytes), length, &reply);
    if (events) *events = reply.listed;
    return (int)reply.status;
}

int jumbetai_check(jumbetai_site *site, const void *bytes, size_t length, jumbetai_text *text) {
    struct jumbetai_reply reply;
    if (text) *text = (jumbetai_text){0};
    if (!site || !text || !jumbetai_is_range(bytes, length)) return JUMBETAI_BAD_ARGUMENT;
    tell(site, CHECK, bytes, length, 0, &reply);
    return copy_text(site, &reply, text);
}

int jumbetai_keep_views(jumbetai_site *site) {
    unsigned char seed[16];
    struct jumbetai_reply reply;
    if (!site) return JUMBETAI_BAD_ARGUMENT;
    if (getentropy(seed, sizeof seed)) return JUMBETAI_NO_RANDOM;
    tell(site, KEEP_VIEWS, seed, sizeof seed, 0, &reply);
    return (int)reply.status;
}

int jumbetai_ask(jumbetai_site *site, int question, jumbetai_text *text) {
    struct jumbetai_reply reply;
    if (text) *text = (jumbetai_text){0};
    if (!site || !text) return JUMBETAI_BAD_ARGUMENT;
    tell(site, (uint32_t)question < SUMMARY ? (uint32_t)question : 0, NULL, 0, 0, &reply);
    return copy_text(site, &reply, text);
}

int jumbetai_get(jumbetai_site *site, const void *source, size_t source_length, const void *id,
                 size_t id_length, jumbetai_text *text) {
    struct jumbetai_reply reply;
    if (text) *text = (jumbetai_text){0};
    if (!site || !text || !jumbetai_is_range(source, source_length) ||
        !jumbetai_is_range(id, id_length))
        return JUMBETAI_BAD_ARGUMENT;
    jumbetai_site_get(site->room, jumbetai_start_of(source), source_length, jumbetai_start_of(id),
                      id_length, &reply);
    return copy_text(site, &reply, text);
}

int jumbetai_summary(jumbetai_site *site, jumbetai_text *text) {
    struct jumbetai_reply reply;
    if (text) *text = (jumbetai_text){0};
    if (!site || !text) return JUMBETAI_BAD_ARGUMENT;
    tell(site, SUMMARY, NULL, 0, 0, &reply);
    return copy_text(site, &reply, text);
}

int jumbetai_delta(jumbetai_site *site, const void *summary, size_t length, uint64_t from,
                   jumbetai_text *text) {
    struct jumbetai_reply reply;
    if (text) *text = (jumbetai_text){0};
    if (!site || !text || !jumbetai_is_range(summary, length)) return JUMBETAI_BAD_ARGUMENT;
    tell(site, DELTA, summary, length, from, &reply);
    return copy_text(site, &reply, text);
}

int jumbetai_page(jumbetai_site *site, uint64_t from, jumbetai_text *text) {
    struct jumbetai_reply reply;
    if (text) *text = (jumbetai_text){0};
    if (!site || !text) return JUMBETAI_BAD_ARGUMENT;
    tell(site, PAGE, NULL, 0, from, &reply);
    return copy_text(site, &reply, text);
}

int jumbetai_arrivals(jumbetai_site *site, uint64_t after, jumbetai_text *text) {
    struct jumbetai_reply reply;
    if (text) *text = (jumbetai_text){0};
    if (!site || !text) return JUMBETAI_BAD_ARGUMENT;
    tell(site, ARRIVALS, NULL, 0, after, &reply);
    return copy_text(site, &reply, text);
}

int jumbetai_delta_part(jumbetai_site *site, const void *summary, size_t length, uint64_t from,
                        uint64_t events, uint64_t bytes, jumbetai_text *text) {
    struct jumbetai_reply reply;
    if (text) *text = (jumbetai_text){0};
    if (!site || !text || !jumbetai_is_range(summary, length)) return JUMBETAI_BAD_ARGUMENT;
    jumbetai_site_part(site->room, jumbetai_start_of(summary), length, from, events, bytes, &reply);
    return copy_text(site, &reply, text);
}

int jumbetai_cover(jumbetai_site *site, jumbetai_text *text) {
    return jumbetai_ask(site, JUMBETAI_COVER, text);
}

int jumbetai_name(jumbetai_site *site, unsigned char name[32]) {
    struct jumbetai_set_name it = {0};
    if (name) memset(name, 0, sizeof it.bytes);
    if (!site || !name) return JUMBETAI_BAD_ARGUMENT;
    jumbetai_site_name(site->room, &it);
    memcpy(name, it.bytes, sizeof it.bytes);
    return (int)it.status;
}

int jumbetai_compare(jumbetai_site *site, const void *summary, size_t length, jumbetai_lag *lag) {
    struct jumbetai_set_lag it = {0};
    if (lag) *lag = (jumbetai_lag){0, 0, 0};
    if (!site || !lag || !jumbetai_is_range(summary, length)) return JUMBETAI_BAD_ARGUMENT;
    jumbetai_site_compare(site->room, jumbetai_start_of(summary), length, &it);
    *lag = (jumbetai_lag){it.lacking, it.ahead, it.blocks};
    return (int)it.status;
}

int jumbetai_copy(jumbetai_site *site, jumbetai_site **copy) {
    struct jumbetai_reply reply;
    if (copy) *copy = NULL;
    if (!site || !copy) return JUMBETAI_BAD_ARGUMENT;
    jumbetai_site *made = room_of_one(0);
    if (!made) return JUMBETAI_OUT_OF_MEMORY;
    jumbetai_site_copy(site->room, made->room);
    /* It has all events, or none where memory ran out. */
    tell(made, RELEASE, NULL, 0, 0, &reply);
    made->events = reply.events;
    if (made->events != site->events) {
        jumbetai_close(made);
        return JUMBETAI_OUT_OF_MEMORY;
    }
    *copy = made;
    return JUMBETAI_DONE;
}

void jumbetai_release(jumbetai_site *site) {
    struct jumbetai_reply unread;
    if (site) tell(site, RELEASE, NULL, 0, 0, &unread);
}

void jumbetai_free(jumbetai_text *text) {
    if (!text) return;
    free(text->bytes);
    *text = (jumbetai_text){0};
}

const char *jumbetai_words(int status) {
    static const char *const words[] = {
        [JUMBETAI_DONE] = "done",
        [JUMBETAI_OUT_OF_MEMORY] = "out of memory",
        [JUMBETAI_NO_EVENTS] = "the bytes spell no events",
        [JUMBETAI_NO_NUMBER] = "an event has no sequence of twenty digits",
        [JUMBETAI_NO_SUCH_QUESTION] = "no such question",
        [JUMBETAI_SUMMARY_NOT_JSON] = "the summary is no JSON",
        [JUMBETAI_SUMMARY_SHAPE] = "the summary has another shape",
        [JUMBETAI_SUMMARY_VERSION] = "the summary is of a version that isn't known",
        [JUMBETAI_SUMMARY_NOT_CANONICAL] = "the summary isn't written as a summary is",
        [JUMBETAI_BAD_ARGUMENT] = "a null pointer, or a length that is too large",
        [JUMBETAI_NO_RANDOM] = "the system gave no random bytes",
        [JUMBETAI_NOT_OPEN] = "the site isn't open",
        [JUMBETAI_BUSY] = "somebody else has the database open",
        [JUMBETAI_JOURNAL] = "SQLite left a journal: open the database once with sqlite3",
        [JUMBETAI_NO_FILE] = "no file of one name has this path",
        [JUMBETAI_SYSTEM] = "the system refuses to open, to read or to write a file",
        [JUMBETAI_NO_DATABASE] = "the file is no database of SQLite",
        [JUMBETAI_DAMAGED] = "a page of the file is damaged",
        [JUMBETAI_STORE] = "the database refused, or has tables of others",
        [JUMBETAI_FOREIGN] = "the table isn't as jumbetai leaves it",
        [JUMBETAI_OWED] = "kept, and not all counted, since memory ran out",
        [JUMBETAI_ORDER_EXISTS] = "the order was placed before",
        [JUMBETAI_NO_ORDER] = "the order was never placed",
        [JUMBETAI_WRONG_STATE] = "the order was shipped or cancelled before",
        [JUMBETAI_FULL] = "no number is left for a row",
        [JUMBETAI_BAD_TIME] = "the time is no moment of RFC 3339 in at most 64 bytes",
        [JUMBETAI_BAD_ORDER] = "an order has a number from 1 to 9223372036854775807",
        [JUMBETAI_BAD_SOURCE] = "the source, or the base, is none",
        [JUMBETAI_ANOTHER_SOURCE] = "the outbox that is there has another source",
        [JUMBETAI_NO_SUCH_ACTION] = "no such action",
        [JUMBETAI_HAS_SEQUENCE] = "an event that is to be numbered has a sequence",
        [JUMBETAI_TOO_LARGE] = "an event is too large for a number",
        [JUMBETAI_BAD_PARTS] = "a region is in 1 to 65536 parts",
        [JUMBETAI_NOT_A_COVER] = "a text is no part's answer to cover",
        [JUMBETAI_NOT_AN_ANSWER] = "a text is no part's answer to the question",
        [JUMBETAI_COVER_COUNT] = "there are more or fewer covers than answers",
        [JUMBETAI_TOO_MANY] = "a count is above 18446744073709551615",
        [JUMBETAI_OVERLAP] = "a source stands in two parts",
    };
    int count = (int)(sizeof words / sizeof *words);
    return status >= 0 && status < count ? words[status] : "no such status";
}

const char *jumbetai_version(void) { return JUMBETAI_VERSION; }
