/* A site in a process of one's own: a set of CloudEvents in memory or over a database file, its
 * answers, its summary, and what another site lacks of it; an outbox: the orders of a service in a
 * database file, with the events that tell of them; and a numberer of events. Link with
 * libjumbetai.a: cc program.c -ljumbetai
 *
 * A call answers a status, 0 where it is done. None prints or aborts, and only what is over a file
 * touches one. A site, in memory or over a file, or an outbox may go from thread to thread, as by a
 * lock, which is a law of the library, proved; but one thread at a time uses it. Two of them have
 * nothing in common. No call is to be made from a signal handler. */
#ifndef JUMBETAI_H
#define JUMBETAI_H

#include <stddef.h>
#include <stdint.h>

#ifdef __cplusplus
extern "C" {
#endif
/* These functions, and no others, are exported by whatever the library is linked into. */
#ifdef __GNUC__
#pragma GCC visibility push(default)
#endif

#define JUMBETAI_VERSION "0.2.1"

/* A site. Made by jumbetai_open and given back by jumbetai_close. */
typedef struct jumbetai_site jumbetai_site;

/* What a call answers. */
enum jumbetai_status {
    JUMBETAI_DONE = 0,
    JUMBETAI_OUT_OF_MEMORY = 1,
    JUMBETAI_NO_EVENTS = 2, /* the bytes spell no event and no batch: jumbetai_check says why */
    JUMBETAI_NO_NUMBER =
        3, /* an event has no sequence of twenty digits: jumbetai_check says which */
    JUMBETAI_NO_SUCH_QUESTION = 4,
    JUMBETAI_SUMMARY_NOT_JSON = 5,
    JUMBETAI_SUMMARY_SHAPE = 6,         /* JSON, and no summary */
    JUMBETAI_SUMMARY_VERSION = 7,       /* of a version that isn't known */
    JUMBETAI_SUMMARY_NOT_CANONICAL = 8, /* not byte for byte as a summary is written */
    JUMBETAI_BAD_ARGUMENT = 9,          /* a null pointer, or a length above PTRDIFF_MAX */
    JUMBETAI_NO_RANDOM = 10,            /* the system gave no random bytes */
    JUMBETAI_NOT_OPEN = 11,             /* no call answers so of a site that was opened */
    JUMBETAI_BUSY = 12,                 /* somebody else has the database open, or this process */
    JUMBETAI_JOURNAL = 13,     /* SQLite left a journal: open the database once with sqlite3 */
    JUMBETAI_NO_FILE = 14,     /* a folder, a device, a log that is a link, a file of two names */
    JUMBETAI_SYSTEM = 15,      /* the system refuses to open, to lock, to read or to write a file */
    JUMBETAI_NO_DATABASE = 16, /* no database of SQLite, or one with what isn't read here */
    JUMBETAI_DAMAGED = 17,     /* a page of it isn't what SQLite writes */
    JUMBETAI_STORE = 18,       /* it has tables of others, or a statement was refused */
    JUMBETAI_FOREIGN = 19,     /* the table, or its rows, aren't those that are left here */
    JUMBETAI_OWED = 20,        /* the events are kept, and memory ran out before all were counted */
    JUMBETAI_ORDER_EXISTS = 21,   /* the order was placed before */
    JUMBETAI_NO_ORDER = 22,       /* the order was never placed */
    JUMBETAI_WRONG_STATE = 23,    /* the order was shipped or cancelled before */
    JUMBETAI_FULL = 24,           /* no number is left for a row */
    JUMBETAI_BAD_TIME = 25,       /* no moment of RFC 3339, or one of more than 64 bytes */
    JUMBETAI_BAD_ORDER = 26,      /* an order has a number from 1 to 2^63-1 */
    JUMBETAI_BAD_SOURCE = 27,     /* the source isn't one, or the base is above 2^63-1 */
    JUMBETAI_ANOTHER_SOURCE = 28, /* the outbox that is there has another source than was given */
    JUMBETAI_NO_SUCH_ACTION = 29,
    JUMBETAI_HAS_SEQUENCE = 30,  /* an event that is to be numbered has a sequence */
    JUMBETAI_TOO_LARGE = 31,     /* with a number its text would have more than 262,144 bytes */
    JUMBETAI_BAD_PARTS = 32,     /* a region is in 1 to JUMBETAI_MAX_PARTS parts */
    JUMBETAI_NOT_A_COVER = 33,   /* a text is no part's answer to JUMBETAI_COVER */
    JUMBETAI_NOT_AN_ANSWER = 34, /* a text is no part's answer, or isn't of the cover beside it */
    JUMBETAI_COVER_COUNT = 35,   /* there are more or fewer covers than answers */
    JUMBETAI_TOO_MANY = 36,      /* a count of the whole is above 2^64-1 */
    JUMBETAI_OVERLAP = 37        /* a source stands in two parts */
};

/* The seven questions, as `site` has them. */
enum jumbetai_question {
    JUMBETAI_COVER = 1,
    JUMBETAI_SHOWN,
    JUMBETAI_CONFLICTS,
    JUMBETAI_LATEST,
    JUMBETAI_KINDS,
    JUMBETAI_DAYS,
    JUMBETAI_GAPS
};

/* What is done with an order: it is placed, and then shipped or cancelled, which are final. */
enum jumbetai_action { JUMBETAI_PLACE = 1, JUMBETAI_SHIP, JUMBETAI_CANCEL };

/* What came of events that were given: how many were new, and how many were there, where all were
 * taken. */
typedef struct jumbetai_counts {
    uint64_t fresh;
    uint64_t repeated;
} jumbetai_counts;

/* Bytes of one caller, and what came of them: the status and the counts that jumbetai_take would
 * answer. */
typedef struct jumbetai_body {
    const void *bytes;
    size_t length;
} jumbetai_body;
typedef struct jumbetai_answer {
    int status;
    jumbetai_counts counts;
} jumbetai_answer;

/* How far a site and a peer are apart: how many numbers of its sources the peer has that the site
 * lacks, how many the site has that the peer lacks, and how many blocks of 1,024 numbers differ, or
 * are on one side alone. */
typedef struct jumbetai_lag {
    uint64_t lacking;
    uint64_t ahead;
    uint64_t blocks;
} jumbetai_lag;

/* An outbox. Made by jumbetai_open_outbox and given back by jumbetai_close_outbox. */
typedef struct jumbetai_outbox jumbetai_outbox;

/* Of an outbox: the number before that of its first row, that of its last row, which is the base
 * where there is none, and how many orders it has, whatever became of them. */
typedef struct jumbetai_order_counts {
    uint64_t base;
    uint64_t last;
    uint64_t orders;
} jumbetai_order_counts;

/* A text of a site or an outbox: UTF-8, with a zero byte behind its last byte that `length` doesn't
 * count. It belongs to the caller, stays what it is whatever becomes of the other, and is given
 * back by jumbetai_free. `events` is how many events a page has, or the text of jumbetai_get or
 * jumbetai_split, and 0 of other texts. Where a call isn't done, all three are 0, but for what
 * jumbetai_number and jumbetai_combine say of some refusals. */
typedef struct jumbetai_text {
    char *bytes;
    size_t length;
    uint64_t events;
} jumbetai_text;

/* The most events of a page. */
enum { JUMBETAI_PAGE = 100 };

/* A site without events; null where memory is refused. */
jumbetai_site *jumbetai_open(void);

/* A site over a database file, which is made where there is none: what it takes is in the file, on
 * the disk, once the call is done. The file is one that `site` and sqlite3 open when it is closed;
 * until then they find it busy, and so does who opens it twice. `path` ends with a zero byte.
 * `cache_mib` is how many MiB of the file are kept in memory, 0 for as many as it has and 16 more,
 * at most 256. Time and memory in proportion to the events. A process that was forked while the
 * site is open neither uses nor closes it. `*site` is null where it isn't done.
 *
 * SQLite's own library may have the file open in the same process. Each then finds it busy while
 * the other uses it, and JUMBETAI_BUSY takes none of SQLite's locks away: a descriptor of the file
 * stays open for the next opening. As a site is closed, or an opening refused otherwise, the system
 * drops what locks another thread takes on the file by SQLite in that moment: none is to. */
int jumbetai_open_file(const char *path, uint32_t cache_mib, jumbetai_site **site);

/* Gives a site and its memory back. A null pointer is let through. */
void jumbetai_close(jumbetai_site *site);

/* How many events the site has, each counted once. Constant time. */
uint64_t jumbetai_count(const jumbetai_site *site);

/* Takes an event, or a batch of events, in the JSON format of CloudEvents 1.0.2, of at most
 * 33,554,432 bytes. Where the bytes are at fault nothing is taken. At want of memory the first of
 * them may have been taken, `fresh` of which were new: the same bytes may be given again. Over a
 * file all are kept, in one transaction, or none; JUMBETAI_OWED says that they are kept, and that
 * the rest is counted at the next take. `counts` may be null. */
int jumbetai_take(jumbetai_site *site, const void *bytes, size_t length, jumbetai_counts *counts);

/* Takes the bodies of several callers, each as jumbetai_take takes its bytes, in their order, and
 * answers each: `answers` has room for `count` of them. A body at fault is refused alone. `fresh`
 * counts what wasn't there before that body. Over a file the others are kept in one transaction:
 * where that isn't done, none is, and its status is the call's and each of their answers'; a crash
 * leaves all of them, or none. In memory they are taken one by one, up to one that memory is
 * refused to. The status tells of no fault of bytes; JUMBETAI_OWED is as in jumbetai_take. */
int jumbetai_take_each(jumbetai_site *site, const jumbetai_body *bodies, size_t count,
                       jumbetai_answer *answers);

/* What jumbetai_take would say of these bytes, and how many events they spell, 0 where they are
 * refused. It needs no site, and any thread may call it at any time. `events` may be null. */
int jumbetai_test(const void *bytes, size_t length, uint64_t *events);

/* What is wrong with bytes that are refused: a line of JSON for each event at fault, as `site
 * check` prints of a file `-`; the empty text where nothing is. Takes nothing. */
int jumbetai_check(jumbetai_site *site, const void *bytes, size_t length, jumbetai_text *text);

/* Keeps views of the events from now on: what is asked of types, of types by day and of the latest
 * events then takes the time that the answer takes, in place of a pass over all events, and each
 * event that comes takes a little more. No answer changes. Time and memory in proportion to the
 * events that are there. Where memory for the views is refused later, the site goes on without. */
int jumbetai_keep_views(jumbetai_site *site);

/* The answer to a question, in the lines that `site` prints. */
int jumbetai_ask(jumbetai_site *site, int question, jumbetai_text *text);

/* The events that have a source and an id: their canonical texts in lines, as jumbetai_ask prints
 * those of JUMBETAI_SHOWN; the empty text where there is none. The first is the one that is shown;
 * where there are more, they are in conflict, and come in the order of JUMBETAI_CONFLICTS. Bytes
 * that are no UTF-8 name no event. Time with the logarithm of the events, and that of the text. */
int jumbetai_get(jumbetai_site *site, const void *source, size_t source_length, const void *id,
                 size_t id_length, jumbetai_text *text);

/* The summary, as `site summary` prints it. Two sites whose summaries are equal have the same
 * events, or two texts have one SHA-256. */
int jumbetai_summary(jumbetai_site *site, jumbetai_text *text);

/* The events that a peer lacks by its summary, whose final line end may be left out: those at the
 * places from `from` on, counted from 0, at most JUMBETAI_PAGE, as a batch that its jumbetai_take
 * takes. The next page begins at `from` and `events` more; a page of no events is behind the last.
 * Where events come to the site between two pages, some may be passed over: the peer has all when
 * the first page by its new summary has no events. */
int jumbetai_delta(jumbetai_site *site, const void *summary, size_t length, uint64_t from,
                   jumbetai_text *text);

/* As jumbetai_delta, in larger parts: at most `events` events, 2,000 where it is more, and
 * JUMBETAI_PAGE where it is 0. Where `bytes` isn't 0, the part ends with the 100 events with which
 * their texts have so many bytes. */
int jumbetai_delta_part(jumbetai_site *site, const void *summary, size_t length, uint64_t from,
                        uint64_t events, uint64_t bytes, jumbetai_text *text);

/* The summary of version 1, without digests, as jumbetai_ask(site, JUMBETAI_COVER, text) answers
 * it: which numbers each source has. Time in proportion to it alone. */
int jumbetai_cover(jumbetai_site *site, jumbetai_text *text);

/* The name of the set of events: the SHA-256 of the text of jumbetai_summary, without its line end.
 * Two sites of one name have the same events, or two texts have one SHA-256. */
int jumbetai_name(jumbetai_site *site, unsigned char name[32]);

/* How far the site and a peer are apart, by the peer's summary, whose final line end may be left
 * out; one of version 1 tells of no blocks, which are 0 then. Where it isn't done all three are 0.
 */
int jumbetai_compare(jumbetai_site *site, const void *summary, size_t length, jumbetai_lag *lag);

/* The events that came after the first `after`, in the order in which they came, at most
 * JUMBETAI_PAGE, as a batch. The last of them is number `after` and `events` more, for ever, over a
 * file also when it is opened again: so a consumer keeps that number, and asks what is new. */
int jumbetai_arrivals(jumbetai_site *site, uint64_t after, jumbetai_text *text);

/* A site in memory with the same events, come in the same order, for a reader beside the writer:
 * the two have nothing in common. It keeps no views. Time and memory in proportion to the events.
 * `*copy` is null where it isn't done. */
int jumbetai_copy(jumbetai_site *site, jumbetai_site **copy);

/* Gives back what a site keeps of its last answer, at most 64 KiB. A null pointer is let through.
 */
void jumbetai_release(jumbetai_site *site);

/* All events in key order, by pages of the same kind. */
int jumbetai_page(jumbetai_site *site, uint64_t from, jumbetai_text *text);

/* The outbox of a database file, or a new one where it has none. `source` is what all its events
 * have as theirs, 1 to 1,024 bytes of UTF-8 without control characters, with a zero byte behind:
 * one that is there has to have it; null takes any, and "/orders" for a new one. The rows of a new
 * one are numbered from `base` + 1 on, with a base of 0 to 2^63-1; one that is there keeps its own.
 *
 * The file is made, opened and kept busy as by jumbetai_open_file, beside SQLite too, with a cache
 * of the same kind; a process that was forked leaves it alone. It may have the events of a site
 * too; one of the two is open at a time. Time and memory in proportion to the rows, which are all
 * tested; the memory is given back. `*outbox` is null where it isn't done; a file that was made
 * then stays. */
int jumbetai_open_outbox(const char *path, const char *source, uint64_t base, uint32_t cache_mib,
                         jumbetai_outbox **outbox);

/* Gives an outbox, its memory and its file back. A null pointer is let through. */
void jumbetai_close_outbox(jumbetai_outbox *outbox);

/* Does one of the three actions with the order of this number, 1 to 2^63-1. `time` is a moment as
 * 2024-02-29T10:00:00Z, with a zero byte behind. The order and a row that tells of it are written
 * in one transaction and synced: once the call is done no crash takes them back. Where it isn't,
 * the outbox has what it had; a crash after JUMBETAI_STORE or want of memory may leave both all the
 * same. The row has the number behind the last one. `event` is its event in a line, which
 * `site order` prints too, and may be null. Time with the logarithm of the rows. */
int jumbetai_order(jumbetai_outbox *outbox, int action, uint64_t order, const char *time,
                   jumbetai_text *event);

/* The events of the rows with a number above `after`, at most JUMBETAI_PAGE, as a batch that
 * jumbetai_take takes. Rows are numbered without a gap, so the last of a page has the number
 * `after` and `events` more, or the base and `events` more where `after` is below it: behind that
 * number the next page begins. A page of no events is behind the last row. Who hands rows on keeps
 * that number once a page was taken; from any number before, rows come again, which a site only
 * counts as repeated. */
int jumbetai_rows(jumbetai_outbox *outbox, uint64_t after, jumbetai_text *text);

/* How many rows and orders there are, as the last call on the outbox left them; 0 of a null
 * pointer. Constant time. `counts` may be null. */
void jumbetai_outbox_counts(const jumbetai_outbox *outbox, jumbetai_order_counts *counts);

/* A numberer: it gives events that have no sequence their numbers. Made by jumbetai_open_numbers
 * and given back by jumbetai_close_numbers. */
typedef struct jumbetai_numbers jumbetai_numbers;

/* The numberer of a database file, which is made where there is none. It is the one home of the
 * sources that it numbers: each begins behind `base`, which is given again at each opening, else it
 * is JUMBETAI_FOREIGN. The file is that of a site, whose events are those that were numbered; it is
 * made, opened and kept busy as by jumbetai_open_file, with a cache of the same kind, and a process
 * that was forked leaves it alone. Time in proportion to its events; memory, beside the cache and
 * some bytes for each page of the file, for the last number of each source, and 1 to 17 MiB; while
 * the file is tested, some 420 bytes an event too. `*numbers` is null where it isn't done. */
int jumbetai_open_numbers(const char *path, uint32_t cache_mib, uint64_t base,
                          jumbetai_numbers **numbers);

/* Gives a numberer, its memory and its file back. A null pointer is let through. */
void jumbetai_close_numbers(jumbetai_numbers *numbers);

/* The events that the bytes spell, one or a batch, without numbers, as a batch with their numbers,
 * in their order, which jumbetai_take takes. A text that was numbered before has the number that it
 * had, for ever; another one has its source's next. They are in the file, on the disk, once the
 * call is done. JUMBETAI_HAS_SEQUENCE and JUMBETAI_TOO_LARGE number nothing; after JUMBETAI_FULL,
 * JUMBETAI_STORE and want of memory the numberer is to be closed and opened again, and the same
 * bytes may be given again. Of JUMBETAI_HAS_SEQUENCE, JUMBETAI_TOO_LARGE and JUMBETAI_FULL
 * `events` of the text, which has no bytes, is the index of the first event at fault, from 0. */
int jumbetai_number(jumbetai_numbers *numbers, const void *bytes, size_t length,
                    jumbetai_text *text);

/* The most parts of a region. */
enum { JUMBETAI_MAX_PARTS = 65536 };

/* Of so many parts of a region the one that a source falls to, counted from 0: the first eight
 * bytes of its SHA-256 as a number, the greatest byte first, modulo `parts`; fixed for ever. It
 * needs no site and no memory, and any thread may call it at any time. `*part` is 0 where it isn't
 * done. Time in proportion to the source. */
int jumbetai_part(const void *source, size_t length, uint64_t parts, uint64_t *part);

/* The events that the bytes spell, one or a batch, in so many parts: `parts` lines, of each part
 * the batch of its events, in their order, which jumbetai_take takes; [] where it has none.
 * `events` is how many there are. Bytes are refused as by jumbetai_take, behind a count of parts
 * that is none. Nothing is taken: the site is where the text is made. Time in proportion to the
 * bytes and the parts. */
int jumbetai_split(jumbetai_site *site, const void *bytes, size_t length, uint64_t parts,
                   jumbetai_text *text);

/* Of which parts a refusal of jumbetai_combine tells, counted from 0 in the order given: the one
 * whose text is none, or the two in which a source stands; of JUMBETAI_COVER_COUNT, how many
 * answers and covers there are. Else both are 0. */
typedef struct jumbetai_parts {
    uint64_t first;
    uint64_t second;
} jumbetai_parts;

/* The answer to a question over a whole region, from the answers of its parts, in any order of the
 * parts: the bytes that jumbetai_ask answers of a site with all events. Beside the answers to
 * JUMBETAI_CONFLICTS, JUMBETAI_LATEST, JUMBETAI_KINDS, JUMBETAI_DAYS and JUMBETAI_GAPS stand the
 * parts' answers to JUMBETAI_COVER, one each and in the same order, of the same moment; of the two
 * others no covers are looked at. At JUMBETAI_OVERLAP the text is the source that stands in two
 * parts, where memory is there for it, and is given back too. `parts` may be null. Nothing is
 * taken, and the site isn't asked: it is where the text is made. Time in proportion to the texts
 * and the parts, times a logarithm; memory in proportion to the texts. */
int jumbetai_combine(jumbetai_site *site, int question, const jumbetai_body *answers,
                     size_t answer_count, const jumbetai_body *covers, size_t cover_count,
                     jumbetai_parts *parts, jumbetai_text *text);

/* The summary of a whole region, from the texts of jumbetai_summary of its parts, in any order of
 * the parts: the bytes that jumbetai_summary tells of a site with all events. A text that is none
 * is JUMBETAI_NOT_AN_ANSWER; all else is as of jumbetai_combine. */
int jumbetai_combine_summaries(jumbetai_site *site, const jumbetai_body *summaries, size_t count,
                               jumbetai_parts *parts, jumbetai_text *text);

/* Gives a text back, and sets it to no text. Texts of no bytes and a null pointer are let through.
 */
void jumbetai_free(jumbetai_text *text);

/* Which error of the system stands behind the last call of this thread that opened, took, wrote or
 * read rows, where that was JUMBETAI_STORE or JUMBETAI_SYSTEM: its number in <errno.h>, as ENOSPC
 * of a full disk, or EIO of one that fails; 0 where the system refused nothing. JUMBETAI_STORE and
 * 0 say that a page isn't what was written, or that others wrote in the file: open it anew, which
 * tells which. */
int jumbetai_why(void);

/* A status in words, which are never to be given back. */
const char *jumbetai_words(int status);

/* The version of the library that is linked, as JUMBETAI_VERSION is that of this header. */
const char *jumbetai_version(void);

#ifdef __GNUC__
#pragma GCC visibility pop
#endif
#ifdef __cplusplus
}
#endif
#endif
