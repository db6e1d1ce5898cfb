/* What the proved library exports, as the C of this folder calls it. A site lies in room that the
 * caller gives by pointer, aligned as malloc aligns; it isn't copied or moved while the site is
 * open. */
#ifndef JUMBETAI_EXPORTS_H
#define JUMBETAI_EXPORTS_H

#include <stddef.h>
#include <stdint.h>

/* status: that of the call. fresh, repeated: what came of events that were taken. listed: how many
 * events the text has, where it is a page's or what has a source and an id. events: how many the
 * site has. length: how many bytes the text of the last answer has. Each call sets all of them. */
struct jumbetai_reply {
    uint32_t status;
    uint64_t fresh, repeated, listed, events, length;
};

/* A piece of the text, of which `length` bytes are set. */
struct jumbetai_piece {
    uint64_t length;
    unsigned char bytes[4096];
};

/* The SHA-256 of the text of a set's summary; as it was where status isn't 0. */
struct jumbetai_set_name {
    uint32_t status;
    unsigned char bytes[32];
};

/* lacking: how many numbers a peer has that the site lacks. ahead: the other way round. blocks: how
 * many blocks differ or are on one side alone. All three are 0 where status isn't. */
struct jumbetai_set_lag {
    uint32_t status;
    uint64_t lacking, ahead, blocks;
};

/* A site, in memory or over files, in room of jumbetai_site_size() bytes. */
size_t jumbetai_site_size(void);
/* In memory, without events. */
void jumbetai_site_open(void *at);

/* Two open files of a database, for reading and writing, by their descriptors: its log, and the
 * database file. Both are locked and nobody else's, hold what the disk holds, and are the library's
 * from jumbetai_site_open_files on, which closes them in the end. key and seed: drawn at random.
 * cache_mib: how many MiB of the database are kept in memory, 0 for what the library finds fit. */
struct jumbetai_files {
    int32_t log, db;
    uint64_t key, seed, cache_mib;
};

/* Over files. Where it is refused a site that isn't open lies in the room, which is closed too. */
void jumbetai_site_open_files(void *at, struct jumbetai_files *files, struct jumbetai_reply *reply);
void jumbetai_site_take(void *at, const unsigned char *bytes, size_t length,
                        struct jumbetai_reply *reply);
/* Bodies of one transaction of a site over files: each is offered, and refused (2, 3) or not; all
 * are kept; it is asked what became of the one at a place. At want of memory (1) all that were
 * offered are let go, as by any call but these three. */
void jumbetai_site_offer(void *at, const unsigned char *bytes, size_t length,
                         struct jumbetai_reply *reply);
void jumbetai_site_keep(void *at, struct jumbetai_reply *reply);
void jumbetai_site_answer(void *at, uint64_t place, struct jumbetai_reply *reply);
/* what: 1 to 7 a question; 8 the summary; 9 what a peer lacks, whose summary the bytes are; 10 a
 * page; 11 what is wrong with bytes; 12 that views be kept, by sixteen random bytes; 13 a page of
 * arrivals; 14 that the text be let go. */
void jumbetai_site_tell(void *at, uint32_t what, const unsigned char *bytes, size_t length,
                        uint64_t from, struct jumbetai_reply *reply);
/* A part of what a peer lacks: at most so many events, 0 for a page, and up to the page with which
 * their texts have `size` bytes, where that isn't 0. */
void jumbetai_site_part(void *at, const unsigned char *summary, size_t length, uint64_t from,
                        uint64_t most, uint64_t size, struct jumbetai_reply *reply);
/* The events of a source and an id, a line each, the shown one first; `listed` is how many. */
void jumbetai_site_get(void *at, const unsigned char *source, size_t source_length,
                       const unsigned char *id, size_t id_length, struct jumbetai_reply *reply);
void jumbetai_site_name(void *at, struct jumbetai_set_name *name);
void jumbetai_site_compare(void *at, const unsigned char *summary, size_t length,
                           struct jumbetai_set_lag *lag);
/* Makes a copy of a site in other room of jumbetai_site_size() bytes, in which none lies: a site in
 * memory with the same events, or with none where memory ran out. */
void jumbetai_site_copy(void *at, void *to);
void jumbetai_site_read(void *at, uint32_t piece, struct jumbetai_piece *out);
void jumbetai_site_close(void *at);

/* The events of the bytes in so many parts by their sources, a line each, the batch of the part's
 * events; `listed` is how many events there are. 32 where so many parts there can't be. */
void jumbetai_site_split(void *at, const unsigned char *bytes, size_t length, uint64_t parts,
                         struct jumbetai_reply *reply);

/* status: that of the call. first, second: the part that is at fault, or two that have one source;
 * how many answers and covers there are, where these differ; else 0. length: how many bytes the
 * text has that lies there: the answer, or the source that stands in two parts, or that of before.
 */
struct jumbetai_combine_reply {
    uint32_t status;
    uint64_t first, second, length;
};

/* The answer of the whole to a question from texts of its parts, which lie one behind the other in
 * the bytes, as many as there are lengths: so many answers, and behind them the covers. 8 asks for
 * the summary of the whole, from so many summaries of its parts. */
void jumbetai_site_combine(void *at, uint32_t question, uint64_t answers,
                           const unsigned char *bytes, size_t length, const uint64_t *lengths,
                           size_t count, struct jumbetai_combine_reply *reply);

/* Of so many parts the one that a source falls to, and 0; or 32 where so many there can't be. It
 * asks for no memory. */
uint32_t jumbetai_source_part(const unsigned char *source, size_t length, uint64_t parts,
                              uint64_t *part);

/* What taking bytes would come to, without a site; `listed` is how many events they spell. */
void jumbetai_bytes_test(const unsigned char *bytes, size_t length, struct jumbetai_reply *reply);

/* status: that of the call. number: that of the row that a command wrote, else 0. listed: how many
 * events the text has, where it is a page's, else 0. base: the number before that of the first row.
 * last: that of the last row, the base where there is none. orders: how many orders there are.
 * length: how many bytes the text has that lies there. Each call sets all of them. Where no service
 * is open number, listed, base, last and orders are 0. */
struct jumbetai_outbox_reply {
    uint32_t status;
    uint64_t number, listed, base, last, orders, length;
};

/* An outbox over files, in room of jumbetai_outbox_size() bytes. Where opening it is refused an
 * outbox that isn't open lies there, which is closed too. The source is looked at where has_source
 * isn't 0; else it is whatever is there, and "/orders" where one is made. The base is of one that
 * is made. */
size_t jumbetai_outbox_size(void);
void jumbetai_outbox_open(void *at, struct jumbetai_files *files, uint32_t has_source,
                          const unsigned char *source, size_t length, uint64_t base,
                          struct jumbetai_outbox_reply *reply);
/* action: 1 places the order, 2 ships it, 3 cancels it. The text is the line of the event. */
void jumbetai_outbox_order(void *at, uint32_t action, uint64_t order, const unsigned char *time,
                           size_t length, struct jumbetai_outbox_reply *reply);
/* The text is the line of the batch of the rows with a greater number, at most 100. */
void jumbetai_outbox_rows(void *at, uint64_t after, struct jumbetai_outbox_reply *reply);
void jumbetai_outbox_read(void *at, uint32_t piece, struct jumbetai_piece *out);
void jumbetai_outbox_close(void *at);

/* A numberer over files, in room of jumbetai_numbers_size() bytes. Where opening it is refused a
 * numberer that isn't open lies there, which is closed too. Each source begins behind the base.
 * `events` of the reply is how many events it numbered. */
size_t jumbetai_numbers_size(void);
void jumbetai_numbers_open(void *at, struct jumbetai_files *files, uint64_t base,
                           struct jumbetai_reply *reply);
/* The text is the line of the batch of the events with their numbers. Where one of them is refused
 * `listed` is its index, from 0. */
void jumbetai_numbers_number(void *at, const unsigned char *bytes, size_t length,
                             struct jumbetai_reply *reply);
void jumbetai_numbers_read(void *at, uint32_t piece, struct jumbetai_piece *out);
void jumbetai_numbers_close(void *at);

#endif
