/* The functions of jumbetai.h on an outbox, over the library's exports. Nothing of this file is
 * proved: it tests what C lets a caller get wrong, and keeps the room that an outbox lies in. */
#include "site.h"
#include <stdlib.h>
#include <string.h>

struct jumbetai_outbox {
    jumbetai_order_counts counts;
    int locks[2]; /* the open files, to let go of their locks */
    _Alignas(16) unsigned char room[];
};

/* Keeps what a call told of the rows and the orders. */
static int note(jumbetai_outbox *outbox, const struct jumbetai_outbox_reply *reply) {
    outbox->counts = (jumbetai_order_counts){reply->base, reply->last, reply->orders};
    return jumbetai_end((int)reply->status);
}

int jumbetai_open_outbox(const char *path, const char *source, uint64_t base, uint32_t cache_mib,
                         jumbetai_outbox **outbox) {
    struct jumbetai_files files = {.cache_mib = cache_mib};
    struct jumbetai_outbox_reply reply;
    const char *given = source ? source : "";
    if (outbox) *outbox = NULL;
    if (!outbox || !path) return JUMBETAI_BAD_ARGUMENT;
    jumbetai_outbox *made = malloc(sizeof *made + jumbetai_outbox_size());
    if (!made) return JUMBETAI_OUT_OF_MEMORY;
    jumbetai_begin();
    int status = jumbetai_end(jumbetai_open_files(path, &files, made->locks));
    if (!status) {
        jumbetai_outbox_open(made->room, &files, source != NULL, (const unsigned char *)given,
                             strlen(given), base, &reply);
        status = note(made, &reply);
        if (status) {
            jumbetai_outbox_close(made->room);
            jumbetai_unlock(made->locks);
        }
    }
    if (status)
        free(made);
    else
        *outbox = made;
    return status;
}

void jumbetai_close_outbox(jumbetai_outbox *outbox) {
    if (!outbox) return;
    jumbetai_outbox_close(outbox->room);
    jumbetai_unlock(outbox->locks);
    free(outbox);
}

void jumbetai_outbox_counts(const jumbetai_outbox *outbox, jumbetai_order_counts *counts) {
    if (counts) *counts = outbox ? outbox->counts : (jumbetai_order_counts){0, 0, 0};
}

int jumbetai_order(jumbetai_outbox *outbox, int action, uint64_t order, const char *time,
                   jumbetai_text *event) {
    /* A line has at most some 2,300 bytes, twice those of a source being most of it. */
    enum { ROOM = 4096 };
    struct jumbetai_outbox_reply reply;
    char *bytes = NULL;
    if (event) *event = (jumbetai_text){0};
    if (!outbox || !time) return JUMBETAI_BAD_ARGUMENT;
    /* The room comes before the order is written, so that want of memory means that it isn't. */
    if (event && !(bytes = malloc(ROOM + 1))) return JUMBETAI_OUT_OF_MEMORY;
    jumbetai_begin();
    jumbetai_outbox_order(outbox->room, (uint32_t)action, order, (const unsigned char *)time,
                          strlen(time), &reply);
    int status = note(outbox, &reply);
    if (status || !event) {
        free(bytes);
        return status;
    }
    char *fit = reply.length < PTRDIFF_MAX ? realloc(bytes, (size_t)reply.length + 1) : NULL;
    if (!fit && reply.length > ROOM) {
        free(bytes);
        return JUMBETAI_OUT_OF_MEMORY;
    }
    *event = (jumbetai_text){fit ? fit : bytes, (size_t)reply.length, 0};
    jumbetai_write(outbox->room, jumbetai_outbox_read, event->length, event->bytes);
    return JUMBETAI_DONE;
}

int jumbetai_rows(jumbetai_outbox *outbox, uint64_t after, jumbetai_text *text) {
    struct jumbetai_outbox_reply reply, unread;
    if (text) *text = (jumbetai_text){0};
    if (!outbox || !text) return JUMBETAI_BAD_ARGUMENT;
    jumbetai_begin();
    jumbetai_outbox_rows(outbox->room, after, &reply);
    int status = note(outbox, &reply);
    if (!status) {
        status = jumbetai_copy_text(outbox->room, jumbetai_outbox_read, reply.length, reply.listed,
                                    text);
        /* The last text stays in the room: a page without rows is in place of a large one. */
        if (reply.length > JUMBETAI_LARGE) jumbetai_outbox_rows(outbox->room, UINT64_MAX, &unread);
    }
    return status;
}
