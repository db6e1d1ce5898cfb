/* What heap.c and outbox.c owe, without the proved part: its exports for an outbox are stood in for
 * here, so that an event may be of any length. Linked with heap.c, outbox.c and site.c. The last
 * line is 'N passed, M failed'. */
#define _DEFAULT_SOURCE
#include "site.h"
#include "test.h"
#include <stdbool.h>
#include <stdio.h>
#include <stdlib.h>
#include <string.h>
#include <unistd.h>

struct tried {
    bool ok;
    void *block;
};

struct tried rattle_alloc(size_t size, size_t align);
struct tried rattle_realloc(void *block, size_t kept, size_t size, size_t align);
void rattle_dealloc(void *block);

/* Each block lies as it was asked for, and has what it had when it grows or shrinks. */
static void try_heap(void) {
    enum { SIZES = 8 };
    static const size_t sizes[SIZES] = {0, 1, 8, 100, 4096, 4097, 70000, 3};
    for (size_t align = 1; align <= 8192; align *= 2) {
        struct tried all[SIZES];
        for (int i = 0; i < SIZES; i++) {
            all[i] = rattle_alloc(sizes[i], align);
            IS(all[i].ok, 1);
            if (align > 16 || sizes[i] % align == 0) IS((uintptr_t)all[i].block % align, 0);
            memset(all[i].block, i, sizes[i]);
        }
        for (int i = 0; i < SIZES; i++) {
            size_t size = sizes[(i + 1) % SIZES], kept = size < sizes[i] ? size : sizes[i];
            all[i] = rattle_realloc(all[i].block, sizes[i], size, align);
            IS(all[i].ok, 1);
            if (align > 16 || size % align == 0) IS((uintptr_t)all[i].block % align, 0);
            unsigned char *bytes = all[i].block;
            size_t same = 0;
            while (same < kept && bytes[same] == i)
                same++;
            IS(same, kept);
        }
        for (int i = 0; i < SIZES; i++)
            rattle_dealloc(all[i].block);
    }
    IS(rattle_alloc(PTRDIFF_MAX, 64).ok, 0);
    IS(rattle_alloc(SIZE_MAX, 64).ok, 0);
}

/* The exports, of which one answers an event of so many bytes: i modulo 251 at the place i. */
static uint64_t length_of_event;

size_t jumbetai_outbox_size(void) { return 64; }

void jumbetai_outbox_open(void *at, struct jumbetai_files *files, uint32_t has_source,
                          const unsigned char *source, size_t length, uint64_t base,
                          struct jumbetai_outbox_reply *reply) {
    (void)at, (void)has_source, (void)source, (void)length;
    close(files->log), close(files->db);
    *reply = (struct jumbetai_outbox_reply){.base = base, .last = base};
}

void jumbetai_outbox_order(void *at, uint32_t action, uint64_t order, const unsigned char *time,
                           size_t length, struct jumbetai_outbox_reply *reply) {
    (void)at, (void)action, (void)time, (void)length;
    *reply =
        (struct jumbetai_outbox_reply){.last = order, .orders = order, .length = length_of_event};
}

void jumbetai_outbox_rows(void *at, uint64_t after, struct jumbetai_outbox_reply *reply) {
    (void)at, (void)after;
    *reply = (struct jumbetai_outbox_reply){.length = length_of_event};
}

void jumbetai_outbox_read(void *at, uint32_t piece, struct jumbetai_piece *out) {
    (void)at;
    uint64_t from = (uint64_t)piece * sizeof out->bytes;
    uint64_t left = from < length_of_event ? length_of_event - from : 0;
    out->length = left < sizeof out->bytes ? left : sizeof out->bytes;
    for (uint64_t i = 0; i < out->length; i++)
        out->bytes[i] = (unsigned char)((from + i) % 251);
}

void jumbetai_outbox_close(void *at) { (void)at; }

int jumbetai_open_files(const char *path, struct jumbetai_files *files, int locks[2]) {
    (void)path;
    files->log = files->db = locks[0] = locks[1] = -1;
    return JUMBETAI_DONE;
}

void jumbetai_unlock(int locks[2]) { (void)locks; }

static int is_event(const jumbetai_text *text, uint64_t length) {
    if (!text->bytes || text->length != length || text->events || text->bytes[length]) return 0;
    for (uint64_t i = 0; i < length; i++)
        if ((unsigned char)text->bytes[i] != i % 251) return 0;
    return 1;
}

static void try_events(void) {
    static const uint64_t lengths[] = {0, 1, 2300, 4095, 4096, 4097, 8192, 100000};
    jumbetai_outbox *outbox;
    jumbetai_text event;
    IS(jumbetai_open_outbox("a.db", NULL, 0, 0, &outbox), JUMBETAI_DONE);
    for (size_t i = 0; i < sizeof lengths / sizeof *lengths; i++) {
        length_of_event = lengths[i];
        IS(jumbetai_order(outbox, JUMBETAI_PLACE, i + 1, "", &event), JUMBETAI_DONE);
        IS(is_event(&event, lengths[i]), 1);
        jumbetai_free(&event);
        IS(jumbetai_order(outbox, JUMBETAI_PLACE, i + 1, "", NULL), JUMBETAI_DONE);
        IS(jumbetai_rows(outbox, 0, &event), JUMBETAI_DONE);
        IS(is_event(&event, lengths[i]), 1);
        jumbetai_free(&event);
    }
    jumbetai_close_outbox(outbox);
}

int main(void) {
    try_heap();
    try_events();
    printf("%d passed, %d failed\n", passed, failed);
    return failed > 0;
}
