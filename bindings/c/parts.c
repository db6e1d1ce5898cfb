/* The functions of jumbetai.h on a region in parts, over the library's exports. Nothing of this
 * file is proved: it tests what C lets a caller get wrong, and lays texts one behind the other. */
#include "site.h"
#include <stdlib.h>
#include <string.h>

int jumbetai_part(const void *source, size_t length, uint64_t parts, uint64_t *part) {
    if (part) *part = 0;
    if (!part || !jumbetai_is_range(source, length)) return JUMBETAI_BAD_ARGUMENT;
    return (int)jumbetai_source_part(jumbetai_start_of(source), length, parts, part);
}

/* Copies the text of so many bytes that was made in the room, if any was. */
static int copy_text(jumbetai_site *site, int is_made, uint64_t length, uint64_t events,
                     jumbetai_text *text) {
    int status = is_made ? jumbetai_copy_text(site->room, jumbetai_site_read, length, events, text)
                         : JUMBETAI_DONE;
    if (length > JUMBETAI_LARGE) jumbetai_release(site);
    return status;
}

int jumbetai_split(jumbetai_site *site, const void *bytes, size_t length, uint64_t parts,
                   jumbetai_text *text) {
    struct jumbetai_reply reply;
    if (text) *text = (jumbetai_text){0};
    if (!site || !text || !jumbetai_is_range(bytes, length)) return JUMBETAI_BAD_ARGUMENT;
    jumbetai_site_split(site->room, jumbetai_start_of(bytes), length, parts, &reply);
    int is_done = reply.status == JUMBETAI_DONE;
    int copied = copy_text(site, is_done, reply.length, reply.listed, text);
    return is_done ? copied : (int)reply.status;
}

/* Texts one behind the other, and how many bytes each has. */
struct texts {
    unsigned char *bytes;
    uint64_t *lengths;
    size_t length, count;
};

/* Puts these texts behind those that are there. */
static void put(struct texts *texts, const jumbetai_body *bodies, size_t count) {
    for (size_t i = 0; i < count; i++) {
        size_t length = bodies[i].length;
        if (length) memcpy(texts->bytes + texts->length, bodies[i].bytes, length);
        texts->length += length;
        texts->lengths[texts->count++] = length;
    }
}

/* Adds up how many bytes the bodies have; answers 0 where that is more than there can be. */
static int add_lengths(const jumbetai_body *bodies, size_t count, size_t *length) {
    for (size_t i = 0; i < count; i++) {
        if (bodies[i].length > PTRDIFF_MAX - 1 - *length) return 0;
        *length += bodies[i].length;
    }
    return 1;
}

static int are_ranges(const jumbetai_body *bodies, size_t count) {
    if (count > PTRDIFF_MAX / sizeof *bodies || (count && !bodies)) return 0;
    for (size_t i = 0; i < count; i++)
        if (!jumbetai_is_range(bodies[i].bytes, bodies[i].length)) return 0;
    return 1;
}

/* The number by which the export is asked for the summary of the whole. */
enum { SUMMARY = JUMBETAI_GAPS + 1 };

/* Has the answer of the whole made in the site's room; memory may be refused here already. */
static void combine(jumbetai_site *site, int question, const jumbetai_body *answers,
                    size_t answer_count, const jumbetai_body *covers, size_t cover_count,
                    struct jumbetai_combine_reply *reply) {
    size_t length = 0, count = answer_count + cover_count;
    *reply = (struct jumbetai_combine_reply){.status = JUMBETAI_OUT_OF_MEMORY};
    if (!add_lengths(answers, answer_count, &length) || !add_lengths(covers, cover_count, &length))
        return;
    struct texts texts = {malloc(length + 1), malloc((count + 1) * sizeof *texts.lengths), 0, 0};
    if (texts.bytes && texts.lengths) {
        put(&texts, answers, answer_count);
        put(&texts, covers, cover_count);
        jumbetai_site_combine(site->room, (uint32_t)question, answer_count, texts.bytes, length,
                              texts.lengths, count, reply);
    }
    free(texts.bytes), free(texts.lengths);
}

/* What the export answers to a number, as a text of the caller's. */
static int answer_whole(jumbetai_site *site, int number, const jumbetai_body *answers,
                        size_t answer_count, const jumbetai_body *covers, size_t cover_count,
                        jumbetai_parts *parts, jumbetai_text *text) {
    struct jumbetai_combine_reply reply;
    if (parts) *parts = (jumbetai_parts){0, 0};
    if (text) *text = (jumbetai_text){0};
    if (!site || !text || !are_ranges(answers, answer_count) || !are_ranges(covers, cover_count))
        return JUMBETAI_BAD_ARGUMENT;
    combine(site, number, answers, answer_count, covers, cover_count, &reply);
    if (parts) *parts = (jumbetai_parts){reply.first, reply.second};
    int is_done = reply.status == JUMBETAI_DONE, is_overlap = reply.status == JUMBETAI_OVERLAP;
    int copied = copy_text(site, is_done || is_overlap, reply.length, 0, text);
    return is_done ? copied : (int)reply.status;
}

int jumbetai_combine(jumbetai_site *site, int question, const jumbetai_body *answers,
                     size_t answer_count, const jumbetai_body *covers, size_t cover_count,
                     jumbetai_parts *parts, jumbetai_text *text) {
    return answer_whole(site, question == SUMMARY ? 0 : question, answers, answer_count, covers,
                        cover_count, parts, text);
}

int jumbetai_combine_summaries(jumbetai_site *site, const jumbetai_body *summaries, size_t count,
                               jumbetai_parts *parts, jumbetai_text *text) {
    return answer_whole(site, SUMMARY, summaries, count, NULL, 0, parts, text);
}
