/* The functions of jumbetai.h on a numberer, over the library's exports. Nothing of this file is
 * proved: it tests what C lets a caller get wrong, and keeps the room that a numberer lies in. */
#include "site.h"
#include <stdlib.h>

struct jumbetai_numbers {
    int locks[2]; /* the open files, to let go of their locks */
    _Alignas(16) unsigned char room[];
};

int jumbetai_open_numbers(const char *path, uint32_t cache_mib, uint64_t base,
                          jumbetai_numbers **numbers) {
    struct jumbetai_files files = {.cache_mib = cache_mib};
    struct jumbetai_reply reply;
    if (numbers) *numbers = NULL;
    if (!numbers || !path) return JUMBETAI_BAD_ARGUMENT;
    jumbetai_numbers *made = malloc(sizeof *made + jumbetai_numbers_size());
    if (!made) return JUMBETAI_OUT_OF_MEMORY;
    jumbetai_begin();
    int status = jumbetai_end(jumbetai_open_files(path, &files, made->locks));
    if (!status) {
        jumbetai_numbers_open(made->room, &files, base, &reply);
        status = jumbetai_end((int)reply.status);
        if (status) {
            jumbetai_numbers_close(made->room);
            jumbetai_unlock(made->locks);
        }
    }
    if (status)
        free(made);
    else
        *numbers = made;
    return status;
}

void jumbetai_close_numbers(jumbetai_numbers *numbers) {
    if (!numbers) return;
    jumbetai_numbers_close(numbers->room);
    jumbetai_unlock(numbers->locks);
    free(numbers);
}

int jumbetai_number(jumbetai_numbers *numbers, const void *bytes, size_t length,
                    jumbetai_text *text) {
    struct jumbetai_reply reply;
    if (text) *text = (jumbetai_text){0};
    if (!numbers || !text || !jumbetai_is_range(bytes, length)) return JUMBETAI_BAD_ARGUMENT;
    jumbetai_begin();
    jumbetai_numbers_number(numbers->room, jumbetai_start_of(bytes), length, &reply);
    int status = jumbetai_end((int)reply.status);
    if (status) {
        text->events = reply.listed; /* the index of the event that is at fault */
        return status;
    }
    return jumbetai_copy_text(numbers->room, jumbetai_numbers_read, reply.length, reply.listed,
                              text);
}
