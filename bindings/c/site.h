/* What the C of this folder has in common. */
#ifndef JUMBETAI_SITE_H
#define JUMBETAI_SITE_H

#include "exports.h"
#include "jumbetai.h"

struct jumbetai_site {
    uint64_t events;
    int is_file;
    int locks[2]; /* the open files of a site over files, to let go of their locks */
    _Alignas(16) unsigned char room[];
};

/* Whether bytes may lie there, so many. */
static inline int jumbetai_is_range(const void *bytes, size_t length) {
    return (bytes || !length) && length <= PTRDIFF_MAX;
}

/* Where bytes lie, also those of an empty range that lies nowhere. */
static inline const unsigned char *jumbetai_start_of(const void *bytes) {
    return bytes ? bytes : (const unsigned char *)"";
}

/* A text of more bytes isn't left in the library beside the caller's copy. */
enum { JUMBETAI_LARGE = 65536 };

/* Why a call of the system failed, which jumbetai_why is told of. */
int32_t rattle_errno(void);

/* Around what may be refused by the system: forgets what this thread met before, and keeps what it
 * met since where the status says that there may be such a refusal behind it. Answers the status.
 */
void jumbetai_begin(void);
int jumbetai_end(int status);

/* Opens the two files of a database, alone and locked, of which `locks` gets copies. Where it isn't
 * done, nothing is open. */
int jumbetai_open_files(const char *path, struct jumbetai_files *files, int locks[2]);

/* Lets go of what `locks` has. */
void jumbetai_unlock(int locks[2]);

/* Writes the text of so many bytes that lies in the room, which is read by `read`, and a zero byte
 * behind it. */
void jumbetai_write(void *room, void (*read)(void *, uint32_t, struct jumbetai_piece *),
                    size_t length, char *bytes);

/* The same as a text of the caller's, of which `listed` is told. */
int jumbetai_copy_text(void *room, void (*read)(void *, uint32_t, struct jumbetai_piece *),
                       uint64_t length, uint64_t listed, jumbetai_text *text);

#endif
