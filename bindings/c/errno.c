/* errno, by which the library tells why a call of the system failed, and which of these stands
 * behind the status of a call of jumbetai.h. */
#include "site.h"
#include <errno.h>

/* The last that this thread met since jumbetai_begin, but for a call that was only interrupted. */
static _Thread_local int met;

int32_t rattle_errno(void) {
    if (errno != EINTR) met = errno;
    return errno;
}

void rattle_set_errno(int32_t error) { errno = error; }

void jumbetai_begin(void) { met = 0; }

int jumbetai_end(int status) {
    if (status != JUMBETAI_STORE && status != JUMBETAI_SYSTEM) met = 0;
    return status;
}

int jumbetai_why(void) { return met; }
