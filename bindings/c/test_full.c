/* Bodies of several callers on a disk that is full in the middle of their transaction. It runs in
 * the folder that JUMBETAI_FULL names, on a small file system that it fills. The last line is 'N
 * passed, M failed'. */
#define _DEFAULT_SOURCE /* ftruncate */
#include "jumbetai.h"
#include <errno.h>
#include <fcntl.h>
#include <stdio.h>
#include <stdlib.h>
#include <string.h>
#include <unistd.h>

static int passed, failed;

static void must(int holds, const char *what) {
    passed += holds, failed += !holds;
    if (!holds) printf("wrong: %s\n", what);
}

enum { EVENTS = 400, ROOM = 200000, LEFT = 65536 };

/* A batch of so many events behind a number, which is given back by free. */
static jumbetai_body events(int after, int count) {
    char *batch = malloc(ROOM);
    if (!batch) exit(2);
    size_t length = 0;
    for (int i = 1; i <= count; i++)
        length += (size_t)snprintf(batch + length, ROOM - length,
                                   "%c{\"id\":\"%d\",\"sequence\":\"%020d\",\"source\":\"/full\","
                                   "\"specversion\":\"1.0\",\"type\":\"t\"}",
                                   i == 1 ? '[' : ',', after + i, after + i);
    batch[length++] = ']';
    return (jumbetai_body){batch, length};
}

/* Fills the disk but for some bytes. */
static int fill(void) {
    static char zeros[4096];
    off_t size = 0;
    ssize_t wrote;
    int fd = open("ballast", O_RDWR | O_CREAT | O_CLOEXEC, 0600);
    if (fd < 0) return 0;
    while ((wrote = write(fd, zeros, sizeof zeros)) > 0)
        size += wrote;
    int is_full = errno == ENOSPC && size > LEFT && !ftruncate(fd, size - LEFT);
    return !close(fd) && is_full;
}

static int is_answer(const jumbetai_answer *answer, int status, uint64_t fresh) {
    return answer->status == status && answer->counts.fresh == fresh && !answer->counts.repeated;
}

/* Whether a site says what it said. */
static int says(jumbetai_site *site, const jumbetai_text *want, uint64_t count) {
    jumbetai_text text;
    int is = !jumbetai_summary(site, &text) && text.length == want->length &&
             !memcmp(text.bytes, want->bytes, text.length) && jumbetai_count(site) == count;
    jumbetai_free(&text);
    return is;
}

int main(void) {
    jumbetai_site *site;
    jumbetai_text want;
    jumbetai_answer answers[3];
    const char *folder = getenv("JUMBETAI_FULL");
    if (!folder || chdir(folder)) return 2;
    must(jumbetai_open_file("full.db", 1, &site) == JUMBETAI_DONE, "opened");
    jumbetai_body few = events(0, 3), none = {"{}", 2};
    must(jumbetai_take(site, few.bytes, few.length, NULL) == JUMBETAI_DONE && !jumbetai_why(),
         "three events");
    must(jumbetai_summary(site, &want) == JUMBETAI_DONE, "a summary");
    must(fill(), "a disk that is nearly full");
    jumbetai_body three[] = {events(3, EVENTS), none, few};
    must(jumbetai_take_each(site, three, 3, answers) == JUMBETAI_STORE, "bodies on a full disk");
    must(jumbetai_why() == ENOSPC, "why: no space is left");
    must(is_answer(answers, JUMBETAI_STORE, 0) && is_answer(answers + 1, JUMBETAI_NO_EVENTS, 0) &&
             is_answer(answers + 2, JUMBETAI_STORE, 0),
         "the answers: each as if it were alone");
    must(says(site, &want, 3), "the site as it was");
    must(jumbetai_take(site, few.bytes, 0, NULL) == JUMBETAI_NO_EVENTS && !jumbetai_why(),
         "no error behind a fault of bytes");
    jumbetai_close(site);
    must(!unlink("ballast"), "space again");
    must(jumbetai_open_file("full.db", 1, &site) == JUMBETAI_DONE && says(site, &want, 3),
         "opened again as it was");
    must(jumbetai_take_each(site, three, 2, answers) == JUMBETAI_DONE &&
             is_answer(answers, JUMBETAI_DONE, EVENTS) &&
             is_answer(answers + 1, JUMBETAI_NO_EVENTS, 0),
         "the same bodies with space");
    must(jumbetai_count(site) == EVENTS + 3, "all events");
    jumbetai_free(&want);
    jumbetai_close(site);
    free((void *)few.bytes), free((void *)three[0].bytes);
    printf("%d passed, %d failed\n", passed, failed);
    return failed > 0 || unlink("full.db");
}
