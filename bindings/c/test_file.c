/* Sites over files, in a folder that is made here: what each call answers, what a log begins with
 * and how large a cache is, that the file is busy for another process, and that all that was
 * answered is there after the process that took it was killed. The last line is 'N passed, M
 * failed'. */
#define _DEFAULT_SOURCE
#include "jumbetai.h"
#include "test.h"
#include <fcntl.h>
#include <signal.h>
#include <stdio.h>
#include <stdlib.h>
#include <string.h>
#include <sys/stat.h>
#include <sys/wait.h>
#include <unistd.h>

/* One event of source /a with this number. */
static int write_event(char *to, size_t room, int number) {
    return snprintf(to, room,
                    "{\"specversion\":\"1.0\",\"id\":\"e%d\",\"source\":\"/a\",\"type\":\"t\","
                    "\"sequence\":\"%020d\"}",
                    number, number);
}

static int take(jumbetai_site *site, int number, jumbetai_counts *counts) {
    char event[200];
    int length = write_event(event, sizeof event, number);
    return jumbetai_take(site, event, (size_t)length, counts);
}

/* How many events the file has, which nobody has open; -1 where it isn't opened. */
static long long count_of(const char *path) {
    jumbetai_site *site;
    if (jumbetai_open_file(path, 0, &site)) return -1;
    long long count = (long long)jumbetai_count(site);
    jumbetai_close(site);
    return count;
}

/* What another process is answered that opens the file. */
static int opened_elsewhere(const char *path) {
    int status = -1;
    pid_t child = fork();
    if (child == 0) {
        jumbetai_site *site;
        int answer = jumbetai_open_file(path, 0, &site);
        jumbetai_close(site);
        _exit(answer);
    }
    waitpid(child, &status, 0);
    return WIFEXITED(status) ? WEXITSTATUS(status) : -1;
}

static void write_file(const char *path, const char *bytes) {
    FILE *file = fopen(path, "w");
    if (!file) return;
    fputs(bytes, file);
    fclose(file);
}

static void try_calls(void) {
    jumbetai_site *site, *other;
    jumbetai_counts counts;
    jumbetai_text text, same;
    IS(jumbetai_open_file(NULL, 0, &site), JUMBETAI_BAD_ARGUMENT);
    IS(jumbetai_open_file("a.db", 0, NULL), JUMBETAI_BAD_ARGUMENT);
    IS(jumbetai_open_file("none/a.db", 0, &site), JUMBETAI_SYSTEM);
    IS(site == NULL, 1);
    IS(jumbetai_open_file("a.db", 0, &site), JUMBETAI_DONE);
    IS(take(site, 1, &counts), JUMBETAI_DONE);
    IS(counts.fresh, 1);
    IS(counts.repeated, 0);
    IS(take(site, 1, &counts), JUMBETAI_DONE);
    IS(counts.fresh, 0);
    IS(counts.repeated, 1);
    IS(jumbetai_take(site, "{}", 2, &counts), JUMBETAI_NO_EVENTS);
    IS(take(site, 2, NULL), JUMBETAI_DONE);
    IS(jumbetai_count(site), 2);
    IS(jumbetai_open_file("a.db", 0, &other), JUMBETAI_BUSY);
    IS(jumbetai_open_file("a.db-wal", 0, &other), JUMBETAI_BUSY);
    IS(opened_elsewhere("a.db"), JUMBETAI_BUSY);
    /* A site in memory with the same events says the same, whatever is asked. */
    other = jumbetai_open();
    take(other, 1, NULL);
    take(other, 2, NULL);
    for (int question = 0; question <= JUMBETAI_GAPS + 1; question++) {
        int status = jumbetai_ask(site, question, &text);
        IS(jumbetai_ask(other, question, &same), status);
        IS(text.length, same.length);
        if (!status) IS(memcmp(text.bytes, same.bytes, same.length), 0);
        jumbetai_free(&text);
        jumbetai_free(&same);
    }
    IS(jumbetai_summary(site, &text), JUMBETAI_DONE);
    IS(jumbetai_summary(other, &same), JUMBETAI_DONE);
    IS(strcmp(text.bytes, same.bytes), 0);
    jumbetai_free(&same);
    IS(jumbetai_delta(site, text.bytes, text.length, 0, &same), JUMBETAI_DONE);
    IS(same.events, 0);
    jumbetai_free(&same);
    IS(jumbetai_delta(site, "{", 1, 0, &same), JUMBETAI_SUMMARY_NOT_JSON);
    jumbetai_free(&text);
    IS(jumbetai_page(site, 1, &text), JUMBETAI_DONE);
    IS(text.events, 1);
    jumbetai_free(&text);
    IS(jumbetai_check(site, "{}", 2, &text), JUMBETAI_DONE);
    IS(text.length > 0, 1);
    jumbetai_free(&text);
    IS(jumbetai_keep_views(site), JUMBETAI_DONE);
    IS(jumbetai_ask(site, JUMBETAI_KINDS, &text), JUMBETAI_DONE);
    IS(jumbetai_ask(other, JUMBETAI_KINDS, &same), JUMBETAI_DONE);
    IS(strcmp(text.bytes, same.bytes), 0);
    jumbetai_free(&text);
    jumbetai_free(&same);
    jumbetai_close(other);
    jumbetai_close(site);
    IS(count_of("a.db"), 2);
    IS(opened_elsewhere("a.db"), JUMBETAI_DONE);
}

static void try_names(void) {
    jumbetai_site *site;
    IS(symlink("a.db", "link.db"), 0);
    IS(count_of("link.db"), 2);
    IS(access("link.db-wal", F_OK), -1);
    IS(link("a.db", "second.db"), 0);
    IS(jumbetai_open_file("a.db", 0, &site), JUMBETAI_NO_FILE);
    IS(unlink("second.db"), 0);
    IS(mkdir("folder", 0777), 0);
    IS(jumbetai_open_file("folder", 0, &site), JUMBETAI_NO_FILE);
    write_file("a.db-journal", "\xd9");
    IS(jumbetai_open_file("a.db", 0, &site), JUMBETAI_JOURNAL);
    write_file("a.db-journal", "");
    IS(count_of("a.db"), 2);
    unlink("a.db-wal");
    write_file("other", "kept");
    IS(symlink("other", "a.db-wal"), 0);
    IS(jumbetai_open_file("a.db", 0, &site), JUMBETAI_NO_FILE);
    unlink("a.db-wal");
    IS(chmod("a.db", 0664), 0);
    IS(count_of("a.db"), 2);
    struct stat log;
    IS(stat("a.db-wal", &log), 0);
    IS(log.st_mode & 0777, 0664);
    write_file("text.db",
               "this is no database, whatever its name says, and long enough to be read");
    IS(jumbetai_open_file("text.db", 0, &site), JUMBETAI_NO_DATABASE);
}

/* Takes events one by one and tells each number once it is answered, until it is killed. */
static void take_on(const char *path, int from, int to) {
    jumbetai_site *site;
    if (jumbetai_open_file(path, 0, &site)) _exit(1);
    for (int number = from;; number++) {
        if (take(site, number, NULL)) _exit(1);
        if (write(to, &number, sizeof number) != sizeof number) _exit(1);
    }
}

static void try_kills(void) {
    int answered = 0;
    for (int round = 0; round < 20; round++) {
        int ends[2], number;
        if (pipe(ends)) return;
        pid_t child = fork();
        if (child == 0) take_on("k.db", answered + 1, ends[1]);
        close(ends[1]);
        for (int i = 0; i < 3 + round; i++)
            if (read(ends[0], &number, sizeof number) == sizeof number) answered = number;
        usleep((unsigned)(round * 137 % 900));
        kill(child, SIGKILL);
        while (read(ends[0], &number, sizeof number) == sizeof number)
            answered = number;
        waitpid(child, NULL, 0);
        close(ends[0]);
        long long has = count_of("k.db");
        /* One more may be kept than was told. */
        IS(has == answered || has == answered + 1, 1);
        answered = (int)has;
    }
    IS(answered > 100, 1);
}

/* How many KiB of addresses the process has, and of memory: under a sanitizer it has all addresses
 * from the start. */
static long long room_of_process(void) {
    long long addresses = -1, memory = 0;
    FILE *file = fopen("/proc/self/statm", "r");
    if (!file) return -1;
    if (fscanf(file, "%lld %lld", &addresses, &memory) != 2) addresses = -1;
    fclose(file);
    return (addresses + memory) * (sysconf(_SC_PAGESIZE) / 1024);
}

/* The salts of a log of which the file of this path is the database; 0 where there is none. */
static uint64_t salts_of(const char *path) {
    char log[100];
    uint64_t salts = 0;
    snprintf(log, sizeof log, "%s-wal", path);
    FILE *file = fopen(log, "rb");
    if (!file) return 0;
    if (fseek(file, 16, SEEK_SET) || fread(&salts, sizeof salts, 1, file) != 1) salts = 0;
    fclose(file);
    return salts;
}

/* A log's salts are drawn at random, and a cache has the size that was asked for. */
static void try_given(void) {
    jumbetai_site *small, *large;
    jumbetai_counts counts;
    long long before = room_of_process();
    IS(jumbetai_open_file("small", 1, &small), JUMBETAI_DONE);
    long long between = room_of_process();
    IS(jumbetai_open_file("large", 256, &large), JUMBETAI_DONE);
    long long after = room_of_process();
    IS(between - before < 100 * 1024, 1);
    IS(after - between > 200 * 1024, 1);
    IS(take(small, 1, &counts), JUMBETAI_DONE);
    IS(take(large, 1, &counts), JUMBETAI_DONE);
    IS(salts_of("small") != 0, 1);
    IS(salts_of("large") != 0, 1);
    IS(salts_of("small") != salts_of("large"), 1);
    jumbetai_close(small);
    jumbetai_close(large);
}

int main(void) {
    char folder[] = "test-file-XXXXXX";
    if (!mkdtemp(folder) || chdir(folder)) return 2;
    try_calls();
    try_names();
    try_given();
    try_kills();
    printf("%d passed, %d failed\n", passed, failed);
    return failed > 0;
}
