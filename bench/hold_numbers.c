/* Measures a numberer that is held open beside a site that is: the processor time to number events
 * that carry no number, to that of taking as many that carry one.
 *
 *     cc -O2 -I bindings/c bench/hold_numbers.c out/library/libjumbetai.a -o /tmp/hold_numbers
 *     /tmp/hold_numbers FOLDER [EVENTS] [ROUNDS]
 *
 * The files are made in the folder, a new pair in each round, and each call is synced. What an
 * earlier run left there is removed. Of all rounds the least counts. A row has microseconds an
 * event: to take new events, to number them, the ratio; and to number them again by the same
 * numberer. */
#include <stdio.h>
#include <stdlib.h>
#include <string.h>
#include <time.h>

#include "jumbetai.h"

enum { EVENT = 512, SOURCES = 7 };

static double seconds(void) {
    struct timespec now;
    clock_gettime(CLOCK_PROCESS_CPUTIME_ID, &now);
    return (double)now.tv_sec + (double)now.tv_nsec / 1e9;
}

static void must(int status, const char *what) {
    if (status != JUMBETAI_DONE) {
        fprintf(stderr, "%s: %s\n", what, jumbetai_words(status));
        exit(1);
    }
}

/* The event at a place, counted from 0, with its number or without. */
static int event(char *at, long place, int has_number, int has_data) {
    char number[64] = "", data[192] = "";
    if (has_number)
        snprintf(number, sizeof number, ",\"sequence\":\"%020ld\"", place / SOURCES + 1);
    if (has_data)
        snprintf(
            data, sizeof data,
            ",\"datacontenttype\":\"application/json\",\"data\":{\"sku\":\"a-%ld\",\"count\":%ld,"
            "\"by\":\"the counter of the north\"}",
            place * 7919 % 5000, place % 60);
    return snprintf(
        at, EVENT,
        "{\"specversion\":\"1.0\",\"id\":\"o-%ld\",\"source\":\"/shop/%ld\",\"type\":"
        "\"stock.counted\",\"subject\":\"a-%ld\",\"time\":\"2026-03-01T10:%02ld:%02ldZ\"%s%s}",
        place, place % SOURCES, place * 7919 % 5000, place / 60 % 60, place % 60, number, data);
}

/* The batch of the events from a place on. */
static size_t batch(char *at, long first, long count, int has_number, int has_data) {
    size_t length = 0;
    at[length++] = '[';
    for (long it = first; it < first + count; it++) {
        if (it > first) at[length++] = ',';
        length += (size_t)event(at + length, it, has_number, has_data);
    }
    at[length++] = ']';
    return length;
}

static double least(double before, double now) { return now < before ? now : before; }

/* The path of a file that is not there: of one that was, events would come again. */
static void new_path(char *path, size_t size, const char *folder, const char *what, long each,
                     int has_data, int round) {
    const char *const ends[] = {"", "-wal", "-shm"};
    char name[1024];
    snprintf(path, size, "%s/%s-%ld-%d-%d.db", folder, what, each, has_data, round);
    for (size_t it = 0; it < sizeof ends / sizeof *ends; it++) {
        snprintf(name, sizeof name, "%s%s", path, ends[it]);
        remove(name);
    }
}

static void measure(const char *folder, long events, int rounds, long each, int has_data) {
    char path[1024], *bytes = malloc((size_t)each * EVENT + 3);
    double took = 1e9, numbered = 1e9, again = 1e9;
    if (!bytes) exit(1);
    for (int round = 0; round < rounds; round++) {
        jumbetai_site *site;
        jumbetai_numbers *numbers;
        double begun, spent[3] = {0, 0, 0};
        new_path(path, sizeof path, folder, "site", each, has_data, round);
        must(jumbetai_open_file(path, 0, &site), "open the site");
        new_path(path, sizeof path, folder, "numbers", each, has_data, round);
        must(jumbetai_open_numbers(path, 0, 0, &numbers), "open the numberer");
        for (long it = 0; it < events; it += each) {
            size_t length = batch(bytes, it, each, 1, has_data);
            begun = seconds();
            must(jumbetai_take(site, bytes, length, NULL), "take");
            spent[0] += seconds() - begun;
        }
        for (int turn = 1; turn < 3; turn++)
            for (long it = 0; it < events; it += each) {
                jumbetai_text text = {0};
                size_t length = batch(bytes, it, each, 0, has_data);
                begun = seconds();
                must(jumbetai_number(numbers, bytes, length, &text), "number");
                jumbetai_free(&text);
                spent[turn] += seconds() - begun;
            }
        jumbetai_close(site);
        jumbetai_close_numbers(numbers);
        took = least(took, spent[0]);
        numbered = least(numbered, spent[1]);
        again = least(again, spent[2]);
    }
    printf("| %ld | %s | %.1f | %.1f | %.2f | %.2f |\n", each, has_data ? "yes" : "no",
           took * 1e6 / (double)events, numbered * 1e6 / (double)events, numbered / took,
           again / took);
    fflush(stdout);
    free(bytes);
}

int main(int count, char **words) {
    const long sizes[] = {1, 100, 1000};
    long events = count > 2 ? strtol(words[2], NULL, 10) : 20000;
    int rounds = count > 3 ? (int)strtol(words[3], NULL, 10) : 5;
    if (count < 2) return 2;
    printf("| events a call | data | take, us | number, us | ratio | again "
           "|\n|---|---|---|---|---|---|\n");
    for (size_t it = 0; it < sizeof sizes / sizeof *sizes; it++)
        for (int has_data = 0; has_data < 2; has_data++)
            measure(words[1], sizes[it] == 1 ? events / 10 : events, rounds, sizes[it], has_data);
    return 0;
}
