/* Takes files of events into a site in memory and prints what was asked of it, as the program
 * `site` does.
 *
 *     ask QUESTION|summary|page|delta FILE..        by `delta` what a site without events lacks:
 * everything
 *
 * cc ask.c -ljumbetai -o ask */
#include <jumbetai.h>
#include <stdio.h>
#include <stdlib.h>
#include <string.h>

static const char *const questions[] = {"",       "cover", "shown", "conflicts",
                                        "latest", "kinds", "days",  "gaps"};

/* The bytes of a file, which the caller frees; null where it can't be read. */
static char *read_file(const char *name, size_t *length) {
    FILE *file = fopen(name, "rb");
    size_t room = 1 << 16;
    char *bytes = malloc(room);
    *length = 0;
    while (file && bytes) {
        size_t more = fread(bytes + *length, 1, room - *length, file);
        *length += more;
        if (more == 0) break;
        if (*length == room) {
            char *larger = realloc(bytes, room *= 2);
            if (!larger) free(bytes);
            bytes = larger;
        }
    }
    int is_read = file && bytes && !ferror(file);
    if (file) fclose(file);
    if (is_read) return bytes;
    free(bytes);
    return NULL;
}

static int refuse(const char *what, int status) {
    fprintf(stderr, "ask: %s: %s\n", what, jumbetai_words(status));
    return 1;
}

/* Prints a text and gives it back; answers how many events it has, where it is a page. */
static uint64_t print(jumbetai_text *text) {
    uint64_t events = text->events;
    fwrite(text->bytes, 1, text->length, stdout);
    jumbetai_free(text);
    return events;
}

/* Prints all pages, of what is lacking by a summary where there is one, else of all events. */
static int print_pages(jumbetai_site *site, const jumbetai_text *summary) {
    jumbetai_text page;
    for (uint64_t from = 0;;) {
        int status = summary ? jumbetai_delta(site, summary->bytes, summary->length, from, &page)
                             : jumbetai_page(site, from, &page);
        if (status) return status;
        if (page.events == 0) return jumbetai_free(&page), JUMBETAI_DONE;
        from += print(&page);
    }
}

static int answer(jumbetai_site *site, const char *word) {
    jumbetai_text text;
    int status;
    if (!strcmp(word, "page")) return print_pages(site, NULL);
    if (!strcmp(word, "delta")) {
        jumbetai_site *other = jumbetai_open();
        status = jumbetai_summary(other, &text);
        jumbetai_close(other);
        if (status) return status;
        status = print_pages(site, &text);
        jumbetai_free(&text);
        return status;
    }
    int question = JUMBETAI_GAPS;
    while (question > 0 && strcmp(word, questions[question]))
        question--;
    status = strcmp(word, "summary") ? jumbetai_ask(site, question, &text)
                                     : jumbetai_summary(site, &text);
    if (status == JUMBETAI_DONE) print(&text);
    return status;
}

int main(int count, char **words) {
    if (count < 3) return fprintf(stderr, "usage: ask QUESTION|summary|page|delta FILE..\n"), 2;
    jumbetai_site *site = jumbetai_open();
    if (!site) return refuse("open", JUMBETAI_OUT_OF_MEMORY);
    for (int i = 2; i < count; i++) {
        size_t length;
        char *bytes = read_file(words[i], &length);
        if (!bytes)
            return fprintf(stderr, "ask: %s: cannot read\n", words[i]), jumbetai_close(site), 1;
        int status = jumbetai_take(site, bytes, length, NULL);
        if (status) refuse(words[i], status);
        jumbetai_text said;
        if (status > JUMBETAI_OUT_OF_MEMORY && !jumbetai_check(site, bytes, length, &said))
            print(&said);
        free(bytes);
        if (status) return jumbetai_close(site), 1;
    }
    int status = answer(site, words[1]);
    if (status) refuse(words[1], status);
    jumbetai_close(site);
    return status ? 1 : 0;
}
