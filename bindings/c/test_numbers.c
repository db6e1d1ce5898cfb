/* What the calls on a numberer answer, well given and not. It makes its files in the folder where
 * it is run. The last line is 'N passed, M failed'. */
#define _DEFAULT_SOURCE /* mkdtemp */
#include "jumbetai.h"
#include <stdio.h>
#include <stdlib.h>
#include <string.h>
#include <unistd.h>

static int passed, failed;

static void must(int holds, const char *what) {
    passed += holds, failed += !holds;
    if (!holds) printf("wrong: %s\n", what);
}

#define BARE(id) "{\"specversion\":\"1.0\",\"id\":\"" id "\",\"source\":\"/a\",\"type\":\"t\"}"
#define NUMBERED(id, number)                                                                       \
    "{\"id\":\"" id "\",\"sequence\":\"0000000000000000000" number                                 \
    "\",\"source\":\"/a\",\"specversion\":\"1.0\",\"type\":\"t\"}"

/* Whether these bytes are numbered so, as so many events. */
static int is(jumbetai_numbers *numbers, const char *bytes, uint64_t events, const char *want) {
    jumbetai_text text;
    int status = jumbetai_number(numbers, bytes, strlen(bytes), &text);
    int same = status == JUMBETAI_DONE && text.events == events && text.length == strlen(want) &&
               !memcmp(text.bytes, want, text.length + 1);
    jumbetai_free(&text);
    return same;
}

/* Whether these bytes are refused so, at the event of this index. */
static int is_refused_at(jumbetai_numbers *numbers, const char *bytes, size_t length, int want,
                         uint64_t index) {
    jumbetai_text text = {(char *)1, 1, 9};
    int status = jumbetai_number(numbers, bytes, length, &text);
    return status == want && !text.bytes && !text.length && text.events == index;
}

static int is_refused(jumbetai_numbers *numbers, const char *bytes, size_t length, int want) {
    return is_refused_at(numbers, bytes, length, want, 0);
}

static void try_numbers(jumbetai_numbers *numbers) {
    jumbetai_text text;
    must(is(numbers, BARE("x"), 1, "[" NUMBERED("x", "1") "]\n"), "an event");
    must(is(numbers, "[" BARE("y") "," BARE("x") "," BARE("y") "]", 3,
            "[" NUMBERED("y", "2") "," NUMBERED("x", "1") "," NUMBERED("y", "2") "]\n"),
         "a new event, one of before, and the new one again");
    must(is(numbers, "[]", 0, "[]\n"), "no events");
    must(is_refused(numbers, NUMBERED("z", "9"), strlen(NUMBERED("z", "9")), JUMBETAI_HAS_SEQUENCE),
         "an event with a sequence");
    const char *third =
        "[" BARE("p") "," BARE("q") "," NUMBERED("z", "9") "," NUMBERED("y", "9") "]";
    must(is_refused_at(numbers, third, strlen(third), JUMBETAI_HAS_SEQUENCE, 2),
         "the first event with a sequence is told");
    must(is_refused(numbers, "{}", 2, JUMBETAI_NO_EVENTS), "no event");
    must(is_refused(numbers, NULL, 0, JUMBETAI_NO_EVENTS), "no bytes");
    must(is_refused(numbers, NULL, 1, JUMBETAI_BAD_ARGUMENT), "null");
    must(is_refused(numbers, "", (size_t)1 << 63, JUMBETAI_BAD_ARGUMENT), "too many bytes");
    must(is_refused(NULL, "[]", 2, JUMBETAI_BAD_ARGUMENT), "no numberer");
    must(jumbetai_number(numbers, "[]", 2, NULL) == JUMBETAI_BAD_ARGUMENT, "no text");
    must(jumbetai_number(numbers, BARE("w"), strlen(BARE("w")), &text) == JUMBETAI_DONE &&
             strstr(text.bytes, "3\",\"source\""),
         "the next number, behind what was refused");
    jumbetai_free(&text);
}

int main(void) {
    char folder[] = "test-numbers-XXXXXX";
    if (!mkdtemp(folder) || chdir(folder)) return 2;
    jumbetai_numbers *numbers = NULL, *other = (jumbetai_numbers *)&numbers;
    jumbetai_site *site;
    must(jumbetai_open_numbers("numbers.db", 0, 0, &numbers) == JUMBETAI_DONE && numbers, "opened");
    if (!numbers) return 1;
    must(jumbetai_open_numbers("numbers.db", 0, 0, &other) == JUMBETAI_BUSY && !other, "twice");
    try_numbers(numbers);
    jumbetai_close_numbers(numbers);
    must(jumbetai_open_numbers("numbers.db", 0, 1, &other) == JUMBETAI_FOREIGN && !other,
         "another base");
    must(jumbetai_open_numbers("numbers.db", 1, 0, &numbers) == JUMBETAI_DONE &&
             is(numbers, BARE("y"), 1, "[" NUMBERED("y", "2") "]\n"),
         "opened again");
    jumbetai_close_numbers(numbers), jumbetai_close_numbers(NULL);
    must(jumbetai_open_file("numbers.db", 0, &site) == JUMBETAI_DONE && jumbetai_count(site) == 3,
         "a site of its events");
    jumbetai_close(site);
    must(jumbetai_open_numbers(NULL, 0, 0, &other) == JUMBETAI_BAD_ARGUMENT, "no path");
    must(jumbetai_open_numbers("numbers.db", 0, 0, NULL) == JUMBETAI_BAD_ARGUMENT, "no room");
    must(jumbetai_open_numbers(".", 0, 0, &other) == JUMBETAI_NO_FILE, "a folder");
    printf("%d passed, %d failed\n", passed, failed);
    return failed > 0;
}
