/* What the calls on a region in parts answer, well given and not. It makes its files in the folder
 * where it is run. The last line is 'N passed, M failed'. */
#define _DEFAULT_SOURCE /* mkdtemp */
#include "jumbetai.h"
#include "test.h"
#include <stdlib.h>
#include <string.h>
#include <unistd.h>

#define EVENT(source, number, id)                                                                  \
    "{\"id\":\"" id "\",\"sequence\":\"0000000000000000000" number "\",\"source\":\"" source       \
    "\",\"specversion\":\"1.0\",\"type\":\"t\"}"
#define COVER(source, numbers) "{\"sources\":{\"" source "\":" numbers "},\"version\":1}\n"

static int is_text(jumbetai_text *text, const char *want) {
    int same = text->bytes && text->length == strlen(want) && !strcmp(text->bytes, want);
    jumbetai_free(text);
    return same;
}

static int is_none(const jumbetai_text *text) {
    return !text->bytes && !text->length && !text->events;
}

/* The parts of the SHA-256 of FIPS 180-4, worked out beside: of no bytes it begins with
 * e3b0c44298fc1c14, of "abc" with ba7816bf8f01cfea. */
static void try_part(void) {
    static const uint64_t none = 0xe3b0c44298fc1c14, abc = 0xba7816bf8f01cfea;
    static const uint64_t counts[] = {1, 2, 3, 7, 1000, 65535, JUMBETAI_MAX_PARTS};
    uint64_t part;
    for (size_t i = 0; i < sizeof counts / sizeof *counts; i++) {
        IS(jumbetai_part("abc", 3, counts[i], &part), JUMBETAI_DONE);
        IS(part, abc % counts[i]);
        IS(jumbetai_part(NULL, 0, counts[i], &part), JUMBETAI_DONE);
        IS(part, none % counts[i]);
    }
    static const uint64_t bad[] = {0, JUMBETAI_MAX_PARTS + 1, UINT64_MAX};
    for (size_t i = 0; i < sizeof bad / sizeof *bad; i++) {
        part = 9;
        IS(jumbetai_part("abc", 3, bad[i], &part), JUMBETAI_BAD_PARTS);
        IS(part, 0);
    }
    part = 9;
    IS(jumbetai_part(NULL, 1, 2, &part), JUMBETAI_BAD_ARGUMENT);
    IS(part, 0);
    IS(jumbetai_part("", (size_t)1 << 63, 2, &part), JUMBETAI_BAD_ARGUMENT);
    IS(jumbetai_part("abc", 3, 2, NULL), JUMBETAI_BAD_ARGUMENT);
}

static int is_refused(jumbetai_site *site, const char *bytes, size_t length, uint64_t parts,
                      int want) {
    jumbetai_text text = {(char *)1, 1, 1};
    return jumbetai_split(site, bytes, length, parts, &text) == want && is_none(&text);
}

/* Of two parts "/a" falls to 1, and "/e" to 0; the site keeps what it has. */
static void try_split(jumbetai_site *site) {
    static const char bytes[] =
        "[" EVENT("/a", "2", "x") "," EVENT("/e", "1", "y") "," EVENT("/a", "1", "z") "]";
    uint64_t a, b, had = jumbetai_count(site);
    jumbetai_text text;
    IS(jumbetai_part("/a", 2, 2, &a), JUMBETAI_DONE);
    IS(jumbetai_part("/e", 2, 2, &b), JUMBETAI_DONE);
    IS(a, 1);
    IS(b, 0);
    IS(jumbetai_split(site, bytes, sizeof bytes - 1, 2, &text), JUMBETAI_DONE);
    IS(text.events, 3);
    IS(is_text(&text, "[" EVENT("/e", "1", "y") "]\n[" EVENT("/a", "2", "x") "," EVENT("/a", "1",
                                                                                       "z") "]\n"),
       1);
    IS(jumbetai_split(site, EVENT("/a", "1", "z"), strlen(EVENT("/a", "1", "z")), 1, &text),
       JUMBETAI_DONE);
    IS(text.events, 1);
    IS(is_text(&text, "[" EVENT("/a", "1", "z") "]\n"), 1);
    IS(jumbetai_split(site, "[]", 2, 3, &text), JUMBETAI_DONE);
    IS(text.events, 0);
    IS(is_text(&text, "[]\n[]\n[]\n"), 1);
    IS(jumbetai_split(site, "[]", 2, JUMBETAI_MAX_PARTS, &text), JUMBETAI_DONE);
    IS(text.length, 3 * JUMBETAI_MAX_PARTS);
    jumbetai_free(&text);
    IS(is_refused(site, "{}", 2, 2, JUMBETAI_NO_EVENTS), 1);
    IS(is_refused(site, "{}", 2, 0, JUMBETAI_BAD_PARTS), 1);
    IS(is_refused(site, "[]", 2, JUMBETAI_MAX_PARTS + 1, JUMBETAI_BAD_PARTS), 1);
    static const char bare[] =
        "{\"specversion\":\"1.0\",\"id\":\"1\",\"source\":\"/a\",\"type\":\"t\"}";
    IS(is_refused(site, bare, sizeof bare - 1, 2, JUMBETAI_NO_NUMBER), 1);
    IS(is_refused(site, NULL, 0, 2, JUMBETAI_NO_EVENTS), 1);
    IS(is_refused(site, NULL, 1, 2, JUMBETAI_BAD_ARGUMENT), 1);
    IS(is_refused(site, "", (size_t)1 << 63, 2, JUMBETAI_BAD_ARGUMENT), 1);
    IS(is_refused(NULL, "[]", 2, 2, JUMBETAI_BAD_ARGUMENT), 1);
    IS(jumbetai_split(site, "[]", 2, 2, NULL), JUMBETAI_BAD_ARGUMENT);
    IS(jumbetai_count(site), had);
}

static jumbetai_body body(const char *text) { return (jumbetai_body){text, strlen(text)}; }

/* Two answers beside as many covers, or more, or fewer. */
static int combined(jumbetai_site *site, int question, const char *first, const char *second,
                    const char *covers[], size_t cover_count, jumbetai_parts *parts,
                    jumbetai_text *text) {
    jumbetai_body answers[] = {body(first), body(second)}, beside[3];
    for (size_t i = 0; i < cover_count; i++)
        beside[i] = body(covers[i]);
    return jumbetai_combine(site, question, answers, 2, beside, cover_count, parts, text);
}

static void try_faults(jumbetai_site *site) {
    static const char kinds[] = "[\"t\",1]\n", most[] = "[\"t\",18446744073709551615]\n";
    static const char a[] = COVER("/a", "[[1,1]]"), b[] = COVER("/b", "[[1,1]]");
    const char *covers[] = {a, b, a};
    jumbetai_parts parts = {9, 9};
    jumbetai_text text;
    IS(combined(site, JUMBETAI_KINDS, kinds, kinds, covers, 2, &parts, &text), JUMBETAI_DONE);
    IS(parts.first + parts.second, 0);
    IS(is_text(&text, "[\"t\",2]\n"), 1);
    IS(combined(site, JUMBETAI_KINDS, kinds, "x", covers, 2, &parts, &text),
       JUMBETAI_NOT_AN_ANSWER);
    IS(parts.first, 1);
    IS(parts.second, 0);
    IS(is_none(&text), 1);
    IS(combined(site, JUMBETAI_KINDS, kinds, "\xff", covers, 2, &parts, &text),
       JUMBETAI_NOT_AN_ANSWER);
    IS(parts.first, 1);
    IS(combined(site, JUMBETAI_COVER, a, "\xff", NULL, 0, &parts, &text), JUMBETAI_NOT_A_COVER);
    IS(parts.first, 1);
    const char *odd[] = {a, "\xff"}, *none[] = {"", a};
    IS(combined(site, JUMBETAI_KINDS, kinds, kinds, odd, 2, &parts, &text), JUMBETAI_NOT_A_COVER);
    IS(parts.first, 1);
    IS(combined(site, JUMBETAI_KINDS, kinds, kinds, none, 2, &parts, &text), JUMBETAI_NOT_A_COVER);
    IS(parts.first, 0);
    IS(combined(site, JUMBETAI_KINDS, kinds, kinds, covers, 1, &parts, &text),
       JUMBETAI_COVER_COUNT);
    IS(parts.first, 2);
    IS(parts.second, 1);
    IS(combined(site, JUMBETAI_KINDS, kinds, kinds, covers, 3, &parts, &text),
       JUMBETAI_COVER_COUNT);
    IS(parts.second, 3);
    IS(combined(site, JUMBETAI_KINDS, kinds, most, covers, 2, &parts, &text), JUMBETAI_TOO_MANY);
    IS(parts.first + parts.second, 0);
    const char *same[] = {b, b};
    IS(combined(site, JUMBETAI_KINDS, kinds, kinds, same, 2, &parts, &text), JUMBETAI_OVERLAP);
    IS(parts.first, 0);
    IS(parts.second, 1);
    IS(is_text(&text, "/b"), 1);
    IS(combined(site, JUMBETAI_COVER, a, a, NULL, 0, NULL, &text), JUMBETAI_OVERLAP);
    IS(is_text(&text, "/a"), 1);
    /* No covers are looked at beside these, whatever they are. */
    IS(combined(site, JUMBETAI_COVER, a, b, odd, 2, &parts, &text), JUMBETAI_DONE);
    IS(is_text(&text, "{\"sources\":{\"/a\":[[1,1]],\"/b\":[[1,1]]},\"version\":1}\n"), 1);
}

static void try_arguments(jumbetai_site *site) {
    static const char a[] = COVER("/a", "[[1,1]]");
    jumbetai_body one = {a, sizeof a - 1}, wrong[] = {{NULL, 1}, {a, (size_t)1 << 63}};
    jumbetai_body nothing = {NULL, 0};
    jumbetai_parts parts;
    jumbetai_text text;
    static const int odd[] = {0, 8, -1, 1 << 30};
    for (size_t i = 0; i < sizeof odd / sizeof *odd; i++) {
        text = (jumbetai_text){(char *)1, 1, 1}, parts = (jumbetai_parts){9, 9};
        IS(jumbetai_combine(site, odd[i], &one, 1, NULL, 0, &parts, &text),
           JUMBETAI_NO_SUCH_QUESTION);
        IS(is_none(&text), 1);
        IS(parts.first + parts.second, 0);
    }
    for (size_t i = 0; i < 2; i++) {
        IS(jumbetai_combine(site, JUMBETAI_COVER, &wrong[i], 1, NULL, 0, NULL, &text),
           JUMBETAI_BAD_ARGUMENT);
        IS(jumbetai_combine(site, JUMBETAI_KINDS, &one, 1, &wrong[i], 1, NULL, &text),
           JUMBETAI_BAD_ARGUMENT);
    }
    IS(jumbetai_combine(NULL, JUMBETAI_COVER, &one, 1, NULL, 0, NULL, &text),
       JUMBETAI_BAD_ARGUMENT);
    IS(jumbetai_combine(site, JUMBETAI_COVER, &one, 1, NULL, 0, NULL, NULL), JUMBETAI_BAD_ARGUMENT);
    IS(jumbetai_combine(site, JUMBETAI_COVER, NULL, 1, NULL, 0, NULL, &text),
       JUMBETAI_BAD_ARGUMENT);
    IS(jumbetai_combine(site, JUMBETAI_COVER, &one, SIZE_MAX, NULL, 0, NULL, &text),
       JUMBETAI_BAD_ARGUMENT);
    IS(jumbetai_combine(site, JUMBETAI_COVER, &one, 1, &one, SIZE_MAX, NULL, &text),
       JUMBETAI_BAD_ARGUMENT);
    IS(is_none(&text), 1);
    /* Of no parts the answer is that over no events; the empty text is an answer of a part. */
    IS(jumbetai_combine(site, JUMBETAI_COVER, NULL, 0, NULL, 0, NULL, &text), JUMBETAI_DONE);
    IS(is_text(&text, "{\"sources\":{},\"version\":1}\n"), 1);
    IS(jumbetai_combine(site, JUMBETAI_SHOWN, &nothing, 1, NULL, 0, NULL, &text), JUMBETAI_DONE);
    IS(text.events, 0);
    IS(is_text(&text, ""), 1);
}

#define SUMMARY(blocks, sources)                                                                   \
    "{\"blocks\":{" blocks "},\"sources\":{" sources "},\"version\":2}\n"
/* A digest of no block: a summary of version 2 is taken as it is. */
#define DIGEST(block, digit)                                                                       \
    "[" block ",\"000000000000000000000000000000000000000000000000000000000000000" digit "\"]"
#define BLOCKS_A "\"/a\":[" DIGEST("0", "2") "," DIGEST("1", "3") "]"
#define BLOCKS_B "\"/b\":[" DIGEST("0", "1") "]"
#define NUMBERS_A "\"/a\":[[5,1025]]"
#define NUMBERS_B "\"/b\":[[1,2]]"

static void try_summaries(jumbetai_site *site) {
    static const char a[] = SUMMARY(BLOCKS_A, NUMBERS_A), b[] = SUMMARY(BLOCKS_B, NUMBERS_B);
    static const char empty[] = SUMMARY("", ""), first[] = COVER("/a", "[[1,3]]"), none[] = "\xff";
    jumbetai_body one[] = {body(b), body(empty), body(a)}, same[] = {body(a), body(b), body(a)};
    jumbetai_body cover[] = {body(b), body(first)}, odd[] = {body(none), body(a)};
    jumbetai_body wrong = {NULL, 1};
    jumbetai_parts parts = {9, 9};
    jumbetai_text text;
    IS(jumbetai_combine_summaries(site, one, 3, &parts, &text), JUMBETAI_DONE);
    IS(parts.first + parts.second, 0);
    IS(is_text(&text, SUMMARY(BLOCKS_A "," BLOCKS_B, NUMBERS_A "," NUMBERS_B)), 1);
    IS(jumbetai_combine_summaries(site, NULL, 0, NULL, &text), JUMBETAI_DONE);
    IS(is_text(&text, empty), 1);
    IS(jumbetai_combine_summaries(site, same, 3, &parts, &text), JUMBETAI_OVERLAP);
    IS(parts.first, 0);
    IS(parts.second, 2);
    IS(is_text(&text, "/a"), 1);
    IS(jumbetai_combine_summaries(site, cover, 2, &parts, &text), JUMBETAI_NOT_AN_ANSWER);
    IS(parts.first, 1);
    IS(is_none(&text), 1);
    IS(jumbetai_combine_summaries(site, odd, 2, &parts, &text), JUMBETAI_NOT_AN_ANSWER);
    IS(parts.first, 0);
    IS(jumbetai_combine_summaries(site, &wrong, 1, &parts, &text), JUMBETAI_BAD_ARGUMENT);
    IS(jumbetai_combine_summaries(NULL, one, 2, &parts, &text), JUMBETAI_BAD_ARGUMENT);
    IS(jumbetai_combine_summaries(site, one, 2, &parts, NULL), JUMBETAI_BAD_ARGUMENT);
}

/* Each question to three parts, and to one site with all. */
static void try_whole(jumbetai_site *site) {
    static const char events[] = "[" EVENT("/a", "1", "x") "," EVENT("/d", "3", "x") "," EVENT(
        "/g", "2", "x") "," EVENT("/g", "2", "y") "," EVENT("/e", "1", "x") "]";
    enum { PARTS = 3 };
    jumbetai_site *all = jumbetai_open(), *each[PARTS];
    jumbetai_text lines, covers[PARTS], answers[PARTS], whole, want;
    jumbetai_body given[PARTS], beside[PARTS];
    IS(jumbetai_take(all, events, sizeof events - 1, NULL), JUMBETAI_DONE);
    IS(jumbetai_split(site, events, sizeof events - 1, PARTS, &lines), JUMBETAI_DONE);
    IS(lines.events, 5);
    const char *line = lines.bytes;
    for (int i = 0; i < PARTS; i++) {
        const char *end = strchr(line, '\n');
        each[i] = jumbetai_open();
        IS(jumbetai_take(each[i], line, (size_t)(end - line), NULL), JUMBETAI_DONE);
        IS(jumbetai_cover(each[i], &covers[i]), JUMBETAI_DONE);
        beside[i] = (jumbetai_body){covers[i].bytes, covers[i].length};
        line = end + 1;
    }
    IS(*line, 0);
    for (int question = JUMBETAI_COVER; question <= JUMBETAI_GAPS; question++) {
        for (int i = 0; i < PARTS; i++) {
            IS(jumbetai_ask(each[i], question, &answers[i]), JUMBETAI_DONE);
            given[i] = (jumbetai_body){answers[i].bytes, answers[i].length};
        }
        IS(jumbetai_ask(all, question, &want), JUMBETAI_DONE);
        IS(jumbetai_combine(site, question, given, PARTS, beside, PARTS, NULL, &whole),
           JUMBETAI_DONE);
        IS(whole.events, 0);
        IS(is_text(&whole, want.bytes), 1);
        jumbetai_free(&want);
        for (int i = 0; i < PARTS; i++)
            jumbetai_free(&answers[i]);
    }
    for (int i = 0; i < PARTS; i++) {
        IS(jumbetai_summary(each[i], &answers[i]), JUMBETAI_DONE);
        given[i] = (jumbetai_body){answers[i].bytes, answers[i].length};
    }
    IS(jumbetai_summary(all, &want), JUMBETAI_DONE);
    IS(jumbetai_combine_summaries(site, given, PARTS, NULL, &whole), JUMBETAI_DONE);
    IS(is_text(&whole, want.bytes), 1);
    jumbetai_free(&want);
    for (int i = 0; i < PARTS; i++)
        jumbetai_free(&answers[i]), jumbetai_free(&covers[i]), jumbetai_close(each[i]);
    jumbetai_free(&lines), jumbetai_close(all);
}

static void try_all(jumbetai_site *site) {
    try_split(site);
    try_faults(site);
    try_arguments(site);
    try_summaries(site);
    try_whole(site);
}

int main(void) {
    char folder[] = "test-division-XXXXXX";
    if (!mkdtemp(folder) || chdir(folder)) return 2;
    jumbetai_site *site = jumbetai_open();
    jumbetai_text text;
    if (!site) return 2;
    try_part();
    try_all(site);
    IS(jumbetai_take(site, EVENT("/e", "1", "x"), strlen(EVENT("/e", "1", "x")), NULL),
       JUMBETAI_DONE);
    try_all(site);
    IS(jumbetai_ask(site, JUMBETAI_KINDS, &text), JUMBETAI_DONE);
    IS(is_text(&text, "[\"t\",1]\n"), 1);
    jumbetai_close(site);
    IS(jumbetai_open_file("site.db", 0, &site), JUMBETAI_DONE);
    if (!site) return 2;
    try_all(site);
    jumbetai_close(site);
    printf("%d passed, %d failed\n", passed, failed);
    return failed > 0;
}
