/* What tests in C count: IS(said, wanted) says where an expression isn't what is wanted. */
#ifndef JUMBETAI_TEST_H
#define JUMBETAI_TEST_H

#include <stdio.h>

static int passed, failed;

static void must(long long has, long long wants, int line, const char *what) {
    passed += has == wants, failed += has != wants;
    if (has != wants) printf("wrong: line %d: %s is %lld, not %lld\n", line, what, has, wants);
}

#define IS(said, wanted) must((long long)(said), (long long)(wanted), __LINE__, #said)

#endif
