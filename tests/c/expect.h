/* What the tests in C share: expectations, and the run of a list of tests. */
#ifndef EXPECT_H
#define EXPECT_H

#include <stdio.h>

#include "securestore.h"

#define COUNT_OF(array) (sizeof(array) / sizeof(array)[0])

/* Answers that were not as expected. A test passes if it has none, and tells the first few. */
static unsigned wrong;
#define TOLD 5u

/* What a test may tell besides. */
#ifndef EXPECT_DETAIL
#define EXPECT_DETAIL() ((void)0)
#endif

static void expect(int holds, const char *what)
{
    if (!holds && wrong++ < TOLD) {
        printf("failed: %s\n", what);
        EXPECT_DETAIL();
    }
}

static void expect_status(securestore_status status, securestore_status want, const char *what)
{
    expect(status == want, what);
    if (status != want && wrong <= TOLD) {
        printf("  answered %u (%s), not %u\n", (unsigned)status, securestore_status_text(status), (unsigned)want);
    }
}

/* The exit status: 0 if each test passed. */
static int run_tests(void (*const *tests)(void), size_t count)
{
    unsigned passed = 0, failed = 0;
    size_t i;
    for (i = 0; i < count; i++) {
        wrong = 0;
        tests[i]();
        if (wrong == 0) {
            passed++;
        } else {
            failed++;
        }
    }
    printf("%u passed, %u failed\n", passed, failed);
    return failed != 0;
}

#endif
