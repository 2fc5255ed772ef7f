/* Capabilities from C: lend memory, open a world, create, delegate, check, revoke, drain the notices.
 *
 *     tools/native host target/lib
 *     cc -Iinclude examples/c/capabilities.c target/lib/libhost.a -o capabilities && ./capabilities */
#include "stonespry.h"

#include <stdio.h>

enum {
    SPACES = 2, /* two processes, say */
    MOST = 8,   /* capabilities that each may hold */
    PLACES = 64,
    PAIRS = 64,
    QUEUES = 4,
    WORDS = STONESPRY_LENGTH(SPACES, MOST, PLACES, PAIRS, QUEUES)
};

static uint64_t mem[WORDS]; /* the whole world */

static uint64_t step(const char *what, StonespryCallAnswer a) {
    printf("%-32s answer %u, value %016llx\n", what, (unsigned)a.answer, (unsigned long long)a.value);
    return a.value;
}

int main(void) {
    const uint64_t quotas[SPACES] = {MOST, MOST};
    const uint64_t told[1] = {7};
    uint64_t notices[3 * 256], owned, lent;
    StonespryCallAnswer a;

    if (stonespry_open(mem, WORDS, SPACES, MOST, PLACES, PAIRS, QUEUES, quotas, SPACES) != STONESPRY_DONE) return 1;

    stonespry_create_capability(&a, mem, WORDS, 0, 77, true, 2, STONESPRY_READ | STONESPRY_WRITE | STONESPRY_GRANT | STONESPRY_REVOKE);
    owned = step("create for object 77 in space 0", a);

    stonespry_delegate(&a, mem, WORDS, owned, 0, 1, STONESPRY_READ);
    lent = step("delegate READ to space 1", a);

    stonespry_check_capability(&a, mem, WORDS, lent, STONESPRY_READ, 1);
    step("space 1 may read", a);
    stonespry_check_capability(&a, mem, WORDS, lent, STONESPRY_WRITE, 1);
    step("space 1 may write", a);

    stonespry_revoke_held(&a, mem, WORDS, 0, owned, 5, told, 1);
    step("space 0 revokes, pid 7 is told", a);
    stonespry_check_capability(&a, mem, WORDS, lent, STONESPRY_READ, 1);
    step("space 1 may read", a);

    stonespry_drain_notifications(&a, mem, WORDS, 7, notices, sizeof notices / sizeof *notices);
    step("drain the notices of pid 7", a);
    printf("notice: id %u, time %u, reason %u\n", (unsigned)notices[0], (unsigned)notices[1], (unsigned)notices[2]);
    return 0;
}
