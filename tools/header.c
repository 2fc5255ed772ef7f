/* The test of include/stonespry.h against the archive (tools/header): every struct's fields come back where they are declared, with nothing
 * written behind them, and a world needs exactly the words that STONESPRY_LENGTH says. It prints each test that fails. */
#include "stonespry.h"

#include <stdio.h>
#include <string.h>

static int failures;

static void check(int holds, const char *test, int line) {
    if (holds) return;
    printf("tools/header.c:%d: %s\n", line, test);
    failures++;
}

#define CHECK(test) check(test, #test, __LINE__)

/* A struct for an answer and bytes behind it; FILLED sets them all, KEPT says that those behind still stand. */
#define GUARDED(type, name) struct { type at; unsigned char behind[16]; } name
#define FILLED(name) (memset(&name, 0xA5, sizeof name), &name.at)
#define KEPT(name) CHECK(all_a5(name.behind))

static int all_a5(const unsigned char *bytes) {
    int i;
    for (i = 0; i < 16; i++) if (bytes[i] != 0xA5) return 0;
    return 1;
}

static uint64_t mem[STONESPRY_LENGTH(64, 256, 4095, 8192, 32)];
static uint64_t quotas[64];

/* Whether the world opens in exactly that many words, and not in one less. */
static void needs(size_t words, size_t spaces, size_t most, size_t places, size_t pairs, size_t queues) {
    CHECK(stonespry_open(mem, words - 1, spaces, most, places, pairs, queues, quotas, spaces) == STONESPRY_BAD_WORLD);
    CHECK(stonespry_open(mem, words, spaces, most, places, pairs, queues, quotas, spaces) == STONESPRY_DONE);
}

static void lengths(void) {
    size_t n;
    for (n = 1; n <= 256; n++) needs(STONESPRY_LENGTH(3, n, 5, 7, 2), 3, n, 5, 7, 2);
    for (n = 1; n <= 64; n++) needs(STONESPRY_LENGTH(n, 5, 4095, 1, 1), n, 5, 4095, 1, 1);
    for (n = 1; n <= 32; n++) needs(STONESPRY_LENGTH(1, 1, 1, 8192, n), 1, 1, 1, 8192, n);
    needs(STONESPRY_LENGTH(64, 256, 4095, 8192, 32), 64, 256, 4095, 8192, 32);
}

/* A world of two spaces in which every number that a struct shows is another one. */
static void spaces(void) {
    const size_t words = STONESPRY_LENGTH(2, 8, 16, 16, 2);
    GUARDED(StonespryCallAnswer, call);
    GUARDED(StonespryEntryAnswer, entry);
    GUARDED(StonespryStatsAnswer, stats);
    quotas[0] = quotas[1] = 8;
    CHECK(stonespry_open(mem, words, 2, 8, 16, 16, 2, quotas, 2) == 0);
    stonespry_space_insert(FILLED(call), mem, words, 1, 2, 11, 0x80000001u);
    CHECK(call.at.answer == 0 && call.at.value == 0 && call.at.count == 0);
    stonespry_space_insert(FILLED(call), mem, words, 1, 7, 12, 0x80000002u);
    stonespry_space_lookup(FILLED(call), mem, words, 1, 7);
    CHECK(call.at.answer == 0 && call.at.value == 0x80000002u && call.at.count == 2);
    KEPT(call);
    stonespry_space_lookup(FILLED(call), mem, words, 1, 9);
    stonespry_space_lookup(FILLED(call), mem, words, 1, 7);
    stonespry_space_lookup(FILLED(call), mem, words, 1, 7);
    stonespry_space_lookup_entry(FILLED(entry), mem, words, 1, 7);
    CHECK(entry.at.answer == 0 && entry.at.token == 7 && entry.at.object == 12 && entry.at.rights == 0x80000002u);
    CHECK(entry.at.uses == 3 && entry.at.visits == 2);
    KEPT(entry);
    stonespry_space_lookup(FILLED(call), mem, words, 1, 2);
    stonespry_space_stats(FILLED(stats), mem, words, 1);
    CHECK(stats.at.answer == 0 && stats.at.hits == 5 && stats.at.misses == 1 && stats.at.total_caps == 2);
    KEPT(stats);
    stonespry_space_stats(FILLED(stats), mem, words, 2);
    CHECK(stats.at.answer == STONESPRY_BAD_SPACE && stats.at.hits == 0 && stats.at.misses == 0 && stats.at.total_caps == 0);
}

static uint64_t created(size_t words, size_t s) {
    GUARDED(StonespryCallAnswer, call);
    stonespry_create_capability(FILLED(call), mem, words, s, 77, true, 2, STONESPRY_ALL);
    CHECK(call.at.answer == 0);
    KEPT(call);
    return call.at.value;
}

static uint64_t delegated(size_t words, uint64_t token, uint32_t rights) {
    GUARDED(StonespryCallAnswer, call);
    stonespry_delegate(FILLED(call), mem, words, token, 0, 1, rights);
    CHECK(call.at.answer == 0);
    return call.at.value;
}

static void manager(void) {
    const size_t words = STONESPRY_LENGTH(2, 8, 16, 16, 2);
    const uint64_t pids[3] = {5, 6, 5};
    uint64_t first, second, third, area[9];
    GUARDED(StonespryCallAnswer, call);
    GUARDED(StonespryManagerAnswer, stats);
    GUARDED(StonespryTreeAnswer, tree);
    GUARDED(StonespryQueuesAnswer, queues);
    CHECK(stonespry_open(mem, words, 2, 8, 16, 16, 2, quotas, 2) == 0);
    first = created(words, 0);
    second = created(words, 0);
    third = created(words, 0);
    created(words, 0);
    delegated(words, first, STONESPRY_READ);
    delegated(words, first, STONESPRY_WRITE);
    delegated(words, second, STONESPRY_READ);
    stonespry_derivation_tree_stats(FILLED(tree), mem, words);
    CHECK(tree.at.answer == 0 && tree.at.parents == 2 && tree.at.children == 3);
    KEPT(tree);
    stonespry_delete(FILLED(call), mem, words, third);
    CHECK(call.at.answer == 0);
    stonespry_revoke(FILLED(call), mem, words, second, 9, pids, 3);
    CHECK(call.at.answer == 0);
    stonespry_notification_stats(FILLED(queues), mem, words);
    CHECK(queues.at.answer == 0 && queues.at.processes == 2 && queues.at.notifications == 3);
    KEPT(queues);
    stonespry_drain_notifications(FILLED(call), mem, words, 5, area, 9);
    CHECK(call.at.answer == 0 && call.at.value == 2);
    CHECK(area[0] == 7 && area[1] == 9 && area[2] == STONESPRY_PARENT_REVOKED);
    stonespry_manager_stats(FILLED(stats), mem, words);
    CHECK(stats.at.answer == 0 && stats.at.created == 4 && stats.at.delegated == 3 && stats.at.revoked == 2 && stats.at.deleted == 1);
    KEPT(stats);
}

static void tokens(void) {
    const uint8_t permissions[2] = {1, 8};
    StonespryTokenAnswer token = stonespry_token_new(0x123456789ABCu, 0xDE, 15, 2);
    StonespryFlagsAnswer flags = stonespry_flags_combine(permissions, 2);
    StonespryHasAnswer has = stonespry_flags_has(flags.flags, 8);
    CHECK(token.answer == 0 && token.token == 0x2FDE123456789ABCu);
    CHECK(flags.answer == 0 && flags.flags == 9);
    CHECK(has.answer == 0 && has.has);
    token = stonespry_token_new(1, 1, 16, 0);
    CHECK(token.answer == STONESPRY_BAD_FIELD && token.token == 0);
    has = stonespry_flags_has(15, 3);
    CHECK(has.answer == STONESPRY_BAD_FIELD && !has.has);
}

int main(void) {
    lengths();
    spaces();
    manager();
    tokens();
    return failures != 0;
}
