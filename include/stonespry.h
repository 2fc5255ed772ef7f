/* Stonespry for C99 and C++: every function of libhost.a, the crates `host_tokens`, `host_spaces` and `host`, proved. tools/header holds it
 * to them.
 *
 * The world. All state is one area of 64-bit words that the program lends to each call: `mem`, and `mem_len`, its length in words.
 * STONESPRY_LENGTH says how many words a world needs; stonespry_open makes one. There is nothing else to set up or to free, two areas
 * are two worlds, and an area may be copied, saved and moved between calls.
 *
 * Slices. An area is a pointer and its length in elements: words for uint64_t, bytes for uint8_t. `const` says that the call reads only.
 *
 * Answers. A struct's `answer` is one of the numbers below; `value` and `count` are said beside each function and are 0 where nothing is
 * said. A refusal has the value 0 and changes nothing, but: a lookup made on the way stays counted; a collection stays done; a delegate
 * given 4 leaves the parent a list; an id that create or delegate took is recycled, also on 22; an id that a space-made create took is
 * lost if its insert is refused. Words that docs/LAYOUT.md gives no meaning, as those of a registry place that is not in use, may change
 * in these cases. A struct of more than 16 bytes is written to `out`, the first parameter, which need not be set before: so these
 * declarations are right on x86-64 and on Arm, whose ways to return such a struct differ.
 *
 * What is proved: on every argument and every content of the areas each call ends, with the answer and the memory of its definition,
 * and touches nothing but the areas and `out`. Words that the program changed between calls are no misuse: the call looks first, and
 * answers 26 or goes on with a sound world. What C lets a program do and no proof covers:
 *  - a pointer that is null, even for an area of length 0, or dangling, for `out` or for an area of length 1 or more;
 *  - a length beyond the area, or an area or `out` that is not aligned for its elements;
 *  - two of `out` and the areas of one call that overlap, unless both are read only;
 *  - two calls at once on one area, a signal handler that calls into it, an area that a device or another process writes during a call;
 *  - a bool that is neither 0 nor 1, made by a cast;
 *  - a stack too small: allow a call 320 KiB of it. */
#ifndef STONESPRY_H
#define STONESPRY_H

#include <stdbool.h>
#include <stddef.h>
#include <stdint.h>

#ifdef __cplusplus
extern "C" {
#endif

/* ---- numbers ---- */

/* Answers. */
enum {
    STONESPRY_DONE = 0,
    STONESPRY_INVALID_CAPABILITY = 1,
    STONESPRY_INSUFFICIENT_RIGHTS = 2,
    STONESPRY_CAPABILITY_REVOKED = 3,
    STONESPRY_OUT_OF_MEMORY = 4, /* the space refused the entry */
    STONESPRY_INVALID_OBJECT = 5,
    STONESPRY_PERMISSION_DENIED = 6,
    STONESPRY_ALREADY_EXISTS = 7,
    STONESPRY_NOT_FOUND = 8,
    STONESPRY_ID_EXHAUSTED = 9,
    STONESPRY_QUOTA_EXCEEDED = 10, /* 1,024 children remain */
    STONESPRY_SPACE_QUOTA = 11,
    STONESPRY_SPACE_IDS = 12,
    STONESPRY_BAD_SPACE = 20, /* no space of that number */
    STONESPRY_BAD_FIELD = 21, /* an argument out of range, or an answer area too short */
    STONESPRY_REGISTRY_FULL = 22,
    STONESPRY_RECYCLE_FULL = 23,
    STONESPRY_LOG_FULL = 24,
    STONESPRY_PID_TABLE_FULL = 25,
    STONESPRY_BAD_WORLD = 26 /* the memory is too short, or not sound */
};

/* Rights; the flags of a token are the first four. */
enum {
    STONESPRY_READ = 0x01,
    STONESPRY_WRITE = 0x02,
    STONESPRY_EXECUTE = 0x04,
    STONESPRY_GRANT = 0x08,
    STONESPRY_REVOKE = 0x10,
    STONESPRY_DELETE = 0x20,
    STONESPRY_MODIFY = 0x40,
    STONESPRY_CREATE = 0x80,
    STONESPRY_ALL = 0xFF
};

/* Why a notice was sent. */
enum {
    STONESPRY_EXPLICIT = 0,
    STONESPRY_PARENT_REVOKED = 1,
    STONESPRY_PROCESS_EXIT = 2,
    STONESPRY_POLICY_ENFORCED = 3
};

/* The words that a world needs, exactly; constant for constant arguments; it reads `most` several times. `spaces` (S) 1 to 64, `most` (M)
 * 1 to 256, the largest quota, `places` (R) 1 to 4,095, registered ids, `pairs` (V) 1 to 8,192, revocations logged, `queues` (P) 1 to 32,
 * processes with notices. */
#define STONESPRY_LENGTH(spaces, most, places, pairs, queues) \
    (16 + (spaces) * (8 + 4 * STONESPRY_SLOTS(most)) + (5 * (places) + 1) + (pairs) + 771 * (queues))

/* The most slots of a space: the larger of 8 and the next power of two at or above 2 * most. */
#define STONESPRY_SLOTS(most) \
    ((most) <= 4 ? 8 : (most) <= 8 ? 16 : (most) <= 16 ? 32 : (most) <= 32 ? 64 : (most) <= 64 ? 128 : (most) <= 128 ? 256 : 512)

/* ---- structs ---- */

/* What most calls answer. */
typedef struct {
    uint8_t answer;
    uint64_t value;
    uint64_t count; /* slots that a search visited, or entries that an insert or a copy moved */
} StonespryCallAnswer;

/* An entry of a space; zeros for a refusal, but for the visits. */
typedef struct {
    uint8_t answer;
    uint64_t token;
    uint64_t object;
    uint32_t rights;
    uint64_t uses; /* lookups that found it before this call; wraps */
    uint64_t visits;
} StonespryEntryAnswer;

/* The statistics of a space. */
typedef struct {
    uint8_t answer;
    uint64_t hits;
    uint64_t misses;
    uint64_t total_caps;
} StonespryStatsAnswer;

/* The statistics of the manager. */
typedef struct {
    uint8_t answer;
    uint64_t created;
    uint64_t delegated;
    uint64_t revoked;
    uint64_t deleted;
} StonespryManagerAnswer;

/* The derivation tree: capabilities that have a list of children, and children. */
typedef struct {
    uint8_t answer;
    uint64_t parents;
    uint64_t children;
} StonespryTreeAnswer;

/* The notifications: processes that have some, and how many there are. */
typedef struct {
    uint8_t answer;
    uint64_t processes;
    uint64_t notifications;
} StonespryQueuesAnswer;

/* A token that was made; 0 for a refusal. */
typedef struct {
    uint8_t answer;
    uint64_t token;
} StonespryTokenAnswer;

/* Flags that were put together; 0 for a refusal. */
typedef struct {
    uint8_t answer;
    uint8_t flags;
} StonespryFlagsAnswer;

/* Whether flags have a permission; no for a refusal. */
typedef struct {
    uint8_t answer;
    bool has;
} StonespryHasAnswer;

/* ---- the world ---- */

/* Opens an empty world of these numbers (STONESPRY_LENGTH), with a quota of 0 to `most` for each space, as many quotas as spaces.
 * 0, 21, 26 for a short memory. */
uint8_t stonespry_open(uint64_t *mem, size_t mem_len, size_t spaces, size_t most, size_t places, size_t pairs, size_t queues,
                       const uint64_t *quotas, size_t quotas_len);

/* Whether the memory is sound. Where it is not, every call but stonespry_open and stonespry_run answers 26. */
bool stonespry_is_sound(const uint64_t *mem, size_t mem_len);

/* ---- a space, s from 0 ---- */

/* Its live entries. 0, 20, 26; value: how many. */
void stonespry_space_used(StonespryCallAnswer *out, const uint64_t *mem, size_t mem_len, size_t s);

/* The quota that it was opened with. 0, 20, 26; value: the quota. */
void stonespry_space_quota(StonespryCallAnswer *out, const uint64_t *mem, size_t mem_len, size_t s);

/* The slots of its table. 0, 20, 26; value: how many. */
void stonespry_space_table_capacity(StonespryCallAnswer *out, const uint64_t *mem, size_t mem_len, size_t s);

/* Its generation, 8 bits, which wraps. 0, 20, 26; value: the generation. */
void stonespry_space_generation(StonespryCallAnswer *out, const uint64_t *mem, size_t mem_len, size_t s);

/* Lookups that found something, those that did not, and entries. 0, 20, 26. */
void stonespry_space_stats(StonespryStatsAnswer *out, const uint64_t *mem, size_t mem_len, size_t s);

/* Looks for the whole token, and counts it. 0, 8, 20, 26; value: its rights; count: visits. */
void stonespry_space_lookup(StonespryCallAnswer *out, uint64_t *mem, size_t mem_len, size_t s, uint64_t token);

/* The same, for the whole entry. 0, 8, 20, 26. */
void stonespry_space_lookup_entry(StonespryEntryAnswer *out, uint64_t *mem, size_t mem_len, size_t s, uint64_t token);

/* Whether the space has the token with these rights; counted as a lookup. 0, 20, 26; value: 1 or 0; count: visits. */
void stonespry_space_check_rights(StonespryCallAnswer *out, uint64_t *mem, size_t mem_len, size_t s, uint64_t token, uint32_t required);

/* The entry of an id, of any generation; not counted. 0, 8, 20, 21, 26. */
void stonespry_space_get_entry(StonespryEntryAnswer *out, const uint64_t *mem, size_t mem_len, size_t s, uint64_t id);

/* The n-th live entry in slot order, n from 0; no visits. 0, 8 past the last, 20, 26. */
void stonespry_space_nth_entry(StonespryEntryAnswer *out, const uint64_t *mem, size_t mem_len, size_t s, size_t n);

/* Inserts an entry. 0, 7, 11, 20, 26; count: entries moved. */
void stonespry_space_insert(StonespryCallAnswer *out, uint64_t *mem, size_t mem_len, size_t s, uint64_t token, uint64_t object,
                            uint32_t rights);

/* Removes the entry of the whole token. 0, 8, 20, 26; value: its object; count: visits. */
void stonespry_space_remove(StonespryCallAnswer *out, uint64_t *mem, size_t mem_len, size_t s, uint64_t token);

/* Its generation goes up by one. 0, 20, 26. */
void stonespry_space_increment_generation(StonespryCallAnswer *out, uint64_t *mem, size_t mem_len, size_t s);

/* Removes every entry. 0, 20, 26. */
void stonespry_space_clear(StonespryCallAnswer *out, uint64_t *mem, size_t mem_len, size_t s);

/* Removes every entry, and its generation goes up by one. 0, 20, 26. */
void stonespry_space_revoke_all(StonespryCallAnswer *out, uint64_t *mem, size_t mem_len, size_t s);

/* The target's entries become the source's, whatever its quota. 0, 20, 26; value: entries accepted; count: entries moved. */
void stonespry_space_copy(StonespryCallAnswer *out, uint64_t *mem, size_t mem_len, size_t target, size_t source);

/* Takes an id: the smallest recycled one, else the next. 0, 9, 26; value: the id. */
void stonespry_alloc_cap_id(StonespryCallAnswer *out, uint64_t *mem, size_t mem_len);

/* Takes an id and inserts a token of it with the space's generation, unregistered. 0, 7, 11, 12, 20, 26; value: the id; count: moved. */
void stonespry_space_create_capability(StonespryCallAnswer *out, uint64_t *mem, size_t mem_len, size_t s, uint32_t rights,
                                       uint64_t object);

/* Removes exactly the token that the space would make of the id. 0, 8, 20, 21, 26; count: visits. */
void stonespry_space_revoke(StonespryCallAnswer *out, uint64_t *mem, size_t mem_len, size_t s, uint64_t id);

/* Entries whose id is not registered. 0, 20, 26; value: how many. */
void stonespry_space_census(StonespryCallAnswer *out, const uint64_t *mem, size_t mem_len, size_t s);

/* ---- the manager ---- */

/* Registers a new capability and inserts it. `valid` is the object's flag, `cap_type` 0 to 15.
 * 0, 4, 5, 9, 20, 21, 22, 26; value: the token; count: entries moved. */
void stonespry_create_capability(StonespryCallAnswer *out, uint64_t *mem, size_t mem_len, size_t s, uint64_t object, bool valid,
                                 uint8_t cap_type, uint32_t rights);

/* Derives a child with the rights that both have, and inserts it in the target; or finds the child that is there already.
 * 0, 1, 3, 4, 6, 9, 10, 20, 22, 26; value: the child's token; count: entries moved. */
void stonespry_delegate(StonespryCallAnswer *out, uint64_t *mem, size_t mem_len, uint64_t token, size_t source, size_t target,
                        uint32_t rights);

/* Forgets the token's id, which is recycled; entries in spaces stay. 0, 8, 23, 26. */
void stonespry_delete(StonespryCallAnswer *out, uint64_t *mem, size_t mem_len, uint64_t token);

/* Whether the space has the token with these rights, and it is valid. 0, 2, 3, 20, 26; count: visits. */
void stonespry_check_capability(StonespryCallAnswer *out, uint64_t *mem, size_t mem_len, uint64_t token, uint32_t required, size_t s);

/* Whether the token is registered, unrevoked and of its generation. 0, 26; value: 1 or 0. */
void stonespry_is_valid(StonespryCallAnswer *out, const uint64_t *mem, size_t mem_len, uint64_t token);

/* How many capabilities it created, delegated, revoked and deleted since the opening. 0, 26. */
void stonespry_manager_stats(StonespryManagerAnswer *out, const uint64_t *mem, size_t mem_len);

/* The children of an id in the order of their delegation, to the front of the area, 1,024 at most. 0, 21, 26; value: how many. */
void stonespry_get_children(StonespryCallAnswer *out, const uint64_t *mem, size_t mem_len, uint64_t id, uint64_t *area, size_t area_len);

/* Capabilities with a list of children, and children. 0, 26. */
void stonespry_derivation_tree_stats(StonespryTreeAnswer *out, const uint64_t *mem, size_t mem_len);

/* ---- revocation; `time` in seconds, `pids` the processes that are told, 32 at most ---- */

/* Revokes the token's id and all its descendants. 0, 1, 21, 24, 25, 26. */
void stonespry_revoke(StonespryCallAnswer *out, uint64_t *mem, size_t mem_len, uint64_t token, uint64_t time, const uint64_t *pids,
                      size_t pids_len);

/* The same; a token whose id is not registered is logged. 0, 21, 24, 25, 26. */
void stonespry_revoke_capability(StonespryCallAnswer *out, uint64_t *mem, size_t mem_len, uint64_t token, uint64_t time,
                                 const uint64_t *pids, size_t pids_len);

/* The same, for a token that the space holds with REVOKE. 0, 2, 8, 20, 21, 24, 25, 26; count: visits. */
void stonespry_revoke_held(StonespryCallAnswer *out, uint64_t *mem, size_t mem_len, size_t s, uint64_t token, uint64_t time,
                           const uint64_t *pids, size_t pids_len);

/* stonespry_revoke_capability of each token in turn, 65,535 at most. 0, 21, 26; value: how many of them gave 0. */
void stonespry_revoke_batch(StonespryCallAnswer *out, uint64_t *mem, size_t mem_len, const uint64_t *tokens, size_t tokens_len,
                            uint64_t time, const uint64_t *pids, size_t pids_len);

/* Whether the token's id and generation are logged. 0, 26; value: 1 or 0. */
void stonespry_is_revoked(StonespryCallAnswer *out, const uint64_t *mem, size_t mem_len, uint64_t token);

/* The epoch, up by one for each id that is revoked, or asked to be while it is not registered; wraps. 0, 26; value: the epoch. */
void stonespry_epoch(StonespryCallAnswer *out, const uint64_t *mem, size_t mem_len);

/* All descendants of an id, breadth first, to the front of the area, 4,094 at most. 0, 21, 26; value: how many. */
void stonespry_get_derivation_tree(StonespryCallAnswer *out, const uint64_t *mem, size_t mem_len, uint64_t id, uint64_t *area,
                                   size_t area_len);

/* ---- notices: three words each, id, time and reason; 256 at most for a pid, the oldest is dropped ---- */

/* Queues a notice for a pid. 0, 21, 25, 26. */
void stonespry_notify_process(StonespryCallAnswer *out, uint64_t *mem, size_t mem_len, uint64_t pid, uint64_t id, uint8_t reason,
                              uint64_t time);

/* Moves a pid's notices, oldest first, to the front of the area. 0, 21, 26; value: how many notices. */
void stonespry_drain_notifications(StonespryCallAnswer *out, uint64_t *mem, size_t mem_len, uint64_t pid, uint64_t *area,
                                   size_t area_len);

/* Copies them there. 0, 21, 26; value: how many notices. */
void stonespry_peek_notifications(StonespryCallAnswer *out, const uint64_t *mem, size_t mem_len, uint64_t pid, uint64_t *area,
                                  size_t area_len);

/* Counts them. 0, 26; value: how many. */
void stonespry_notification_count(StonespryCallAnswer *out, const uint64_t *mem, size_t mem_len, uint64_t pid);

/* Drops them. 0, 26. */
void stonespry_cleanup_process_notifications(StonespryCallAnswer *out, uint64_t *mem, size_t mem_len, uint64_t pid);

/* Processes that have notices, and all notices. 0, 26. */
void stonespry_notification_stats(StonespryQueuesAnswer *out, const uint64_t *mem, size_t mem_len);

/* Writes a reason's name, 15 bytes at most and no 0 behind it, to the front of the area. 0, 21; value: its length. */
void stonespry_write_reason(StonespryCallAnswer *out, uint8_t reason, uint8_t *area, size_t area_len);

/* ---- the request stream ---- */

/* Serves records of 24 bytes on a world that it opens in the memory, STONESPRY_LENGTH(4, 32, 512, 512, 2), and writes a line for each to
 * the front of `lines`. 0, 21 if `lines` has less than 28 bytes for each of (records_len + 23) / 24 lines, 2,049 at most, 26; value: bytes
 * written. */
void stonespry_run(StonespryCallAnswer *out, const uint8_t *records, size_t records_len, uint64_t *mem, size_t mem_len, uint8_t *lines,
                   size_t lines_len);

/* ---- tokens: id 48 bits, generation 8, type 4, flags 4, from the low end ---- */

/* A token of these fields. 0, 21. */
StonespryTokenAnswer stonespry_token_new(uint64_t id, uint8_t generation, uint8_t cap_type, uint8_t flags);

/* A token of type 0 without flags. 0, 21. */
StonespryTokenAnswer stonespry_token_from_id_and_generation(uint64_t id, uint8_t generation);

/* The same; `object_id` and `metadata` are not used. 0, 21. */
StonespryTokenAnswer stonespry_token_from_parts(uint64_t id, uint64_t object_id, uint8_t generation, uint8_t metadata);

/* The fields of a token. */
uint64_t stonespry_token_id(uint64_t token);
uint8_t stonespry_token_generation(uint64_t token);
uint8_t stonespry_token_cap_type(uint64_t token);
uint8_t stonespry_token_flags(uint64_t token);

/* A token is its word: both answer what they are given. */
uint64_t stonespry_token_to_u64(uint64_t token);
uint64_t stonespry_token_from_u64(uint64_t value);

/* Whether a token is the word 0, and that word. */
bool stonespry_token_is_null(uint64_t token);
uint64_t stonespry_token_null(void);

/* ---- flags: a permission is 1, 2, 4 or 8 ---- */

/* Whether the flags have the permission of that number. 0, 21. */
StonespryHasAnswer stonespry_flags_has(uint8_t flags, uint8_t number);

/* The flags of all these permissions. 0, 21. */
StonespryFlagsAnswer stonespry_flags_combine(const uint8_t *numbers, size_t numbers_len);

/* ---- rights: 32 bits ---- */

/* The right of a bit, READ for 0 to CREATE for 7; all of them for 8; none for other numbers. */
uint32_t stonespry_rights_constant(uint8_t number);

/* Rights are their word: it answers what it is given. */
uint32_t stonespry_rights_new(uint32_t rights);

/* Whether all of the other rights are among these. */
bool stonespry_rights_contains(uint32_t rights, uint32_t other);

/* The rights that both have, that either has, and, under two names, those of the first that the other lacks. */
uint32_t stonespry_rights_intersection(uint32_t rights, uint32_t other);
uint32_t stonespry_rights_union(uint32_t rights, uint32_t other);
uint32_t stonespry_rights_remove(uint32_t rights, uint32_t other);
uint32_t stonespry_rights_difference(uint32_t rights, uint32_t other);

/* All of the 32 that these lack. */
uint32_t stonespry_rights_complement(uint32_t rights);

/* The low 16 bits, and the four flags of a token. */
uint16_t stonespry_rights_bits(uint32_t rights);
uint8_t stonespry_rights_to_flags(uint32_t rights);

/* Whether there are none, and none. */
bool stonespry_rights_is_empty(uint32_t rights);
uint32_t stonespry_rights_empty(void);

#ifdef __cplusplus
}
#endif

#endif
