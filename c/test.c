/*
 * The library from C: versions, layouts, the afternoons (R15), refusals by number, a look into images (R16), a run of each operation one
 * service at a time, services that end after their operation, and null pointers with length 0.
 */
#include "stilefray.h"
#include <stdio.h>
#include <stdlib.h>
#include <string.h>

/* The layouts, with the numbers that rust/tests/layouts.rs asserts too. */
#define JOIN2(a, b) a##b
#define JOIN(a, b) JOIN2(a, b)
#if defined(__STDC_VERSION__) && __STDC_VERSION__ >= 201112L
#define HOLDS(what) _Static_assert(what, #what)
#else
#define HOLDS(what) typedef char JOIN(holds_at_line_, __LINE__)[(what) ? 1 : -1]
#endif
/* A version's three numbers as it is written. */
#define IN_WORDS2(major, minor, patch) #major "." #minor "." #patch
#define IN_WORDS(major, minor, patch) IN_WORDS2(major, minor, patch)
/* A field's place and its width: padding would hide a width that is wrong. */
#define LIES(type, field, at, width) \
    HOLDS(offsetof(stilefray_##type, field) == (at) && sizeof(((stilefray_##type *)0)->field) == (width))
#define FILLS(type, size) HOLDS(sizeof(stilefray_##type) == (size) && offsetof(struct after_a_char_##type, it) == 8)
struct after_a_char_answer { char first; stilefray_answer it; };
struct after_a_char_operation { char first; stilefray_operation it; };
struct after_a_char_start { char first; stilefray_start it; };
struct after_a_char_request { char first; stilefray_request it; };
struct after_a_char_stepped { char first; stilefray_stepped it; };
struct after_a_char_found { char first; stilefray_found it; };
struct after_a_char_place { char first; stilefray_place it; };
struct after_a_char_entry { char first; stilefray_entry it; };

FILLS(answer, 16);
LIES(answer, kind, 0, 4);
LIES(answer, refusal, 4, 4);
LIES(answer, value, 8, 8);
FILLS(operation, 120);
LIES(operation, layout, 0, 4);
LIES(operation, fresh, 4, 4);
LIES(operation, lent, 8, 4);
LIES(operation, edit, 12, 4);
LIES(operation, next, 16, 4);
LIES(operation, aim, 20, 4);
LIES(operation, tag, 24, 4);
LIES(operation, version, 28, 1);
LIES(operation, flags, 29, 1);
LIES(operation, s, 32, 8);
LIES(operation, n, 40, 8);
LIES(operation, key, 48, 8);
LIES(operation, len, 56, 8);
LIES(operation, region, 64, 8);
LIES(operation, at, 72, 8);
LIES(operation, size, 80, 8);
LIES(operation, found, 88, 8);
LIES(operation, a, 96, 8);
LIES(operation, b, 104, 8);
LIES(operation, c, 112, 8);
FILLS(start, 128);
LIES(start, refusal, 0, 4);
LIES(start, op, 8, 120);
FILLS(request, 56);
LIES(request, kind, 0, 4);
LIES(request, region, 8, 8);
LIES(request, from, 16, 8);
LIES(request, to, 24, 8);
LIES(request, place, 32, 8);
LIES(request, answer, 40, 16);
FILLS(stepped, 176);
LIES(stepped, op, 0, 120);
LIES(stepped, request, 120, 56);
FILLS(found, 24);
LIES(found, answer, 0, 16);
LIES(found, place, 16, 8);
FILLS(place, 16);
LIES(place, region, 0, 8);
LIES(place, place, 8, 8);
FILLS(entry, 56);
LIES(entry, kind, 0, 4);
LIES(entry, refusal, 4, 4);
LIES(entry, live, 8, 4);
LIES(entry, checksum_right, 12, 4);
LIES(entry, key, 16, 8);
LIES(entry, value_place, 24, 8);
LIES(entry, value_len, 32, 8);
LIES(entry, next, 40, 16);

enum { S = 64, N = 4, CHIP = 256 };

static int checks;
static uint8_t chip[CHIP], one[1], sevens[64];

static void checked(int holds, const char *what, int line) {
    if (!holds) {
        fprintf(stderr, "c/test.c:%d: not so: %s\n", line, what);
        exit(1);
    }
    checks++;
}
#define CHECK(what) checked((what), #what, __LINE__)

static int is(stilefray_answer answer, uint32_t kind, uint32_t refusal, size_t value) {
    return answer.kind == kind && answer.refusal == refusal && answer.value == value;
}
static int refused(stilefray_answer answer, uint32_t refusal) { return is(answer, STILEFRAY_REFUSED, refusal, 0); }
static int written(stilefray_answer answer) { return is(answer, STILEFRAY_WRITTEN, 0, 0); }
static int all(const uint8_t *bytes, size_t len, uint8_t byte) {
    while (len > 0 && bytes[len - 1] == byte) len--;
    return len == 0;
}
/* All but the two bytes of padding after the flags. */
static int same_op(stilefray_operation x, stilefray_operation y) {
    return memcmp(&x, &y, 30) == 0 && memcmp(&x.s, &y.s, 88) == 0;
}
static void erase_chip(void) { memset(chip, 255, CHIP); }
static stilefray_answer get(uint64_t key, uint8_t *buffer, size_t len) { return stilefray_get_key(chip, CHIP, S, N, key, buffer, len); }
static stilefray_answer append(uint64_t key, size_t len) { return stilefray_append_key(chip, CHIP, S, N, key, sevens, len); }

static void afternoons_2_to_4(void) {
    static const uint8_t record[] = {1, 0x80, 0x12, 0, 0, 0, 0, 0, 0, 0, 1, 7, 8, 9, 0x96, 0xc0, 0xf7, 0x18};
    static const uint8_t value[] = {7, 8, 9};
    uint8_t two[3] = {0, 0, 5};
    erase_chip();
    CHECK(written(stilefray_append_key(chip, CHIP, S, N, 1, value, 3)));
    CHECK(memcmp(chip + 64, record, sizeof record) == 0 && all(chip, 64, 255) && all(chip + 82, CHIP - 82, 255));
    CHECK(chip[64] == STILEFRAY_FORMAT);
    CHECK(is(get(1, two, 2), STILEFRAY_REFUSED, STILEFRAY_BUFFER_TOO_SMALL, 3));
    CHECK(two[0] == 7 && two[1] == 8 && two[2] == 5);
    chip[81] ^= 1;
    CHECK(refused(get(1, two, 3), STILEFRAY_INVALID_CHECK_SUM) && two[2] == 9);
    erase_chip();
    CHECK(refused(append(1, 50), STILEFRAY_FLASH_FULL) && all(chip, CHIP, 255));
    CHECK(written(append(1, 49)) && chip[66] == 64);
    CHECK(refused(append(1, 0), STILEFRAY_KEY_ALREADY_EXISTS));
}

static void afternoons_5_to_7(void) {
    static const uint8_t spilled[] = {1, 0x80, 15, 0, 0, 0, 0, 0, 0, 0, 5, 0xe4, 0x3f, 0x83, 0x34};
    static const uint8_t dead[] = {1, 0, 0x40, 0, 0, 0, 0, 0, 0, 0, 1};
    CHECK(written(append(5, 0)) && memcmp(chip + 128, spilled, sizeof spilled) == 0);
    CHECK(is(get(5, one, 0), STILEFRAY_COMPLETE, 0, 0));
    CHECK(written(stilefray_invalidate_key(chip, CHIP, S, N, 1)) && chip[65] == 0);
    CHECK(is(stilefray_garbage_collect(chip, CHIP, S, N), STILEFRAY_FREED, 0, 64) && all(chip + 64, 64, 255));
    CHECK(is(get(5, one, 0), STILEFRAY_COMPLETE, 0, 0));
    CHECK(refused(get(1, one, 1), STILEFRAY_KEY_NOT_FOUND));
    CHECK(written(append(1, 49)));
    CHECK(written(stilefray_zeroise_key(chip, CHIP, S, N, 1)));
    CHECK(memcmp(chip + 64, dead, sizeof dead) == 0 && all(chip + 75, 53, 0));
}

static void afternoons_8_to_12(void) {
    static uint8_t large[4 * 4096], value[4080];
    erase_chip();
    CHECK(is(stilefray_garbage_collect(chip, CHIP, S, N), STILEFRAY_FREED, 0, 0) && all(chip, CHIP, 255));
    chip[64] = 2;
    CHECK(refused(get(1, one, 1), STILEFRAY_UNSUPPORTED_VERSION) && refused(get(3, one, 1), STILEFRAY_UNSUPPORTED_VERSION));
    chip[64] = 1, chip[65] = 0x80, chip[66] = 14;
    CHECK(refused(get(1, one, 1), STILEFRAY_CORRUPT_DATA));
    chip[66] = 0;
    CHECK(refused(get(1, one, 1), STILEFRAY_CORRUPT_DATA));
    chip[66] = 15; /* a record, of another key */
    CHECK(refused(get(1, one, 1), STILEFRAY_KEY_NOT_FOUND));
    memset(large, 255, sizeof large);
    CHECK(written(stilefray_append_key(large, sizeof large, 4096, 4, 1, value, 4079)));
    CHECK(large[4096] == 1 && large[4097] == 0x8f && large[4098] == 0xfe);
    CHECK(refused(stilefray_append_key(large, sizeof large, 4096, 4, 2, value, 4080), STILEFRAY_OBJECT_TOO_LARGE));
    erase_chip();
    CHECK(written(append(1, 1)) && written(append(2, 0)));
    CHECK(written(stilefray_initialise(chip, CHIP, S, N, 1)) && all(chip, 64, 255) && all(chip + 79, CHIP - 79, 255));
    CHECK(is(stilefray_initialise(chip, CHIP, S, N, 1), STILEFRAY_COMPLETE, 0, 0));
}

static void refusals_1_to_3(void) {
    stilefray_start start = stilefray_start_append(S, N, 1, 4080);
    static const stilefray_operation none;
    CHECK(refused(stilefray_get_key(chip, CHIP, 63, N, 0, one, 1), STILEFRAY_BAD_GEOMETRY));
    CHECK(refused(stilefray_get_key(chip, CHIP - 1, S, N, 0, one, 1), STILEFRAY_BAD_GEOMETRY));
    CHECK(refused(get(0, one, 1), STILEFRAY_BAD_KEY) && refused(get(UINT64_MAX, one, 1), STILEFRAY_BAD_KEY));
    CHECK(start.refusal == STILEFRAY_OBJECT_TOO_LARGE && same_op(start.op, none));
    CHECK(stilefray_start_append(S, N, 0, 4080).refusal == STILEFRAY_BAD_KEY);
    CHECK(stilefray_start_get(S, 65, 0, 1).refusal == STILEFRAY_BAD_GEOMETRY);
    CHECK(stilefray_start_collect(S, 0).refusal == STILEFRAY_BAD_GEOMETRY);
    CHECK(stilefray_start_collect(S, N).refusal == 0);
    CHECK(stilefray_start_get(S, N, UINT64_MAX - 1, SIZE_MAX).op.len == SIZE_MAX);
    CHECK(stilefray_start_get(S, N, UINT64_MAX - 1, SIZE_MAX).op.key == UINT64_MAX - 1);
    CHECK(stilefray_start_invalidate(S, N, 0).refusal == STILEFRAY_BAD_KEY);
    CHECK(stilefray_start_zeroise(S, N, 0).refusal == STILEFRAY_BAD_KEY);
    CHECK(stilefray_start_initialise(S, N, 0).refusal == STILEFRAY_BAD_KEY);
}

static stilefray_found find(uint64_t key) { return stilefray_find_value(chip, CHIP, S, N, key); }
static int found(stilefray_found value, size_t place, size_t len) {
    return is(value.answer, STILEFRAY_COMPLETE, 0, len) && value.place == place && all(chip + place, len, 7);
}
static int nowhere(stilefray_found value, uint32_t refusal) { return refused(value.answer, refusal) && value.place == 0; }

/* A key's value where it lies, and get's refusals. Key 1 fills region 1, and 5 and 9 spill to region 2. */
static void found_values(void) {
    uint8_t whole[CHIP];
    erase_chip();
    CHECK(nowhere(find(1), STILEFRAY_KEY_NOT_FOUND));
    CHECK(nowhere(find(0), STILEFRAY_BAD_KEY) && nowhere(find(UINT64_MAX), STILEFRAY_BAD_KEY));
    CHECK(written(append(1, 49)) && written(append(5, 5)) && written(append(9, 0)));
    memcpy(whole, chip, CHIP);
    CHECK(found(find(1), 75, 49) && found(find(5), 139, 5) && found(find(9), 159, 0));
    CHECK(nowhere(find(13), STILEFRAY_KEY_NOT_FOUND));
    CHECK(nowhere(stilefray_find_value(chip, CHIP, 63, N, 0), STILEFRAY_BAD_GEOMETRY));
    CHECK(nowhere(stilefray_find_value(chip, CHIP - 1, S, N, 1), STILEFRAY_BAD_GEOMETRY));
    CHECK(nowhere(stilefray_find_value(chip, CHIP, S, SIZE_MAX, 1), STILEFRAY_BAD_GEOMETRY));
    CHECK(memcmp(whole, chip, CHIP) == 0);
    chip[123] ^= 1; /* a byte of key 1's value: others are found past it */
    CHECK(nowhere(find(1), STILEFRAY_INVALID_CHECK_SUM) && found(find(5), 139, 5));
    CHECK(written(stilefray_invalidate_key(chip, CHIP, S, N, 5)));
    CHECK(nowhere(find(5), STILEFRAY_KEY_NOT_FOUND) && found(find(9), 159, 0));
    chip[128] = 2;
    CHECK(nowhere(find(9), STILEFRAY_UNSUPPORTED_VERSION) && nowhere(find(1), STILEFRAY_INVALID_CHECK_SUM));
    chip[128] = 1, chip[130] = 14;
    CHECK(nowhere(find(9), STILEFRAY_CORRUPT_DATA) && nowhere(find(2), STILEFRAY_CORRUPT_DATA));
}

static stilefray_entry entry(size_t r, size_t o) { return stilefray_record_at(chip, CHIP, S, N, r, o); }
/* No record: what else, and where to go on. */
static int other(stilefray_entry e, uint32_t kind, uint32_t refusal, size_t r, size_t o) {
    return e.kind == kind && e.refusal == refusal && e.live == 0 && e.checksum_right == 0 && e.key == 0 && e.value_place == 0 && e.value_len == 0 &&
           e.next.region == r && e.next.place == o;
}
/* A record, whose value lies there; four bytes behind it the next begins. */
static int stands(stilefray_entry e, uint32_t live, uint32_t sound, uint64_t key, size_t place, size_t len) {
    return e.kind == STILEFRAY_ENTRY_RECORD && e.refusal == 0 && e.live == live && e.checksum_right == sound && e.key == key && e.value_place == place &&
           e.value_len == len && e.next.region == place / S && e.next.place == place % S + len + 4;
}

/* Region 1: live, dead, live with a wrong checksum. Region 2: two records up to its end. Region 3: a dead one, zeroised. */
static void entries(void) {
    erase_chip();
    CHECK(written(append(1, 3)) && written(append(5, 0)) && written(append(9, 1)) && written(append(2, 34)) && written(append(6, 0)));
    CHECK(written(append(3, 2)) && written(stilefray_zeroise_key(chip, CHIP, S, N, 3)));
    CHECK(written(stilefray_invalidate_key(chip, CHIP, S, N, 5)));
    chip[108] ^= 1; /* the value of key 9 */
    CHECK(stands(entry(1, 0), 1, 1, 1, 75, 3) && stands(entry(1, 18), 0, 0, 5, 93, 0) && stands(entry(1, 33), 1, 0, 9, 108, 1));
    CHECK(stands(entry(2, 0), 1, 1, 2, 139, 34) && stands(entry(2, 49), 1, 1, 6, 188, 0) && stands(entry(3, 0), 0, 0, 3, 203, 2));
    CHECK(other(entry(0, 0), STILEFRAY_ENTRY_END, 0, 1, 0) && other(entry(1, 49), STILEFRAY_ENTRY_END, 0, 2, 0));
    CHECK(other(entry(1, 50), STILEFRAY_ENTRY_END, 0, 2, 0) && other(entry(2, 64), STILEFRAY_ENTRY_END, 0, 3, 0));
    CHECK(other(entry(3, 65), STILEFRAY_ENTRY_END, 0, 4, 0) && other(entry(0, SIZE_MAX), STILEFRAY_ENTRY_END, 0, 1, 0));
    CHECK(other(entry(4, 0), STILEFRAY_ENTRY_NONE, 0, 4, 0) && other(entry(SIZE_MAX, 9), STILEFRAY_ENTRY_NONE, 0, SIZE_MAX, 9));
    CHECK(other(entry(1, 1), STILEFRAY_ENTRY_BAD, STILEFRAY_UNSUPPORTED_VERSION, 2, 0)); /* no record begins there */
    chip[64] = 2;
    CHECK(other(entry(1, 0), STILEFRAY_ENTRY_BAD, STILEFRAY_UNSUPPORTED_VERSION, 2, 0));
    chip[64] = 1, chip[66] = 14;
    CHECK(other(entry(1, 0), STILEFRAY_ENTRY_BAD, STILEFRAY_CORRUPT_DATA, 2, 0));
    chip[66] = 65; /* past the region's end */
    CHECK(other(entry(1, 0), STILEFRAY_ENTRY_BAD, STILEFRAY_CORRUPT_DATA, 2, 0));
    CHECK(other(stilefray_record_at(chip, CHIP, 63, N, 1, 2), STILEFRAY_ENTRY_REFUSED, STILEFRAY_BAD_GEOMETRY, 1, 2));
    CHECK(other(stilefray_record_at(chip, CHIP - 1, S, N, 9, 0), STILEFRAY_ENTRY_REFUSED, STILEFRAY_BAD_GEOMETRY, 9, 0));
    CHECK(other(stilefray_record_at(chip, CHIP, S, 5, 0, 0), STILEFRAY_ENTRY_REFUSED, STILEFRAY_BAD_GEOMETRY, 0, 0));
}

/* A pass as the header has it: what it met, as "1.18-5 " for region 1, place 18, dead, key 5, or + for live; and how it ended and where. */
static const char *pass(void) {
    static char met[2000];
    stilefray_place at = {0, 0};
    stilefray_entry e;
    met[0] = 0;
    for (;;) {
        e = entry(at.region, at.place);
        if (e.kind != STILEFRAY_ENTRY_RECORD && e.kind != STILEFRAY_ENTRY_END) break;
        if (e.kind == STILEFRAY_ENTRY_RECORD)
            sprintf(met + strlen(met), "%zu.%zu%c%d ", at.region, at.place, e.live ? '+' : '-', (int)e.key);
        at = e.next;
    }
    sprintf(met + strlen(met), "%s %zu.%zu", e.kind == STILEFRAY_ENTRY_BAD ? "bad" : "through", at.region, at.place);
    return met;
}

static void passes(void) {
    size_t i;
    erase_chip();
    CHECK(strcmp(pass(), "through 4.0") == 0);
    CHECK(written(append(1, 3)) && written(append(5, 0)) && written(append(9, 16)) && written(append(13, 0)) && written(append(4, 0)));
    CHECK(written(stilefray_invalidate_key(chip, CHIP, S, N, 5)));
    CHECK(strcmp(pass(), "0.0+4 1.0+1 1.18-5 1.33+9 2.0+13 through 4.0") == 0);
    chip[128] = 3; /* nothing behind a bad place is met */
    chip[192] = 1;
    CHECK(strcmp(pass(), "0.0+4 1.0+1 1.18-5 1.33+9 bad 2.0") == 0);
    chip[97 + 1] = 0, chip[97 + 2] = 32; /* the record in front of region 1's end, one byte too long */
    CHECK(strcmp(pass(), "0.0+4 1.0+1 1.18-5 bad 1.33") == 0);
    for (i = 0; i < 256; i++) { /* whatever the chip is full of, it ends */
        memset(chip, (int)i, CHIP);
        CHECK(strcmp(pass(), i == 255 ? "through 4.0" : "bad 0.0") == 0);
    }
}

static uint8_t region[S];
static char did[200]; /* the services done: "r1 w64-82 e0 " */

static void serve(stilefray_request request) {
    char *end = did + strlen(did);
    size_t i, len = request.to - request.from;
    if (request.kind == STILEFRAY_READ) {
        sprintf(end, "r%zu ", request.region);
        memcpy(region, chip + request.region * S, S);
    } else if (request.kind == STILEFRAY_ERASE) {
        sprintf(end, "e%zu ", request.region);
        memset(chip + request.region * S, 255, S);
    } else {
        sprintf(end, "w%zu-%zu ", request.place, request.place + len);
        for (i = 0; i < len; i++) chip[request.place + i] &= region[request.from + i];
    }
}

static int same(stilefray_stepped a, stilefray_stepped b) {
    const stilefray_request *q = &a.request, *r = &b.request;
    return same_op(a.op, b.op) && q->kind == r->kind && q->region == r->region && q->from == r->from && q->to == r->to &&
           q->place == r->place && is(q->answer, r->answer.kind, r->answer.refusal, r->answer.value);
}

/* Drives an operation to its answer. Before each service it says not ready twice, and tries a region buffer too short, and none. */
static stilefray_answer drive(stilefray_start start, const uint8_t *value, size_t value_len, uint8_t *buffer, size_t buffer_len) {
    stilefray_stepped now, again;
    uint8_t before[S];
    int i;
    did[0] = 0;
    CHECK(start.refusal == 0 && start.op.layout == STILEFRAY_LAYOUT && start.op.fresh == 1);
    now = stilefray_step(start.op, STILEFRAY_BEGIN, region, S, value, value_len, buffer, buffer_len);
    while (now.request.kind != STILEFRAY_ANSWER) {
        memcpy(before, region, S);
        for (i = 0; i < 2; i++) {
            again = stilefray_step(now.op, STILEFRAY_NOT_READY, region, S, value, value_len, buffer, buffer_len);
            CHECK(same(again, now));
        }
        again = stilefray_step(now.op, STILEFRAY_FAILED, region, S - 1, value, value_len, buffer, buffer_len);
        CHECK(refused(again.request.answer, STILEFRAY_BAD_CALL) && same_op(again.op, now.op));
        again = stilefray_step(now.op, STILEFRAY_FAILED, NULL, 0, NULL, 0, NULL, 0);
        CHECK(refused(again.request.answer, STILEFRAY_BAD_CALL) && same_op(again.op, now.op));
        CHECK(memcmp(before, region, S) == 0);
        serve(now.request);
        now = stilefray_step(now.op, STILEFRAY_DONE, region, S, value, value_len, buffer, buffer_len);
    }
    CHECK(now.op.next == STILEFRAY_NEXT_ENDED && now.op.fresh == 0);
    again = stilefray_step(now.op, STILEFRAY_DONE, region, S, value, value_len, buffer, buffer_len);
    CHECK(refused(again.request.answer, STILEFRAY_BAD_CALL) && same_op(again.op, now.op));
    return now.request.answer;
}

/* Each operation whole. What it does not use is lent as `nothing` and 0. */
static void runs(uint8_t *nothing) {
    uint8_t buffer[6] = {5, 5, 5, 5, 5, 5}, whole[CHIP];
    erase_chip();
    CHECK(written(drive(stilefray_start_initialise(S, N, 2), nothing, 0, nothing, 0)));
    CHECK(strcmp(did, "r2 r3 r1 r0 e0 e1 e2 e3 r2 r3 r1 r0 w128-143 ") == 0);
    memcpy(whole, chip, CHIP);
    CHECK(written(stilefray_append_key(whole, CHIP, S, N, 1, sevens, 5)));
    CHECK(written(drive(stilefray_start_append(S, N, 1, 5), sevens, 5, nothing, 0)));
    CHECK(strcmp(did, "r1 r2 r0 r3 w64-84 ") == 0 && memcmp(whole, chip, CHIP) == 0);
    CHECK(is(drive(stilefray_start_get(S, N, 1, 6), nothing, 0, buffer, 6), STILEFRAY_COMPLETE, 0, 5));
    CHECK(strcmp(did, "r1 ") == 0 && memcmp(buffer, sevens, 5) == 0 && buffer[5] == 5);
    CHECK(written(drive(stilefray_start_invalidate(S, N, 1), nothing, 0, nothing, 0)));
    CHECK(strcmp(did, "r1 w65-66 ") == 0 && chip[65] == 0 && chip[75] == 7);
    CHECK(written(append(1, 5)) && written(drive(stilefray_start_zeroise(S, N, 1), nothing, 0, nothing, 0)));
    CHECK(strcmp(did, "r1 w84-104 ") == 0 && chip[84] == 1 && chip[85] == 0 && chip[86] == 20 && all(chip + 95, 9, 0));
    CHECK(is(drive(stilefray_start_collect(S, N), nothing, 0, nothing, 0), STILEFRAY_FREED, 0, 64));
    CHECK(strcmp(did, "r0 r1 e1 r2 r3 ") == 0 && all(chip + 64, 64, 255) && chip[128] == 1);
}

/* Runs an operation up to its first request of this kind, which is begun, not ready, and then given up: it ends after its operation. */
static stilefray_request given_up(stilefray_start start, uint32_t kind) {
    stilefray_stepped now = stilefray_step(start.op, STILEFRAY_BEGIN, region, S, sevens, 5, one, 1);
    stilefray_request late;
    did[0] = 0;
    while (now.request.kind != kind) {
        CHECK(now.request.kind != STILEFRAY_ANSWER);
        serve(now.request);
        now = stilefray_step(now.op, STILEFRAY_DONE, region, S, sevens, 5, one, 1);
    }
    late = now.request;
    now = stilefray_step(now.op, STILEFRAY_NOT_READY, region, S, sevens, 5, one, 1);
    now = stilefray_step(now.op, STILEFRAY_FAILED, region, S, sevens, 5, one, 1);
    CHECK(refused(now.request.answer, STILEFRAY_FLASH_FAILED));
    return late;
}

/* Over before the next operation, as R13.6 has it: that one answers as if it had come in time. */
static void late_services(void) {
    uint8_t buffer[5];
    erase_chip();
    CHECK(written(append(1, 5)));
    serve(given_up(stilefray_start_get(S, N, 2, 1), STILEFRAY_READ));
    CHECK(written(drive(stilefray_start_append(S, N, 5, 5), sevens, 5, NULL, 0)) && strcmp(did, "r1 r2 r0 r3 w84-104 ") == 0);
    CHECK(is(get(1, buffer, 5), STILEFRAY_COMPLETE, 0, 5) && is(get(5, buffer, 5), STILEFRAY_COMPLETE, 0, 5));
    serve(given_up(stilefray_start_append(S, N, 2, 5), STILEFRAY_WRITE));
    CHECK(refused(drive(stilefray_start_append(S, N, 2, 5), sevens, 5, NULL, 0), STILEFRAY_KEY_ALREADY_EXISTS));
    CHECK(is(drive(stilefray_start_get(S, N, 2, 5), NULL, 0, buffer, 5), STILEFRAY_COMPLETE, 0, 5) && all(buffer, 5, 7));
    serve(given_up(stilefray_start_zeroise(S, N, 2), STILEFRAY_WRITE));
    CHECK(refused(drive(stilefray_start_get(S, N, 2, 5), NULL, 0, buffer, 5), STILEFRAY_KEY_NOT_FOUND));
    serve(given_up(stilefray_start_collect(S, N), STILEFRAY_ERASE));
    CHECK(is(drive(stilefray_start_collect(S, N), NULL, 0, NULL, 0), STILEFRAY_FREED, 0, 0) && all(chip + 128, 64, 255));
    CHECK(is(get(1, buffer, 5), STILEFRAY_COMPLETE, 0, 5) && is(get(5, buffer, 5), STILEFRAY_COMPLETE, 0, 5));
}

/* Not over: the append takes the end of the old read, of a blank region, for its own, and answers Written over the record of key 1. */
static void late_service_not_waited_for(void) {
    stilefray_request late;
    stilefray_stepped now;
    uint8_t buffer[5];
    erase_chip();
    CHECK(written(append(1, 5)));
    late = given_up(stilefray_start_get(S, N, 2, 1), STILEFRAY_READ);
    now = stilefray_step(stilefray_start_append(S, N, 9, 5).op, STILEFRAY_BEGIN, region, S, sevens, 5, NULL, 0);
    CHECK(now.request.kind == STILEFRAY_READ && now.request.region == 1 && late.region == 2);
    serve(late);
    now = stilefray_step(now.op, STILEFRAY_DONE, region, S, sevens, 5, NULL, 0);
    while (now.request.kind != STILEFRAY_ANSWER) {
        serve(now.request);
        now = stilefray_step(now.op, STILEFRAY_DONE, region, S, sevens, 5, NULL, 0);
    }
    CHECK(written(now.request.answer) && refused(get(1, buffer, 5), STILEFRAY_INVALID_CHECK_SUM));
}

static void bad_calls(void) {
    stilefray_operation op = stilefray_start_get(S, N, 1, 1).op;
    stilefray_stepped now;
    uint32_t reply;
    for (reply = 1; reply < 6; reply++)
        CHECK(refused(stilefray_step(op, reply, region, S, one, 0, one, 1).request.answer, STILEFRAY_BAD_CALL));
    CHECK(refused(stilefray_step(op, STILEFRAY_BEGIN, region, S, one, 0, one, 0).request.answer, STILEFRAY_BAD_CALL));
    now = stilefray_step(op, STILEFRAY_BEGIN, region, S, one, 0, one, 1);
    CHECK(now.request.kind == STILEFRAY_READ && now.request.region == 1);
    CHECK(now.op.fresh == 0 && now.op.next == STILEFRAY_NEXT_SEEK && now.op.aim == STILEFRAY_AIM_GET);
    CHECK(refused(stilefray_step(now.op, STILEFRAY_BEGIN, region, S, one, 0, one, 1).request.answer, STILEFRAY_BAD_CALL));
    now = stilefray_step(now.op, STILEFRAY_FAILED, region, S, one, 0, one, 1);
    CHECK(refused(now.request.answer, STILEFRAY_FLASH_FAILED) && now.op.next == STILEFRAY_NEXT_ENDED);
}

/* A fresh operation that no start handed out begins with a request of this kind; for ANSWER it is BAD_CALL, and comes back as it was. */
static void begins(stilefray_operation op, uint32_t kind) {
    stilefray_stepped now = stilefray_step(op, STILEFRAY_BEGIN, region, S, sevens, 1, one, 1);
    CHECK(now.request.kind == kind);
    CHECK(kind != STILEFRAY_ANSWER || (refused(now.request.answer, STILEFRAY_BAD_CALL) && same_op(now.op, op)));
}

/* Whether this is lent for the aim. */
static int lent_for(uint32_t aim, uint32_t lent) {
    switch (aim) {
    case STILEFRAY_AIM_GET: return lent == STILEFRAY_LENT_BUFFER;
    case STILEFRAY_AIM_APPEND: return lent == STILEFRAY_LENT_VALUE || lent == STILEFRAY_LENT_NOTHING;
    case STILEFRAY_AIM_INVALIDATE:
    case STILEFRAY_AIM_ZEROISE:
    case STILEFRAY_AIM_INITIALISE: return lent == STILEFRAY_LENT_NOTHING;
    default: return 0;
    }
}

/* Every number of what is next, of the aim and of what is lent. */
static void forged_seeks(void) {
    stilefray_operation op = stilefray_start_invalidate(S, N, 1).op;
    for (op.next = 0; op.next < 9; op.next++)
        for (op.aim = 0; op.aim < 8; op.aim++)
            for (op.lent = 0; op.lent < 5; op.lent++) {
                int seeks = op.next == STILEFRAY_NEXT_SEEK && lent_for(op.aim, op.lent);
                int sweeps = op.next == STILEFRAY_NEXT_SWEEP && op.aim == 0 && op.lent <= STILEFRAY_LENT_BUFFER;
                op.len = op.lent != STILEFRAY_LENT_NOTHING;
                begins(op, seeks || sweeps ? STILEFRAY_READ : STILEFRAY_ANSWER);
                op.len = op.lent == STILEFRAY_LENT_NOTHING; /* a number too many, or another length than that of what is lent */
                begins(op, STILEFRAY_ANSWER);
            }
}

/* Every number of the edit, with places that fit and that do not. */
static void forged_edits(void) {
    static const uint32_t kinds[8] = {STILEFRAY_ANSWER, STILEFRAY_WRITE, STILEFRAY_WRITE,  STILEFRAY_WRITE,
                                      STILEFRAY_ERASE,  STILEFRAY_ERASE, STILEFRAY_ANSWER, STILEFRAY_ANSWER};
    stilefray_operation op = stilefray_start_collect(S, N).op;
    for (op.next = 0; op.next < 9; op.next++)
        for (op.edit = 0; op.edit < 8; op.edit++) {
            int removes = op.edit == STILEFRAY_EDIT_INVALIDATE || op.edit == STILEFRAY_EDIT_ZEROISE;
            int goes_on = STILEFRAY_NEXT_SWEEP <= op.next && op.next <= STILEFRAY_NEXT_FREED;
            int sweeps = op.next == STILEFRAY_NEXT_SWEEP;
            op.at = op.edit == STILEFRAY_EDIT_ERASES ? N : 0;
            op.size = removes ? 64 : 0;
            begins(op, sweeps && op.edit == STILEFRAY_EDIT_NONE ? STILEFRAY_READ : goes_on ? kinds[op.edit] : STILEFRAY_ANSWER);
            op.size = removes ? 65 : 64;
            begins(op, STILEFRAY_ANSWER);
            op.size = removes ? 15 : 0;
            op.at = 49;
            begins(op, goes_on && kinds[op.edit] == STILEFRAY_WRITE ? STILEFRAY_WRITE : STILEFRAY_ANSWER);
            op.at = 50;
            begins(op, STILEFRAY_ANSWER);
            op.at = 0;
            op.region = N; /* no region; for erases none is left to erase */
            begins(op, sweeps && op.edit == STILEFRAY_EDIT_ERASES ? STILEFRAY_READ : STILEFRAY_ANSWER);
            op.region = 0;
        }
}

/* An operation of another layout, such as a host kept over an update of the library. */
static void forged_layouts(void) {
    static const uint32_t others[] = {0, 1, 3, 4, UINT32_MAX};
    stilefray_operation op = stilefray_start_append(S, N, 1, 1).op;
    stilefray_stepped now = stilefray_step(op, STILEFRAY_BEGIN, region, S, sevens, 1, one, 1);
    uint32_t reply;
    size_t i;
    begins(op, STILEFRAY_READ);
    for (i = 0; i < sizeof others / sizeof others[0]; i++) {
        op.layout = others[i];
        begins(op, STILEFRAY_ANSWER);
        now.op.layout = others[i];
        for (reply = 0; reply < 5; reply++) {
            stilefray_stepped again = stilefray_step(now.op, reply, region, S, sevens, 1, one, 1);
            CHECK(refused(again.request.answer, STILEFRAY_BAD_CALL) && same_op(again.op, now.op));
        }
    }
}

/* No image at all: it has not n * s bytes, also where that is 0. */
static void null_images(void) {
    size_t s, n;
    for (s = 0; s <= S; s += S)
        for (n = 0; n <= N; n += N) {
            CHECK(refused(stilefray_get_key(NULL, 0, s, n, 1, NULL, 0), STILEFRAY_BAD_GEOMETRY));
            CHECK(refused(stilefray_append_key(NULL, 0, s, n, 1, NULL, 0), STILEFRAY_BAD_GEOMETRY));
            CHECK(refused(stilefray_invalidate_key(NULL, 0, s, n, 1), STILEFRAY_BAD_GEOMETRY));
            CHECK(refused(stilefray_zeroise_key(NULL, 0, s, n, 1), STILEFRAY_BAD_GEOMETRY));
            CHECK(refused(stilefray_garbage_collect(NULL, 0, s, n), STILEFRAY_BAD_GEOMETRY));
            CHECK(refused(stilefray_initialise(NULL, 0, s, n, 1), STILEFRAY_BAD_GEOMETRY));
            CHECK(nowhere(stilefray_find_value(NULL, 0, s, n, 1), STILEFRAY_BAD_GEOMETRY));
            CHECK(other(stilefray_record_at(NULL, 0, s, n, 0, 0), STILEFRAY_ENTRY_REFUSED, STILEFRAY_BAD_GEOMETRY, 0, 0));
            CHECK(other(stilefray_record_at(NULL, 0, s, n, n, s), STILEFRAY_ENTRY_REFUSED, STILEFRAY_BAD_GEOMETRY, n, s));
        }
    CHECK(stilefray_checksum(NULL, 0) == stilefray_checksum(one, 0) && stilefray_checksum(NULL, 0) == 0xffffffffu);
}

/* An empty value and an empty buffer, in every answer that append and get can give to them. */
static void null_values_and_buffers(void) {
    uint8_t with_one[CHIP];
    erase_chip();
    CHECK(written(stilefray_append_key(chip, CHIP, S, N, 1, one, 0)));
    memcpy(with_one, chip, CHIP);
    erase_chip();
    CHECK(refused(get(1, NULL, 0), STILEFRAY_KEY_NOT_FOUND) && refused(get(0, NULL, 0), STILEFRAY_BAD_KEY));
    CHECK(refused(stilefray_append_key(chip, CHIP, S, N, 0, NULL, 0), STILEFRAY_BAD_KEY));
    CHECK(written(stilefray_append_key(chip, CHIP, S, N, 1, NULL, 0)) && memcmp(chip, with_one, CHIP) == 0);
    CHECK(is(get(1, NULL, 0), STILEFRAY_COMPLETE, 0, 0));
    CHECK(refused(stilefray_append_key(chip, CHIP, S, N, 1, NULL, 0), STILEFRAY_KEY_ALREADY_EXISTS));
    CHECK(written(append(2, 5)) && is(get(2, NULL, 0), STILEFRAY_REFUSED, STILEFRAY_BUFFER_TOO_SMALL, 5));
    chip[64 + 11] ^= 1; /* the checksum of key 1 */
    CHECK(refused(get(1, NULL, 0), STILEFRAY_INVALID_CHECK_SUM));
    chip[64] = 2;
    CHECK(refused(get(1, NULL, 0), STILEFRAY_UNSUPPORTED_VERSION));
    CHECK(refused(stilefray_append_key(chip, CHIP, S, N, 1, NULL, 0), STILEFRAY_UNSUPPORTED_VERSION));
    chip[64] = 1, chip[66] = 14;
    CHECK(refused(get(1, NULL, 0), STILEFRAY_CORRUPT_DATA));
    CHECK(refused(stilefray_append_key(chip, CHIP, S, N, 1, NULL, 0), STILEFRAY_CORRUPT_DATA));
    erase_chip();
    chip[70] = 0; /* in the place of the record */
    CHECK(refused(stilefray_append_key(chip, CHIP, S, N, 1, NULL, 0), STILEFRAY_CORRUPT_DATA));
    erase_chip();
    CHECK(written(append(1, 49)) && written(append(5, 49)) && written(append(9, 49)) && written(append(13, 49)));
    CHECK(refused(stilefray_append_key(chip, CHIP, S, N, 2, NULL, 0), STILEFRAY_FLASH_FULL));
}

/* An append and a get that use what is lent, which is empty; and a step that fails. */
static void null_steps(void) {
    stilefray_stepped now;
    erase_chip();
    CHECK(written(drive(stilefray_start_append(S, N, 1, 0), NULL, 0, NULL, 0)) && chip[66] == 15);
    CHECK(is(drive(stilefray_start_get(S, N, 1, 0), NULL, 0, NULL, 0), STILEFRAY_COMPLETE, 0, 0));
    CHECK(refused(drive(stilefray_start_append(S, N, 1, 0), NULL, 0, NULL, 0), STILEFRAY_KEY_ALREADY_EXISTS));
    CHECK(refused(drive(stilefray_start_get(S, N, 3, 0), NULL, 0, NULL, 0), STILEFRAY_KEY_NOT_FOUND));
    CHECK(refused(drive(stilefray_start_invalidate(S, N, 3), NULL, 0, NULL, 0), STILEFRAY_KEY_NOT_FOUND));
    CHECK(is(drive(stilefray_start_initialise(S, N, 1), NULL, 0, NULL, 0), STILEFRAY_COMPLETE, 0, 0));
    CHECK(written(append(2, 5)));
    CHECK(is(drive(stilefray_start_get(S, N, 2, 0), NULL, 0, NULL, 0), STILEFRAY_REFUSED, STILEFRAY_BUFFER_TOO_SMALL, 5));
    now = stilefray_step(stilefray_start_append(S, N, 3, 5).op, STILEFRAY_BEGIN, region, S, NULL, 0, NULL, 0);
    CHECK(refused(now.request.answer, STILEFRAY_BAD_CALL)); /* a value of 5 bytes was named */
    now = stilefray_step(stilefray_start_zeroise(S, N, 2).op, STILEFRAY_BEGIN, region, S, NULL, 0, NULL, 0);
    CHECK(now.request.kind == STILEFRAY_READ);
    now = stilefray_step(now.op, STILEFRAY_FAILED, region, S, NULL, 0, NULL, 0);
    CHECK(refused(now.request.answer, STILEFRAY_FLASH_FAILED));
}

int main(void) {
    memset(sevens, 7, sizeof sevens);
    CHECK(strcmp(STILEFRAY_VERSION, IN_WORDS(STILEFRAY_VERSION_MAJOR, STILEFRAY_VERSION_MINOR, STILEFRAY_VERSION_PATCH)) == 0);
    CHECK(stilefray_checksum((const uint8_t *)"123456789", 9) == 0x765e7680u);
    afternoons_2_to_4();
    afternoons_5_to_7();
    afternoons_8_to_12();
    refusals_1_to_3();
    found_values();
    entries();
    passes();
    runs(one);
    runs(NULL);
    late_services();
    late_service_not_waited_for();
    bad_calls();
    forged_seeks();
    forged_edits();
    forged_layouts();
    null_images();
    null_values_and_buffers();
    null_steps();
    printf("%d checks passed\n", checks);
    return 0;
}
