/*
 * Stilefray: a key-value store for raw flash, proved. The way in from C (C99 on) and from C++.
 *
 * Link target/staticlib/libstilefray.a, which `bash scripts/archive` writes, for x86-64. It allocates nothing, keeps nothing between
 * calls and calls no function but memset.
 *
 * What every call does, in full, stands in docs/RULES.md; R5.2 and the like are its numbers. What to do about an answer stands in
 * docs/WORKSHOP.md, and the loop around a step, with c/stepped.c, in docs/HOST.md.
 *
 * The chip has n regions of s bytes, s 64 to 4,096, n 1 to 64. Its image is its n * s bytes, region 0 first (R1). A key is a 64-bit
 * number other than 0 and 2^64 - 1. A value has at most 4,079 bytes, and at most s - 15, since its record lies in one region.
 *
 * WHAT IS ASKED OF A CALLER. A pointer leads to as many bytes as the length after it says, to read, and to write where it is not const;
 * where the length is 0 it may be null. What is lent in one call does not overlap where one part of it may be written. Nothing else
 * writes to it during the call. Nothing more is asked: every number is answered, a nonsensical one too, and it is proved that every call
 * ends and touches no byte but those lent.
 *
 * WHAT A REFUSAL LEAVES. Image and buffers as they were (R7.3), but for what is said below of get, collect and stilefray_step.
 */
#ifndef STILEFRAY_H
#define STILEFRAY_H

#include <stddef.h>
#include <stdint.h>

#if defined(SIZE_MAX) && SIZE_MAX != 0xffffffffffffffff
#error "libstilefray.a is built for x86-64, where a size_t has 64 bits"
#endif

#ifdef __cplusplus
extern "C" {
#endif

/* The version of this header and of the archive that it goes with. */
#define STILEFRAY_VERSION "0.3.0"
#define STILEFRAY_VERSION_MAJOR 0
#define STILEFRAY_VERSION_MINOR 3
#define STILEFRAY_VERSION_PATCH 0

/* The edition of the record format: a record's byte 0 (R3.1). */
#define STILEFRAY_FORMAT 1

/* The refusals. R6.1 to R6.12 say of 1 to 12 exactly when each comes, and R7.2 which comes first. */
#define STILEFRAY_BAD_GEOMETRY 1        /* s or n, or in the one-call form the image's length, outside the rules */
#define STILEFRAY_BAD_KEY 2             /* key 0 or 2^64 - 1 */
#define STILEFRAY_OBJECT_TOO_LARGE 3    /* a value of more than 4,079 bytes */
#define STILEFRAY_KEY_NOT_FOUND 4       /* no live record of the key */
#define STILEFRAY_KEY_ALREADY_EXISTS 5  /* append: the key has a live record, be its checksum right or wrong */
#define STILEFRAY_FLASH_FULL 6          /* append: no region has room; none ever has for a value of more than s - 15 bytes */
#define STILEFRAY_UNSUPPORTED_VERSION 7 /* a bad place: where a record should begin stands a byte that is neither 1 nor 255 */
#define STILEFRAY_CORRUPT_DATA 8        /* a bad place: a length below 15 or past its region's end; or append's place is not blank */
#define STILEFRAY_BUFFER_TOO_SMALL 9    /* get: the value is longer than the buffer */
#define STILEFRAY_INVALID_CHECK_SUM 10  /* get: the record's checksum is wrong: do not use the value */
#define STILEFRAY_BAD_CALL 11           /* stepped form: the host made a mistake, and may put it right and step again */
#define STILEFRAY_FLASH_FAILED 12       /* stepped form: the host said FAILED */

/* An answer's kind. */
#define STILEFRAY_REFUSED 0
#define STILEFRAY_COMPLETE 1
#define STILEFRAY_WRITTEN 2
#define STILEFRAY_FREED 3

/* Which numbers an operation has, and where: another version of the library may number it otherwise. */
#define STILEFRAY_LAYOUT 8

/* What is lent to a running operation beside the region buffer. */
#define STILEFRAY_LENT_NOTHING 0
#define STILEFRAY_LENT_VALUE 1  /* append's value */
#define STILEFRAY_LENT_BUFFER 2 /* get's buffer */

/* A running operation's edit: what is to be written or erased. It comes before what is next. */
#define STILEFRAY_EDIT_NONE 0
#define STILEFRAY_EDIT_LAY 1        /* a new record is being written */
#define STILEFRAY_EDIT_INVALIDATE 2 /* a record is being made dead */
#define STILEFRAY_EDIT_ZEROISE 3    /* a record is being made dead and its value zeros */
#define STILEFRAY_EDIT_ERASE 4      /* a region is being erased */
#define STILEFRAY_EDIT_ERASES 5     /* regions are being erased, one after the other */

/* What follows a running operation's edit, or is under way where no edit is left. */
#define STILEFRAY_NEXT_NONE 0     /* nothing that runs */
#define STILEFRAY_NEXT_SEEK 1     /* a region of the key's probe order is being read */
#define STILEFRAY_NEXT_SWEEP 2    /* collect: a region is being read */
#define STILEFRAY_NEXT_COMPLETE 3 /* the answer COMPLETE */
#define STILEFRAY_NEXT_WRITTEN 4  /* the answer WRITTEN */
#define STILEFRAY_NEXT_FREED 5    /* the answer FREED */
#define STILEFRAY_NEXT_ENDED 6    /* its answer was given; a further step is BAD_CALL */

/* What a running operation seeks its key for. */
#define STILEFRAY_AIM_GET 1
#define STILEFRAY_AIM_APPEND 2 /* also initialise that erases the chip and appends the main key */
#define STILEFRAY_AIM_INVALIDATE 3
#define STILEFRAY_AIM_ZEROISE 4
#define STILEFRAY_AIM_INITIALISE 5

/*
 * What the host says to a step. A service that it gives up, by FAILED or by no further step, must be over before the first service of the
 * next operation is begun (R13.6); docs/HOST.md has a loop that sees to it.
 */
#define STILEFRAY_BEGIN 0     /* the first step, and only the first */
#define STILEFRAY_DONE 1      /* the service is done */
#define STILEFRAY_NOT_READY 2 /* it is not done yet: the step repeats the request and alters nothing */
#define STILEFRAY_FAILED 3    /* it failed: the operation ends with FlashFailed */

/* What a step asks for. */
#define STILEFRAY_READ 1
#define STILEFRAY_WRITE 2
#define STILEFRAY_ERASE 3
#define STILEFRAY_ANSWER 4

/* An entry's kind: what stands at a place of a chip (R16.4). */
#define STILEFRAY_ENTRY_REFUSED 0 /* the image is no chip of this s and n */
#define STILEFRAY_ENTRY_RECORD 1  /* a record, live or dead */
#define STILEFRAY_ENTRY_END 2     /* the region ends here: its walk does */
#define STILEFRAY_ENTRY_BAD 3     /* the place is bad */
#define STILEFRAY_ENTRY_NONE 4    /* there is no such region: the chip is through */

/* An answer. */
typedef struct {
    uint32_t kind;    /* STILEFRAY_REFUSED, _COMPLETE, _WRITTEN or _FREED */
    uint32_t refusal; /* refused: 1 to 12; else 0 */
    size_t value;     /* complete: the value's length; freed: the bytes freed; refusal 9: the value's full length; else 0 */
} stilefray_answer;

/* Where a key's value lies (R16.1, R16.2). */
typedef struct {
    stilefray_answer answer; /* _COMPLETE with the value's length, or _REFUSED */
    size_t place;            /* complete: the image place of the value's first byte; else 0 */
} stilefray_found;

/* A place of a chip. */
typedef struct {
    size_t region;
    size_t place; /* counted from the region's first byte */
} stilefray_place;

/* What stands at a place of a chip, and where to go on (R16.4, R16.5). Numbers that a kind does not use are 0 (R16.11). */
typedef struct {
    uint32_t kind;           /* STILEFRAY_ENTRY_.. */
    uint32_t refusal;        /* refused: 1; bad: 7 or 8; else 0 */
    uint32_t live;           /* record: 1 live, 0 dead */
    uint32_t checksum_right; /* record: 1 if its checksum is that of its bytes. Of a dead one that says nothing (R3.6) */
    uint64_t key;            /* record: its key */
    size_t value_place;      /* record: the place in the image of the value's first byte */
    size_t value_len;        /* record: the value's length */
    stilefray_place next;    /* record: behind it; end, bad: the next region's first place; else the place that was asked for */
} stilefray_entry;

/*
 * A running operation. It is plain data: it holds no pointer, may be copied, and may be kept and taken up again later, with the region
 * buffer of its last step: where it waits for a write, the bytes to write are there. It is there to be handed back to stilefray_step as
 * it came; to read it is harmless. R12.4 says what each number means; those that it does not use are 0.
 */
typedef struct {
    uint32_t layout; /* STILEFRAY_LAYOUT; one of another layout, such as a host kept over an update of the library, is BAD_CALL */
    uint32_t fresh;  /* 1 nothing was asked for yet, else 0 */
    uint32_t lent;   /* STILEFRAY_LENT_.. */
    uint32_t edit;   /* STILEFRAY_EDIT_.. */
    uint32_t next;   /* STILEFRAY_NEXT_.. */
    uint32_t aim;    /* STILEFRAY_AIM_.. */
    uint32_t tag;    /* what room was gathered */
    uint8_t version; /* of the record that is being made dead, as are flags, size and found */
    uint8_t flags;
    size_t s;
    size_t n;
    uint64_t key;
    size_t len;      /* the length of what is lent, named at the start */
    size_t region;   /* where the edit is to be done: its region, and its place there or the end of a run of regions */
    size_t at;
    size_t size;
    uint64_t found;  /* the record's key */
    size_t a;        /* how far what is next has come */
    size_t b;
    size_t c;
} stilefray_operation;

/* What a start hands out. */
typedef struct {
    uint32_t refusal;       /* 0: op runs; else the refusal, and op is all zeros */
    stilefray_operation op; /* a fresh running operation */
} stilefray_start;

/* What a step asks for. Numbers that a request does not use are 0, and so is the answer of a request that is none. */
typedef struct {
    uint32_t kind;           /* STILEFRAY_READ, _WRITE, _ERASE or _ANSWER */
    size_t region;           /* read, erase: the region, below n */
    size_t from;             /* write: the place in the region buffer of the first byte to write */
    size_t to;               /* write: the place after the last one, at most s */
    size_t place;            /* write: the place in the image of the first byte; its region is place / s, and place % s is from */
    stilefray_answer answer; /* answer: the answer */
} stilefray_request;

/* What a step hands back. */
typedef struct {
    stilefray_operation op;    /* the operation as it now stands: keep it for the next step */
    stilefray_request request; /* what it asks for */
} stilefray_stepped;

/* ------------------------------------------------------------- the one-call form: the chip's image lies in memory */

/*
 * Get (R5.2): the key's value, copied to the front of buffer. The image is only read.
 *
 * COMPLETE, value its length: the buffer's bytes after the value are as they were. REFUSED by 1, 2, 4, 7, 8, 9 or 10.
 * BUFFER_TOO_SMALL leaves the buffer full of the value's first bytes, and the checksum was not looked at. INVALID_CHECK_SUM leaves the
 * buffer as COMPLETE does.
 */
stilefray_answer stilefray_get_key(const uint8_t *image, size_t image_len, size_t s, size_t n, uint64_t key, uint8_t *buffer,
                                   size_t buffer_len);

/*
 * Append (R5.3, R5.4): a value under a key that has no live record. The value is only read. To replace a value see docs/WORKSHOP.md: on a
 * full chip removing it first loses it.
 *
 * WRITTEN: one write put the record into the first region in probe order with room. REFUSED by 1, 2, 3, 5, 6, 7 or 8.
 */
stilefray_answer stilefray_append_key(uint8_t *image, size_t image_len, size_t s, size_t n, uint64_t key, const uint8_t *value,
                                      size_t value_len);

/*
 * Invalidate (R5.5): the key's record is made dead, whether its checksum is right or not.
 *
 * WRITTEN: one write cleared the top bit of the record's byte 1; the value can be read off the chip until its region is erased. REFUSED
 * by 1, 2, 4, 7 or 8.
 */
stilefray_answer stilefray_invalidate_key(uint8_t *image, size_t image_len, size_t s, size_t n, uint64_t key);

/* Zeroise (R5.6): as invalidate, but the one write also makes every byte of value and checksum 0. */
stilefray_answer stilefray_zeroise_key(uint8_t *image, size_t image_len, size_t s, size_t n, uint64_t key);

/*
 * Collect (R5.7, R5.8): each region with at least one record, none live, and no bad place is erased.
 *
 * FREED, value s times the regions erased. REFUSED by 1, 7 or 8; after 7 and 8 the regions before the one with the bad place are already
 * collected, it and the later ones stand.
 */
stilefray_answer stilefray_garbage_collect(uint8_t *image, size_t image_len, size_t s, size_t n);

/*
 * Initialise (R5.9): sees to it that the chip is one of this store's. The key is the main key: on a chip that tickv wrote, the very hash
 * that was given to tickv. With any other key the whole chip is erased; another s or n than the chip was written with may erase it too.
 *
 * COMPLETE, value 0: the main key's record was there, with an empty value and a right checksum; nothing changed. WRITTEN: a get of the
 * main key into an empty buffer was refused (by 4, 7, 8, 9 or 10), so every region was erased and the main key appended with an empty
 * value. REFUSED by 1 or 2.
 */
stilefray_answer stilefray_initialise(uint8_t *image, size_t image_len, size_t s, size_t n, uint64_t key);

/* The checksum that a record carries over its header and value, here of any bytes: CRC-32/CKSUM. Of "123456789" it is 0x765e7680. */
uint32_t stilefray_checksum(const uint8_t *bytes, size_t len);

/* ------------------------------------------------------------- a look into the image: it is only read, and nothing is copied */

/*
 * A key's value where it lies (R16.1, R16.2): get without a buffer. The bytes are image + place up to image + place + answer.value.
 *
 * COMPLETE, value its length: the checksum is right. REFUSED by 1, 2, 4, 7, 8 or 10, as get, and never by BUFFER_TOO_SMALL.
 */
stilefray_found stilefray_find_value(const uint8_t *image, size_t image_len, size_t s, size_t n, uint64_t key);

/*
 * What stands at a place of a region: what a walk meets there (R16.4). Any numbers are answered. A place past the region's end is an end,
 * and at one where no record begins, the bytes there are read as if one did.
 *
 * It looks at that place alone. Begun at region 0, place 0, and taken on at `next` as long as the kind is RECORD or END, it gives the
 * chip's records in region and place order up to the first bad place, in one walk of the image; on any image that ends (R16.5, R16.6):
 *
 *     stilefray_place at = {0, 0};
 *     stilefray_entry e;
 *     for (;;) {
 *         e = stilefray_record_at(image, image_len, s, n, at.region, at.place);
 *         if (e.kind != STILEFRAY_ENTRY_RECORD && e.kind != STILEFRAY_ENTRY_END) break;
 *         if (e.kind == STILEFRAY_ENTRY_RECORD) look(at, e.live, e.checksum_right, e.key, image + e.value_place, e.value_len);
 *         at = e.next;
 *     }
 *
 * Then e.kind says why it ended: NONE after the last region, BAD at the place `at`, or REFUSED.
 */
stilefray_entry stilefray_record_at(const uint8_t *image, size_t image_len, size_t s, size_t n, size_t region, size_t place);

/* ------------------------------------------------------------- the stepped form: one flash service at a time */

/*
 * A start hands out a fresh running operation, or refuses by 1, 2 (not collect) or 3 (only append), and then nothing runs. `capacity` is
 * the length of the buffer that get will be lent at each step, `length` that of append's value.
 */
stilefray_start stilefray_start_get(size_t s, size_t n, uint64_t key, size_t capacity);
stilefray_start stilefray_start_append(size_t s, size_t n, uint64_t key, size_t length);
stilefray_start stilefray_start_invalidate(size_t s, size_t n, uint64_t key);
stilefray_start stilefray_start_zeroise(size_t s, size_t n, uint64_t key);
stilefray_start stilefray_start_collect(size_t s, size_t n);
stilefray_start stilefray_start_initialise(size_t s, size_t n, uint64_t key);

/*
 * One step (R8): takes the host's reply to the last request, and answers or asks for one service.
 *
 * Lend at each step: as `region` a buffer of exactly s bytes; as `value` append's value, as `buffer` get's buffer, each of the length
 * named at the start. Where the operation is no append the value, and where it is no get the buffer, is not looked at: lend NULL and 0.
 * Between the steps of one operation the region buffer must not be altered but by the reads that are asked for. The value lent at the
 * step that asks for the write is the one written.
 *
 * What the request asks, then to be answered by the next step's reply (R9 has the order of services):
 *   READ    read the s bytes of `region`, image places region * s on, into the region buffer;
 *   WRITE   write the region buffer's bytes `from` up to `to` at the image place `place` on: each byte becomes the AND of old and new;
 *   ERASE   erase `region`: every byte becomes 255;
 *   ANSWER  nothing: the operation has ended with `answer` (but for BAD_CALL), as the call of the one-call form answers. Written is
 *           answered after the host confirms the write.
 * An operation has answered once as many services were said to be done as R9.6 counts, 3n + 1 at most, whatever was read and replied. One
 * whose host is never ready is asked for ever.
 *
 * What a step leaves: `region` is altered only by the step that asks for a write: the bytes to write then lie in it at their own place
 * in the region, and the rest stays as last read. `buffer` is altered only by the step of a get that answers COMPLETE, BUFFER_TOO_SMALL
 * or INVALID_CHECK_SUM, as stilefray_get_key alters it. `value` is only read. BAD_CALL (R6.11 lists the mistakes) hands op back as it was
 * and alters no buffer. After FLASH_FAILED the operation has ended, and services done before stay done.
 */
stilefray_stepped stilefray_step(stilefray_operation op, uint32_t reply, uint8_t *region, size_t region_len, const uint8_t *value,
                                 size_t value_len, uint8_t *buffer, size_t buffer_len);

#ifdef __cplusplus
}
#endif

#endif
