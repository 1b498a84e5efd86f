/*
 * Trewizlow: may this signed Mach-O image run?
 *
 * Link target/staticlib/libtrewizlow.a, which `tools/staticlib trewizlow` proves and writes.
 * The library keeps no state, allocates nothing and calls nothing back; calls on different
 * threads are independent of each other.
 *
 * Answers. `number` 0 of the whole check says that the image may run. Of any other call it
 * says that every test of that call passes, and not that the image may run. 1 to 35 and 46
 * are the refusals, each given exactly when its condition is the first to hold. `place` says
 * where: an index position, a special slot, a cache entry, a category or a page, and 0 where
 * the number names no place.
 *
 * Tests. Each has the number of its refusal, and a call makes its tests in the order that is
 * said below. 46, that the directory's flags hold a bit outside CS_ALLOWED_MACHO (0x33F02),
 * is made after 14 and before 15 wherever 14 is made. 35, that its scatterOffset is not 0
 * (the four bytes at 44 of a directory of version 0x20100 or later), is made after 15 and
 * before 16 wherever 15 is made. "1 to 18" and "1 to 31" have both among them.
 *
 * Hashes. The directory's hashType says by which function of FIPS 180-4 they are: 1 SHA-1,
 * 2 SHA-256, 3 SHA-256 cut to 20 bytes, 4 SHA-384, with 20, 32, 20 and 48 bytes a slot (13).
 * Pages, what special slots cover, and the directory itself are hashed by it, and the trust
 * cache lists the directory under it (27). SHA-1 is weak against collisions: whoever made an
 * image may hold another one with the same hashes.
 *
 * Limits. A signature has at most 67,108,864 bytes, and a side file that is there 4,194,304
 * (1). The code limit is codeLimit64 where the directory's version is 0x20300 or later and
 * it is not 0, be it larger or smaller than codeLimit, and codeLimit elsewhere; it is at
 * most 17,179,869,184 (15). There are at most 1,048,576 pages, and so marks, and 11 special
 * slots (16). A trust cache has at most 65,536 entries (24). An image may be longer than the
 * code limit: no byte behind it is read.
 *
 * Buffers. Each is a pointer and a length in bytes. A pointer must not be null, even with
 * length 0: pass any other pointer then. Any bytes and any lengths may be lent. `marks` is
 * the only buffer that is written. It may overlap no other buffer of the same call; the
 * others may overlap each other. Nothing is kept after a call returns.
 *
 * Marks. One byte a page: 0 where the page agrees with its code slot, 1 where it differs.
 *
 * Values. A bool that is lent is 0 or 1; with any other value in its byte the call is
 * undefined. Padding bytes of a struct are unspecified: compare fields, not structs.
 *
 * Targets. The archive is for Linux on any x86-64 processor; it is made for no other. The
 * tests compile this file there as C99, C11, C17, C++11, C++17 and C++20, with `cc` and `c++`
 * and, where it is installed, with clang; it was tried with gcc 12 and clang 14.
 * From C11 and C++11 on it does not compile where a struct is laid out otherwise.
 */
#ifndef TREWIZLOW_H
#define TREWIZLOW_H

#include <stdbool.h>
#include <stddef.h>
#include <stdint.h>

/* The number of this interface. It is raised whenever a declaration below changes. */
#define TREWIZLOW_INTERFACE 1

#ifdef __cplusplus
extern "C" {
#endif

typedef struct {
    uint32_t number;
    size_t place;
} trewizlow_answer;

/* A whole check's answer. With number 0 the place is the cache entry that lists the image. */
typedef struct {
    uint32_t number;
    size_t place;
} trewizlow_verdict;

/* The launch facts that a trust cache entry of category 1 puts constraints on. */
typedef struct {
    bool on_authorized_volume, on_system_volume;
    uint8_t launch_type, validation_category;
    bool parent_is_init;
} trewizlow_launch;

/* Where a blob lies in the signature, its 8-byte head included. */
typedef struct {
    uint32_t number;
    size_t place;
    size_t start, length;
} trewizlow_blob;

/* The code directory. Every field after `place` is 0 where the signature is refused. */
typedef struct {
    uint32_t number;
    size_t place;
    size_t start, length; /* the directory's blob in the signature */
    uint32_t version, flags, hash_offset, ident_offset, special_slots, code_slots;
    uint8_t hash_size, hash_type, platform, page_shift;
    /* code_limit: codeLimit64 where it is present and not 0, else codeLimit; page_size: bytes
     * of a page */
    size_t code_limit, page_size, ident_length;
} trewizlow_directory;

/* The directory's hash by its own hashType, cut to the 20 bytes that a trust cache lists. */
typedef struct {
    uint32_t number;
    size_t place;
    uint8_t hash[20];
} trewizlow_cdhash_answer;

/*
 * The whole check: tests 1 to 31. 0 where the image may run, else the refusal.
 * Lend one mark for each page: `code_slots` of trewizlow_read. Answers 0 and 31 write every
 * mark; any other answer leaves all marks as they were. Marks are not read.
 * A side file (Info.plist, CodeResources) whose flag is false is not read.
 */
trewizlow_verdict trewizlow_check(
    const uint8_t *signature, size_t signature_len,
    const uint8_t *image, size_t image_len,
    uint8_t *marks, size_t marks_len,
    const uint8_t *cache, size_t cache_len,
    bool info_there, const uint8_t *info, size_t info_len,
    bool resources_there, const uint8_t *resources, size_t resources_len,
    trewizlow_launch launch);

/*
 * Rechecks the pages that the range start .. start + length of the image meets: tests 1 to
 * 18, 20, 32, 33, 34, then 31. `pages` holds their new bytes, from the start of the first
 * page met to the end of the last, the image's last page being short; an empty range meets
 * none and wants 0 bytes. `marks` are those that the whole check or the recheck before
 * left. Answers 0 and 31 write the marks of the pages met and no others, and speak of all
 * marks: 31 names the lowest page marked 1, 0 has place 0. Any other answer leaves all
 * marks as they were. The trust cache is not looked at.
 */
trewizlow_answer trewizlow_recheck(
    const uint8_t *signature, size_t signature_len,
    uint64_t start, uint64_t length,
    const uint8_t *pages, size_t pages_len,
    uint8_t *marks, size_t marks_len);

/*
 * Looks the blob of a slot type up: tests 1 to 9. `start` and `length` are 0 where the
 * signature is refused or has no blob of that type. Takes no marks.
 */
trewizlow_blob trewizlow_find(const uint8_t *signature, size_t signature_len, uint32_t type);

/* The directory's fields: tests 1 to 18. Takes no marks. */
trewizlow_directory trewizlow_read(const uint8_t *signature, size_t signature_len);

/* The directory's hash: tests 1 to 18. All bytes are 0 where refused. Takes no marks. */
trewizlow_cdhash_answer trewizlow_cdhash(const uint8_t *signature, size_t signature_len);

#ifdef __cplusplus
}
#endif

/* The layout that the archive was compiled for: bytes of each struct, then offset and bytes
 * of each field. */
#if defined(__cplusplus) && __cplusplus >= 201103L
#define TREWIZLOW_ASSERT(condition) static_assert(condition, #condition)
#elif !defined(__cplusplus) && defined(__STDC_VERSION__) && __STDC_VERSION__ >= 201112L
#define TREWIZLOW_ASSERT(condition) _Static_assert(condition, #condition)
#endif

#ifdef TREWIZLOW_ASSERT
#define TREWIZLOW_STRUCT(type, bytes) TREWIZLOW_ASSERT(sizeof(type) == (bytes))
#define TREWIZLOW_FIELD(type, field, offset, bytes) \
    TREWIZLOW_ASSERT(offsetof(type, field) == (offset) && sizeof(((type *)0)->field) == (bytes))

TREWIZLOW_STRUCT(trewizlow_answer, 16);
TREWIZLOW_FIELD(trewizlow_answer, number, 0, 4);
TREWIZLOW_FIELD(trewizlow_answer, place, 8, 8);

TREWIZLOW_STRUCT(trewizlow_verdict, 16);
TREWIZLOW_FIELD(trewizlow_verdict, number, 0, 4);
TREWIZLOW_FIELD(trewizlow_verdict, place, 8, 8);

TREWIZLOW_STRUCT(trewizlow_launch, 5);
TREWIZLOW_FIELD(trewizlow_launch, on_authorized_volume, 0, 1);
TREWIZLOW_FIELD(trewizlow_launch, on_system_volume, 1, 1);
TREWIZLOW_FIELD(trewizlow_launch, launch_type, 2, 1);
TREWIZLOW_FIELD(trewizlow_launch, validation_category, 3, 1);
TREWIZLOW_FIELD(trewizlow_launch, parent_is_init, 4, 1);

TREWIZLOW_STRUCT(trewizlow_blob, 32);
TREWIZLOW_FIELD(trewizlow_blob, number, 0, 4);
TREWIZLOW_FIELD(trewizlow_blob, place, 8, 8);
TREWIZLOW_FIELD(trewizlow_blob, start, 16, 8);
TREWIZLOW_FIELD(trewizlow_blob, length, 24, 8);

TREWIZLOW_STRUCT(trewizlow_directory, 88);
TREWIZLOW_FIELD(trewizlow_directory, number, 0, 4);
TREWIZLOW_FIELD(trewizlow_directory, place, 8, 8);
TREWIZLOW_FIELD(trewizlow_directory, start, 16, 8);
TREWIZLOW_FIELD(trewizlow_directory, length, 24, 8);
TREWIZLOW_FIELD(trewizlow_directory, version, 32, 4);
TREWIZLOW_FIELD(trewizlow_directory, flags, 36, 4);
TREWIZLOW_FIELD(trewizlow_directory, hash_offset, 40, 4);
TREWIZLOW_FIELD(trewizlow_directory, ident_offset, 44, 4);
TREWIZLOW_FIELD(trewizlow_directory, special_slots, 48, 4);
TREWIZLOW_FIELD(trewizlow_directory, code_slots, 52, 4);
TREWIZLOW_FIELD(trewizlow_directory, hash_size, 56, 1);
TREWIZLOW_FIELD(trewizlow_directory, hash_type, 57, 1);
TREWIZLOW_FIELD(trewizlow_directory, platform, 58, 1);
TREWIZLOW_FIELD(trewizlow_directory, page_shift, 59, 1);
TREWIZLOW_FIELD(trewizlow_directory, code_limit, 64, 8);
TREWIZLOW_FIELD(trewizlow_directory, page_size, 72, 8);
TREWIZLOW_FIELD(trewizlow_directory, ident_length, 80, 8);

TREWIZLOW_STRUCT(trewizlow_cdhash_answer, 40);
TREWIZLOW_FIELD(trewizlow_cdhash_answer, number, 0, 4);
TREWIZLOW_FIELD(trewizlow_cdhash_answer, place, 8, 8);
TREWIZLOW_FIELD(trewizlow_cdhash_answer, hash, 16, 20);

#undef TREWIZLOW_FIELD
#undef TREWIZLOW_STRUCT
#undef TREWIZLOW_ASSERT
#endif

#endif
