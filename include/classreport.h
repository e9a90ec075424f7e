/*
 * The class report of a corpus of package headers, the check of its own hashes, and headers written from a description:
 * the calls, their answers, and what a refusal means.
 *
 * Link with target/staticlib/libcapi.a, a copy of what `rt lib` writes in crates/capi_c (x86-64 Linux).
 *
 *     uint64_t answer = class_report(corpus, corpus_len, CLASSREPORT_MOST_LOOKUPS, CLASSREPORT_MOST_OBJECTS,
 *                                    work, work_len, report, report_len);
 *     if (classreport_refused(answer))
 *         fprintf(stderr, "refused %u in block %u: %s\n", classreport_question(answer),
 *                 classreport_block(answer), classreport_failed(classreport_question(answer)));
 *     else
 *         fwrite(report, 1, classreport_length(answer), out);
 */
#ifndef CLASSREPORT_H
#define CLASSREPORT_H

#include <stddef.h>
#include <stdint.h>

#ifdef __cplusplus
extern "C" {
#endif

/* The greatest limits of a call: how many classes a chain may look up, and how many objects a path may have, its own
   counted. The booths have these; the teaching rooms have 8 and 4. */
#define CLASSREPORT_MOST_LOOKUPS UINT32_C(64)
#define CLASSREPORT_MOST_OBJECTS UINT32_C(65)

/*
 * Writes the report of `corpus` to the front of `report` and returns its length, or returns a refusal (below) and
 * leaves `report` as it was. Bytes of `report` behind the report are left as they were.
 *
 * - No pointer may be null, not even with a length of 0: lend any valid address then.
 * - The three buffers must lie apart. The call reads `corpus`, writes to `work` and `report`, and keeps no pointer.
 * - `work` may hold anything before and does after. It needs 64 bytes for each script object, class and candidate of
 *   the corpus (question 25); classreport_work_enough() gives a length that is always enough.
 * - `report` needs the report's length (question 26). No report is longer than CLASSREPORT_LONGEST.
 * - `lookups` is 1 to CLASSREPORT_MOST_LOOKUPS and `objects` 1 to CLASSREPORT_MOST_OBJECTS; any other number is
 *   refused before the corpus is looked at (question 29).
 * - No other condition: any bytes may be handed in. Several threads may call at a time with buffers of their own.
 */
uint64_t class_report(const uint8_t *corpus, size_t corpus_len, uint32_t lookups, uint32_t objects, uint8_t *work,
                      size_t work_len, uint8_t *report, size_t report_len);

/*
 * Compares the hashes of `corpus` with its names. Writes what it finds to the front of `out` and returns its length, 25 and
 * one for each package, or returns a refusal (below) and leaves `out` as it was. Bytes of `out` behind that are left as they
 * were. Big-endian, with a count where `enum classreport_verified` says:
 *
 *     4 bytes   the length of the rest
 *     1 byte    the version, 1
 *     4 bytes   how many script objects there are
 *     4 bytes   how many of them have a known path: all others count above alone
 *     4 bytes   how many of those have the hash of their path for a global index (its low 62 bits)
 *     4 bytes   how many have another; both together are all with a known path
 *     4 bytes   how many packages there are
 *     1 byte    for each package, in the order of the corpus: 1 where its id is that of its name, else 0
 *
 * - The questions are the report's at its greatest limits, but 25 and 29 are not asked, and 26 is of `out`: has it the
 *   length? classreport_verify_enough()
 *   gives one that is always enough.
 * - `work` may have any length. The answer never depends on it, only the time does: classreport_work_enough(), twice the
 *   corpus's length, is always enough for speed.
 * - All else is as for class_report.
 */
uint64_t class_verify(const uint8_t *corpus, size_t corpus_len, uint8_t *work, size_t work_len, uint8_t *out,
                      size_t out_len);

/* Where class_verify writes what. */
enum classreport_verified {
    CLASSREPORT_OBJECTS_AT = 5,
    CLASSREPORT_RESOLVED_AT = 9,
    CLASSREPORT_MATCHES_AT = 13,
    CLASSREPORT_MISMATCHES_AT = 17,
    CLASSREPORT_PACKAGES_AT = 21,
    CLASSREPORT_FLAGS_AT = 25
};

/* A count that class_verify wrote: classreport_count(out, CLASSREPORT_MISMATCHES_AT). */
static inline uint32_t classreport_count(const uint8_t *out, enum classreport_verified at) {
    return (uint32_t)out[at] << 24 | (uint32_t)out[at + 1] << 16 | (uint32_t)out[at + 2] << 8 | out[at + 3];
}

/* A length of class_verify's `out` that is enough for every corpus of this length: a package has 12 bytes or more. */
static inline size_t classreport_verify_enough(size_t corpus_len) { return CLASSREPORT_FLAGS_AT + corpus_len / 12; }

/*
 * Writes the package header that `description` describes to the front of `header` and returns its length, or returns a
 * refusal (below) and leaves `header` as it was. Bytes of `header` behind that are left as they were. The description,
 * big-endian, with nothing left over:
 *
 *     4 bytes   the length of the rest
 *     1 byte    the version, 1
 *     4 + 4     the package's name: the number of its text in the first list, from 0, and the instance number
 *     4 bytes   how many texts, then for each 4 bytes for its length, and UTF-8
 *     4 bytes   how many exports, then for each its name (4 + 4), its outer, class, super and public hash (8 bytes each)
 *     4 bytes   how many public hashes, then 8 bytes for each
 *     4 bytes   how many imported names, then for each a text as above, and 4 bytes for its instance number
 *
 * The header is little-endian, as a corpus has it. What isn't described is 0 or empty: name hashes, flags, sizes, bulk data,
 * import map, bundles, dependencies. Text that fits Latin-1 is written so, any other as UTF-16. The least header has 90 bytes.
 *
 * - Two questions are asked: 27, of the description alone, and then 28, of `header`'s length: has it the header's?
 *   classreport_header_enough() gives one that is always enough. A refusal names block 0.
 * - No pointer may be null, not even with a length of 0. The two buffers must lie apart. Any bytes may be handed in.
 */
uint64_t class_header(const uint8_t *description, size_t description_len, uint8_t *header, size_t header_len);

/* The longest header that there can be. */
#define CLASSREPORT_LONGEST_HEADER UINT64_C(2147483647)

/* A length of class_header's `header` that is enough for every description of this length: the longest header, or three
   times the description's length. */
static inline size_t classreport_header_enough(size_t description_len) {
    return description_len > CLASSREPORT_LONGEST_HEADER / 3 ? (size_t)CLASSREPORT_LONGEST_HEADER : 3 * description_len;
}

/* The longest report that there can be. */
#define CLASSREPORT_LONGEST UINT64_C(4294967299)

/* A length of the work buffer that is enough for every corpus of this length. */
static inline size_t classreport_work_enough(size_t corpus_len) {
    return corpus_len > SIZE_MAX / 2 ? SIZE_MAX : 2 * corpus_len;
}

/* Whether the answer is a refusal: bit 63. */
static inline int classreport_refused(uint64_t answer) { return (int)(answer >> 63); }

/* The length of what was written, where the answer is none. */
static inline uint64_t classreport_length(uint64_t answer) { return classreport_refused(answer) ? 0 : answer; }

/* The question that failed, 1 to 29 (23 is retired), or 0 where none did: bits 32 to 39. */
static inline unsigned classreport_question(uint64_t answer) {
    return classreport_refused(answer) ? (unsigned)(answer >> 32 & 0xff) : 0;
}

/* The block that it failed in: 0 the corpus or description, 1 the script block, j + 1 package j (from 1): bits 0 to 31. */
static inline uint32_t classreport_block(uint64_t answer) {
    return classreport_refused(answer) ? (uint32_t)(answer & 0xffffffff) : 0;
}

/* The package that it failed in, from 1, or 0 where it failed in none. */
static inline uint32_t classreport_package(uint64_t answer) {
    uint32_t block = classreport_block(answer);
    return block > 1 ? block - 1 : 0;
}

/* The questions. They are asked in this order, except that 29 is the first, and 3 to 7 and 10 are asked wherever their
   field is read; class_header asks 27 and 28 and no others. */
enum classreport_refusal {
    CLASSREPORT_NONE = 0,
    /* Does the corpus's length equal 4 plus its first length, with at least the version byte? Does every further
       part lie inside, and the last end with the corpus? */
    CLASSREPORT_LENGTHS = 1,
    /* Is the corpus's version 1? */
    CLASSREPORT_VERSION = 2,
    /* Are the bytes of each field there, as it is read? In a package, once its header size is known, that means
       within the header size. */
    CLASSREPORT_BYTES = 3,
    /* Is the hash version of each name batch 0xC1640000? */
    CLASSREPORT_HASH_VERSION = 4,
    /* Does each name lie within the strings of its batch? */
    CLASSREPORT_NAME_LENGTH = 5,
    /* Is each wide name valid UTF-16? */
    CLASSREPORT_UTF16 = 6,
    /* Are the strings of each name batch used up by its names? */
    CLASSREPORT_STRINGS_LEFT = 7,
    /* Is the count of script objects not negative? */
    CLASSREPORT_OBJECT_COUNT = 8,
    /* Are 32 bytes left for each script object? */
    CLASSREPORT_OBJECTS = 9,
    /* Is each name index (of a script object, an export, the package itself) in the name batch? */
    CLASSREPORT_NAME_INDEX = 10,
    /* Has each script object's global index kind 1? */
    CLASSREPORT_OBJECT_KIND = 11,
    /* Is each script object's global index new? */
    CLASSREPORT_OBJECT_TWICE = 12,
    /* Is nothing left behind the last script object? */
    CLASSREPORT_SCRIPT_LEFT = 13,
    /* Is the package's versioning flag 0? */
    CLASSREPORT_VERSIONING = 14,
    /* Does the header size lie within the block? */
    CLASSREPORT_HEADER_SIZE = 15,
    /* Is each of the seven offsets in the summary not negative? */
    CLASSREPORT_OFFSET_SIGN = 16,
    /* Is each offset at least its predecessor (the first: 52) and at most the header size? */
    CLASSREPORT_OFFSET_ORDER = 17,
    /* Is the bulk size not negative? */
    CLASSREPORT_BULK_SIGN = 18,
    /* Do the bulk bytes end where the public hashes start? */
    CLASSREPORT_BULK_END = 19,
    /* Are the public hashes a multiple of 8 bytes long, and then the import map? */
    CLASSREPORT_HASHES = 20,
    /* Is the export map a multiple of 72 bytes long? */
    CLASSREPORT_EXPORTS = 21,
    /* Is nothing left behind the imported names? */
    CLASSREPORT_PACKAGE_LEFT = 22,
    /* 23 is retired: it was asked of imported names, which may have any letters now. No question takes its number. */
    /* Does no class key (package id and public hash) come twice? */
    CLASSREPORT_KEY_TWICE = 24,
    /* Has the work buffer at least 64 bytes for each script object, class and candidate? */
    CLASSREPORT_WORK = 25,
    /* Is the report, or what class_verify writes, at most 4,294,967,299 bytes long, and within its buffer? */
    CLASSREPORT_REPORT = 26,
    /* Is the description as class_header wants it? Is each text number in the list of texts? Has no name more than 32,767
       units (of 16 bits), and the header at most 2,147,483,647 bytes? */
    CLASSREPORT_DESCRIPTION = 27,
    /* Is the header within its buffer? */
    CLASSREPORT_HEADER = 28,
    /* Is the lookup limit 1 to 64, and the object limit 1 to 65? */
    CLASSREPORT_LIMITS = 29
};

/* What is wrong where a question failed, in a few words. */
static inline const char *classreport_failed(unsigned question) {
    switch (question) {
    case CLASSREPORT_LENGTHS: return "the corpus's lengths do not fit its bytes";
    case CLASSREPORT_VERSION: return "the corpus has a version other than 1";
    case CLASSREPORT_BYTES: return "a field's bytes are not there";
    case CLASSREPORT_HASH_VERSION: return "a name batch has another hash version than 0xC1640000";
    case CLASSREPORT_NAME_LENGTH: return "a name reaches past its batch's strings";
    case CLASSREPORT_UTF16: return "a name is not valid UTF-16";
    case CLASSREPORT_STRINGS_LEFT: return "strings are left behind a batch's last name";
    case CLASSREPORT_OBJECT_COUNT: return "the count of script objects is negative";
    case CLASSREPORT_OBJECTS: return "the script block is shorter than its objects";
    case CLASSREPORT_NAME_INDEX: return "a name index is outside its name batch";
    case CLASSREPORT_OBJECT_KIND: return "a script object's global index is not of the kind of script objects";
    case CLASSREPORT_OBJECT_TWICE: return "a script object's global index comes twice";
    case CLASSREPORT_SCRIPT_LEFT: return "bytes are left behind the last script object";
    case CLASSREPORT_VERSIONING: return "the versioning flag is not 0";
    case CLASSREPORT_HEADER_SIZE: return "the header size is larger than the block";
    case CLASSREPORT_OFFSET_SIGN: return "an offset is negative";
    case CLASSREPORT_OFFSET_ORDER: return "an offset is below its predecessor or past the header size";
    case CLASSREPORT_BULK_SIGN: return "the bulk size is negative";
    case CLASSREPORT_BULK_END: return "the bulk bytes do not end where the public hashes start";
    case CLASSREPORT_HASHES: return "the public hashes or the import map are no multiple of 8 bytes";
    case CLASSREPORT_EXPORTS: return "the export map is no multiple of 72 bytes";
    case CLASSREPORT_PACKAGE_LEFT: return "bytes are left behind the imported names";
    case CLASSREPORT_KEY_TWICE: return "a class key comes twice";
    case CLASSREPORT_WORK: return "the work buffer is too short";
    case CLASSREPORT_REPORT: return "the report is too long";
    case CLASSREPORT_DESCRIPTION: return "the description is malformed, or its header can't be written";
    case CLASSREPORT_HEADER: return "the header buffer is too short";
    case CLASSREPORT_LIMITS: return "a limit is out of its range";
    default: return "nothing";
    }
}

#ifdef __cplusplus
}
#endif

#endif
