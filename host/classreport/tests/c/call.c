/* Makes the calls by the header, as a host in C would. `call CORPUS` writes the report to stdout, `call CORPUS verify` what
   class_verify finds, `call DESCRIPTION header` the header. */
#include "classreport.h"

#include <stdio.h>
#include <stdlib.h>
#include <string.h>

/* The corpus without objects and packages, and its report. */
static const uint8_t EMPTY[21] = {0, 0, 0, 17, 1, 0, 0, 0, 8};
static const uint8_t EMPTY_REPORT[9] = {0, 0, 0, 5, 1, 0, 0, 0, 0};

/* What describes a package named A. */
static const uint8_t NAMED_A[34] = {0, 0, 0, 30, 1, 0, 0, 0, 0, 0, 0, 0, 0, 0, 0, 0, 1, 0, 0, 0, 1, 'A'};

static int failures;

/* The call with the booths' limits. */
static uint64_t in_a_booth(const uint8_t *corpus, size_t length, uint8_t *work, size_t work_length, uint8_t *report,
                           size_t room) {
    return class_report(corpus, length, CLASSREPORT_MOST_LOOKUPS, CLASSREPORT_MOST_OBJECTS, work, work_length, report, room);
}

static void expect(int holds, const char *what) {
    if (!holds) {
        fprintf(stderr, "not so: %s\n", what);
        failures++;
    }
}

static void accepted(void) {
    uint8_t work[1], report[10];
    memset(report, 0xaa, sizeof report);
    uint64_t answer = in_a_booth(EMPTY, sizeof EMPTY, work, 0, report, sizeof report);
    expect(!classreport_refused(answer), "the empty corpus is accepted");
    expect(classreport_length(answer) == sizeof EMPTY_REPORT, "its report has 9 bytes");
    expect(classreport_question(answer) == CLASSREPORT_NONE, "no question failed");
    expect(memcmp(report, EMPTY_REPORT, sizeof EMPTY_REPORT) == 0, "the report");
    expect(report[9] == 0xaa, "the byte behind the report");
}

static void refused(void) {
    uint8_t corpus[sizeof EMPTY], work[1], report[9], before[9];
    memcpy(corpus, EMPTY, sizeof corpus);
    corpus[4] = 2;
    memset(before, 0x55, sizeof before);
    memcpy(report, before, sizeof report);
    uint64_t answer = in_a_booth(corpus, sizeof corpus, work, 0, report, sizeof report);
    expect(classreport_question(answer) == CLASSREPORT_VERSION, "version 2 is refused");
    expect(classreport_block(answer) == 0 && classreport_package(answer) == 0, "in block 0");
    expect(classreport_length(answer) == 0, "a refusal has no length");
    expect(memcmp(report, before, sizeof report) == 0, "the report's buffer is as it was");
    answer = in_a_booth(EMPTY, sizeof EMPTY, work, 0, report, 8);
    expect(classreport_question(answer) == CLASSREPORT_REPORT, "a report buffer too short");
}

static void verified(void) {
    uint8_t corpus[sizeof EMPTY], work[1], out[26];
    memset(out, 0xaa, sizeof out);
    expect(classreport_verify_enough(sizeof EMPTY) == 26, "enough for what is found");
    uint64_t answer = class_verify(EMPTY, sizeof EMPTY, work, 0, out, sizeof out);
    expect(answer == 25 && classreport_length(answer) == 25, "25 bytes and no package");
    expect(out[0] == 0 && out[3] == 21 && out[4] == 1 && out[25] == 0xaa, "what is found, and the byte behind it");
    expect(classreport_count(out, CLASSREPORT_OBJECTS_AT) == 0, "no objects");
    out[CLASSREPORT_MISMATCHES_AT] = 0x80, out[CLASSREPORT_MISMATCHES_AT + 3] = 7;
    expect(classreport_count(out, CLASSREPORT_MISMATCHES_AT) == UINT32_C(0x80000007), "a count is big-endian");
    answer = class_verify(EMPTY, sizeof EMPTY, work, 0, out, 24);
    expect(classreport_question(answer) == CLASSREPORT_REPORT, "a buffer of 24 bytes is too short");
    memcpy(corpus, EMPTY, sizeof corpus);
    corpus[4] = 2;
    answer = class_verify(corpus, sizeof corpus, work, 0, out, sizeof out);
    expect(classreport_question(answer) == CLASSREPORT_VERSION, "version 2 is refused here too");
}

static void written(void) {
    uint8_t description[sizeof NAMED_A], header[92], before[92];
    memset(before, 0xaa, sizeof before);
    memcpy(header, before, sizeof header);
    expect(classreport_header_enough(sizeof NAMED_A) == 102, "enough for the header");
    expect(classreport_header_enough(SIZE_MAX) == CLASSREPORT_LONGEST_HEADER, "no header is longer");
    uint64_t answer = class_header(NAMED_A, sizeof NAMED_A, header, 90);
    expect(answer == UINT64_C(0x8000001c00000000), "90 bytes are too short, in block 0");
    expect(classreport_question(answer) == CLASSREPORT_HEADER, "which is question 28");
    memcpy(description, NAMED_A, sizeof description);
    description[4] = 2;
    answer = class_header(description, sizeof description, header, 0);
    expect(classreport_question(answer) == CLASSREPORT_DESCRIPTION, "version 2 is asked before the buffer");
    answer = class_header(NAMED_A, sizeof NAMED_A - 1, header, sizeof header);
    expect(classreport_question(answer) == CLASSREPORT_DESCRIPTION, "a description cut short");
    expect(memcmp(header, before, sizeof header) == 0, "the header's buffer is as it was");
    answer = class_header(NAMED_A, sizeof NAMED_A, header, sizeof header);
    expect(answer == 91 && classreport_length(answer) == 91, "a package named A has 91 bytes");
    expect(header[4] == 91 && header[80] == 0 && header[78] == 'A', "its size, and its name");
    for (int offset = 24; offset < 52; offset += 4)
        expect(header[offset] == 87 && header[offset + 1] == 0, "its offsets are 87");
    expect(header[91] == 0xaa, "the byte behind the header");
}

static void limited(void) {
    uint8_t work[1], report[9];
    memset(report, 0x55, sizeof report);
    uint64_t answer = class_report(EMPTY, 0, 0, 4, work, 0, report, sizeof report);
    expect(answer == UINT64_C(0x8000001d00000000), "no lookups are refused before the corpus is looked at");
    answer = class_report(EMPTY, sizeof EMPTY, 8, UINT32_MAX, work, 0, report, sizeof report);
    expect(classreport_question(answer) == CLASSREPORT_LIMITS, "too many objects");
    expect(report[0] == 0x55, "the report's buffer is as it was");
    answer = class_report(EMPTY, sizeof EMPTY, 8, 4, work, 0, report, sizeof report);
    expect(classreport_length(answer) == sizeof EMPTY_REPORT, "the teaching rooms' limits");
}

static void unpacked(void) {
    uint64_t answer = UINT64_C(0x8000001100000008);
    expect(classreport_question(answer) == CLASSREPORT_OFFSET_ORDER, "17");
    expect(classreport_block(answer) == 8 && classreport_package(answer) == 7, "block 8, package 7");
    expect(classreport_package(UINT64_C(0x8000000800000001)) == 0, "the script block is no package");
    expect(classreport_length(CLASSREPORT_LONGEST) == CLASSREPORT_LONGEST, "the longest report");
    expect(classreport_work_enough(21) == 42 && classreport_work_enough(SIZE_MAX) == SIZE_MAX, "work");
    expect(strcmp(classreport_failed(23), "nothing") == 0, "23 is no question");
    for (unsigned question = 1; question <= 0xff; question++)
        if (strcmp(classreport_failed(question), "nothing") != 0)
            printf("%u %s\n", question, classreport_failed(question));
}

/* The whole of a file, in memory that the caller frees. */
static uint8_t *read_file(const char *name, size_t *length) {
    FILE *file = fopen(name, "rb");
    if (file == NULL || fseek(file, 0, SEEK_END) != 0)
        return NULL;
    *length = (size_t)ftell(file);
    rewind(file);
    uint8_t *bytes = malloc(*length + 1);
    if (bytes != NULL && fread(bytes, 1, *length, file) != *length)
        return NULL;
    fclose(file);
    return bytes;
}

/* class_header with a work buffer, which it has no use for. */
static uint64_t to_header(const uint8_t *description, size_t length, uint8_t *work, size_t work_length, uint8_t *header,
                          size_t room) {
    (void)work, (void)work_length;
    return class_header(description, length, header, room);
}

/* Any of the calls. */
typedef uint64_t call(const uint8_t *, size_t, uint8_t *, size_t, uint8_t *, size_t);

static int output_of(call *made, const char *name) {
    size_t length = 0, work_length, room = 1 << 24;
    uint8_t *corpus = read_file(name, &length);
    work_length = classreport_work_enough(length);
    uint8_t *work = malloc(work_length + 1), *report = malloc(room);
    if (corpus == NULL || work == NULL || report == NULL)
        return 3;
    uint64_t answer = made(corpus, length, work, work_length, report, room);
    if (classreport_refused(answer)) {
        unsigned question = classreport_question(answer), block = classreport_block(answer);
        fprintf(stderr, "refused %u in block %u: %s\n", question, block, classreport_failed(question));
        return 1;
    }
    fwrite(report, 1, (size_t)classreport_length(answer), stdout);
    free(corpus);
    free(work);
    free(report);
    return 0;
}

int main(int argc, char **argv) {
    if (argc > 1)
        return output_of(argc == 2 ? in_a_booth : strcmp(argv[2], "verify") == 0 ? class_verify : to_header, argv[1]);
    accepted();
    refused();
    verified();
    limited();
    written();
    unpacked();
    return failures != 0;
}
