/* Recovers from each list of files on standard input, by the library for C. A list is a number of files, and of each file
 * whether it is a part, the size of the chunks in which it is fed, and its bytes with their length before them. Numbers
 * have four bytes, as the machine has them. Prints a line for each list: the fault, or what the report says of it, and the
 * pairs of the store in hexadecimal. */
#include "mtrecover.h"
#include <inttypes.h>
#include <stdio.h>
#include <stdlib.h>

enum { ROOM = 1 << 22 };

static uint8_t bytes[ROOM];

static void must(int is_so, const char *what) {
    if (!is_so) {
        fprintf(stderr, "recover_each: %s\n", what);
        exit(1);
    }
}

/* Reads a number. Returns whether one was there. */
static int read_number(uint32_t *number) { return fread(number, sizeof *number, 1, stdin) == 1; }

static void read_file(mtr_place *inputs) {
    mtr_place feed = {0};
    uint32_t is_part = 0, chunk = 0, length = 0, status;
    must(read_number(&is_part) && read_number(&chunk) && read_number(&length) && length <= ROOM, "no file");
    must(fread(bytes, 1, length, stdin) == length, "no bytes");
    must((is_part ? mtr_feed_part(&feed) : mtr_feed_log(&feed)) == MTR_DONE, "no feed");
    for (size_t at = 0; at < length; at += chunk) {
        status = mtr_feed(&feed, bytes + at, length - at < chunk ? length - at : chunk);
        must(status == MTR_DONE || status == MTR_FAULT, "a chunk was not fed");
    }
    must(mtr_add(inputs, &feed) == MTR_DONE, "a file was not added");
}

static void print_store(mtr_place *store) {
    mtr_report report;
    uint64_t number = 0;
    size_t count = 0, pairs = 0;
    must(mtr_get_report(store, &report) == MTR_DONE, "no report");
    printf("torn=%" PRIu64 " records=%" PRIu64 " cutoff=%" PRIu64 " nameless=%" PRIu64, report.torn, report.records, report.cutoff,
           report.nameless);
    printf(" checkpoint=%" PRId64, (int64_t)report.checkpoint);
    for (size_t i = 0; mtr_report_skipped(store, i, &number) == MTR_DONE; i++)
        printf(" skipped=%" PRIu64, number);
    if (mtr_dump(store, NULL, 0, bytes, ROOM, &count, &pairs) != MTR_DONE)
        count = 0;
    must(pairs == report.keys, "not all pairs were dumped");
    printf(" ");
    for (size_t i = 0; i < count; i++)
        printf("%02x", bytes[i]);
    printf("\n");
    mtr_free(store);
}

int main(void) {
    for (uint32_t count; read_number(&count);) {
        mtr_place inputs = {0};
        mtr_fault fault;
        size_t length = 0;
        while (count-- > 0)
            read_file(&inputs);
        uint32_t status = mtr_recover(&inputs, &fault);
        if (status == MTR_DONE) {
            print_store(&inputs);
        } else {
            must(status == MTR_FAULT && mtr_fault_text(&fault, bytes, ROOM, &length) == MTR_DONE, "no fault");
            printf("%.*s\n", (int)length, (const char *)bytes);
        }
    }
    return 0;
}
