/* Folds the journal of a file and restores what is pending: `fold FILE`.
 *
 * The status is 2 if not just one file is named, and 1 if it cannot be read or its journal is refused. A record that restore
 * refuses is a line like any other. */
#include "gap_quarantine_journal.h"

#include <errno.h>
#include <inttypes.h>
#include <stdio.h>
#include <string.h>

/* One byte more than a fold takes, so that a longer file is refused with 9 and is not read whole. */
static uint8_t journal[GAP_QUARANTINE_JOURNAL + 1];

static uint8_t pending[GAP_QUARANTINE_OUT];

static uint64_t number_at(const uint8_t *bytes) {
    uint64_t number = 0;
    for (int i = 7; i >= 0; i--) number = number << 8 | bytes[i];
    return number;
}

static void print_hex(const uint8_t *bytes, size_t len) {
    printf("0x");
    for (size_t i = 0; i < len; i++) printf("%02x", bytes[i]);
}

/* What a refusal of the fold or of restore means. */
static const char *condition(uint64_t number, int of_fold) {
    switch (number) {
    case 9: return "journal over 65,536 bytes";
    case 10: return "unknown mark";
    case 11: return of_fold ? "field outside its layout or version above 2" : "not one record in its layout";
    case 12: return "a 65th key";
    case 13: return "output too short";
    case 14: return "hash text that does not parse";
    case 15: return "degraded record without a sender";
    default: return "full record without a from, or whose wire does not decode";
    }
}

/* The text of a park record, and what restore makes of it. The text's length is at byte 6, and its bytes follow. */
static void print_record(const uint8_t *record) {
    uint8_t frame[GAP_QUARANTINE_FRAME];
    uint64_t number = gap_quarantine_restore(record, GAP_QUARANTINE_PARK, frame, sizeof frame);
    printf("%.*s: ", (int)record[6], (const char *)record + 7);
    if (number != 0) {
        printf("refusal %" PRIu64 ": %s\n", number, condition(number, 0));
        return;
    }
    printf("hash ");
    print_hex(frame, 32);
    printf(" from ");
    print_hex(frame + 32, 20);
    printf(" expected %" PRIu64 " claim %" PRIu64, number_at(frame + 52), number_at(frame + 60));
    printf(" chain_id %" PRIu64 " gas %" PRIu64, number_at(frame + 68), number_at(frame + 76));
    printf(" ticket %" PRIu64 "\n", number_at(frame + 84));
}

/* Prints the totals of a journal, and a line for each pending record. */
static int tell(const char *file, size_t len) {
    uint8_t totals[GAP_QUARANTINE_TOTALS];
    uint64_t code = gap_quarantine_fold(journal, len, pending, sizeof pending, totals, sizeof totals);
    if (code != 0) {
        uint64_t number = code % 256, offset = code / 256;
        fprintf(stderr, "fold: %s: refusal %" PRIu64 " at byte %" PRIu64 ": %s\n", file, number, offset, condition(number, 1));
        return 1;
    }
    printf("pending %" PRIu64 " skipped %" PRIu64, number_at(totals), number_at(totals + 8));
    printf(" migrated %" PRIu64 " degraded %" PRIu64, number_at(totals + 16), number_at(totals + 24));
    printf(" end %" PRIu64 "\n", number_at(totals + 32));
    for (uint64_t i = 0; i < number_at(totals); i++) print_record(pending + GAP_QUARANTINE_PARK * i);
    return 0;
}

static int failed(const char *file) {
    fprintf(stderr, "fold: %s: %s\n", file, strerror(errno));
    return 1;
}

int main(int argc, char **argv) {
    if (argc != 2) {
        fprintf(stderr, "usage: fold FILE\n");
        return 2;
    }
    FILE *file = fopen(argv[1], "rb");
    if (file == NULL) return failed(argv[1]);
    size_t len = fread(journal, 1, sizeof journal, file);
    if (ferror(file)) return failed(argv[1]);
    fclose(file);
    return tell(argv[1], len);
}
