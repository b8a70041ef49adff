/* How much stack each function needs: the smallest that a thread can be given and still make the call, found by halving, in pages
 * of 4 KiB. What the thread itself takes of it is counted too. The status is 1 if a function needs more than the header says. */
#define _GNU_SOURCE
#include "gap_quarantine_journal.h"

#include <pthread.h>
#include <stdio.h>
#include <string.h>
#include <sys/mman.h>
#include <sys/wait.h>
#include <unistd.h>

enum { PAGE = 4096, SMALLEST = 16384, LARGEST = 1 << 20, KEYS = 64 };

/* What the calls read and write, shared with the processes that make them. */
static struct shared {
    uint8_t journal[GAP_QUARANTINE_JOURNAL], out[GAP_QUARANTINE_OUT], totals[GAP_QUARANTINE_TOTALS], frame[GAP_QUARANTINE_FRAME];
    size_t journal_len;
} *shared;

static const uint8_t hash[32], address[20];
static char text[67] = "0x0000000000000000000000000000000000000000000000000000000000000000";

/* ---- the calls, each with all that is optional */

static uint64_t park(uint8_t *out) {
    return gap_quarantine_write_park(2, (const uint8_t *)text, 66, address, 20, address, 20, 1, 21000, 1, 1, 8, 5, 0, 0, 2, 100,
                                     hash, 32, hash, 32, 7, out, GAP_QUARANTINE_PARK);
}

static uint64_t tentative(uint8_t *out) {
    return gap_quarantine_write_tentative(2, hash, 32, 2, 100, hash, 32, hash, 32, 0, out, GAP_QUARANTINE_TENTATIVE);
}

static uint64_t resolve(uint8_t *out) {
    return gap_quarantine_write_resolve(2, hash, 32, 1, 0, out, GAP_QUARANTINE_RESOLVE);
}

static uint64_t legacy(uint8_t *out) {
    return gap_quarantine_write_legacy(hash, 32, hash, 32, 1, 8, 1, 8, 1, 8, address, 20, address, 20, 1, 5, 1, 0, 1, 1, 1,
                                       21000, 1, 2, 100, hash, 32, hash, 32, 7, out, GAP_QUARANTINE_LEGACY);
}

static uint64_t other(uint8_t *out) { return gap_quarantine_write_other(7, out, GAP_QUARANTINE_OTHER); }

static uint64_t fold(uint8_t *out) {
    return gap_quarantine_fold(shared->journal, shared->journal_len, out, GAP_QUARANTINE_OUT, shared->totals,
                               GAP_QUARANTINE_TOTALS);
}

/* The same, with an unknown mark behind the last record. */
static uint64_t refused_fold(uint8_t *out) {
    uint64_t code = gap_quarantine_fold(shared->journal, shared->journal_len + 2, out, GAP_QUARANTINE_OUT, shared->totals,
                                        GAP_QUARANTINE_TOTALS);
    return code - 256 * shared->journal_len;
}

static uint64_t restore(uint8_t *out) {
    (void)out;
    return gap_quarantine_restore(shared->journal, GAP_QUARANTINE_PARK, shared->frame, GAP_QUARANTINE_FRAME);
}

/* A function, and what it returns. */
static const struct measure {
    const char *name;
    uint64_t (*call)(uint8_t *out);
    uint64_t due;
} measures[] = {
    {"gap_quarantine_fold", fold, 0},
    {"gap_quarantine_fold, refused", refused_fold, 10},
    {"gap_quarantine_restore", restore, 0},
    {"gap_quarantine_write_park", park, 256 * GAP_QUARANTINE_PARK},
    {"gap_quarantine_write_tentative", tentative, 256 * GAP_QUARANTINE_TENTATIVE},
    {"gap_quarantine_write_resolve", resolve, 256 * GAP_QUARANTINE_RESOLVE},
    {"gap_quarantine_write_legacy", legacy, 256 * GAP_QUARANTINE_LEGACY},
    {"gap_quarantine_write_other", other, 256 * GAP_QUARANTINE_OTHER},
};

/* A journal of all five marks, the first a park, in which as many records are pending as a fold takes. */
static void write_journal(void) {
    uint8_t *end = shared->journal;
    for (int key = 0; key < KEYS; key++) {
        snprintf(text, sizeof text, "0x%064x", key);
        end += park(end) / 256;
    }
    end += tentative(end) / 256;
    end += other(end) / 256;
    end += resolve(end) / 256;
    end += legacy(end) / 256;
    shared->journal_len = (size_t)(end - shared->journal);
}

/* ---- stacks */

static void *on_thread(void *measure) {
    const struct measure *m = (const struct measure *)measure;
    return m->call(shared->out) == m->due ? measure : NULL;
}

/* Whether a thread with this stack makes the call. */
static int makes(const struct measure *m, size_t stack) {
    pthread_attr_t attr;
    pthread_t thread;
    void *answer = NULL;
    if (pthread_attr_init(&attr) != 0 || pthread_attr_setstacksize(&attr, stack) != 0) return 0;
    if (pthread_create(&thread, &attr, on_thread, (void *)m) != 0) return 0;
    return pthread_join(thread, &answer) == 0 && answer != NULL;
}

/* The same in a process of its own, since a stack that is too small ends it. It has made no call before, so that what the loader
 * does at the first one is counted. */
static int makes_apart(const struct measure *m, size_t stack) {
    int status = 0;
    pid_t child = fork();
    if (child == 0) _exit(makes(m, stack) ? 0 : 1);
    return child > 0 && waitpid(child, &status, 0) == child && status == 0;
}

static size_t need(const struct measure *m) {
    size_t low = SMALLEST - PAGE, high = LARGEST;
    while (high - low > PAGE) {
        size_t middle = (low + high) / 2 / PAGE * PAGE;
        if (makes_apart(m, middle)) high = middle;
        else low = middle;
    }
    return high;
}

int main(void) {
    int status = 0;
    shared = (struct shared *)mmap(NULL, sizeof *shared, PROT_READ | PROT_WRITE, MAP_SHARED | MAP_ANONYMOUS, -1, 0);
    if (shared == MAP_FAILED) return 2;
    pid_t child = fork();
    if (child == 0) {
        write_journal();
        _exit(0);
    }
    if (waitpid(child, &status, 0) != child || status != 0) return 2;
    for (size_t i = 0; i < sizeof measures / sizeof *measures; i++) {
        size_t bytes = need(&measures[i]);
        printf("%-32s %3zu KiB\n", measures[i].name, bytes / 1024);
        if (bytes > GAP_QUARANTINE_STACK) status = 1;
    }
    return status;
}
