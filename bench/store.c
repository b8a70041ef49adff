/* The store calls in the loops of the crate store_bench. Without COUNT_COPIES: microseconds a call, the fastest of twenty runs.
   With it, and linked with --wrap=memcpy and --wrap=memmove: how often a call copies the held part and the guards' bodies. */
#include <stddef.h>
#include <stdint.h>
#include <stdio.h>
#include <time.h>

uint64_t store_bench_push(uint64_t rounds);
uint64_t store_bench_waiting(uint64_t frames, uint64_t rounds);
uint64_t store_bench_waiting_short(uint64_t frames, uint64_t rounds);
uint64_t store_bench_guarded(uint64_t frames, uint64_t rounds);
uint64_t store_bench_rescued(uint64_t frames, uint64_t rounds);
uint64_t store_bench_enter(uint64_t frames, uint64_t rounds);
uint64_t store_bench_evict(uint64_t rounds);
uint64_t store_bench_finality(uint64_t rounds);
uint64_t store_bench_whole_waiting(uint64_t rounds);
uint64_t gap_quarantine_polls(uint64_t rounds);
uint64_t gap_quarantine_guarded_polls(uint64_t rounds);
uint64_t gap_quarantine_sweeps(uint64_t rounds);
uint64_t gap_quarantine_polls_in_turn(uint64_t rounds);
uint64_t gap_quarantine_push_and_rescue(uint64_t rounds);
uint64_t gap_quarantine_finality(uint64_t rounds);

enum what { PUSH, WAITING, WAITING_SHORT, GUARDED, RESCUED, ENTER, EVICT, FINALITY, POLLS, WHOLE_POLLS, GUARDED_POLLS, SWEEPS, POLLS_IN_TURN, PUSH_RESCUE, PUSH_ENTER_FINALITY };

static uint64_t run(enum what what, uint64_t frames, uint64_t rounds) {
    switch (what) {
    case PUSH: return store_bench_push(rounds);
    case WAITING: return store_bench_waiting(frames, rounds);
    case WAITING_SHORT: return store_bench_waiting_short(frames, rounds);
    case GUARDED: return store_bench_guarded(frames, rounds);
    case RESCUED: return store_bench_rescued(frames, rounds);
    case ENTER: return store_bench_enter(frames, rounds);
    case EVICT: return store_bench_evict(rounds);
    case FINALITY: return store_bench_finality(rounds);
    case POLLS: return gap_quarantine_polls(rounds);
    case WHOLE_POLLS: return store_bench_whole_waiting(rounds);
    case GUARDED_POLLS: return gap_quarantine_guarded_polls(rounds);
    case SWEEPS: return gap_quarantine_sweeps(rounds);
    case POLLS_IN_TURN: return gap_quarantine_polls_in_turn(64 * rounds);
    case PUSH_RESCUE: return gap_quarantine_push_and_rescue(rounds);
    default: return gap_quarantine_finality(rounds);
    }
}

enum { TRIES = 20, ROUNDS = 2000 };

static double now(void) {
    struct timespec t;
    clock_gettime(CLOCK_MONOTONIC, &t);
    return t.tv_sec + t.tv_nsec * 1e-9;
}

#ifndef COUNT_COPIES

static void head(void) { printf("%-48s %8s\n", "the fastest of twenty runs", "us"); }

static void tell(const char *name, enum what what, uint64_t frames) {
    double best = 1e9;
    for (int i = 0; i < TRIES; i++) {
        double start = now();
        run(what, frames, ROUNDS);
        double took = now() - start;
        if (took < best) best = took;
    }
    printf("%-48s %8.2f\n", name, best / ROUNDS * 1e6);
}

#else

/* A copy of the whole store counts as one of the held part and one of the bodies. What is of another size is a list that a call
   makes, and counts only in all bytes. */
static uint64_t held_copied, bodies_copied, bytes_copied;

/* The seconds that copies of 10,000 bytes or more took, without those of asking the clock. */
static double copying, clock_takes;

void *__real_memcpy(void *to, const void *from, size_t n);
void *__real_memmove(void *to, const void *from, size_t n);

static void *copied(void *(*copy)(void *, const void *, size_t), void *to, const void *from, size_t n) {
    bytes_copied += n;
    if ((n >= 12000 && n < 17000) || n >= 57000) held_copied++;
    if ((n >= 10000 && n < 10300) || (n >= 32000 && n < 33000) || n >= 40000) bodies_copied++;
    if (n < 10000) return copy(to, from, n);
    double start = now();
    copy(to, from, n);
    copying += now() - start - clock_takes;
    return to;
}

void *__wrap_memcpy(void *to, const void *from, size_t n) { return copied(__real_memcpy, to, from, n); }

void *__wrap_memmove(void *to, const void *from, size_t n) { return copied(__real_memmove, to, from, n); }

static void head(void) {
    clock_takes = 1;
    for (int i = 0; i < 1000; i++) {
        double start = now();
        double took = now() - start;
        if (took < clock_takes) clock_takes = took;
    }
    printf("copies by memcpy and memmove: how often of the held part (12,000 to 17,000 bytes) and of the bodies (their numbers,\n"
           "10,000 to 10,300 bytes, their contents, 32,000 to 33,000, or 40,000 and more), all bytes, and the time of those of\n"
           "10,000 bytes or more\n");
    printf("%-48s %8s %8s %8s %8s\n", "", "held", "bodies", "bytes", "us");
}

/* What ten more rounds copy, divided by ten: the making of the store does not count. */
static void tell(const char *name, enum what what, uint64_t frames) {
    held_copied = bodies_copied = bytes_copied = 0;
    run(what, frames, 1);
    uint64_t held = held_copied, bodies = bodies_copied, bytes = bytes_copied;
    held_copied = bodies_copied = bytes_copied = 0;
    run(what, frames, 11);
    printf("%-48s %8.1f %8.1f %8.0f", name, (held_copied - held) / 10.0, (bodies_copied - bodies) / 10.0,
           (bytes_copied - bytes) / 10.0);
    double making = 1e9, best = 1e9;
    for (int i = 0; i < TRIES; i++) {
        copying = 0;
        run(what, frames, 1);
        if (copying < making) making = copying;
        copying = 0;
        run(what, frames, ROUNDS + 1);
        if (copying < best) best = copying;
    }
    printf(" %8.2f\n", (best - making) / ROUNDS * 1e6);
}

#endif

int main(void) {
    head();
    printf("one call on a store that is kept:\n");
    tell("  push, 8 held", PUSH, 8);
    tell("  poll, 1 frame waits", WAITING, 1);
    tell("  poll, 8 frames wait", WAITING, 8);
    tell("  poll, 64 frames wait", WAITING, 64);
    tell("  poll with short rows, 1 frame waits", WAITING_SHORT, 1);
    tell("  poll with short rows, 8 frames wait", WAITING_SHORT, 8);
    tell("  poll with short rows, 64 frames wait", WAITING_SHORT, 64);
    tell("  poll with content, 1 frame held by its guard", GUARDED, 1);
    tell("  poll with content, 8 frames held by guards", GUARDED, 8);
    tell("  poll with content, 64 frames held by guards", GUARDED, 64);
    tell("  poll, 1 frame rescued", RESCUED, 1);
    tell("  poll, 8 frames rescued", RESCUED, 8);
    tell("  poll, 64 frames rescued", RESCUED, 64);
    tell("  enter the first of 8 frames", ENTER, 8);
    tell("  enter the first of 64 frames", ENTER, 64);
    tell("  eviction of 8 frames", EVICT, 8);
    tell("  finality of one, 8 held", FINALITY, 8);
    printf("a round whose store goes to the next:\n");
    tell("  poll, 8 frames wait", POLLS, 8);
    tell("  poll of the whole store, 8 frames wait", WHOLE_POLLS, 8);
    tell("  poll with content, 8 frames held by guards", GUARDED_POLLS, 8);
    tell("  sweep of 64 senders, a frame each, which wait", SWEEPS, 64);
    tell("  its 64 polls one by one", POLLS_IN_TURN, 64);
    tell("  push and rescue", PUSH_RESCUE, 1);
    tell("  push, enter and finality", PUSH_ENTER_FINALITY, 1);
    return 0;
}
