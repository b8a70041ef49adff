/* Canonical texts written and hashes read, by the two functions of the crate text_bench: millions a second, the fastest of 2,000
   passes over 1,024 hashes. What is written and read is held to printf's digits. */
#include <stdbool.h>
#include <stdint.h>
#include <stdio.h>
#include <string.h>
#include <time.h>

void bench_canonical_text(const uint8_t hash[32], uint8_t text[66]);
bool bench_parse_hash(const uint8_t text[66], uint8_t hash[32]);

enum { HASHES = 1024, PASSES = 2000 };

static uint8_t hashes[HASHES][32], texts[HASHES][66], read[HASHES][32], written[HASHES][66];

static double now(void) {
    struct timespec t;
    clock_gettime(CLOCK_MONOTONIC, &t);
    return t.tv_sec + t.tv_nsec * 1e-9;
}

/* Bytes without a pattern, from xorshift64. */
static void fill(void) {
    uint64_t x = 88172645463325252u;
    for (int i = 0; i < HASHES; i++) {
        char digits[67] = "0x";
        for (int j = 0; j < 32; j++) {
            x ^= x << 13;
            x ^= x >> 7;
            x ^= x << 17;
            hashes[i][j] = x >> 32;
            snprintf(digits + 2 + 2 * j, 3, "%02x", hashes[i][j]);
        }
        memcpy(texts[i], digits, 66);
    }
}

static void write_all(void) {
    for (int i = 0; i < HASHES; i++) bench_canonical_text(hashes[i], written[i]);
}

static void read_all(void) {
    for (int i = 0; i < HASHES; i++)
        if (!bench_parse_hash(texts[i], read[i])) memset(read[i], 0, 32);
}

static void tell(const char *name, void (*pass)(void)) {
    double best = 1e9;
    for (int i = 0; i < PASSES; i++) {
        double start = now();
        pass();
        double took = now() - start;
        if (took < best) best = took;
    }
    printf("%-48s %8.1f\n", name, HASHES / best * 1e-6);
}

int main(void) {
    fill();
    printf("%-48s %8s\n", "the fastest of 2,000 passes", "M / s");
    tell("canonical texts written", write_all);
    tell("hashes read", read_all);
    if (memcmp(written, texts, sizeof texts) == 0 && memcmp(read, hashes, sizeof hashes) == 0) return 0;
    fprintf(stderr, "the digits are not those of printf\n");
    return 1;
}
