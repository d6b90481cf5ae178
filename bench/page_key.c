// Compares the proved page key with the plain loop in C, on pages of two sizes, in one run.
#include <stdint.h>
#include <stdio.h>
#include <stdlib.h>
#include <time.h>

uint64_t catungleb_page_key(const uint8_t *bytes, size_t length);

__attribute__((noinline)) static uint64_t plain_key(const uint8_t *bytes, size_t length) {
    uint64_t key = 14695981039346656037u;
    for (size_t i = 0; i < length; i++) {
        key = (key ^ bytes[i]) * 1099511628211u;
    }
    return key;
}

static double seconds(void) {
    struct timespec now;
    clock_gettime(CLOCK_MONOTONIC, &now);
    return now.tv_sec + now.tv_nsec * 1e-9;
}

static double run(uint64_t (*key)(const uint8_t *, size_t), uint8_t *page, size_t length, long turns, uint64_t *sum) {
    double start = seconds();
    for (long turn = 0; turn < turns; turn++) {
        page[0] = (uint8_t)turn;
        *sum += key(page, length);
    }
    return seconds() - start;
}

int main(void) {
    static uint8_t page[4096];
    for (size_t i = 0; i < sizeof page; i++) {
        page[i] = (uint8_t)(i * 131 + 7);
    }
    const size_t sizes[] = {64, 4096};
    for (int s = 0; s < 2; s++) {
        size_t length = sizes[s];
        long turns = 64L * 1024 * 1024 / (long)length;
        double ours = 1e9, plain = 1e9;
        uint64_t a = 0, b = 0;
        for (int round = 0; round < 7; round++) {
            a = b = 0;
            double p = run(plain_key, page, length, turns, &b);
            double o = run(catungleb_page_key, page, length, turns, &a);
            if (p < plain) plain = p;
            if (o < ours) ours = o;
        }
        if (a != b) {
            printf("the keys differ at %zu bytes\n", length);
            return 1;
        }
        printf("%zu bytes: %.1f ns a key, plain C %.1f ns, ratio %.2f\n", length, ours * 1e9 / turns, plain * 1e9 / turns, ours / plain);
    }
    return 0;
}
