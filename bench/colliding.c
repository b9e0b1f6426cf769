/* Prints so many names of 16 letters and digits that stand in one place of a table of hashes, as indexmap of the toolchain makes
 * one for up to 147,456 slices of bytes: its 14 low bits, which choose a group, and its 8 high bits, which choose among the entries
 * there, are the same for all. The hash is that of core/src/hash/fold.rt and mod.rt, where a slice is its length and then each
 * byte by itself, and its two halves joined.
 *
 *     cc -O3 -march=native -pthread -o colliding bench/colliding.c && ./colliding COUNT THREADS
 *
 * Of four million names one is printed, so 100,000 take a processor about a quarter of an hour.
 */
#include <pthread.h>
#include <stdint.h>
#include <stdio.h>
#include <stdlib.h>

enum { LENGTH = 16, LAST = 3, LETTERS = 62 };

static const char letters[] = "0123456789ABCDEFGHIJKLMNOPQRSTUVWXYZabcdefghijklmnopqrstuvwxyz";
static const uint64_t start = 0x243f6a8885a308d3, multiplier = 0x9e3779b97f4a7c15;
static const uint32_t mask = 0xff003fff, place = 0x5a000123;

static long wanted, printed, threads;
static pthread_mutex_t lock = PTHREAD_MUTEX_INITIALIZER;

static inline uint64_t folded(uint64_t a, uint64_t b) {
    unsigned __int128 product = (unsigned __int128)a * b;
    return (uint64_t)product ^ (uint64_t)(product >> 64);
}

/* The state behind one byte more. */
static inline uint64_t behind(uint64_t state, char byte) {
    return folded(state ^ 0x010101 * (uint64_t)(uint8_t)byte, multiplier ^ 2);
}

static void print(const char *name) {
    pthread_mutex_lock(&lock);
    if (printed < wanted) {
        puts(name);
        printed++;
    }
    pthread_mutex_unlock(&lock);
}

/* Tries all last letters of a name. */
static void try_last(char *name, uint64_t state, int at) {
    for (int i = 0; i < LETTERS; i++) {
        uint64_t next = behind(state, letters[i]);
        name[at] = letters[i];
        if (at + 1 < LENGTH)
            try_last(name, next, at + 1);
        else if (((uint32_t)(next ^ next >> 32) & mask) == place)
            print(name);
    }
}

static void *search(void *first) {
    char name[LENGTH + 1] = {0};
    for (uint64_t number = (uint64_t)first; printed < wanted; number += threads) {
        uint64_t state = folded(start ^ LENGTH, multiplier ^ 16), left = number;
        for (int at = 0; at < LENGTH - LAST; at++) {
            name[at] = letters[left % LETTERS];
            left /= LETTERS;
            state = behind(state, name[at]);
        }
        try_last(name, state, LENGTH - LAST);
    }
    return NULL;
}

int main(int count, char **words) {
    pthread_t started[64];
    if (count != 3 || (wanted = atol(words[1])) < 1 || (threads = atol(words[2])) < 1 || threads > 64)
        return 2;
    for (long i = 0; i < threads; i++)
        pthread_create(&started[i], NULL, search, (void *)(uintptr_t)i);
    for (long i = 0; i < threads; i++)
        pthread_join(started[i], NULL);
    return 0;
}
