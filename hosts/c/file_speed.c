/* How fast program files are read and verified, and the memory that this takes (bench/results/costs.md, "Program files"):
 *
 *     cc -O2 hosts/c/file_speed.c hosts/out/libgrain.a -o hosts/out/file_speed && hosts/out/file_speed
 */
#define _DEFAULT_SOURCE
#include "grain.h"

#include <stdio.h>
#include <stdlib.h>
#include <string.h>
#include <time.h>

static size_t held = 0, most = 0;

/* A block stands behind 16 bytes that keep its size. */
void *grain_alloc(size_t size, size_t alignment) {
    size_t *start = alignment > 16 ? NULL : malloc(size + 16);
    if (start == NULL)
        return NULL;
    *start = size;
    held += size;
    most = held > most ? held : most;
    return (char *)start + 16;
}

void *grain_realloc(void *block, size_t old_size, size_t size, size_t alignment) {
    (void)alignment;
    size_t *start = realloc((char *)block - 16, size + 16);
    if (start == NULL)
        return NULL;
    *start = size;
    held += size - old_size;
    most = held > most ? held : most;
    return (char *)start + 16;
}

void grain_dealloc(void *block) {
    size_t *start = (void *)((char *)block - 16);
    held -= *start;
    free(start);
}

enum { ROOM = 4 << 20 };
static uint8_t bytes[ROOM];
static size_t len;

static void put(uint8_t byte) {
    bytes[len++] = byte;
}

static void number(uint64_t n) {
    for (; n >= 128; n >>= 7)
        put((uint8_t)(n | 128));
    put((uint8_t)n);
}

static void text(const char *words, size_t count) {
    number(count);
    for (size_t i = 0; i < count; i++)
        put((uint8_t)words[i % strlen(words)]);
}

/* Code of so many groups of eight bytes: Const(n), Pop, LoadNamed(n), Pop; and Unit, Return. */
static void code(size_t groups, size_t constants, size_t names) {
    number(8 * groups + 2);
    for (size_t i = 0; i < groups; i++) {
        size_t constant = constants == 0 ? 0 : i % constants, name = names == 0 ? 0 : i % names;
        put(constants == 0 ? 0x02 : 0x01);
        if (constants == 0) {
            put(0x0b), put(0x02), put(0x0b);
        } else {
            put((uint8_t)constant), put((uint8_t)(constant >> 8)), put(0x0b);
        }
        put(names == 0 ? 0x02 : 0x19);
        if (names == 0) {
            put(0x0b), put(0x02), put(0x0b);
        } else {
            put((uint8_t)name), put((uint8_t)(name >> 8)), put(0x0b);
        }
    }
    put(0x02), put(0x13);
    number(0), number(8 * groups + 2), number(1);
}

static void head(void) {
    static const uint8_t magic[] = {0, 'g', 'r', 'n', 2, 0, 0xff, 0xff, 1, 7, 0};
    len = sizeof magic;
    memcpy(bytes, magic, sizeof magic);
}

/* No operators, op-assignments, chains, switches, source and positions. */
static void tail(void) {
    for (int i = 0; i < 6; i++)
        put(0);
}

static void file_of_code(void) {
    head(), code(131072, 0, 0), number(0), number(0), number(0), tail();
}

static void file_of_names(void) {
    head(), code(1000, 0, 60000), number(0), number(60000);
    for (size_t i = 0; i < 60000; i++)
        text("property_name_of_a_script", 8 + i % 17);
    number(0), tail();
}

static void file_of_texts(void) {
    head(), code(1000, 30000, 0), number(0), number(0), number(30000);
    for (size_t i = 0; i < 30000; i++)
        put(5), text("a text that a script prints ", 16 + i % 40);
    tail();
}

static void file_of_integers(void) {
    head(), code(1000, 60000, 0), number(0), number(0), number(60000);
    for (size_t i = 0; i < 60000; i++)
        put(3), number(i * 2654435761u);
    tail();
}

/* As programs have it: code, with a name or a constant for each hundred bytes of it. */
static void file_of_all(void) {
    head(), code(100000, 4000, 4000), number(0), number(4000);
    for (size_t i = 0; i < 4000; i++)
        text("property_name_of_a_script", 4 + i % 13);
    number(4000);
    for (size_t i = 0; i < 4000; i++) {
        put(i % 2 == 0 ? 3 : 5);
        if (i % 2 == 0)
            number(i * 7919);
        else
            text("a text that a script prints ", 8 + i % 24);
    }
    tail();
}

static double now(void) {
    struct timespec time;
    clock_gettime(CLOCK_MONOTONIC, &time);
    return (double)time.tv_sec * 1e3 + (double)time.tv_nsec / 1e6;
}

static double least(double one, double other) {
    return one < other ? one : other;
}

static void measure(const char *what) {
    double reads = 1e9, verifies = 1e9, both = 1e9;
    size_t kept = 0, peak = 0;
    uint16_t depths[1];
    for (int round = 0; round < 20; round++) {
        grain_scratch scratch = GRAIN_SCRATCH_NONE;
        grain_file *file;
        most = held;
        size_t before = held;
        double start = now();
        if (grain_file_read(&file, bytes, len, NULL, NULL) != GRAIN_ACCEPTED)
            exit(1);
        double read = now();
        kept = held - before, peak = most - before;
        if (grain_file_verify(&scratch, file, GRAIN_CAP_ALL, GRAIN_NO_LIMIT, depths, 1, NULL, NULL) != GRAIN_ACCEPTED)
            exit(2);
        double verified = now();
        grain_scratch_free(&scratch);
        double again = now();
        grain_status status = grain_verify(&scratch, GRAIN_CAP_ALL, GRAIN_NO_LIMIT, &grain_file_contents(file)->program,
                                           depths, 1, NULL, NULL);
        verifies = least(verifies, now() - again);
        grain_scratch_free(&scratch);
        if (status != GRAIN_ACCEPTED)
            exit(3);
        reads = least(reads, read - start);
        both = least(both, verified - start);
        grain_file_free(file);
    }
    printf("| %s | %zu | %.2f | %.0f | %.2f | %.2f | %.2f | %.1f | %.1f |\n", what, len, reads, (double)len / 1e3 / reads,
           verifies, both, both / verifies, (double)peak / (double)len, (double)kept / (double)len);
}

int main(void) {
    printf("| File | Bytes | Read, ms | MB/s | Verified, ms | Both, ms | Ratio | Memory at most | Kept |\n");
    file_of_code();
    measure("code");
    file_of_names();
    measure("names");
    file_of_texts();
    measure("texts");
    file_of_integers();
    measure("integers");
    file_of_all();
    measure("code, names and constants");
    return 0;
}
