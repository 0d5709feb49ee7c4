/* Any bytes as a program file: reading, every list, the verdict, each chunk explained, and the same bytes again. Then all of it
 * with an allocation refused. In a part of the runs each block and the bytes themselves end at a page that can't be touched. For
 * libFuzzer, over the archive that hosts/build has made:
 *
 *     clang -g -O1 -fsanitize=fuzzer,address,undefined hosts/c/fuzz.c hosts/out/libgrain.a -o hosts/out/fuzz
 *     mkdir -p hosts/out/corpus hosts/out/found
 *     python3 -c 'for n, line in enumerate(open("hosts/c/corpus.txt")):
 *         open(f"hosts/out/corpus/{n}", "wb").write(bytes.fromhex(line))'
 *     hosts/out/fuzz -max_len=4096 -max_total_time=600 hosts/out/found hosts/out/corpus
 *
 * hosts/c/corpus.txt has a file in each line: that of files.c, some that tests/random_files.py makes, and what was found of them.
 */
#define _DEFAULT_SOURCE
#include "fences.h"
#include "rewrite.h"

/* All bytes of a list are read. */
static uint32_t sum_of(const void *list, size_t size) {
    uint32_t sum = 0;
    for (size_t i = 0; i < size; i++)
        sum = sum * 31 + ((const uint8_t *)list)[i];
    return sum;
}

#define SUM(record, list) sum_of((record)->list, (record)->list##_len * sizeof *(record)->list)

static uint32_t sum_of_all(const grain_contents *all) {
    const grain_program *program = &all->program;
    const grain_pools *pools = &program->pools;
    return SUM(program, code) ^ SUM(program, chunks) ^ SUM(pools, constants) ^ SUM(pools, names) ^ SUM(pools, starts) ^
           SUM(pools, chains) ^ SUM(pools, steps) ^ SUM(pools, switches) ^ SUM(pools, cases) ^ SUM(pools, ranges) ^
           SUM(all, source) ^ SUM(all, functions) ^ SUM(all, parameters) ^ SUM(all, constants) ^ SUM(all, values) ^
           SUM(all, texts) ^ SUM(all, operators) ^ SUM(all, operator_texts) ^ SUM(all, op_assignments) ^
           SUM(all, step_flags) ^ SUM(all, ranges) ^ SUM(all, table) ^ SUM(all, stream) ^ SUM(all, chain_steps) ^
           SUM(all, switch_cases) ^ SUM(all, switch_ranges) ^ SUM(all, function_parameters);
}

static void verify_all(const grain_file *file, const grain_contents *all) {
    const grain_program *program = &all->program;
    uint16_t *depths = calloc(program->chunks_len, sizeof *depths);
    uint16_t *again = calloc(program->chunks_len, sizeof *again);
    uint32_t *slots = calloc(program->chunks_len, sizeof *slots), *slots_again = calloc(program->chunks_len, sizeof *slots);
    grain_report report = {{GRAIN_FLAW_NONE, 0, 0, 0, 0}, 0};
    grain_status status =
        grain_file_verify(NULL, file, GRAIN_CAP_ALL, GRAIN_NO_LIMIT, depths, program->chunks_len, slots, &report);
    REQUIRE(status == GRAIN_ACCEPTED || status == GRAIN_REFUSED);
    if ((all->caps & ~GRAIN_CAP_ALL) == 0) {
        REQUIRE(status ==
                grain_verify(NULL, all->caps, GRAIN_NO_LIMIT, program, again, program->chunks_len, slots_again, NULL));
        REQUIRE(memcmp(depths, again, program->chunks_len * sizeof *depths) == 0);
        REQUIRE(memcmp(slots, slots_again, program->chunks_len * sizeof *slots) == 0);
    }
    free(depths);
    free(again);
    free(slots);
    free(slots_again);
}

/* What a call finds has as many parameters and no type. A function that has none is found, or one before it. */
static void find_callees(const grain_file *file, const grain_contents *all) {
    enum { MANY = 64 };
    for (size_t i = 0; i < all->functions_len && i < MANY; i++) {
        const grain_function *own = &all->functions[i];
        size_t found = grain_file_callee(file, own->name, own->parameters);
        bool has_name = (uint64_t)own->name + 1 < all->program.pools.starts_len;
        REQUIRE(has_name || found == 0);
        REQUIRE(!has_name || own->is_typed || (found > 0 && found <= i + 1));
        if (found > 0)
            REQUIRE(all->functions[found - 1].parameters == own->parameters && !all->functions[found - 1].is_typed);
    }
}

static void explain_all(const grain_contents *all) {
    enum { ROOM = 64 };
    for (size_t i = 0; i < all->program.chunks_len; i++) {
        grain_row rows[ROOM] = {{0, 0, 0, 0, 0}};
        grain_base bases[ROOM] = {{0, 0, 0}};
        grain_explanation found;
        grain_status status = grain_explain(all->caps, &all->program, i, rows, ROOM, bases, ROOM, &found);
        REQUIRE(status == GRAIN_ACCEPTED || status == GRAIN_REFUSED || status == GRAIN_BAD_CODE);
    }
}

/* What is written again is a file, no longer, and the second time the same. */
static void change_all(const uint8_t *bytes, size_t len) {
    grain_room first = {calloc(len, 1), len, 0}, second = {calloc(len, 1), len, 0}, sidecar = {calloc(2 * len, 1), 2 * len, 0};
    grain_status status = grain_file_tighten(bytes, len, NULL, GRAIN_NO_LIMIT, &first, NULL, NULL);
    REQUIRE(status == GRAIN_ACCEPTED || status == GRAIN_REFUSED);
    if (status == GRAIN_ACCEPTED) {
        status = grain_file_tighten(first.bytes, first.size, NULL, GRAIN_NO_LIMIT, &second, NULL, NULL);
        REQUIRE(status == GRAIN_ACCEPTED && first.size == second.size && memcmp(first.bytes, second.bytes, first.size) == 0);
    }
    status = grain_file_strip(bytes, len, NULL, &first, &sidecar, NULL);
    REQUIRE(status == GRAIN_ACCEPTED || status == GRAIN_NOT_RESTORABLE);
    if (status == GRAIN_ACCEPTED) {
        status = grain_file_strip(first.bytes, first.size, NULL, &second, &sidecar, NULL);
        REQUIRE(status == GRAIN_ACCEPTED && first.size == second.size && memcmp(first.bytes, second.bytes, first.size) == 0);
    }
    free(first.bytes);
    free(second.bytes);
    free(sidecar.bytes);
}

/* Every call, for a file that is well. */
static void try_file(const uint8_t *bytes, size_t len, const grain_file *file) {
    static volatile uint32_t sum;
    const grain_contents *all = grain_file_contents(file);
    uint64_t detail;
    sum = sum_of_all(all);
    (void)sum;
    REQUIRE(grain_check_pools(&all->program.pools, NULL));
    REQUIRE(grain_check_table(all->table, all->table_len, &detail) == GRAIN_TABLE_SOUND);
    REQUIRE(grain_check_stream(all->stream, all->stream_len, &detail) == GRAIN_TABLE_SOUND);
    verify_all(file, all);
    find_callees(file, all);
    explain_all(all);
    REQUIRE(writes_again(all, bytes, len));
    change_all(bytes, len);
}

static int print_nothing(void *context, const char *text, size_t length) {
    (void)context, (void)text, (void)length;
    return 0;
}

/* The calls on a file that allocate, from an allocation on that is refused: what they give they give whole, or nothing. */
static void try_refused(const uint8_t *bytes, size_t len, long succeeding) {
    grain_file *file;
    left = succeeding;
    grain_status status = grain_file_read(&file, bytes, len, NULL, NULL);
    REQUIRE(status == GRAIN_ACCEPTED || status == GRAIN_OUT_OF_MEMORY);
    REQUIRE((file != NULL) == (status == GRAIN_ACCEPTED));
    if (file != NULL) {
        const grain_contents *all = grain_file_contents(file);
        size_t count = all->program.chunks_len;
        uint16_t *depths = calloc(count, sizeof *depths);
        uint32_t *slots = calloc(count, sizeof *slots);
        left = succeeding % 8;
        status = grain_file_verify(NULL, file, GRAIN_CAP_ALL, GRAIN_NO_LIMIT, depths, count, slots, NULL);
        REQUIRE(status == GRAIN_ACCEPTED || status == GRAIN_REFUSED || status == GRAIN_OUT_OF_MEMORY);
        for (size_t i = 0; status != GRAIN_ACCEPTED && i < count; i++)
            REQUIRE(depths[i] == 0 && slots[i] == 0);
        left = succeeding % 8;
        status = grain_listing(all->caps, &all->program, 0, print_nothing, NULL);
        REQUIRE(status == GRAIN_ACCEPTED || status == GRAIN_REFUSED || status == GRAIN_BAD_CODE || status == GRAIN_OUT_OF_MEMORY);
        free(depths);
        free(slots);
    }
    grain_file_free(file);
    uint8_t *room = calloc(3 * len, 1);
    grain_room program = {room, len, 0}, sidecar = {room + len, 2 * len, 0};
    left = succeeding;
    status = grain_file_strip(bytes, len, NULL, &program, &sidecar, NULL);
    REQUIRE(status == GRAIN_ACCEPTED || status == GRAIN_NOT_RESTORABLE || status == GRAIN_OUT_OF_MEMORY);
    left = succeeding;
    status = grain_file_tighten(bytes, len, NULL, GRAIN_NO_LIMIT, &program, NULL, NULL);
    REQUIRE(status == GRAIN_ACCEPTED || status == GRAIN_REFUSED || status == GRAIN_OUT_OF_MEMORY);
    left = -1;
    free(room);
}

int LLVMFuzzerTestOneInput(const uint8_t *given, size_t len);

int LLVMFuzzerTestOneInput(const uint8_t *given, size_t len) {
    static unsigned runs;
    grain_file *file;
    grain_read_error error = {GRAIN_CAUSE_TOO_LARGE, GRAIN_PART_HEADER, 0, 0, 0};
    char text[GRAIN_TEXT_SIZE];
    are_fenced = runs++ % 8 == 0;
    uint8_t *bytes = are_fenced ? fenced(len, 1) : (uint8_t *)malloc(len);
    if (len != 0)
        memcpy(bytes, given, len);
    grain_status status = grain_file_read(&file, bytes, len, NULL, &error);
    if (status != GRAIN_ACCEPTED) {
        REQUIRE(status == GRAIN_MALFORMED && file == NULL && error.at <= len);
        REQUIRE(grain_read_error_text(&error, text, sizeof text) != 0);
    } else {
        try_file(bytes, len, file);
        try_refused(bytes, len, (long)(runs % 61));
    }
    grain_file_free(file);
    REQUIRE(live == 0);
    if (are_fenced)
        munmap(bytes + len - fenced_size(len), fenced_size(len) + PAGE);
    else
        free(bytes);
    return 0;
}
