/* Each allocation of the library is refused in turn: the result is GRAIN_OUT_OF_MEMORY, nothing is written, nothing leaks. */
#include "grain.h"

#include <stdio.h>
#include <stdlib.h>
#include <string.h>

#define LENGTH(list) (sizeof(list) / sizeof *(list))

static long left = -1; /* how many allocations succeed still; all where it is negative */
static long live = 0;  /* how many blocks are there */

static bool is_refused(void) {
    if (left == 0)
        return true;
    left -= left > 0;
    return false;
}

#ifdef OWN_ALLOCATOR
static size_t held = 0; /* how many bytes the blocks have */
static size_t most = 0; /* how many they had at most */

/* A block stands behind 16 bytes that keep its size. */
static void *made(size_t *start, size_t size) {
    if (start == NULL)
        return NULL;
    *start = size;
    held += size;
    most = held > most ? held : most;
    return (char *)start + 16;
}

static size_t *start_of(void *block) {
    return (void *)((char *)block - 16);
}

static bool may_be_made(size_t size, size_t alignment) {
    return !is_refused() && size != 0 && alignment != 0 && alignment <= 16;
}

/* The three functions of grain.h, which stand in the place of the library's. */
void *grain_alloc(size_t size, size_t alignment) {
    void *block = may_be_made(size, alignment) ? made(malloc(size + 16), size) : NULL;
    live += block != NULL;
    return block;
}

void *grain_realloc(void *block, size_t old_size, size_t size, size_t alignment) {
    if (*start_of(block) != old_size || !may_be_made(size, alignment))
        return NULL;
    size_t *start = realloc(start_of(block), size + 16);
    held -= start != NULL ? old_size : 0;
    return made(start, size);
}

void grain_dealloc(void *block) {
    live--;
    held -= *start_of(block);
    free(start_of(block));
}
#else
/* The C library's, where the linker is given --wrap of the three. */
void *__real_malloc(size_t size);
void *__real_realloc(void *block, size_t size);
void __real_free(void *block);
void *__wrap_malloc(size_t size);
void *__wrap_realloc(void *block, size_t size);
void __wrap_free(void *block);

void *__wrap_malloc(size_t size) {
    void *block = is_refused() ? NULL : __real_malloc(size);
    live += block != NULL;
    return block;
}

void *__wrap_realloc(void *block, size_t size) {
    void *grown = is_refused() ? NULL : __real_realloc(block, size);
    live += block == NULL && grown != NULL;
    return grown;
}

void __wrap_free(void *block) {
    live -= block != NULL;
    __real_free(block);
}
#endif

static const uint8_t code[] = {0x02, 0x18, 0, 0, 0x02, 0x13, 0x02, 0x13, 0x02, 0x16, 0, 0, 0x13};
static const uint8_t names[] = {'x'};
static const uint32_t starts[] = {0, 1};
static const grain_constant constants[] = {{1, 0}};
static const grain_chain chains[] = {{.root = GRAIN_ROOT_TEMPORARY, .steps = 1}};
static const grain_step steps[] = {{.kind = GRAIN_STEP_PROPERTY}};
static const grain_switch switches[] = {{.cases = 2, .ranges = 1, .otherwise = 6}};
static const grain_case cases[] = {{4, 0}, {6, 0}};
static const uint32_t ranges[] = {6};

static grain_program program_of(const grain_chunk *chunks, size_t many) {
    return (grain_program){code, sizeof code, chunks, many, {
        .constants = constants, .constants_len = LENGTH(constants),
        .names = names, .names_len = LENGTH(names),
        .starts = starts, .starts_len = LENGTH(starts),
        .functions = 1,
        .chains = chains, .chains_len = LENGTH(chains),
        .steps = steps, .steps_len = LENGTH(steps),
        .switches = switches, .switches_len = LENGTH(switches),
        .cases = cases, .cases_len = LENGTH(cases),
        .ranges = ranges, .ranges_len = LENGTH(ranges),
    }};
}

static const grain_report unwritten = {{777, 777, 777, 777, 777}, 777};

static bool is_unwritten(const grain_refusal *refusal) {
    return refusal->flaw == 777 && refusal->chunk == 777 && refusal->at == 777 && refusal->first == 777 &&
           refusal->second == 777;
}

/* Whether the report is written just where it has to be. */
static bool is_report_of(grain_status status, const grain_report *report) {
    return (status == GRAIN_REFUSED) != is_unwritten(&report->refusal) &&
           (status == GRAIN_ACCEPTED || status == GRAIN_REFUSED) != (report->visited == 777);
}

/* The answer on these chunks, or -1 where what isn't to be written was, or memory is left. */
static long verify_in(grain_scratch *scratch, const grain_chunk *chunks, size_t many) {
    const grain_program program = program_of(chunks, many);
    uint16_t depths[4] = {777, 777, 777, 777};
    grain_report report = unwritten;
    grain_status status =
        grain_verify(scratch, GRAIN_CAP_ALL, GRAIN_NO_LIMIT, &program, depths, LENGTH(depths), NULL, &report);
    for (size_t i = status == GRAIN_ACCEPTED ? many : 0; i < LENGTH(depths); i++)
        if (depths[i] != 777)
            return -1;
    if (scratch != NULL)
        grain_scratch_free(scratch);
    return is_report_of(status, &report) && live == 0 ? (long)status : -1;
}

static long verify(const grain_chunk *chunks, size_t many) {
    return verify_in(NULL, chunks, many);
}

/* The same in a scratch that keeps nothing yet. */
static long verify_with(const grain_chunk *chunks, size_t many) {
    grain_scratch scratch = GRAIN_SCRATCH_NONE;
    return verify_in(&scratch, chunks, many);
}

/* A scratch that has room takes no memory, after a refusal neither. */
static bool has_room(const grain_chunk *good, const grain_chunk *bad, size_t many) {
    grain_scratch scratch = GRAIN_SCRATCH_NONE;
    uint16_t depths[4];
    bool well = true;
    for (int round = 0; round < 4; round++) {
        left = round < 2 ? -1 : 0;
        const grain_program program = program_of(round % 2 == 0 ? bad : good, many);
        grain_status status =
            grain_verify(&scratch, GRAIN_CAP_ALL, GRAIN_NO_LIMIT, &program, depths, LENGTH(depths), NULL, NULL);
        well = status == (round % 2 == 0 ? GRAIN_REFUSED : GRAIN_ACCEPTED) && well;
    }
    left = -1;
    grain_scratch_free(&scratch);
    well = live == 0 && well;
    printf("with room: no memory%s\n", well ? "" : ": WRONG");
    return well;
}

/* As verify_in, where each chunk is to declare its depth. */
static long tighten_in(grain_scratch *scratch, const grain_chunk *chunks, size_t many) {
    const grain_program program = program_of(chunks, many);
    grain_chunk tightened[4] = {{777, 777, 777}};
    grain_report report = unwritten;
    grain_status status =
        grain_tighten(scratch, GRAIN_CAP_ALL, GRAIN_NO_LIMIT, &program, tightened, LENGTH(tightened), &report);
    if ((status == GRAIN_ACCEPTED) == (tightened[0].entry == 777))
        return -1;
    if (scratch != NULL)
        grain_scratch_free(scratch);
    return is_report_of(status, &report) && live == 0 ? (long)status : -1;
}

static long tighten(const grain_chunk *chunks, size_t many) {
    return tighten_in(NULL, chunks, many);
}

static long tighten_with(const grain_chunk *chunks, size_t many) {
    grain_scratch scratch = GRAIN_SCRATCH_NONE;
    return tighten_in(&scratch, chunks, many);
}

/* The same where the last chunk is explained. */
static long explain(const grain_chunk *chunks, size_t many) {
    const grain_program program = program_of(chunks, many);
    grain_row rows[16] = {{777, 0, 0, 0, 0}};
    grain_base bases[1] = {{777, 777, 777}};
    grain_explanation found = {777, 777, 777, 777, {777, 777, 777, 777, 777}};
    grain_status status =
        grain_explain(GRAIN_CAP_ALL, &program, many - 1, rows, LENGTH(rows), bases, LENGTH(bases), &found);
    bool is_explained = status == GRAIN_ACCEPTED || status == GRAIN_REFUSED;
    if ((status == GRAIN_REFUSED) == is_unwritten(&found.refusal) || live != 0)
        return -1;
    return is_explained != (found.rows == 777) && is_explained != (rows[0].at == 777) ? (long)status : -1;
}

static int count_bytes(void *context, const char *text, size_t length) {
    (void)text;
    *(size_t *)context += length;
    return 0;
}

/* The same where the last chunk is listed: without memory nothing of it is. */
static long list(const grain_chunk *chunks, size_t many) {
    const grain_program program = program_of(chunks, many);
    size_t listed = 0;
    grain_status status = grain_listing(GRAIN_CAP_ALL, &program, many - 1, count_bytes, &listed);
    return (status == GRAIN_OUT_OF_MEMORY) == (listed == 0) && live == 0 ? (long)status : -1;
}

static int stop(void *context, const char *text, size_t length) {
    (void)context, (void)text, (void)length;
    return 1;
}

/* A listing that is stopped leaves no memory. */
static long list_nothing(const grain_chunk *chunks, size_t many) {
    const grain_program program = program_of(chunks, many);
    grain_status status = grain_listing(GRAIN_CAP_ALL, &program, many - 1, stop, NULL);
    return live == 0 ? (long)status : -1;
}

#ifdef OWN_ALLOCATOR
/* How many bytes at most a listing takes of handlers that are armed within each other. */
static size_t most_for(size_t handlers) {
    static uint8_t nested[20001];
    size_t listed = 0;
    for (size_t i = 0; i < handlers; i++) {
        uint32_t next = (uint32_t)(5 * i + 5);
        nested[5 * i] = GRAIN_TAG_PUSH_HANDLER;
        memcpy(nested + 5 * i + 1, &next, 4);
    }
    nested[5 * handlers] = GRAIN_TAG_POP;
    const grain_chunk chunk = {0, (uint32_t)(5 * handlers + 1), 1};
    const grain_program program = {nested, chunk.end, &chunk, 1, GRAIN_POOLS_NONE};
    most = 0;
    if (grain_listing(GRAIN_CAP_ALL, &program, 0, count_bytes, &listed) != GRAIN_REFUSED || live != 0 || held != 0)
        return 0;
    return most;
}

/* A refused program is the hostile one: twice the code takes about twice the memory. */
static bool grows_with_the_code(void) {
    size_t once = most_for(2000), twice = most_for(4000);
    bool well = once != 0 && twice < 3 * once;
    printf("nested handlers listed: %zu bytes, of twice as many %zu%s\n", once, twice, well ? "" : ": WRONG");
    return well;
}
#else
static bool grows_with_the_code(void) {
    return true;
}
#endif

/* What takes no memory answers where there is none. */
static bool needs_none(void) {
    const grain_refusal refusal = {GRAIN_FLAW_UNDERFLOW, 0, 1, 2, 3};
    const grain_program program = program_of(NULL, 0);
    static const uint8_t table[] = {1, 0, 1, 5};
    static const uint8_t stream[] = {1, 1, 7};
    char text[GRAIN_TEXT_SIZE];
    size_t count = 0;
    grain_entry entry;
    grain_place place;
    left = 0;
    bool well = grain_refusal_text(&refusal, text, sizeof text) > 0;
    well = grain_instruction_text(code, sizeof code, 1, text, sizeof text) > 0 && well;
    well = grain_table_entries(table, sizeof table, &entry, 1) == 1 && well;
    well = grain_stream_places(stream, sizeof stream, &place, 1, &count) && well;
    well = grain_check_pools(&program.pools, NULL) && well;
    left = -1;
    printf("texts, lists and pools: no memory%s\n", well ? "" : ": WRONG");
    return well;
}

/* Runs the call with 0, 1, 2 .. allocations until none is refused. */
static bool each_fails(const char *what, long (*call)(const grain_chunk *, size_t), const grain_chunk *chunks, size_t many,
                       long wanted) {
    for (long n = 0; n < 1000; n++) {
        left = n;
        long answer = call(chunks, many);
        bool was_refused = left == 0;
        left = -1;
        if (answer != GRAIN_OUT_OF_MEMORY) {
            bool well = answer == wanted && n > 0;
            printf("%s: %ld allocations refused in turn%s\n", what, n, well ? "" : ": WRONG");
            return well;
        }
        if (!was_refused)
            break;
    }
    printf("%s: out of memory where there is memory\n", what);
    return false;
}

int main(void) {
    const grain_chunk good[] = {{0, 8, 3}, {8, 13, 1}};
    const grain_chunk bad[] = {{0, 8, 2}, {8, 13, 1}, {0, 8, 0}};
    bool well = each_fails("accepted", verify, good, LENGTH(good), GRAIN_ACCEPTED);
    well = each_fails("refused", verify, bad, LENGTH(bad), GRAIN_REFUSED) && well;
    well = each_fails("accepted in a scratch", verify_with, good, LENGTH(good), GRAIN_ACCEPTED) && well;
    well = each_fails("refused in a scratch", verify_with, bad, LENGTH(bad), GRAIN_REFUSED) && well;
    well = has_room(good, bad + 1, LENGTH(good)) && well;
    well = each_fails("tightened", tighten, good, LENGTH(good), GRAIN_ACCEPTED) && well;
    well = each_fails("not tightened", tighten, bad, LENGTH(bad), GRAIN_REFUSED) && well;
    well = each_fails("tightened in a scratch", tighten_with, good, LENGTH(good), GRAIN_ACCEPTED) && well;
    well = each_fails("explained", explain, good, LENGTH(good), GRAIN_ACCEPTED) && well;
    well = each_fails("its flaw explained", explain, bad, LENGTH(bad), GRAIN_REFUSED) && well;
    well = each_fails("listed", list, good, LENGTH(good), GRAIN_ACCEPTED) && well;
    well = each_fails("its flaw listed", list, bad, LENGTH(bad), GRAIN_REFUSED) && well;
    well = each_fails("stopped", list_nothing, bad, LENGTH(bad), GRAIN_STOPPED) && well;
    well = needs_none() && well;
    well = grows_with_the_code() && well;
    return well ? 0 : 1;
}
