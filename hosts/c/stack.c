/* How much stack the calls take: no more than grain.h says, measured on a stack that is painted before each call. */
#define _XOPEN_SOURCE 700
#include "grain.h"

#include <string.h>
#include <ucontext.h>

#include "checks.h"

enum { STACK_SIZE = 1 << 19, ALLOWED = 22 * 1024, PAINT = 0xa5, HANDLERS = 1000 };

static unsigned char stack[STACK_SIZE];
static ucontext_t caller, callee;

static size_t stack_taken_by(void (*call)(void)) {
    size_t untouched = 0;
    memset(stack, PAINT, sizeof stack);
    if (getcontext(&callee) != 0)
        return SIZE_MAX;
    callee.uc_stack.ss_sp = stack;
    callee.uc_stack.ss_size = sizeof stack;
    callee.uc_link = &caller;
    makecontext(&callee, call, 0);
    if (swapcontext(&caller, &callee) != 0)
        return SIZE_MAX;
    while (untouched < sizeof stack && stack[untouched] == PAINT)
        untouched++;
    return sizeof stack - untouched;
}

static const grain_constant constants[] = {{1, GRAIN_CAP_NONE}, {0, 0}};
static const uint8_t names[] = "len";
static const uint32_t starts[] = {0, 3};
static const grain_chain chains[] = {{GRAIN_ROOT_TEMPORARY, 0, 1, GRAIN_TAIL_READ, 0, 0, 0}};
static const grain_step steps[] = {{GRAIN_STEP_PROPERTY, 0, 0, 0, 0, 0}};
static const grain_switch switches[] = {{1, 1, 6}};
static const grain_case cases[] = {{4, 0}};
static const uint32_t ranges[] = {6};
static const uint8_t code[] = {0x02, 0x18, 0, 0, 0x02, 0x13, 0x02, 0x13, 0x02, 0x16, 0, 0, 0x13};
static const grain_chunk chunks[] = {{0, 8, 2}, {8, 13, 1}};
static const grain_program with_pools = {
    code, sizeof code, chunks, 2,
    {constants, 2, names, 3, starts, 2, 0, 0, 0, 0, chains, 1, steps, 1, switches, 1, cases, 1, ranges, 1}};

/* Handlers within each other, then an instruction that lacks an operand. */
static uint8_t nested_code[6 * HANDLERS + 2];
static grain_chunk nested_chunk = {0, sizeof nested_code, HANDLERS};
static const grain_program nested = {nested_code, sizeof nested_code, &nested_chunk, 1, GRAIN_POOLS_NONE};

static void write_nested(void) {
    for (uint32_t i = 0, at = 0; i < HANDLERS; i++, at += 6) {
        nested_code[at] = GRAIN_TAG_PUSH_HANDLER;
        for (uint32_t byte = 0; byte < 4; byte++)
            nested_code[at + 1 + byte] = (uint8_t)((at + 5) >> 8 * byte);
        nested_code[at + 5] = GRAIN_TAG_TICK;
    }
    nested_code[6 * HANDLERS] = GRAIN_TAG_POP;
    nested_code[6 * HANDLERS + 1] = GRAIN_TAG_RETURN;
}

static const grain_program *program;
static uint16_t caps;
static grain_scratch scratch;
static uint16_t depths[2];
static grain_chunk tightened[2];
static grain_report report;
static grain_row rows[9 * HANDLERS];
static grain_base bases[HANDLERS];
static grain_explanation explanation;
static char text[GRAIN_TEXT_SIZE];
static grain_status status;
static size_t number;

static void verify(void) {
    status = grain_verify(NULL, caps, GRAIN_NO_LIMIT, program, depths, 2, NULL, &report);
}

static void verify_again(void) {
    status = grain_verify(&scratch, caps, GRAIN_NO_LIMIT, program, depths, 2, NULL, &report);
}

static void tighten(void) {
    status = grain_tighten(NULL, caps, GRAIN_NO_LIMIT, program, tightened, 2, &report);
}

static void explain(void) {
    status = grain_explain(caps, program, program->chunks_len - 1, rows, LENGTH(rows), bases, LENGTH(bases), &explanation);
}

static int put(void *context, const char *part, size_t length) {
    (void)context;
    (void)part;
    number += length;
    return 0;
}

static void list(void) {
    status = grain_listing(caps, program, program->chunks_len - 1, put, NULL);
}

static void check_pools(void) {
    grain_pools_flaw flaw;
    status = grain_check_pools(&program->pools, &flaw) ? GRAIN_ACCEPTED : GRAIN_NOT_FLAT;
}

static void write_texts(void) {
    number = grain_refusal_text(&report.refusal, text, sizeof text);
    number += grain_instruction_text(program->code, program->code_len, 0, text, sizeof text);
}

static void read_tables(void) {
    static const uint8_t table[] = {2, 0, 1, 1, 4, 2, 2}, stream[] = {2, 0, 1, 2};
    grain_entry entries[2];
    grain_place places[2];
    uint64_t named;
    number = grain_check_table(table, sizeof table, &named) + grain_check_stream(stream, sizeof stream, &named);
    number += grain_table_entries(table, sizeof table, entries, 2);
    (void)grain_table_place(table, sizeof table, 4, places);
    (void)grain_stream_place(stream, sizeof stream, 1, places);
    (void)grain_stream_places(stream, sizeof stream, places, 2, &number);
}

static void count(void) {
    grain_instruction_row instruction;
    size_t damage;
    (void)grain_count_instructions(program->code, program->code_len, &number, &damage);
    (void)grain_instruction(program->code, program->code_len, 0, &instruction);
}

static void measure(const grain_program *measured, uint16_t host_caps) {
    static void (*const calls[])(void) = {verify,      verify_again, verify_again, tighten,     explain,
                                          list,        check_pools,  write_texts,  read_tables, count};
    program = measured;
    caps = host_caps;
    for (size_t i = 0; i < LENGTH(calls); i++) {
        size_t taken = stack_taken_by(calls[i]);
        CHECK(taken <= ALLOWED);
    }
}

/* A file of a value in arrays, object maps and function pointers, as deep as the limits allow. */
static uint8_t file_bytes[2048];
static size_t file_len;
static grain_file *file;
static const grain_limits *limits;

static void put_bytes(const char *bytes, size_t len) {
    memcpy(file_bytes + file_len, bytes, len);
    file_len += len;
}

static void write_file(uint32_t depth) {
    file_len = 0;
    put_bytes("\0grn\2\0\0\0\0\2\2\x13\0\2\1\0\0\1", 18);
    for (uint32_t i = 1; i < depth; i++) {
        static const char *const opened[] = {"\x08\1", "\x0a\1\1a", "\x0b\1f\1"};
        put_bytes(opened[i % 3], strlen(opened[i % 3]));
    }
    put_bytes("\0\0\0\0\0\0\0", 7);
}

static void read_file(void) {
    grain_read_error error;
    status = grain_file_read(&file, file_bytes, file_len, limits, &error);
}

static void verify_file(void) {
    status = grain_file_verify(NULL, file, GRAIN_CAP_ALL, GRAIN_NO_LIMIT, depths, 2, NULL, &report);
}

static void free_file(void) {
    grain_file_free(file);
}

static void tighten_file(void) {
    static uint8_t bytes[sizeof file_bytes];
    grain_room room = {bytes, sizeof bytes, 0};
    status = grain_file_tighten(file_bytes, file_len, limits, GRAIN_NO_LIMIT, &room, NULL, &report);
}

static void strip_file(void) {
    static uint8_t bytes[sizeof file_bytes], sidecar_bytes[64];
    grain_room stripped = {bytes, sizeof bytes, 0}, sidecar = {sidecar_bytes, sizeof sidecar_bytes, 0};
    status = grain_file_strip(file_bytes, file_len, limits, &stripped, &sidecar, NULL);
}

/* At this depth, if grain.h allows as much stack. */
static void measure_files(uint32_t depth, size_t allowed) {
    grain_limits own = GRAIN_LIMITS_DEFAULT;
    own.depth = depth;
    limits = &own;
    write_file(depth);
    size_t taken = stack_taken_by(read_file);
    CHECK(status == GRAIN_ACCEPTED && taken <= allowed);
    size_t verifying = stack_taken_by(verify_file);
    CHECK(status != GRAIN_OUT_OF_MEMORY && verifying <= ALLOWED);
    size_t freeing = stack_taken_by(free_file);
    CHECK(freeing <= ALLOWED);
    size_t tightening = stack_taken_by(tighten_file);
    CHECK((status == GRAIN_ACCEPTED || status == GRAIN_REFUSED) && tightening <= allowed);
    size_t stripping = stack_taken_by(strip_file);
    CHECK(status == GRAIN_ACCEPTED && stripping <= allowed);
    printf("%u deep: %zu to read, %zu to verify, %zu to free, %zu to tighten, %zu to strip\n", depth, taken, verifying, freeing,
           tightening, stripping);
}

int main(void) {
    write_nested();
    measure_files(64, 80 * 1024);
    measure_files(GRAIN_DEPTH_MAX, 320 * 1024);
    measure(&with_pools, GRAIN_CAP_ALL);
    measure(&with_pools, GRAIN_CAP_ALL & ~GRAIN_CAP_PROPERTY);
    measure(&nested, GRAIN_CAP_ALL);
    grain_scratch_free(&scratch);
    printf("stack: %d wrong\n", wrong);
    return wrong == 0 ? 0 : 1;
}
