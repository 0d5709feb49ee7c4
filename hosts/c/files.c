/* The calls on program files: what they return and write, that each changed byte and each prefix has an answer, that what is read
 * writes exactly these bytes again, that files are tightened and stripped, and that each allocation may be refused. */
#define _DEFAULT_SOURCE
#include "rewrite.h"

#include "checks.h"

#include <sys/mman.h>
#include <unistd.h>

static long left = -1; /* how many allocations succeed still; all where it is negative */
static long live = 0;  /* how many blocks are there */

static bool is_refused(void) {
    if (left == 0)
        return true;
    left -= left > 0;
    return false;
}

#ifndef SHARED
void *grain_alloc(size_t size, size_t alignment) {
    void *block = is_refused() || alignment > 16 ? NULL : malloc(size);
    live += block != NULL;
    return block;
}

void *grain_realloc(void *block, size_t old_size, size_t size, size_t alignment) {
    (void)old_size;
    return is_refused() || alignment > 16 ? NULL : realloc(block, size);
}

void grain_dealloc(void *block) {
    live--;
    free(block);
}
#endif

/* Two functions, a name, constants of each tag, operators, an op-assignment, chains, a switch, a source and positions. */
static const uint8_t sample[] = {
    0x00, 'g', 'r', 'n', 0x02, 0x00,
    0xff, 0xff, 0x01,                                     /* capabilities 0x7fff */
    0x07, 0x09,                                           /* number */
    0x04, 0x01, 0x00, 0x00, 0x13,                         /* Const(0), Return */
    0x00, 0x04, 0x01,                                     /* main chunk */
    0x02, 0x00, 0x02, 0x01, 0x00, 0x00, 0x00, 0x00, 0x04, 0x02, /* of two parameters, public, of no type */
    0x01, 0x00, 0x01, 0x01, 0x01, 0x00, 0x04, 0x01,       /* private, for receivers of a type */
    0x02, 0x03, 'l', 'e', 'n', 0x02, 0xc3, 0xa9,          /* names */
    0x0e, 0x00, 0x01, 0x02, 0x03, 0x53, 0x04, 0xe9, 0x01, /* unit, false, true, -42, é */
    0x05, 0x02, 'h', 'i', 0x06, 0x02, 0x04, 0x07, 0x02, 0x04, /* "hi", 1..2, 1..=2 */
    0x08, 0x02, 0x03, 0x02, 0x08, 0x00,                   /* [1, []] */
    0x09, 0x02, 0xff, 0x00,                               /* a blob */
    0x0a, 0x02, 0x01, 'a', 0x00, 0x01, 'b', 0x05, 0x01, 'c', /* #{a: (), b: "c"} */
    0x0b, 0x01, 'f', 0x01, 0x03, 0x08,                    /* f with 4 bound */
    0x0c, 0x03, 0x0a,                                     /* a shared 5 */
    0x0d, 0x80, 0x80, 0x80, 0x80, 0x80, 0x80, 0x80, 0x82, 0x40, /* 2.5 */
    0x02, 0x00, 0x27, 0x02, '<', '>',                     /* + and <> */
    0x01, 0x1c, 0x00, 0x00, 0x01,                         /* += for + */
    0x03, 0x00, 0x03, 0x01, 0x01, 0x00, 0x00, 0x01, 0x00, 0x00, /* slot 3, len; index 0 with a flag, at none */
    0x00, 0x01,                                           /* reads; 1 operand */
    0x01, 0x00, 0x00, 0x01, 0x01, 0x00, 0x01, 0x00, 0x00, 0x01, 0x02, 0x03, /* len at none; .len at 2:3 */
    0x01, 0x01, 0x00, 0x00,                               /* assigns through 0; no operands */
    0x03, 0x01, 0x02, 0x00, 0x02, 0x00, 0x00, 0x00, 0x00, 0x02, /* temporary; .len(2 arguments); reads; 2 operands */
    0x01, 0x02, 0x03, 0x00, 0x05, 0x04, 0x01, 0x02, 0x08, 0x01, 0x03, 0x00, /* cases 3 to 0 and 5 to 4; 1..=4 to 3; 0 */
    0x01, 0x01, 's',                                      /* source */
    0x01, 0x04, 0x01, 0x01, 0x05, 0x00, 0x00, 0x01, 0x02, 0x00, /* positions 1:5, none, none, 2 */
};

static grain_status reads(const uint8_t *bytes, size_t len, grain_file **file) {
    grain_read_error error = {77, 77, 77, 77, 77};
    char text[GRAIN_TEXT_SIZE];
    grain_status status = grain_file_read(file, bytes, len, NULL, &error);
    CHECK((status == GRAIN_ACCEPTED) == (*file != NULL));
    CHECK((status == GRAIN_MALFORMED) == (error.cause != 77));
    CHECK((status == GRAIN_MALFORMED) == (grain_read_error_text(&error, text, sizeof text) != 0));
    CHECK(status != GRAIN_MALFORMED || error.at <= len);
    return status;
}

/* The double whose bits a row has. */
static double double_of(const grain_value *row) {
    double number;
    memcpy(&number, &row->number, sizeof number);
    return number;
}

static void all_is_read(void) {
    grain_file *file;
    if (reads(sample, sizeof sample, &file) != GRAIN_ACCEPTED) {
        grain_read_error error;
        char text[GRAIN_TEXT_SIZE] = "";
        CHECK(grain_file_read(&file, sample, sizeof sample, NULL, &error) == GRAIN_MALFORMED);
        grain_read_error_text(&error, text, sizeof text);
        printf("the sample: %s\n", text);
        wrong++;
        return;
    }
    const grain_contents *all = grain_file_contents(file);
    const grain_pools *pools = &all->program.pools;
    CHECK(all->size == sizeof *all && all->caps == GRAIN_CAP_ALL && all->id_low == 7 && all->id_high == 9);
    CHECK(all->chain_steps_len == 3 && all->chain_steps[0] == 0 && all->chain_steps[1] == 1 && all->chain_steps[2] == 2);
    CHECK(all->switch_cases_len == 1 && all->switch_cases[0] == 0);
    CHECK(all->switch_ranges_len == 1 && all->switch_ranges[0] == 0);
    CHECK(all->function_parameters_len == 2 && all->function_parameters[0] == 0 && all->function_parameters[1] == 2);
    CHECK(all->program.code_len == 4 && all->program.code[3] == 0x13);
    CHECK(all->program.chunks_len == 3 && all->program.chunks[1].max_stack == 2 && all->program.chunks[2].max_stack == 1);
    CHECK(all->functions_len == 2 && all->functions[0].parameters == 2 && !all->functions[0].is_private);
    CHECK(all->functions[1].is_private && all->functions[1].is_typed && all->functions[1].this_type == 1);
    CHECK(all->parameters_len == 2 && all->parameters[0] == 1 && all->parameters[1] == 0);
    CHECK(pools->starts_len == 3 && pools->starts[1] == 3 && pools->names_len == 5);
    CHECK(all->constants_len == 14 && all->constants[6] == 6 && all->constants[7] == 9 && all->values_len == 27);
    CHECK(all->values[3].tag == GRAIN_VALUE_INTEGER && all->values[3].number == -42 && all->values[4].number == 0xe9);
    CHECK(all->values[5].tag == GRAIN_VALUE_TEXT && all->values[5].count == 2 && all->texts[all->values[5].number] == 'h');
    CHECK(all->values[7].number == 1 && all->values[8].number == 2 && all->values[12].tag == GRAIN_VALUE_ARRAY);
    CHECK(all->values[26].tag == GRAIN_VALUE_FLOAT && double_of(&all->values[26]) == 2.5);
    CHECK(pools->constants[13].is_known == 1 && pools->constants[13].caps == 0);
    CHECK(pools->constants_len == 14 && pools->constants[12].is_known == 0 && pools->constants[8].caps == GRAIN_CAP_ARRAY);
    CHECK(pools->operators == 2 && all->operators_len == 4 && all->operators[1].tag == GRAIN_VALUE_TEXT);
    CHECK(all->operator_texts_len == 2 && all->operators[2].number == 28 && all->op_assignments[0].op_name == 1);
    CHECK(pools->chains_len == 3 && pools->chains[0].slot == 3 && pools->chains[2].slot == 0 && all->step_flags[0] == 1);
    CHECK(pools->steps[2].argc == 2 && pools->chains[1].tail == GRAIN_TAIL_ASSIGN_THROUGH);
    CHECK(pools->switches_len == 1 && pools->cases_len == 2 && all->ranges_len == 1 && all->ranges[0].is_inclusive);
    CHECK(all->ranges[0].from == 1 && all->ranges[0].to == 4 && all->ranges[0].target == 3 && pools->ranges[0] == 3);
    CHECK(all->has_source && all->source_len == 1 && all->source[0] == 's' && all->has_positions && all->positions == 4);
    grain_place place = {77, 77};
    CHECK(grain_table_place(all->table, all->table_len, 0, &place) && place.line == 1 && place.column == 5);
    CHECK(!grain_table_place(all->table, all->table_len, 1, &place));
    CHECK(grain_stream_place(all->stream, all->stream_len, 3, &place) && place.line == 2 && place.column == 3);
    CHECK(writes_again(all, sample, sizeof sample));
    grain_file_free(file);
}

static void files_are_verified(void) {
    grain_file *file;
    grain_scratch scratch = GRAIN_SCRATCH_NONE;
    uint16_t depths[] = {77, 77, 77, 78};
    uint32_t slots[] = {77, 77, 77, 78};
    char text[GRAIN_TEXT_SIZE];
    grain_report report = {{77, 77, 77, 77, 77}, 77};
    if (reads(sample, sizeof sample, &file) != GRAIN_ACCEPTED)
        return;
    CHECK(grain_file_verify(&scratch, file, GRAIN_CAP_FUNCTION, 12, depths, 3, NULL, &report) == GRAIN_REFUSED);
    CHECK(report.refusal.flaw == GRAIN_FLAW_DECLARED_CAPS && report.refusal.second == GRAIN_CAP_FUNCTION);
    CHECK(grain_refusal_text(&report.refusal, text, sizeof text) != 0 && strcmp(text, "declared-caps missing=7ffe") == 0);
    CHECK(report.refusal.first == (GRAIN_CAP_ALL & ~GRAIN_CAP_FUNCTION) && report.refusal.chunk == GRAIN_WHOLE_PROGRAM);
    CHECK(report.visited == 0 && depths[0] == 77);
    CHECK(grain_file_verify(&scratch, file, GRAIN_CAP_ALL, 11, depths, 3, NULL, &report) == GRAIN_TOO_MUCH_WORK);
    CHECK(grain_file_verify(&scratch, file, GRAIN_CAP_ALL, 12, depths, 2, NULL, &report) == GRAIN_SHORT);
    CHECK(grain_file_verify(&scratch, file, GRAIN_CAP_ALL, 12, depths, 3, NULL, &report) == GRAIN_ACCEPTED);
    CHECK(depths[0] == 1 && depths[1] == 1 && depths[2] == 1 && depths[3] == 78 && report.visited == 6);
    CHECK(grain_file_verify(NULL, file, GRAIN_CAP_ALL, 12, depths, 3, slots, NULL) == GRAIN_ACCEPTED);
    CHECK(slots[0] == 0 && slots[1] == 0 && slots[2] == 0 && slots[3] == 78);
    const grain_program *program = &grain_file_contents(file)->program;
    CHECK(grain_check_pools(&program->pools, NULL));
    CHECK(grain_verify(&scratch, GRAIN_CAP_ALL, 12, program, depths, 3, NULL, NULL) == GRAIN_ACCEPTED);
    grain_scratch_free(&scratch);
    grain_file_free(file);
    grain_file_free(NULL);
}

/* Which function a call finds: the first of the name's text and as many parameters, for receivers of no type. */
static void callees_are_found(void) {
    static const uint8_t bytes[] = {
        0x00, 'g', 'r', 'n', 0x02, 0x00, 0x01, 0x00, 0x00, 0x02, 0x02, 0x13, 0x00, 0x02, 0x01, /* Unit, Return */
        0x06, 0x01, 0x00, 0x00, 0x01, 0x02, 0x00, 0x02, 0x01, /* f of no parameters, for receivers of the type g */
        0x02, 0x00, 0x00, 0x00, 0x00, 0x02, 0x01,             /* g */
        0x01, 0x00, 0x00, 0x00, 0x00, 0x02, 0x01,             /* f, by its second name */
        0x00, 0x00, 0x00, 0x00, 0x00, 0x02, 0x01,             /* f, by its first */
        0x07, 0x00, 0x00, 0x00, 0x00, 0x02, 0x01,             /* of a name that isn't there */
        0x00, 0x01, 0x02, 0x00, 0x00, 0x00, 0x02, 0x01,       /* f of one parameter */
        0x04, 0x01, 'f', 0x01, 'f', 0x01, 'g', 0x01, 'h',     /* names */
        0x00, 0x00, 0x00, 0x00, 0x00, 0x00, 0x00,
    };
    grain_file *file;
    if (reads(sample, sizeof sample, &file) == GRAIN_ACCEPTED) {
        CHECK(grain_file_callee(file, 0, 2) == 1 && grain_file_callee(file, 0, 1) == 0 && grain_file_callee(file, 1, 0) == 0);
        CHECK(grain_file_callee(file, 2, 2) == 0 && grain_file_callee(file, UINT32_MAX, 2) == 0);
        CHECK(grain_file_callee(file, 0, SIZE_MAX) == 0);
        grain_file_free(file);
    }
    CHECK(reads(bytes, sizeof bytes, &file) == GRAIN_ACCEPTED);
    if (file != NULL) {
        CHECK(grain_file_callee(file, 0, 0) == 3 && grain_file_callee(file, 1, 0) == 3 && grain_file_callee(file, 2, 0) == 2);
        CHECK(grain_file_callee(file, 0, 1) == 6 && grain_file_callee(file, 1, 1) == 6 && grain_file_callee(file, 2, 1) == 0);
        CHECK(grain_file_callee(file, 3, 0) == 0 && grain_file_callee(file, 4, 0) == 0 && grain_file_callee(file, 7, 0) == 0);
        grain_file_free(file);
    }
}

/* Where the second chunk of the sample says what it declares. */
enum { DECLARED_AT = 28 };

/* A room whose bytes are all 77. */
static void clear(uint8_t *room, size_t len) {
    memset(room, 77, len);
}

static bool is_clear(const uint8_t *room, size_t len) {
    while (len > 0 && *room == 77)
        room++, len--;
    return len == 0;
}

static void files_are_tightened(void) {
    uint8_t bytes[sizeof sample + 1], wanted[sizeof sample], refused[sizeof sample];
    grain_room room = {bytes, sizeof bytes, 77}, small = {bytes, sizeof sample - 1, 77}, none = {NULL, 0, 77};
    grain_read_error error = {77, 77, 77, 77, 77};
    grain_report report = {{77, 77, 77, 77, 77}, 77};
    const grain_limits deep = {1000, 4096, GRAIN_DEPTH_MAX + 1};
    memcpy(wanted, sample, sizeof sample);
    memcpy(refused, sample, sizeof sample);
    wanted[DECLARED_AT] = 1;
    refused[DECLARED_AT] = 0;
    clear(bytes, sizeof bytes);
    CHECK(grain_file_tighten(sample, sizeof sample, NULL, 12, &small, &error, &report) == GRAIN_SHORT);
    CHECK(small.size == sizeof sample && is_clear(bytes, sizeof bytes) && report.visited == 77 && error.cause == 77);
    CHECK(grain_file_tighten(sample, 20, &deep, 11, &room, &error, &report) == GRAIN_BAD_LIMIT && error.cause == 77);
    CHECK(grain_file_tighten(sample, sizeof sample, NULL, 11, &room, &error, &report) == GRAIN_TOO_MUCH_WORK);
    CHECK(grain_file_tighten(sample, 20, NULL, 12, &room, NULL, &report) == GRAIN_MALFORMED);
    CHECK(grain_file_tighten(sample, 20, NULL, 12, &room, &error, &report) == GRAIN_MALFORMED);
    CHECK(error.cause == GRAIN_CAUSE_TRUNCATED && error.at == 20 && report.visited == 77);
    CHECK(grain_file_tighten(refused, sizeof refused, NULL, 12, &room, NULL, NULL) == GRAIN_REFUSED);
    CHECK(grain_file_tighten(refused, sizeof refused, NULL, 12, &room, NULL, &report) == GRAIN_REFUSED);
    CHECK(report.refusal.flaw == GRAIN_FLAW_STACK_EXCEEDS_DECLARED && report.refusal.chunk == 1 && report.visited == 4);
    CHECK(room.size == 77 && is_clear(bytes, sizeof bytes));
    CHECK(grain_file_tighten(sample, sizeof sample, NULL, 12, &room, &error, &report) == GRAIN_ACCEPTED);
    CHECK(room.size == sizeof sample && memcmp(bytes, wanted, room.size) == 0 && bytes[room.size] == 77);
    CHECK(report.visited == 6 && report.refusal.chunk == 1);
    CHECK(grain_file_tighten(wanted, sizeof wanted, NULL, 12, &room, NULL, NULL) == GRAIN_ACCEPTED);
    CHECK(memcmp(bytes, wanted, room.size) == 0);
    CHECK(grain_file_tighten(NULL, 0, NULL, 12, &none, NULL, NULL) == GRAIN_MALFORMED && none.size == 77);
}

/* The sidecar file of what a file has. */
static rewritten sidecar_of(const grain_contents *all) {
    static const uint8_t head[] = {0x00, 'g', 'r', 'n', 0x02, 0x01};
    rewritten out = {NULL, 0, 0, false};
    for (size_t i = 0; i < sizeof head; i++)
        put_byte(&out, head[i]);
    put_number(&out, all->id_low);
    put_number(&out, all->id_high);
    put_bytes(&out, all->table, all->table_len);
    put_bytes(&out, all->stream, all->stream_len);
    return out;
}

/* Whether a stripped file has no positions, and all else that the file has which was read. */
static bool is_bare(const uint8_t *bytes, size_t len, const grain_contents *old) {
    grain_file *file;
    if (reads(bytes, len, &file) != GRAIN_ACCEPTED)
        return false;
    const grain_contents *bare = grain_file_contents(file);
    grain_place place;
    bool is = !bare->has_positions && bare->positions == 0 && writes_again(bare, bytes, len);
    for (uint32_t slot = 0; slot < 5; slot++)
        is = is && !grain_stream_place(bare->stream, bare->stream_len, slot, &place);
    is = is && bare->id_low == old->id_low && bare->constants_len == old->constants_len && bare->source_len == old->source_len;
    is = is && bare->program.code_len == old->program.code_len && bare->functions_len == old->functions_len;
    is = is && bare->program.pools.steps_len == old->program.pools.steps_len && bare->stream_len == old->stream_len;
    grain_file_free(file);
    return is;
}

static void files_are_stripped(void) {
    uint8_t bytes[sizeof sample + 1], sidecar_bytes[64];
    grain_room room = {bytes, sizeof bytes, 77}, sidecar = {sidecar_bytes, sizeof sidecar_bytes, 77}, none = {NULL, 0, 77};
    grain_file *file;
    grain_read_error error = {77, 77, 77, 77, 77};
    const grain_limits deep = {1000, 4096, GRAIN_DEPTH_MAX + 1};
    if (reads(sample, sizeof sample, &file) != GRAIN_ACCEPTED)
        return;
    rewritten wanted = sidecar_of(grain_file_contents(file));
    clear(bytes, sizeof bytes), clear(sidecar_bytes, sizeof sidecar_bytes);
    CHECK(!wanted.failed && wanted.len < sizeof sidecar_bytes);
    grain_room short_sidecar = {sidecar_bytes, wanted.len - 1, 77};
    CHECK(grain_file_strip(sample, sizeof sample, NULL, &room, &short_sidecar, &error) == GRAIN_SHORT);
    CHECK(room.size < sizeof sample && short_sidecar.size == wanted.len);
    size_t least = room.size;
    grain_room small = {bytes, least - 1, 77};
    CHECK(grain_file_strip(sample, sizeof sample, NULL, &small, &sidecar, NULL) == GRAIN_SHORT);
    CHECK(small.size == least && sidecar.size == wanted.len);
    CHECK(is_clear(bytes, sizeof bytes) && is_clear(sidecar_bytes, sizeof sidecar_bytes));
    room.size = sidecar.size = 77;
    CHECK(grain_file_strip(sample, sizeof sample, &deep, &room, &sidecar, &error) == GRAIN_BAD_LIMIT && error.cause == 77);
    CHECK(grain_file_strip(sample, 20, NULL, &room, &sidecar, &error) == GRAIN_MALFORMED);
    CHECK(error.at == 20 && room.size == 77 && sidecar.size == 77);
    CHECK(grain_file_strip(NULL, 0, NULL, &none, &none, NULL) == GRAIN_MALFORMED && none.size == 77);
    CHECK(is_clear(bytes, sizeof bytes) && is_clear(sidecar_bytes, sizeof sidecar_bytes));
    CHECK(grain_file_strip(sample, sizeof sample, NULL, &room, &sidecar, NULL) == GRAIN_ACCEPTED);
    CHECK(room.size == least && is_bare(bytes, room.size, grain_file_contents(file)));
    CHECK(is_clear(bytes + room.size, sizeof bytes - room.size));
    CHECK(sidecar.size == wanted.len && memcmp(sidecar_bytes, wanted.bytes, wanted.len) == 0);
    CHECK(sidecar_bytes[sidecar.size] == 77);
    free(wanted.bytes);
    grain_file_free(file);
}

/* Lists of places that no sidecar gives back: stripping refuses them. */
static void places_that_no_sidecar_gives_back_stay(void) {
    static const uint8_t files[][40] = {
        /* LoadConst(0), Return: a place inside of the first instruction; too few places; too many; none at all */
        {4, 0x00, 0x01, 0x01, 0x01, 0x00, 0x00},
        {3, 0x01, 0x01, 0x01, 0x00, 0x00},
        {5, 0x01, 0x01, 0x01, 0x00, 0x00, 0x00, 0x00},
        {4, 0x00, 0x00, 0x00, 0x00},
    };
    static const size_t lengths[] = {7, 6, 8, 5};
    static const uint8_t program[] = {0x00, 'g', 'r', 'n', 0x02, 0x00, 0x00, 0x07, 0x00, 0x04, 0x01, 0x00, 0x00, 0x13, 0x00, 0x04,
                                      0x01, 0x00, 0x00, 0x01, 0x03, 0x2a, 0x00, 0x00, 0x00, 0x00, 0x00, 0x01};
    for (size_t i = 0; i < LENGTH(files); i++) {
        uint8_t given[64], bytes[64], sidecar_bytes[64];
        grain_room room = {bytes, sizeof bytes, 77}, sidecar = {sidecar_bytes, sizeof sidecar_bytes, 77};
        grain_file *file;
        memcpy(given, program, sizeof program);
        memcpy(given + sizeof program, files[i], lengths[i]);
        clear(bytes, sizeof bytes), clear(sidecar_bytes, sizeof sidecar_bytes);
        CHECK(reads(given, sizeof program + lengths[i], &file) == GRAIN_ACCEPTED);
        CHECK(grain_file_strip(given, sizeof program + lengths[i], NULL, &room, &sidecar, NULL) == GRAIN_NOT_RESTORABLE);
        CHECK(room.size == 77 && sidecar.size == 77);
        CHECK(is_clear(bytes, sizeof bytes) && is_clear(sidecar_bytes, sizeof sidecar_bytes));
        grain_file_free(file);
    }
}

static void refusals_are_named(void) {
    grain_file *file = (grain_file *)&wrong;
    grain_read_error error = {77, 77, 77, 77, 77};
    const grain_limits small = {10, 4096, 64}, flat = {1000, 4096, 1}, no_cases = {1000, 1, 64};
    const grain_limits deepest = {1000, 4096, GRAIN_DEPTH_MAX}, deep = {1000, 4096, GRAIN_DEPTH_MAX + 1};
    char text[GRAIN_TEXT_SIZE];
    CHECK(grain_file_read(&file, sample, 20, &deep, &error) == GRAIN_BAD_LIMIT && file == NULL && error.cause == 77);
    CHECK(grain_file_read(&file, sample, 20, &deepest, &error) == GRAIN_MALFORMED && file == NULL);
    CHECK(grain_file_read(&file, sample, 20, NULL, &error) == GRAIN_MALFORMED && file == NULL);
    CHECK(error.cause == GRAIN_CAUSE_TRUNCATED && error.part == GRAIN_PART_FUNCTION && error.at == 20 && error.index == 0);
    CHECK(grain_read_error_text(&error, text, sizeof text) != 0);
    CHECK(strcmp(text, "byte 20, in function 0: the file ends within a field") == 0);
    CHECK(grain_read_error_text(&error, text, 5) > 5 && strcmp(text, "byte") == 0);
    CHECK(grain_file_read(&file, sample, sizeof sample, &small, &error) == GRAIN_MALFORMED);
    CHECK(error.cause == GRAIN_CAUSE_TOO_LARGE && error.at == sizeof sample && error.limit == 10);
    CHECK(grain_file_read(&file, sample, sizeof sample, &flat, &error) == GRAIN_MALFORMED);
    CHECK(error.cause == GRAIN_CAUSE_TOO_DEEP && error.part == GRAIN_PART_CONSTANT && error.index == 8);
    CHECK(grain_file_read(&file, sample, sizeof sample, &no_cases, &error) == GRAIN_MALFORMED);
    CHECK(error.cause == GRAIN_CAUSE_TOO_MANY_CASES && error.part == GRAIN_PART_SWITCH);
    CHECK(grain_file_read(&file, NULL, 0, NULL, NULL) == GRAIN_MALFORMED && file == NULL);
    error.part = 25;
    CHECK(grain_read_error_text(&error, text, sizeof text) == 0);
}

/* Each byte changed in a few ways and each prefix, at the end of a page behind which nothing may be read. */
static void near_misses_are_answered(void) {
    size_t page = (size_t)sysconf(_SC_PAGESIZE), files = 0;
    uint8_t *pages = mmap(NULL, 2 * page, PROT_READ | PROT_WRITE, MAP_PRIVATE | MAP_ANONYMOUS, -1, 0);
    if (pages == MAP_FAILED || mprotect(pages + page, page, PROT_NONE) != 0) {
        printf("no pages\n");
        wrong++;
        return;
    }
    uint8_t *bytes = pages + page - sizeof sample;
    static const uint8_t changes[] = {0x01, 0x80, 0xff, 0x40};
    for (size_t i = 0; i < sizeof sample * LENGTH(changes); i++) {
        grain_file *file;
        memcpy(bytes, sample, sizeof sample);
        bytes[i / LENGTH(changes)] ^= changes[i % LENGTH(changes)];
        if (reads(bytes, sizeof sample, &file) == GRAIN_ACCEPTED) {
            files++;
            CHECK(writes_again(grain_file_contents(file), bytes, sizeof sample));
        }
        grain_file_free(file);
    }
    for (size_t len = 0; len < sizeof sample; len++) {
        grain_file *file;
        memcpy(pages + page - len, sample, len);
        CHECK(reads(pages + page - len, len, &file) == GRAIN_MALFORMED);
    }
    CHECK(files > 100 && files < sizeof sample * LENGTH(changes));
    munmap(pages, 2 * page);
}

/* Each allocation is refused in turn, of reading and of verifying. */
static void memory_may_lack(void) {
    uint16_t depths[3];
    for (long n = 0; n < 1000; n++) {
        grain_file *file;
        left = n;
        grain_status status = grain_file_read(&file, sample, sizeof sample, NULL, NULL);
        CHECK(status == GRAIN_OUT_OF_MEMORY || status == GRAIN_ACCEPTED);
        if (status == GRAIN_ACCEPTED)
            status = grain_file_verify(NULL, file, GRAIN_CAP_ALL, 12, depths, 3, NULL, NULL);
        bool was_refused = left == 0;
        left = -1;
        grain_file_free(file);
        CHECK(live == 0);
        if (status == GRAIN_ACCEPTED) {
            CHECK(n > 20);
            printf("read and verified: %ld allocations refused in turn\n", n);
            return;
        }
        CHECK(status == GRAIN_OUT_OF_MEMORY && was_refused);
    }
    CHECK(false);
}

/* Each allocation is refused in turn, of tightening and of stripping. */
static void memory_may_lack_for_changes(void) {
    uint8_t bytes[sizeof sample], sidecar_bytes[64];
    for (long n = 0; n < 1000; n++) {
        grain_room room = {bytes, sizeof bytes, 77}, sidecar = {sidecar_bytes, sizeof sidecar_bytes, 77};
        grain_report report = {{77, 77, 77, 77, 77}, 77};
        clear(bytes, sizeof bytes), clear(sidecar_bytes, sizeof sidecar_bytes);
        left = n;
        grain_status tightened = grain_file_tighten(sample, sizeof sample, NULL, 12, &room, NULL, &report);
        bool was_refused = left == 0;
        left = -1;
        CHECK(live == 0 && (tightened == GRAIN_ACCEPTED || (tightened == GRAIN_OUT_OF_MEMORY && was_refused)));
        CHECK(tightened == GRAIN_ACCEPTED || (room.size == 77 && report.visited == 77 && is_clear(bytes, sizeof bytes)));
        room.size = 77;
        clear(bytes, sizeof bytes);
        left = n;
        grain_status stripped = grain_file_strip(sample, sizeof sample, NULL, &room, &sidecar, NULL);
        was_refused = left == 0;
        left = -1;
        CHECK(live == 0 && (stripped == GRAIN_ACCEPTED || (stripped == GRAIN_OUT_OF_MEMORY && was_refused)));
        CHECK(stripped == GRAIN_ACCEPTED || (room.size == 77 && sidecar.size == 77 && is_clear(bytes, sizeof bytes)));
        CHECK(stripped == GRAIN_ACCEPTED || is_clear(sidecar_bytes, sizeof sidecar_bytes));
        if (tightened == GRAIN_ACCEPTED && stripped == GRAIN_ACCEPTED) {
            CHECK(n > 20);
            printf("tightened and stripped: %ld allocations refused in turn\n", n);
            return;
        }
    }
    CHECK(false);
}

int main(void) {
    all_is_read();
    files_are_verified();
    callees_are_found();
    files_are_tightened();
    files_are_stripped();
    places_that_no_sidecar_gives_back_stay();
    refusals_are_named();
    near_misses_are_answered();
#ifndef SHARED
    memory_may_lack();
    memory_may_lack_for_changes();
    CHECK(live == 0);
#else
    (void)memory_may_lack, (void)memory_may_lack_for_changes, (void)is_refused, (void)live;
#endif
    printf("files: %d wrong\n", wrong);
    return wrong != 0;
}
