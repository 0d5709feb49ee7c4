/* Programs at random, from a fixed seed, each of whose lists ends at a page that can't be read or written. Empty lists point
 * at such a page, or are NULL. The calls have to agree with each other, and to leave what they aren't said to write.
 *
 *     guard [ROUNDS [SEED]] */
#define _DEFAULT_SOURCE
#include "grain.h"

#include <stdlib.h>
#include <string.h>
#include <sys/mman.h>

#include "checks.h"

enum { PAGE = 4096, MOST = 8 };

static uint64_t state;

/* A number below this one. */
static uint32_t below(uint32_t bound) {
    state ^= state << 13;
    state ^= state >> 7;
    state ^= state << 17;
    return (uint32_t)((state >> 32) % bound);
}

static bool one_in(uint32_t many) {
    return below(many) == 0;
}

/* A number that is usually small, and sometimes at a limit. */
static uint32_t number(void) {
    static const uint32_t limits[] = {0x7f, 0xff, 0xffff, 0x10000, 0x7fffffff, 0xffffffff};
    return one_in(40) ? limits[below(LENGTH(limits))] : below(4);
}

/* A page, and behind it one that can't be used. Lists of one kind are copied there. */
typedef struct {
    uint8_t *page;
} guarded;

static guarded guard(void) {
    uint8_t *pages = mmap(NULL, 2 * PAGE, PROT_READ | PROT_WRITE, MAP_PRIVATE | MAP_ANONYMOUS, -1, 0);
    if (pages == MAP_FAILED || mprotect(pages + PAGE, PAGE, PROT_NONE) != 0)
        exit(2);
    return (guarded){pages};
}

/* The last bytes of the page, of this number; where there are none, the page behind, or NULL. */
static void *room(guarded at, size_t size) {
    memset(at.page, 0xa5, PAGE);
    return size == 0 && one_in(2) ? NULL : at.page + PAGE - size;
}

static void *copied(guarded at, const void *list, size_t size) {
    void *to = room(at, size);
    if (size != 0)
        memcpy(to, list, size);
    return to;
}

#define COPIED(at, list, many) copied(at, list, (many) * sizeof *(list))

/* Where the lists stand. */
static struct {
    guarded code, chunks, constants, names, starts, chains, steps, switches, cases, ranges, out, more, bytes;
} pages;

static size_t random_code(uint8_t *code, size_t most) {
#define TAG(tag, name, width, fields, quiet) {tag, width},
    static const uint8_t instructions[][2] = {GRAIN_INSTRUCTIONS(TAG)};
#undef TAG
    size_t length = 0;
    for (uint32_t left = below(10); left > 0; left--) {
        const uint8_t *each = instructions[below(one_in(3) ? LENGTH(instructions) : 40)];
        if (length + each[1] > most)
            break;
        code[length] = each[0];
        for (size_t i = 1; i < each[1]; i++)
            code[length + i] = one_in(20) ? (uint8_t)below(256) : i == 1 ? (uint8_t)below(30) : 0;
        length += each[1];
    }
    return length > 0 && one_in(20) ? length - 1 : length;
}

static void random_names(grain_pools *pools) {
    static uint8_t names[MOST * 3];
    static uint32_t starts[MOST + 1];
    size_t many = below(MOST + 1), length = 0;
    for (size_t i = 0; i < many; i++) {
        for (uint32_t left = below(4); left > 0; left--)
            names[length++] = (uint8_t)(one_in(30) ? below(256) : below(128));
        starts[i + 1] = one_in(60) ? number() : (uint32_t)length;
    }
    pools->names_len = length;
    pools->names = COPIED(pages.names, names, length);
    pools->starts_len = many == 0 && length == 0 && one_in(2) ? 0 : many + 1;
    pools->starts = COPIED(pages.starts, starts, pools->starts_len);
}

static void random_chains(grain_pools *pools) {
    static grain_chain chains[MOST];
    static grain_step steps[MOST * 4];
    size_t many = below(MOST), all = 0;
    for (size_t i = 0; i < many; i++) {
        uint32_t root = below(one_in(60) ? 6 : 4), tail = below(one_in(60) ? 5 : 3);
        chains[i] = (grain_chain){root,     root < 2 ? number() : 0, below(4), tail, tail == 2 ? number() : 0,
                                  (uint16_t)below(5), (uint16_t)(root == 0 ? number() : 0)};
        for (uint32_t left = chains[i].steps; left > 0; left--) {
            uint32_t kind = below(one_in(60) ? 5 : 3);
            steps[all++] = (grain_step){kind, kind != 0 ? number() : 0, kind == 1 ? number() : 0, kind == 1 ? number() : 0,
                                        (uint16_t)(kind != 1 ? number() : 0), (uint8_t)(kind == 2 ? below(3) : 0)};
        }
    }
    pools->chains_len = many;
    pools->chains = COPIED(pages.chains, chains, many);
    pools->steps_len = all > 0 && one_in(60) ? all - 1 : all;
    pools->steps = COPIED(pages.steps, steps, pools->steps_len);
}

static void random_switches(grain_pools *pools) {
    static grain_switch switches[MOST];
    static grain_case cases[MOST * 3];
    static uint32_t ranges[MOST * 3];
    size_t many = below(MOST), case_count = 0, range_count = 0;
    for (size_t i = 0; i < many; i++) {
        switches[i] = (grain_switch){below(4), below(4), below(40)};
        for (uint32_t left = switches[i].cases; left > 0; left--)
            cases[case_count++] = (grain_case){below(40), number()};
        for (uint32_t left = switches[i].ranges; left > 0; left--)
            ranges[range_count++] = below(40);
    }
    pools->switches_len = many;
    pools->switches = COPIED(pages.switches, switches, many);
    pools->cases_len = case_count > 0 && one_in(60) ? case_count - 1 : case_count;
    pools->cases = COPIED(pages.cases, cases, pools->cases_len);
    pools->ranges_len = range_count > 0 && one_in(60) ? range_count - 1 : range_count;
    pools->ranges = COPIED(pages.ranges, ranges, pools->ranges_len);
}

static grain_pools random_pools(void) {
    static grain_constant constants[MOST];
    grain_pools pools = GRAIN_POOLS_NONE;
    pools.constants_len = below(MOST);
    for (size_t i = 0; i < pools.constants_len; i++) {
        uint16_t is_known = (uint16_t)below(one_in(60) ? 3 : 2);
        constants[i] = (grain_constant){is_known, (uint16_t)(is_known != 0 && one_in(9) ? number() : 0)};
    }
    pools.constants = COPIED(pages.constants, constants, pools.constants_len);
    random_names(&pools);
    random_chains(&pools);
    random_switches(&pools);
    pools.operators = number();
    pools.op_assignments = number();
    pools.fragments = one_in(9) ? SIZE_MAX : number();
    pools.functions = number();
    return pools;
}

static grain_program random_program(void) {
    static uint8_t code[128];
    static grain_chunk chunks[MOST];
    grain_program program = {NULL, 0, NULL, 0, random_pools()};
    program.code_len = random_code(code, sizeof code);
    program.code = COPIED(pages.code, code, program.code_len);
    program.chunks_len = below(4);
    for (size_t i = 0; i < program.chunks_len; i++) {
        uint32_t length = (uint32_t)program.code_len;
        uint32_t declared = one_in(9) ? number() : 99;
        chunks[i] = (grain_chunk){one_in(4) ? number() : 0, one_in(6) ? number() : length, (uint16_t)declared};
    }
    program.chunks = COPIED(pages.chunks, chunks, program.chunks_len);
    return program;
}

static uint64_t span_of(const grain_program *program) {
    uint64_t sum = 0;
    for (size_t i = 0; i < program->chunks_len; i++) {
        uint64_t end = program->chunks[i].end < program->code_len ? program->chunks[i].end : program->code_len;
        sum += end > program->chunks[i].entry ? end - program->chunks[i].entry : 0;
    }
    return sum;
}

static bool is_filled(const void *from, size_t size, uint8_t with) {
    for (size_t i = 0; i < size; i++)
        if (((const uint8_t *)from)[i] != with)
            return false;
    return true;
}

static bool is_same(const grain_report *one, const grain_report *other) {
    const grain_refusal *a = &one->refusal, *b = &other->refusal;
    return one->visited == other->visited && a->flaw == b->flaw && a->chunk == b->chunk && a->at == b->at &&
           a->first == b->first && a->second == b->second;
}

/* One more than the greatest slot that an instruction of a chunk names, read by grain_instruction; 0 if none names one. */
static uint32_t count_slots(const grain_program *program, const grain_chunk *chunk) {
    grain_instruction_row found;
    uint32_t slots = 0;
    for (size_t at = chunk->entry; at < chunk->end; at += found.width) {
        if (!grain_instruction(program->code, program->code_len, at, &found))
            return UINT32_MAX;
        /* These have a length or a depth in its place. */
        bool has_none = found.tag == GRAIN_TAG_MAKE_ARRAY || found.tag == GRAIN_TAG_MAKE_MAP || found.tag == GRAIN_TAG_UNWIND_TO ||
                        found.tag == GRAIN_TAG_CHECK_ARRAY_SIZE || found.tag == GRAIN_TAG_CHECK_MAP_SIZE ||
                        found.tag == GRAIN_TAG_STATEMENT;
        for (size_t i = 0; i < LENGTH(found.fields); i++) {
            const grain_field *field = &found.fields[i];
            uint32_t named = field->kind == GRAIN_KIND_SLOT && !has_none ? field->value + 1 : 0;
            if (field->kind == GRAIN_KIND_CHAIN && program->pools.chains[field->value].root == GRAIN_ROOT_LOCAL)
                named = program->pools.chains[field->value].slot + 1u;
            slots = named > slots ? named : slots;
        }
    }
    return slots;
}

/* Verifies, and holds all calls that verify against each other. */
static grain_status verify(grain_scratch *scratch, uint16_t caps, const grain_program *program, grain_report *report) {
    size_t many = program->chunks_len;
    grain_report other = {{7, 7, 7, 7, 7}, 7}, third = other;
    uint16_t depths[MOST];
    memset(depths, 0x5a, sizeof depths);
    *report = other;
    grain_status status = grain_verify(NULL, caps, span_of(program), program, depths, many, NULL, report);
    uint16_t *guarded_depths = room(pages.out, many * sizeof *depths);
    uint32_t *slots = room(pages.more, many * sizeof *slots);
    CHECK(grain_verify(scratch, caps, GRAIN_NO_LIMIT, program, guarded_depths, many, slots, &other) == status);
    CHECK(is_filled(pages.more.page, PAGE - (status == GRAIN_ACCEPTED ? many : 0) * sizeof *slots, 0xa5));
    for (size_t i = 0; status == GRAIN_ACCEPTED && i < many; i++)
        CHECK(slots[i] == count_slots(program, &program->chunks[i]));
    if (status == GRAIN_ACCEPTED)
        CHECK(memcmp(depths, pages.out.page + PAGE - many * sizeof *depths, many * sizeof *depths) == 0);
    CHECK(is_filled(pages.out.page, PAGE - many * sizeof *depths, 0xa5));
    size_t written = status == GRAIN_ACCEPTED ? many : 0;
    CHECK(is_filled(depths + written, (MOST - written) * sizeof *depths, 0x5a));
    grain_chunk *tightened = room(pages.more, many * sizeof *tightened);
    CHECK(grain_tighten(one_in(2) ? scratch : NULL, caps, span_of(program), program, tightened, many, &third) == status);
    CHECK(is_same(report, &other) && is_same(report, &third));
    CHECK(status == GRAIN_ACCEPTED || status == GRAIN_REFUSED ? report->visited <= span_of(program) : report->visited == 7);
    CHECK((status == GRAIN_REFUSED) == (report->refusal.flaw != 7 || report->refusal.first != 7));
    CHECK((status == GRAIN_NOT_FLAT) == !grain_check_pools(&program->pools, NULL));
    if (status == GRAIN_ACCEPTED) {
        grain_program again = *program;
        again.chunks = tightened;
        CHECK(grain_verify(scratch, caps, GRAIN_NO_LIMIT, &again, depths, many, NULL, NULL) == GRAIN_ACCEPTED);
        for (size_t i = 0; i < many; i++)
            CHECK(tightened[i].max_stack == depths[i] && depths[i] <= program->chunks[i].max_stack);
    }
    if (span_of(program) > 0 && status != GRAIN_NOT_FLAT)
        CHECK(grain_verify(scratch, caps, span_of(program) - 1, program, depths, many, NULL, NULL) == GRAIN_TOO_MUCH_WORK);
    return status;
}

static int take(void *context, const char *text, size_t length) {
    for (size_t i = 0; i < length; i++)
        CHECK((text[i] >= ' ' && text[i] <= '~') || text[i] == '\n');
    *(size_t *)context += length;
    return 0;
}

/* Explains a chunk of a program that is verified with this answer. */
static void explain(uint16_t caps, const grain_program *program, size_t chunk, grain_status status,
                    const grain_report *report) {
    size_t rows_len = below(PAGE / sizeof(grain_row)), bases_len = below(20), listed = 0;
    grain_row *rows = room(pages.out, rows_len * sizeof *rows);
    grain_base *bases = room(pages.more, bases_len * sizeof *bases);
    grain_explanation found = {7, 7, 7, 7, {7, 7, 7, 7, 7}};
    grain_status explained = grain_explain(caps, program, chunk, rows, rows_len, bases, bases_len, &found);
    CHECK(is_filled(pages.out.page, PAGE - rows_len * sizeof *rows, 0xa5));
    CHECK(is_filled(pages.more.page, PAGE - bases_len * sizeof *bases, 0xa5));
    CHECK(grain_listing(caps, program, chunk, take, &listed) == explained);
    CHECK((listed != 0) == (explained == GRAIN_ACCEPTED || explained == GRAIN_REFUSED || explained == GRAIN_BAD_CODE));
    CHECK((status == GRAIN_NOT_FLAT) == (explained == GRAIN_NOT_FLAT));
    if (status == GRAIN_ACCEPTED)
        CHECK(explained == GRAIN_ACCEPTED);
    if (status == GRAIN_REFUSED && report->refusal.chunk == chunk)
        CHECK(explained == GRAIN_REFUSED && found.refusal.flaw == report->refusal.flaw);
    if (explained == GRAIN_ACCEPTED || explained == GRAIN_REFUSED) {
        const grain_chunk *its = &program->chunks[chunk];
        size_t most = its->end > its->entry ? its->end - its->entry : 0;
        CHECK(found.rows <= most && found.path <= most && found.other <= most && found.bases <= most);
        CHECK((explained == GRAIN_ACCEPTED) == (found.refusal.flaw == 7 && found.refusal.first == 7));
        for (size_t i = 0; i < found.bases && i < bases_len; i++)
            CHECK(bases[i].next == GRAIN_NO_BASE || bases[i].next < found.bases);
    } else {
        CHECK(found.rows == 7 && is_filled(pages.out.page, PAGE, 0xa5) && is_filled(pages.more.page, PAGE, 0xa5));
    }
}

/* Reads these bytes as code, as a table and as a stream. */
static void read_bytes(const uint8_t *list, size_t length) {
    const uint8_t *bytes = copied(pages.bytes, list, length);
    size_t places = below(20), count = 0, damage = 0, at = below(20);
    uint64_t named = 0;
    grain_place place;
    grain_instruction_row instruction;
    bool is_code = grain_count_instructions(bytes, length, &count, &damage);
    CHECK(is_code ? count <= length : damage < length);
    bool is_there = grain_instruction(bytes, length, at, &instruction);
    size_t size = below(GRAIN_TEXT_SIZE + 1);
    size_t written = grain_instruction_text(bytes, length, at, room(pages.out, size), size);
    CHECK((written != 0) == is_there && written < GRAIN_TEXT_SIZE);
    grain_table_place(bytes, length, number(), &place);
    grain_stream_place(bytes, length, number(), &place);
    grain_entry *entries = room(pages.out, places * sizeof *entries);
    CHECK(grain_table_entries(bytes, length, entries, places) <= length / 3);
    CHECK(grain_check_table(bytes, length, &named) <= GRAIN_TABLE_TRAILING_BYTES);
    grain_place *sites = room(pages.more, places * sizeof *sites);
    bool is_stream = grain_stream_places(bytes, length, sites, places, &count);
    CHECK(is_stream == (grain_check_stream(bytes, length, &named) == GRAIN_TABLE_SOUND));
}

static void write_refusal(void) {
    grain_refusal refusal = {below(17), number(), number(), number(), below(15)};
    size_t size = below(GRAIN_TEXT_SIZE + 1);
    char *text = room(pages.out, size);
    size_t length = grain_refusal_text(&refusal, text, size);
    bool is_ended = size == 0 || text[length < size ? length : size - 1] == 0;
    CHECK(length < GRAIN_TEXT_SIZE && (length == 0 ? is_filled(pages.out.page, PAGE, 0xa5) : is_ended));
}

static void one_round(grain_scratch *scratch, size_t *statuses) {
    static uint8_t bytes[24];
    grain_program program = random_program();
    uint16_t caps = one_in(4) ? (uint16_t)below(0x8000) : GRAIN_CAP_ALL;
    grain_report report;
    grain_status status = verify(scratch, caps, &program, &report);
    statuses[status]++;
    for (size_t chunk = 0; chunk < program.chunks_len; chunk++)
        explain(caps, &program, chunk, status, &report);
    if (status != GRAIN_NOT_FLAT) {
        grain_explanation found;
        CHECK(grain_explain(caps, &program, program.chunks_len, NULL, 0, NULL, 0, &found) == GRAIN_NO_CHUNK);
    }
    for (size_t i = 0; i < sizeof bytes; i++)
        bytes[i] = (uint8_t)(one_in(5) ? below(256) : below(4));
    read_bytes(program.code_len > 0 && one_in(2) ? program.code : bytes, below(sizeof bytes + 1) % (program.code_len + 1));
    read_bytes(bytes, below(sizeof bytes + 1));
    write_refusal();
    if (one_in(50))
        grain_scratch_free(scratch);
}

int main(int argc, char **argv) {
    long rounds = argc > 1 ? atol(argv[1]) : 4000;
    state = argc > 2 ? strtoull(argv[2], NULL, 10) : 0x9e3779b97f4a7c15;
    guarded *each = (guarded *)&pages;
    for (size_t i = 0; i < sizeof pages / sizeof *each; i++)
        each[i] = guard();
    grain_scratch scratch = GRAIN_SCRATCH_NONE;
    size_t statuses[10] = {0};
    for (long round = 0; round < rounds && wrong < 20; round++)
        one_round(&scratch, statuses);
    grain_scratch_free(&scratch);
    printf("guard: %ld programs, %zu accepted, %zu refused, %zu not flat: %d wrong\n", rounds, statuses[GRAIN_ACCEPTED],
           statuses[GRAIN_REFUSED], statuses[GRAIN_NOT_FLAT], wrong);
    return wrong != 0;
}
