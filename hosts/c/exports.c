/* Each function of grain.h: what it returns, what it writes, and that all else stays. */
#include "grain.h"

#include "checks.h"

static const grain_refusal unwritten = {77, 77, 77, 77, 77};
static const grain_report unwritten_report = {{77, 77, 77, 77, 77}, 77};

static bool is_refusal(const grain_refusal *refusal, uint32_t flaw, uint64_t chunk, uint64_t at, uint64_t first,
                       uint64_t second) {
    return refusal->flaw == flaw && refusal->chunk == chunk && refusal->at == at && refusal->first == first &&
           refusal->second == second;
}

static bool is_unwritten(const grain_refusal *refusal) {
    return is_refusal(refusal, 77, 77, 77, 77, 77);
}

static bool is_text(const char *text, const char *wanted) {
    size_t i = 0;
    while (wanted[i] != 0 && text[i] == wanted[i])
        i++;
    return text[i] == wanted[i];
}

/* A name, a chain of one property, and a switch of two cases and a range. */
static const grain_constant constants[] = {{1, 0}, {0, 0}};
static const uint8_t names[] = {'x'};
static const uint32_t starts[] = {0, 1};
static const grain_chain chains[] = {{.root = GRAIN_ROOT_TEMPORARY, .steps = 1, .tail = GRAIN_TAIL_READ}};
static const grain_step steps[] = {{.kind = GRAIN_STEP_PROPERTY}};
static const grain_switch switches[] = {{.cases = 2, .ranges = 1, .otherwise = 6}};
static const grain_case cases[] = {{4, 1}, {6, 0}};
static const uint32_t ranges[] = {6, 6};

static const grain_pools all_pools = {
    .constants = constants, .constants_len = LENGTH(constants),
    .names = names, .names_len = LENGTH(names),
    .starts = starts, .starts_len = LENGTH(starts),
    .chains = chains, .chains_len = LENGTH(chains),
    .steps = steps, .steps_len = LENGTH(steps),
    .switches = switches, .switches_len = LENGTH(switches),
    .cases = cases, .cases_len = LENGTH(cases),
    .ranges = ranges, .ranges_len = 1,
};

/* Unit, Switch(0), Unit, Return, Unit, Return; and Unit, Chain(0), Return. Each is one chunk. */
static const uint8_t switch_code[] = {0x02, 0x18, 0x00, 0x00, 0x02, 0x13, 0x02, 0x13};
static const uint8_t chain_code[] = {0x02, 0x16, 0x00, 0x00, 0x13};
static const grain_chunk switch_chunks[] = {{0, 8, 8}};
static const grain_chunk chain_chunks[] = {{0, 5, 8}};

/* A try that is left early, and a loop that leaves an operand each round; and code that lacks an operand. */
static const uint8_t try_code[] = {0x23, 0x07, 0, 0, 0, 0x22, 0x13, 0x02, 0x02, 0x22, 0x13};
static const uint8_t loop_code[] = {0x02, 0x1d, 0x1e, 0x0c, 0, 0, 0, 0x0c, 0x02, 0, 0, 0, 0x02, 0x13};
static const uint8_t lacking_code[] = {0x0b, 0x13};
static const grain_chunk try_chunks[] = {{0, sizeof try_code, 8}};
static const grain_chunk loop_chunks[] = {{0, sizeof loop_code, 8}};
static const grain_chunk lacking_chunks[] = {{0, 2, 8}};

static grain_program on_switch(void) {
    return (grain_program){switch_code, sizeof switch_code, switch_chunks, 1, all_pools};
}

static grain_program on_chain(void) {
    return (grain_program){chain_code, sizeof chain_code, chain_chunks, 1, all_pools};
}

static grain_program without_pools(const uint8_t *code, size_t code_len, const grain_chunk *chunks, size_t chunks_len) {
    return (grain_program){code, code_len, chunks, chunks_len, GRAIN_POOLS_NONE};
}

/* The slots that each chunk names: of instructions and of roots of chains, reached or not, and of no other chunk. */
static void slots_are_counted(void) {
    static const uint8_t code[] = {
        0x02, 0x06, 0x02, 0x01, 0x02, 0x13,       /* Unit, StoreLocal(258), Unit, Return */
        0x02, 0x13, 0x05, 0xff, 0xff, 0x13,       /* Unit, Return, LoadLocal(65535), Return */
        0x16, 0x00, 0x00, 0x05, 0x01, 0x00, 0x13, /* Chain(0), LoadLocal(1), Return */
        0x12, 0x02, 0x13,                         /* Tick, Unit, Return */
    };
    static const grain_chunk chunks[] = {{0, 6, 1}, {6, 12, 1}, {12, 19, 2}, {19, 22, 1}, {0, 6, 1}};
    static const grain_chain roots[] = {{.root = GRAIN_ROOT_LOCAL, .tail = GRAIN_TAIL_READ, .slot = 7}};
    grain_program program = without_pools(code, sizeof code, chunks, LENGTH(chunks));
    grain_scratch scratch = GRAIN_SCRATCH_NONE;
    uint16_t depths[LENGTH(chunks) + 1];
    uint32_t slots[LENGTH(chunks) + 1] = {77, 77, 77, 77, 77, 77};
    program.pools.names = names;
    program.pools.names_len = LENGTH(names);
    program.pools.starts = starts;
    program.pools.starts_len = LENGTH(starts);
    program.pools.chains = roots;
    program.pools.chains_len = 1;
    CHECK(grain_verify(NULL, GRAIN_CAP_ALL, 1, &program, depths, LENGTH(depths), slots, NULL) == GRAIN_TOO_MUCH_WORK);
    CHECK(grain_verify(NULL, GRAIN_CAP_ALL, 99, &program, depths, 0, slots, NULL) == GRAIN_SHORT);
    program.code_len--;
    CHECK(grain_verify(NULL, GRAIN_CAP_ALL, 99, &program, depths, LENGTH(depths), slots, NULL) == GRAIN_REFUSED);
    CHECK(slots[0] == 77 && slots[4] == 77);
    program.code_len++;
    for (int i = 0; i < 2; i++) {
        grain_scratch *used = i == 0 ? NULL : &scratch;
        CHECK(grain_verify(used, GRAIN_CAP_ALL, 99, &program, depths, LENGTH(depths), slots, NULL) == GRAIN_ACCEPTED);
        CHECK(slots[0] == 259 && slots[1] == 65536 && slots[2] == 8 && slots[3] == 0 && slots[4] == 259 && slots[5] == 77);
        slots[0] = slots[4] = 77;
    }
    grain_scratch_free(&scratch);
}

static void statuses_have_texts(void) {
    CHECK(is_text(grain_status_text(GRAIN_ACCEPTED), "accepted"));
    CHECK(is_text(grain_status_text(GRAIN_MALFORMED), "no program file within the limits"));
    for (int status = GRAIN_ACCEPTED; status <= GRAIN_NOT_RESTORABLE; status++)
        CHECK(!is_text(grain_status_text((grain_status)status), "no status of this interface"));
    CHECK(is_text(grain_status_text((grain_status)(GRAIN_FOREIGN_CONSTANT + 1)), "no status of this interface"));
}

static void verifies(const grain_program *program, uint16_t depth, uint64_t visited) {
    grain_program odd = *program;
    odd.pools.ranges_len = 2;
    uint16_t depths[] = {77, 78};
    grain_report report = unwritten_report;
    size_t span = program->code_len;
    CHECK(grain_verify(NULL, GRAIN_CAP_ALL, GRAIN_NO_LIMIT, program, depths, 0, NULL, &report) == GRAIN_SHORT);
    CHECK(grain_verify(NULL, GRAIN_CAP_ALL, GRAIN_NO_LIMIT, &odd, depths, 2, NULL, &report) == GRAIN_NOT_FLAT);
    CHECK(grain_verify(NULL, GRAIN_CAP_ALL, span - 1, program, depths, 2, NULL, &report) == GRAIN_TOO_MUCH_WORK);
    CHECK(grain_verify(NULL, GRAIN_CAP_ALL, 0, program, depths, 0, NULL, &report) == GRAIN_SHORT);
    CHECK(grain_verify(NULL, GRAIN_CAP_ALL, 0, &odd, depths, 0, NULL, &report) == GRAIN_NOT_FLAT);
    CHECK(depths[0] == 77 && report.visited == 77 && is_unwritten(&report.refusal));
    CHECK(grain_verify(NULL, GRAIN_CAP_ALL, span, program, depths, 2, NULL, &report) == GRAIN_ACCEPTED);
    CHECK(depths[0] == depth && depths[1] == 78 && report.visited == visited && is_unwritten(&report.refusal));
    CHECK(grain_verify(NULL, GRAIN_CAP_ALL, span, program, depths, 2, NULL, NULL) == GRAIN_ACCEPTED);
}

/* The limit is compared with the sum over the chunks, cut to the code, before anything of the program is tested. */
static void work_is_limited(void) {
    static const grain_chunk chunks[] = {{0, 2, 8}, {0, 2, 8}, {1, UINT32_MAX, 8}, {9, 1, 8}, {7, 3, 8}};
    grain_program program = without_pools(lacking_code, sizeof lacking_code, chunks, LENGTH(chunks));
    uint16_t depths[LENGTH(chunks)] = {77};
    grain_report report = unwritten_report;
    CHECK(grain_verify(NULL, GRAIN_CAP_ALL, 4, &program, depths, LENGTH(depths), NULL, &report) == GRAIN_TOO_MUCH_WORK);
    CHECK(report.visited == 77 && depths[0] == 77);
    CHECK(grain_verify(NULL, GRAIN_CAP_ALL, 5, &program, depths, LENGTH(depths), NULL, &report) == GRAIN_REFUSED);
    CHECK(report.visited <= 5 && report.refusal.flaw == GRAIN_FLAW_UNDERFLOW);
    grain_chunk tightened[LENGTH(chunks)] = {{77, 77, 77}};
    CHECK(grain_tighten(NULL, GRAIN_CAP_ALL, 4, &program, tightened, LENGTH(tightened), &report) == GRAIN_TOO_MUCH_WORK);
    CHECK(tightened[0].end == 77);
}

/* One scratch answers for one program after another, larger, smaller and refused ones, as the library does without one. */
static void programs_share_a_scratch(void) {
    const struct {
        grain_program program;
        grain_status status;
        uint16_t depth;
        uint64_t visited;
    } rows[] = {
        {on_switch(), GRAIN_ACCEPTED, 2, 6},
        {without_pools(lacking_code, 2, lacking_chunks, 1), GRAIN_REFUSED, 77, 1},
        {on_chain(), GRAIN_ACCEPTED, 1, 3},
        {on_switch(), GRAIN_ACCEPTED, 2, 6},
    };
    grain_scratch scratch = GRAIN_SCRATCH_NONE;
    for (size_t i = 0; i < 2 * LENGTH(rows); i++) {
        uint16_t depths[] = {77, 78};
        grain_report report = unwritten_report;
        size_t k = i % LENGTH(rows);
        CHECK(grain_verify(&scratch, GRAIN_CAP_ALL, 8, &rows[k].program, depths, 2, NULL, &report) == rows[k].status);
        CHECK(depths[0] == rows[k].depth && depths[1] == 78 && report.visited == rows[k].visited);
        CHECK(rows[k].status == GRAIN_ACCEPTED ? is_unwritten(&report.refusal)
                                               : is_refusal(&report.refusal, GRAIN_FLAW_UNDERFLOW, 0, 0, 1, 0));
        if (i == LENGTH(rows))
            grain_scratch_free(&scratch);
    }
    grain_scratch_free(&scratch);
    grain_scratch_free(&scratch);
}

/* Why it is refused, after this number of instructions was visited. */
static grain_refusal refused(uint16_t caps, const grain_program *program, uint64_t visited) {
    uint16_t depths[] = {77, 78, 79};
    grain_report report = unwritten_report;
    CHECK(grain_verify(NULL, caps, GRAIN_NO_LIMIT, program, depths, LENGTH(depths), NULL, &report) == GRAIN_REFUSED);
    CHECK(depths[0] == 77 && depths[1] == 78 && depths[2] == 79 && report.visited == visited);
    CHECK(grain_verify(NULL, caps, GRAIN_NO_LIMIT, program, depths, LENGTH(depths), NULL, NULL) == GRAIN_REFUSED);
    return report.refusal;
}

static void refusals_are_written(void) {
    static const uint8_t code[] = {0x02, 0x13, 0x0b, 0x13};
    static const grain_chunk chunks[] = {{0, 2, 1}, {0, 2, 1}, {2, 4, 1}};
    grain_program program = without_pools(code, sizeof code, chunks, 3);
    grain_refusal refusal = refused(GRAIN_CAP_ALL, &program, 5);
    CHECK(is_refusal(&refusal, GRAIN_FLAW_UNDERFLOW, 2, 2, 1, 0));

    program = on_chain();
    program.pools.names_len = 0;
    program.pools.starts_len = 1;
    refusal = refused(GRAIN_CAP_ALL, &program, 0);
    CHECK(is_refusal(&refusal, GRAIN_FLAW_BAD_INDEX, GRAIN_WHOLE_PROGRAM, 1, 0, GRAIN_KIND_NAME));

    program = on_chain();
    refusal = refused(GRAIN_CAP_NONE, &program, 2);
    CHECK(is_refusal(&refusal, GRAIN_FLAW_MISSING_CAPS, 0, 1, GRAIN_CAP_PROPERTY, 0));

    static const grain_constant needy[] = {{1, GRAIN_CAP_ARRAY}};
    program = without_pools(code, 2, chunks, 1);
    program.pools.constants = needy;
    program.pools.constants_len = 1;
    refusal = refused(GRAIN_CAP_BLOB, &program, 0);
    CHECK(is_refusal(&refusal, GRAIN_FLAW_MISSING_CAPS, GRAIN_WHOLE_PROGRAM, 0, GRAIN_CAP_ARRAY, GRAIN_CAP_BLOB));

    static const grain_step past_the_chain[] = {{.kind = GRAIN_STEP_INDEX, .operand = 1}};
    program = on_chain();
    program.pools.steps = past_the_chain;
    refusal = refused(GRAIN_CAP_ALL, &program, 0);
    CHECK(is_refusal(&refusal, GRAIN_FLAW_BAD_INDEX, GRAIN_WHOLE_PROGRAM, 1, 1, GRAIN_KIND_OPERAND));
}

static void tightens(grain_scratch *scratch, uint16_t declared) {
    grain_chunk chunk = {0, 8, declared}, tightened[] = {{77, 77, 77}, {78, 78, 78}};
    grain_program program = on_switch();
    program.chunks = &chunk;
    grain_report report = unwritten_report;
    CHECK(grain_tighten(scratch, GRAIN_CAP_ALL, 8, &program, tightened, 0, &report) == GRAIN_SHORT);
    CHECK(tightened[0].entry == 77 && report.visited == 77);
    grain_status status = grain_tighten(scratch, GRAIN_CAP_ALL, 8, &program, tightened, 2, &report);
    CHECK(chunk.entry == 0 && chunk.end == 8 && chunk.max_stack == declared);
    CHECK(tightened[1].entry == 78 && report.visited == 6);
    if (declared >= 2) {
        CHECK(status == GRAIN_ACCEPTED && is_unwritten(&report.refusal));
        CHECK(tightened[0].entry == 0 && tightened[0].end == 8 && tightened[0].max_stack == 2);
        uint16_t depth = 77;
        program.chunks = tightened;
        CHECK(grain_verify(scratch, GRAIN_CAP_ALL, 8, &program, &depth, 1, NULL, NULL) == GRAIN_ACCEPTED && depth == 2);
    } else {
        CHECK(status == GRAIN_REFUSED && tightened[0].entry == 77);
        CHECK(report.refusal.flaw == GRAIN_FLAW_STACK_EXCEEDS_DECLARED && report.refusal.first == 2);
    }
}

/* How the pools aren't flat. */
static bool is_flawed(const grain_pools *pools, uint32_t list, uint64_t index) {
    grain_pools_flaw flaw = {77, 77};
    return !grain_check_pools(pools, &flaw) && !grain_check_pools(pools, NULL) && flaw.list == list && flaw.index == index;
}

static void constants_and_names_are_checked(void) {
    grain_pools pools = all_pools;
    grain_pools_flaw flaw = {77, 77};
    CHECK(grain_check_pools(&pools, &flaw) && flaw.list == 77 && flaw.index == 77);
    static const grain_constant odd_constants[] = {{1, 0x8000}, {0, 1}};
    pools.constants = odd_constants;
    CHECK(is_flawed(&pools, GRAIN_LIST_CONSTANTS, 1));

    static const uint8_t odd_names[] = {'x', 0xc3};
    static const uint32_t cut[] = {0, 1, 2}, backwards[] = {0, 2, 1}, past[] = {0, 1, 3}, late[] = {1, 2};
    pools = all_pools;
    pools.names = odd_names;
    pools.names_len = 2;
    pools.starts = cut;
    pools.starts_len = 3;
    CHECK(is_flawed(&pools, GRAIN_LIST_NAMES, 1));
    static const uint8_t good_names[] = {'x', 'y'};
    pools.names = good_names;
    CHECK(grain_check_pools(&pools, NULL));
    pools.starts = backwards;
    CHECK(is_flawed(&pools, GRAIN_LIST_NAMES, 1));
    pools.starts = past;
    CHECK(is_flawed(&pools, GRAIN_LIST_NAMES, 1));
    pools.starts = cut;
    pools.starts_len = 2;
    CHECK(is_flawed(&pools, GRAIN_LIST_NAMES, 1));
    pools.starts = late;
    CHECK(is_flawed(&pools, GRAIN_LIST_NAMES, 0));
    pools.starts_len = 0;
    CHECK(is_flawed(&pools, GRAIN_LIST_NAMES, 0));
}

static void chains_and_switches_are_checked(void) {
    static const grain_chain odd_chains[] = {{.root = 7, .steps = 1}};
    static const grain_chain two_chains[] = {{.root = GRAIN_ROOT_THIS}, {.root = GRAIN_ROOT_THIS, .steps = 2}};
    static const grain_step odd_steps[] = {{.kind = GRAIN_STEP_INDEX, .argc = 1}};
    static const grain_switch more_cases[] = {{.cases = 3, .ranges = 1}}, more_ranges[] = {{.cases = 2, .ranges = 2}};
    static const grain_switch fewer_cases[] = {{.cases = 1, .ranges = 1}}, fewer_ranges[] = {{.cases = 2}};
    grain_pools pools = all_pools;
    pools.chains = odd_chains;
    CHECK(is_flawed(&pools, GRAIN_LIST_CHAINS, 0));
    pools = all_pools;
    pools.steps = odd_steps;
    CHECK(is_flawed(&pools, GRAIN_LIST_STEPS, 0));
    pools = all_pools;
    pools.chains = two_chains;
    pools.chains_len = 2;
    CHECK(is_flawed(&pools, GRAIN_LIST_CHAINS, 1));
    pools.chains_len = 1;
    CHECK(is_flawed(&pools, GRAIN_LIST_STEPS, 0));
    pools = all_pools;
    pools.switches = more_cases;
    CHECK(is_flawed(&pools, GRAIN_LIST_SWITCHES, 0));
    pools.switches = more_ranges;
    CHECK(is_flawed(&pools, GRAIN_LIST_SWITCHES, 0));
    pools.switches = fewer_cases;
    CHECK(is_flawed(&pools, GRAIN_LIST_CASES, 1));
    pools.switches = fewer_ranges;
    CHECK(is_flawed(&pools, GRAIN_LIST_RANGES, 0));
}

static void chunks_that_pass_are_explained(size_t room) {
    grain_program program = without_pools(try_code, sizeof try_code, try_chunks, 1);
    grain_row rows[8] = {{0, 0, 0, 0, 0}};
    grain_base bases[8] = {{7, 7, 7}};
    grain_explanation found = {77, 77, 77, 77, {77, 77, 77, 77, 77}};
    rows[6].at = rows[7].at = 77;
    CHECK(grain_explain(GRAIN_CAP_ALL, &program, 0, rows, room, bases, 8, &found) == GRAIN_ACCEPTED);
    CHECK(found.rows == 7 && found.path == 0 && found.other == 0 && found.bases == 1 && is_unwritten(&found.refusal));
    CHECK(rows[0].at == 0 && rows[0].base == GRAIN_NO_BASE && rows[0].from == GRAIN_NO_ADDRESS);
    CHECK(rows[1].at == 5 && rows[1].base == 0 && rows[1].from == 0 && rows[3].at == 7 && rows[3].from == 0);
    CHECK(bases[0].operands == 0 && bases[0].iterators == 0 && bases[0].next == GRAIN_NO_BASE);
    CHECK((rows[6].at == 10 && rows[6].operands == 2 && rows[6].base == GRAIN_NO_BASE) == (room == 8) && rows[7].at == 77);
}

static void conflicts_are_explained(void) {
    grain_program program = without_pools(loop_code, sizeof loop_code, loop_chunks, 1);
    grain_row rows[16] = {{0, 0, 0, 0, 0}};
    grain_base bases[1] = {{7, 7, 7}};
    grain_explanation found = {77, 77, 77, 77, {77, 77, 77, 77, 77}};
    CHECK(grain_explain(GRAIN_CAP_ALL, &program, 0, rows, 16, bases, 1, &found) == GRAIN_REFUSED);
    CHECK(is_refusal(&found.refusal, GRAIN_FLAW_DEPTH_CONFLICT, GRAIN_WHOLE_PROGRAM, 2, 0, 1));
    CHECK(found.path + found.other == 8 && found.path != 0 && found.other != 0 && found.bases == 0 && bases[0].next == 7);
    const grain_row *path = rows + found.rows, *other = path + found.path;
    const grain_row *last = path + found.path - 1, *other_last = other + found.other - 1;
    CHECK(path[0].at == 0 && other[0].at == 0 && path[0].operands == 0 && path[0].from == GRAIN_NO_ADDRESS);
    CHECK(last->at == 2 && other_last->at == 2 && last->operands != other_last->operands);
}

static void nothing_is_explained(void) {
    grain_program program = without_pools(loop_code, sizeof loop_code, loop_chunks, 1);
    grain_row rows[1] = {{77, 77, 77, 77, 77}};
    grain_base bases[1] = {{77, 77, 77}};
    grain_explanation found = {77, 77, 77, 77, {77, 77, 77, 77, 77}};
    CHECK(grain_explain(GRAIN_CAP_ALL, &program, 1, rows, 1, bases, 1, &found) == GRAIN_NO_CHUNK);
    CHECK(grain_explain(GRAIN_CAP_ALL, &program, SIZE_MAX, rows, 1, bases, 1, &found) == GRAIN_NO_CHUNK);
    program.code_len = 8;
    CHECK(grain_explain(GRAIN_CAP_ALL, &program, 0, rows, 1, bases, 1, &found) == GRAIN_BAD_CODE);
    program = on_switch();
    program.pools.ranges_len = 2;
    CHECK(grain_explain(GRAIN_CAP_ALL, &program, 0, rows, 1, bases, 1, &found) == GRAIN_NOT_FLAT);
    CHECK(found.rows == 77 && found.path == 77 && is_unwritten(&found.refusal) && rows[0].at == 77 && bases[0].next == 77);
}

/* A chunk that lies past the code is refused without a path. */
static void chunks_outside_are_explained(void) {
    static const grain_chunk outside[] = {{9, 1, 1}, {0, 99, 1}, {3, 3, 1}, {3, 8, 1}, {0, 3, 1}};
    grain_program program = without_pools(loop_code, sizeof loop_code, outside, LENGTH(outside));
    for (size_t i = 0; i < LENGTH(outside); i++) {
        grain_explanation found = {77, 77, 77, 77, {77, 77, 77, 77, 77}};
        CHECK(grain_explain(GRAIN_CAP_ALL, &program, i, NULL, 0, NULL, 0, &found) == GRAIN_REFUSED);
        CHECK(found.rows == 0 && found.path == 0 && found.other == 0 && !is_unwritten(&found.refusal));
    }
}

static void instructions_are_read(void) {
    static const uint8_t code[] = {0x02, 0x37, 0x01, 0x00, 0x02, 0x03, 0x00, 0x13};
    size_t count = 77, damage = 78;
    CHECK(grain_count_instructions(code, sizeof code, &count, &damage) && count == 3 && damage == 78);
    CHECK(!grain_count_instructions(code, 3, &count, &damage) && count == 3 && damage == 1);
    grain_instruction_row found = {0, 0, {{0, 0}, {0, 0}, {0, 0}}};
    CHECK(!grain_instruction(code, sizeof code, 8, &found) && found.width == 0);
    CHECK(!grain_instruction(code, sizeof code, SIZE_MAX, &found) && found.width == 0);
    CHECK(grain_instruction(code, sizeof code, 1, &found) && found.tag == GRAIN_TAG_CALL_NAMED_REF && found.width == 6);
    CHECK(found.fields[0].kind == GRAIN_KIND_NAME && found.fields[0].value == 1);
    CHECK(found.fields[1].kind == GRAIN_KIND_COUNT && found.fields[1].value == 2);
    CHECK(found.fields[2].kind == GRAIN_KIND_NAME && found.fields[2].value == 3);
}

/* What GRAIN_INSTRUCTIONS says of an instruction is what the library says. */
static void instruction_is(uint8_t tag, const char *name, uint8_t width, const char *fields, bool is_quiet) {
    static const char letters[] = " cntofhwy_saj";
    uint8_t code[8] = {tag};
    char text[GRAIN_TEXT_SIZE];
    grain_instruction_row found = {0, 0, {{0, 0}, {0, 0}, {0, 0}}};
    CHECK(grain_instruction(code, width, 0, &found) && found.tag == tag && found.width == width);
    CHECK(!grain_instruction(code, width - 1u, 0, &found));
    size_t many = 0;
    for (; fields[many] != 0; many++)
        CHECK(many < 3 && letters[found.fields[many].kind] == fields[many]);
    CHECK(many == 3 || found.fields[many].kind == GRAIN_KIND_NOTHING);
    CHECK(grain_is_quiet(tag) == is_quiet);
    size_t length = grain_instruction_text(code, sizeof code, 0, text, sizeof text);
    CHECK(length > 2 * many);
    text[length - 2 * many] = 0;
    CHECK(is_text(text, name));
}

static void list_of_instructions_is_that_of_the_library(void) {
    bool begins[256] = {false};
#define ROW(tag, name, width, fields, quiet) \
    instruction_is(GRAIN_TAG_##name, #name, width, fields, quiet); \
    begins[tag] = true;
    GRAIN_INSTRUCTIONS(ROW)
#undef ROW
    for (unsigned tag = 0; tag < 256; tag++) {
        uint8_t code[8] = {(uint8_t)tag};
        grain_instruction_row found;
        CHECK(grain_instruction(code, sizeof code, 0, &found) == begins[tag]);
    }
}

static void texts_are_written(void) {
    static const uint8_t code[] = {0x02, 0x37, 0x01, 0x00, 0x02, 0x03, 0x00, 0x01, 0xff, 0xff};
    grain_refusal refusal = {GRAIN_FLAW_BAD_INDEX, GRAIN_WHOLE_PROGRAM, 3, 7, GRAIN_KIND_NAME};
    char text[GRAIN_TEXT_SIZE], small[5] = {'M', 'M', 'M', 'M', 'M'};
    CHECK(grain_refusal_text(&refusal, text, sizeof text) == 32 && is_text(text, "bad-index at=3 index=7 what=name"));
    CHECK(grain_refusal_text(&refusal, small, 4) == 32 && is_text(small, "bad") && small[4] == 'M');
    CHECK(grain_refusal_text(&refusal, small, 0) == 32 && grain_refusal_text(&refusal, NULL, 0) == 32 && small[0] == 'b');
    CHECK(grain_refusal_text(&unwritten, text, sizeof text) == 0 && text[0] == 'b');
    refusal = (grain_refusal){GRAIN_FLAW_DECLARED_CAPS, GRAIN_WHOLE_PROGRAM, 0, GRAIN_CAP_IMPORT | GRAIN_CAP_BLOB, 0};
    CHECK(grain_refusal_text(&refusal, text, sizeof text) == 26 && is_text(text, "declared-caps missing=2004"));
    CHECK(grain_instruction_text(code, sizeof code, 1, text, sizeof text) == 20 && is_text(text, "CALL_NAMED_REF 1 2 3"));
    CHECK(grain_instruction_text(code, sizeof code, 0, text, 5) == 4 && is_text(text, "UNIT"));
    CHECK(grain_instruction_text(code, sizeof code, 7, small, 1) == 16 && small[0] == 0 && small[1] == 'a');
    CHECK(grain_instruction_text(code, sizeof code, 10, text, sizeof text) == 0 && text[0] == 'U');
}

static const uint8_t table[] = {0x04, 0x00, 0x01, 0x05, 0x03, 0x01, 0x0b, 0x25, 0x07, 0x02, 0x01, 0x09, 0x00};

static void tables_are_read(void) {
    grain_place place = {77, 78};
    uint64_t detail = 77;
    CHECK(!grain_table_place(table, sizeof table, 1, &place) && place.line == 77 && place.column == 78);
    CHECK(grain_table_place(table, sizeof table, 41, &place) && place.line == 9 && place.column == 0);
    CHECK(grain_check_table(table, sizeof table, &detail) == GRAIN_TABLE_SOUND && detail == 77);
    static const uint8_t twice[] = {0x02, 0x05, 0x01, 0x01, 0x00, 0x01, 0x01};
    CHECK(grain_check_table(twice, sizeof twice, &detail) == GRAIN_TABLE_OUT_OF_ORDER && detail == 5);
    grain_entry entries[5] = {{77, 77, 77}, {77, 77, 77}, {77, 77, 77}, {77, 77, 77}, {77, 77, 77}};
    CHECK(grain_table_entries(table, sizeof table, entries, 1) == 4 && entries[0].column == 5 && entries[1].column == 77);
    CHECK(grain_table_entries(table, sizeof table, entries, 5) == 4);
    CHECK(entries[0].address == 0 && entries[0].line == 1 && entries[0].column == 5);
    CHECK(entries[3].address == 41 && entries[3].line == 9 && entries[3].column == 0);
    CHECK(entries[4].address == 77);
}

static void streams_are_read(void) {
    static const uint8_t stream[] = {0x04, 0x01, 0x01, 0x00, 0x03, 0x01, 0x02, 0x01, 0x06};
    static const uint8_t longer[] = {0x01, 0x01, 0x01, 0xff};
    grain_place place = {77, 78};
    uint64_t detail = 77;
    CHECK(!grain_stream_place(stream, sizeof stream, 4, &place) && place.line == 77 && place.column == 78);
    CHECK(!grain_stream_place(stream, sizeof stream, 1, &place) && place.line == 77);
    CHECK(grain_stream_place(stream, sizeof stream, 3, &place) && place.line == 1 && place.column == 6);
    CHECK(grain_check_stream(stream, sizeof stream, &detail) == GRAIN_TABLE_SOUND && detail == 77);
    CHECK(grain_check_stream(longer, sizeof longer, &detail) == GRAIN_TABLE_TRAILING_BYTES && detail == 1);
    CHECK(grain_check_stream(stream, 8, &detail) == GRAIN_TABLE_TRUNCATED && detail == 0);
    grain_place sites[5] = {{77, 77}, {77, 77}, {77, 77}, {77, 77}, {77, 77}};
    size_t count = 77;
    CHECK(!grain_stream_places(stream, 8, sites, 5, &count) && count == 77 && sites[0].line == 77);
    CHECK(grain_stream_places(stream, sizeof stream, sites, 1, &count) && count == 4 && sites[0].line == 1);
    CHECK(sites[1].line == 77 && grain_stream_places(stream, sizeof stream, sites, 5, &count) && count == 4);
    CHECK(sites[1].line == 0 && sites[3].line == 1 && sites[3].column == 6 && sites[4].line == 77);
}

/* All bytes 0 is a program with nothing in it: each of its pointers is NULL. */
static void programs_of_null_are_taken(void) {
    static const grain_program nothing;
    static const grain_pools no_pools = GRAIN_POOLS_NONE;
    grain_program unit = without_pools(lacking_code + 1, 1, (const grain_chunk[]){{0, 1, 0}}, 1);
    grain_program no_chunks = without_pools(lacking_code, sizeof lacking_code, NULL, 0);
    grain_report report = unwritten_report;
    grain_scratch scratch = GRAIN_SCRATCH_NONE;
    uint16_t depth = 77;
    grain_chunk chunk = {77, 77, 77};
    CHECK(grain_verify(NULL, GRAIN_CAP_NONE, 0, &nothing, NULL, 0, NULL, NULL) == GRAIN_ACCEPTED);
    CHECK(grain_verify(&scratch, GRAIN_CAP_NONE, 0, &nothing, NULL, 0, NULL, &report) == GRAIN_ACCEPTED && report.visited == 0);
    CHECK(grain_verify(NULL, GRAIN_CAP_NONE, 0, &no_chunks, NULL, 0, NULL, NULL) == GRAIN_ACCEPTED);
    CHECK(grain_verify(NULL, GRAIN_CAP_NONE, 1, &unit, NULL, 0, NULL, NULL) == GRAIN_SHORT);
    CHECK(grain_verify(NULL, GRAIN_CAP_NONE, 1, &unit, &depth, 1, NULL, NULL) == GRAIN_ACCEPTED && depth == 0);
    CHECK(grain_tighten(NULL, GRAIN_CAP_NONE, 0, &nothing, NULL, 0, NULL) == GRAIN_ACCEPTED);
    CHECK(grain_tighten(&scratch, GRAIN_CAP_NONE, 0, &nothing, NULL, 0, NULL) == GRAIN_ACCEPTED);
    CHECK(grain_tighten(NULL, GRAIN_CAP_NONE, 1, &unit, NULL, 0, NULL) == GRAIN_SHORT);
    CHECK(grain_tighten(NULL, GRAIN_CAP_NONE, 1, &unit, &chunk, 1, NULL) == GRAIN_ACCEPTED && chunk.end == 1);
    grain_scratch_free(&scratch);
    CHECK(grain_check_pools(&no_pools, NULL) && grain_check_pools(&nothing.pools, NULL));
    grain_explanation found = {77, 77, 77, 77, {77, 77, 77, 77, 77}};
    CHECK(grain_explain(GRAIN_CAP_NONE, &nothing, 0, NULL, 0, NULL, 0, &found) == GRAIN_NO_CHUNK && found.rows == 77);
    CHECK(grain_explain(GRAIN_CAP_NONE, &unit, 0, NULL, 0, NULL, 0, &found) == GRAIN_ACCEPTED && found.rows == 1);
}

/* NULL in place of one list after another, with the other lists as they are. */
static void lists_of_null_are_taken(void) {
    grain_pools pools[9];
    for (size_t i = 0; i < LENGTH(pools); i++)
        pools[i] = all_pools;
    pools[0].constants = NULL, pools[0].constants_len = 0;
    pools[1].names = NULL, pools[1].names_len = 0, pools[1].starts = NULL, pools[1].starts_len = 0;
    pools[2].names = NULL, pools[2].names_len = 0, pools[2].starts_len = 1;
    pools[3].chains = NULL, pools[3].chains_len = 0;
    pools[4].steps = NULL, pools[4].steps_len = 0;
    pools[5].switches = NULL, pools[5].switches_len = 0;
    pools[6].cases = NULL, pools[6].cases_len = 0;
    pools[7].ranges = NULL, pools[7].ranges_len = 0;
    pools[8].starts = NULL, pools[8].starts_len = 0;
    grain_program program = on_chain();
    for (size_t i = 0; i < LENGTH(pools); i++) {
        uint16_t depth = 77;
        program.pools = pools[i];
        grain_status wanted = i == 0 ? GRAIN_ACCEPTED : i <= 2 ? GRAIN_REFUSED : GRAIN_NOT_FLAT;
        CHECK(grain_check_pools(&pools[i], NULL) == (i <= 2));
        CHECK(grain_verify(NULL, GRAIN_CAP_ALL, 5, &program, &depth, 1, NULL, NULL) == wanted);
    }
}

static void bytes_of_null_are_taken(void) {
    size_t count = 77, damage = 78;
    uint64_t detail = 77;
    char text[1] = {'M'};
    grain_instruction_row instruction;
    grain_place place = {77, 78};
    CHECK(grain_count_instructions(NULL, 0, &count, &damage) && count == 0 && damage == 78);
    CHECK(!grain_instruction(NULL, 0, 0, &instruction) && grain_instruction_text(NULL, 0, 0, NULL, 0) == 0);
    CHECK(grain_instruction_text(NULL, 0, 0, text, 1) == 0 && text[0] == 'M');
    CHECK(!grain_table_place(NULL, 0, 0, &place) && !grain_stream_place(NULL, 0, 0, &place) && place.line == 77);
    CHECK(grain_check_table(NULL, 0, &detail) == GRAIN_TABLE_TRUNCATED && detail == 0);
    CHECK(grain_check_stream(NULL, 0, &detail) == GRAIN_TABLE_TRUNCATED && detail == 0);
    CHECK(grain_table_entries(NULL, 0, NULL, 0) == 0 && grain_table_entries(table, sizeof table, NULL, 0) == 4);
    CHECK(!grain_stream_places(NULL, 0, NULL, 0, &count) && count == 0);
    CHECK(grain_stream_places((const uint8_t[]){1, 2, 3}, 3, NULL, 0, &count) && count == 1);
    grain_scratch_free(NULL);
}

int main(void) {
    grain_scratch scratch = GRAIN_SCRATCH_NONE;
    const grain_program of_switch = on_switch(), of_chain = on_chain();
    verifies(&of_switch, 2, 6);
    verifies(&of_chain, 1, 3);
    work_is_limited();
    programs_share_a_scratch();
    refusals_are_written();
    for (uint16_t declared = 1; declared <= 8; declared += 7) {
        tightens(NULL, declared);
        tightens(&scratch, declared);
    }
    grain_scratch_free(&scratch);
    constants_and_names_are_checked();
    chains_and_switches_are_checked();
    chunks_that_pass_are_explained(8);
    chunks_that_pass_are_explained(6);
    conflicts_are_explained();
    nothing_is_explained();
    chunks_outside_are_explained();
    instructions_are_read();
    list_of_instructions_is_that_of_the_library();
    texts_are_written();
    tables_are_read();
    streams_are_read();
    programs_of_null_are_taken();
    lists_of_null_are_taken();
    bytes_of_null_are_taken();
    slots_are_counted();
    statuses_have_texts();
    CHECK(grain_interface() == GRAIN_INTERFACE && grain_interface_3 == GRAIN_INTERFACE && is_text(grain_version(), "0.2.0"));
    printf("exports: %d wrong\n", wrong);
    return wrong != 0;
}
