/* The functions of grain.h over the proved ones of crates/grain_c: each replaces NULL, and calls. */
#include "layout.h"
#include "proved.h"

const uint32_t grain_interface_3 = GRAIN_INTERFACE;

/* What an empty list points to. It is aligned to each type of items, and nothing is read or written there. */
static uint64_t nothing;

/* The starts where there are no names. */
static const uint32_t no_names[] = {0};

static const void *some(const void *list) {
    return list != NULL ? list : &nothing;
}

static void *some_room(void *list) {
    return list != NULL ? list : &nothing;
}

/* Whether pools may be passed on as they are. */
static bool is_whole(const grain_pools *pools) {
    return pools->constants != NULL && pools->names != NULL && pools->starts_len != 0 && pools->chains != NULL &&
           pools->steps != NULL && pools->switches != NULL && pools->cases != NULL && pools->ranges != NULL;
}

/* The pools with a pointer in place of each NULL, and with starts where there are no names and no starts. */
static grain_pools whole(const grain_pools *pools) {
    grain_pools made = *pools;
    made.constants = some(made.constants);
    made.names = some(made.names);
    made.starts = some(made.starts);
    made.chains = some(made.chains);
    made.steps = some(made.steps);
    made.switches = some(made.switches);
    made.cases = some(made.cases);
    made.ranges = some(made.ranges);
    if (made.starts_len == 0 && made.names_len == 0) {
        made.starts = no_names;
        made.starts_len = 1;
    }
    return made;
}

/* The program itself, or where it has a NULL the copy, which is made for it. */
static const grain_program *whole_program(const grain_program *program, grain_program *copy) {
    if (program->code != NULL && program->chunks != NULL && is_whole(&program->pools))
        return program;
    copy->code = some(program->code);
    copy->code_len = program->code_len;
    copy->chunks = some(program->chunks);
    copy->chunks_len = program->chunks_len;
    copy->pools = whole(&program->pools);
    return copy;
}

/* Writes the slots of each chunk of a program that is accepted, if they are wanted. */
static grain_status with_slots(uint32_t status, const grain_program *program, uint32_t *slots, size_t slots_len) {
    if (status == GRAIN_ACCEPTED && slots != NULL)
        grain_proved_slots(program, slots, slots_len);
    return (grain_status)status;
}

grain_status grain_verify(grain_scratch *scratch, uint16_t caps, uint64_t limit, const grain_program *program,
                          uint16_t *depths, size_t depths_len, uint32_t *slots, grain_report *report) {
    grain_program copy;
    grain_report unread = {{GRAIN_FLAW_NONE, 0, 0, 0, 0}, 0};
    uint32_t status;
    program = whole_program(program, &copy);
    depths = some_room(depths);
    report = report != NULL ? report : &unread;
    if (scratch == NULL)
        status = grain_proved_verify(caps, limit, program, depths, depths_len, report);
    else
        status = grain_proved_verify_with(scratch, caps, limit, program, depths, depths_len, report);
    return with_slots(status, program, slots, depths_len);
}

grain_status grain_tighten(grain_scratch *scratch, uint16_t caps, uint64_t limit, const grain_program *program,
                           grain_chunk *tightened, size_t tightened_len, grain_report *report) {
    grain_program copy;
    grain_report unread = {{GRAIN_FLAW_NONE, 0, 0, 0, 0}, 0};
    grain_scratch own = GRAIN_SCRATCH_NONE;
    program = whole_program(program, &copy);
    tightened = some_room(tightened);
    report = report != NULL ? report : &unread;
    if (scratch != NULL)
        return (grain_status)grain_proved_tighten(scratch, caps, limit, program, tightened, tightened_len, report);
    uint32_t status = grain_proved_tighten(&own, caps, limit, program, tightened, tightened_len, report);
    grain_proved_scratch_free(&own);
    return (grain_status)status;
}

void grain_scratch_free(grain_scratch *scratch) {
    if (scratch != NULL)
        grain_proved_scratch_free(scratch);
}

bool grain_check_pools(const grain_pools *pools, grain_pools_flaw *flaw) {
    grain_pools_flaw unread = {GRAIN_LIST_CONSTANTS, 0};
    grain_pools copy;
    if (!is_whole(pools)) {
        copy = whole(pools);
        pools = &copy;
    }
    return grain_proved_check_pools(pools, flaw != NULL ? flaw : &unread);
}

grain_status grain_explain(uint16_t caps, const grain_program *program, size_t chunk, grain_row *rows, size_t rows_len,
                           grain_base *bases, size_t bases_len, grain_explanation *explanation) {
    grain_program copy;
    program = whole_program(program, &copy);
    return (grain_status)grain_proved_explain(caps, program, chunk, some_room(rows), rows_len, some_room(bases), bases_len,
                                              explanation);
}

/* A file: what it has, and what keeps that. */
struct grain_file {
    grain_contents contents;
    grain_held_file held;
};

/* Gives each list of the pools a pointer, as the proved functions want of what they write over. */
static void fill_pools(grain_pools *pools) {
    grain_pools none = GRAIN_POOLS_NONE;
    *pools = whole(&none);
}

static void fill_contents(grain_contents *contents) {
    grain_contents none = {0};
    *contents = none;
    fill_pools(&contents->program.pools);
    contents->program.code = some(NULL);
    contents->program.chunks = some(NULL);
    contents->source = some(NULL);
    contents->functions = some(NULL);
    contents->parameters = some(NULL);
    contents->constants = some(NULL);
    contents->values = some(NULL);
    contents->texts = some(NULL);
    contents->operators = some(NULL);
    contents->operator_texts = some(NULL);
    contents->op_assignments = some(NULL);
    contents->step_flags = some(NULL);
    contents->ranges = some(NULL);
    contents->table = some(NULL);
    contents->stream = some(NULL);
    contents->chain_steps = some(NULL);
    contents->switch_cases = some(NULL);
    contents->switch_ranges = some(NULL);
    contents->function_parameters = some(NULL);
}

static const grain_limits usual_limits = GRAIN_LIMITS_DEFAULT;
static const grain_read_error no_error = {GRAIN_CAUSE_TOO_LARGE, GRAIN_PART_HEADER, 0, 0, 0};

grain_status grain_file_read(grain_file **file, const uint8_t *bytes, size_t bytes_len, const grain_limits *limits,
                             grain_read_error *error) {
    grain_read_error unread = no_error;
    *file = NULL;
    limits = limits != NULL ? limits : &usual_limits;
    /* The proved function tests this too; it is tested before there is memory for the file. */
    if (limits->depth > GRAIN_DEPTH_MAX)
        return GRAIN_BAD_LIMIT;
    grain_file *made = grain_alloc(sizeof *made, 8);
    if (made == NULL)
        return GRAIN_OUT_OF_MEMORY;
    fill_contents(&made->contents);
    made->held.made = false;
    made->held.block = NULL;
    uint32_t status = grain_proved_file_read(&made->held, some(bytes), bytes_len, limits, &made->contents,
                                             error != NULL ? error : &unread);
    made->contents.size = sizeof made->contents;
    if (status == GRAIN_ACCEPTED)
        *file = made;
    else
        grain_dealloc(made);
    return (grain_status)status;
}

const grain_contents *grain_file_contents(const grain_file *file) {
    return &file->contents;
}

grain_status grain_file_verify(grain_scratch *scratch, const grain_file *file, uint16_t caps, uint64_t limit, uint16_t *depths,
                               size_t depths_len, uint32_t *slots, grain_report *report) {
    grain_report unread = {{GRAIN_FLAW_NONE, 0, 0, 0, 0}, 0};
    grain_scratch own = GRAIN_SCRATCH_NONE;
    depths = some_room(depths);
    report = report != NULL ? report : &unread;
    uint32_t status = grain_proved_file_verify(scratch != NULL ? scratch : &own, &file->contents, caps, limit, depths,
                                               depths_len, report);
    grain_proved_scratch_free(&own);
    return with_slots(status, &file->contents.program, slots, depths_len);
}

/* Whether a name is there and has the text of another, which is there. */
static bool has_text_of(const grain_pools *pools, uint32_t name, uint32_t other) {
    if (name == other || name >= pools->starts_len - 1)
        return name == other;
    const uint8_t *text = pools->names + pools->starts[name], *wanted = pools->names + pools->starts[other];
    size_t len = pools->starts[name + 1] - pools->starts[name], at = 0;
    if (len != pools->starts[other + 1] - pools->starts[other])
        return false;
    while (at < len && text[at] == wanted[at])
        at++;
    return at == len;
}

size_t grain_file_callee(const grain_file *file, uint32_t name, size_t arguments) {
    const grain_contents *contents = &file->contents;
    const grain_pools *pools = &contents->program.pools;
    if (pools->starts_len == 0 || name >= pools->starts_len - 1)
        return 0;
    for (size_t i = 0; i < contents->functions_len; i++) {
        const grain_function *function = &contents->functions[i];
        if (function->parameters == arguments && !function->is_typed && has_text_of(pools, function->name, name))
            return i + 1;
    }
    return 0;
}

void grain_file_free(grain_file *file) {
    if (file == NULL)
        return;
    grain_proved_file_free(&file->held);
    grain_dealloc(file);
}

grain_status grain_file_tighten(const uint8_t *bytes, size_t bytes_len, const grain_limits *limits, uint64_t limit,
                                grain_room *tightened, grain_read_error *error, grain_report *report) {
    grain_read_error unread = no_error;
    grain_report unread_report = {{GRAIN_FLAW_NONE, 0, 0, 0, 0}, 0};
    return (grain_status)grain_proved_file_tighten(some(bytes), bytes_len, limits != NULL ? limits : &usual_limits, limit,
                                                   some_room(tightened->bytes), tightened->len, &tightened->size,
                                                   error != NULL ? error : &unread,
                                                   report != NULL ? report : &unread_report);
}

grain_status grain_file_strip(const uint8_t *bytes, size_t bytes_len, const grain_limits *limits, grain_room *stripped,
                              grain_room *sidecar, grain_read_error *error) {
    grain_read_error unread = no_error;
    return (grain_status)grain_proved_file_strip(some(bytes), bytes_len, limits != NULL ? limits : &usual_limits,
                                                 some_room(stripped->bytes), stripped->len, &stripped->size,
                                                 some_room(sidecar->bytes), sidecar->len, &sidecar->size,
                                                 error != NULL ? error : &unread);
}

size_t grain_read_error_text(const grain_read_error *error, char *text, size_t size) {
    return grain_proved_read_error_text(error, some_room(text), size);
}

size_t grain_refusal_text(const grain_refusal *refusal, char *text, size_t size) {
    return grain_proved_refusal_text(refusal, some_room(text), size);
}

size_t grain_instruction_text(const uint8_t *code, size_t code_len, size_t at, char *text, size_t size) {
    return grain_proved_instruction_text(some(code), code_len, at, some_room(text), size);
}

bool grain_count_instructions(const uint8_t *code, size_t code_len, size_t *count, size_t *damage) {
    return grain_proved_count_instructions(some(code), code_len, count, damage);
}

bool grain_instruction(const uint8_t *code, size_t code_len, size_t at, grain_instruction_row *instruction) {
    return grain_proved_instruction(some(code), code_len, at, instruction);
}

bool grain_is_quiet(uint8_t tag) {
    return grain_proved_is_quiet(tag);
}

bool grain_table_place(const uint8_t *table, size_t table_len, uint32_t address, grain_place *place) {
    return grain_proved_site(some(table), table_len, address, place);
}

grain_table_flaw grain_check_table(const uint8_t *table, size_t table_len, uint64_t *detail) {
    return (grain_table_flaw)grain_proved_check_table(some(table), table_len, detail);
}

size_t grain_table_entries(const uint8_t *table, size_t table_len, grain_entry *entries, size_t entries_len) {
    return grain_proved_table_entries(some(table), table_len, some_room(entries), entries_len);
}

bool grain_stream_place(const uint8_t *stream, size_t stream_len, uint32_t index, grain_place *place) {
    return grain_proved_stream_site(some(stream), stream_len, index, place);
}

grain_table_flaw grain_check_stream(const uint8_t *stream, size_t stream_len, uint64_t *detail) {
    return (grain_table_flaw)grain_proved_check_stream(some(stream), stream_len, detail);
}

bool grain_stream_places(const uint8_t *stream, size_t stream_len, grain_place *places, size_t places_len, size_t *count) {
    return grain_proved_stream_sites(some(stream), stream_len, some_room(places), places_len, count);
}

const char *grain_status_text(grain_status status) {
    switch (status) {
    case GRAIN_ACCEPTED: return "accepted";
    case GRAIN_REFUSED: return "refused";
    case GRAIN_SHORT: return "a list of the caller's is too short";
    case GRAIN_OUT_OF_MEMORY: return "out of memory";
    case GRAIN_NOT_FLAT: return "no pools have this flat form";
    case GRAIN_TOO_MUCH_WORK: return "the chunks span more of the code than the limit allows";
    case GRAIN_NO_CHUNK: return "the program has no chunk with this index";
    case GRAIN_BAD_CODE: return "the code isn't whole instructions whose indices are in bounds";
    case GRAIN_STOPPED: return "stopped by the caller";
    case GRAIN_MALFORMED: return "no program file within the limits";
    case GRAIN_TOO_LONG: return "a list, a text or a blob of the file is too long";
    case GRAIN_BAD_LIMIT: return "a limit is above its greatest value";
    case GRAIN_NOT_RESTORABLE: return "a sidecar wouldn't give the file back";
    case GRAIN_NO_SCRIPT: return "the source text has an error";
    case GRAIN_NO_NAME: return "the script has no function or variable of this name";
    case GRAIN_NOT_NOW: return "a run can be resumed, or none waits for the host";
    case GRAIN_BAD_VALUE: return "a text isn't UTF-8, or rows are no values within the bounds";
    case GRAIN_FOREIGN_CONSTANT: return "a constant is a value of another host";
    }
    return "no status of this interface";
}

uint32_t grain_interface(void) {
    return grain_proved_interface();
}

#define TEXT_OF(number) #number
#define DOTTED(major, minor, patch) TEXT_OF(major) "." TEXT_OF(minor) "." TEXT_OF(patch)

const char *grain_version(void) {
    return DOTTED(GRAIN_VERSION_MAJOR, GRAIN_VERSION_MINOR, GRAIN_VERSION_PATCH);
}
