/* Verifies code with names, a chain and a switch, and prints the depths of its chunks, or its refusal as text and a listing of
 * the chunk; has chunks declare their depths; and prints the code, instruction by instruction, with the places of an address
 * table and a stream. */
#include "grain.h"

#include <stdio.h>

#define LENGTH(list) (sizeof(list) / sizeof *(list))

/* Unit, Switch(0), Unit, Return, Unit, Return; and Unit, Chain(0), Return. */
static const uint8_t code[] = {0x02, 0x18, 0, 0, 0x02, 0x13, 0x02, 0x13, 0x02, 0x16, 0, 0, 0x13};
static const grain_chunk chunks[] = {{0, 8, 2}, {8, 13, 1}};

static const grain_constant constants[] = {{1, 0}, {1, 0}};
static const uint8_t names[] = {'l', 'e', 'n', 'a', 'g', 'e'};
static const uint32_t starts[] = {0, 3, 6};
static const grain_chain chains[] = {{.root = GRAIN_ROOT_TEMPORARY, .steps = 1, .tail = GRAIN_TAIL_READ}};
static const grain_step steps[] = {{.kind = GRAIN_STEP_PROPERTY, .name = 1}};
static const grain_switch switches[] = {{.cases = 2, .ranges = 1, .otherwise = 6}};
static const grain_case cases[] = {{4, 1}, {6, 0}};
static const uint32_t ranges[] = {6};

static const grain_program program = {
    .code = code, .code_len = LENGTH(code),
    .chunks = chunks, .chunks_len = LENGTH(chunks),
    .pools = {
        .constants = constants, .constants_len = LENGTH(constants),
        .names = names, .names_len = LENGTH(names),
        .starts = starts, .starts_len = LENGTH(starts),
        .chains = chains, .chains_len = LENGTH(chains),
        .steps = steps, .steps_len = LENGTH(steps),
        .switches = switches, .switches_len = LENGTH(switches),
        .cases = cases, .cases_len = LENGTH(cases),
        .ranges = ranges, .ranges_len = LENGTH(ranges),
    },
};

static int print_part(void *context, const char *text, size_t length) {
    (void)context;
    return printf("%.*s", (int)length, text) < 0;
}

static void print_refusal(uint16_t caps, const grain_program *given, const grain_refusal *refusal) {
    char text[GRAIN_TEXT_SIZE];
    grain_refusal_text(refusal, text, sizeof text);
    printf("refused %s\n", text);
    if (refusal->chunk != GRAIN_WHOLE_PROGRAM &&
        grain_listing(caps, given, (size_t)refusal->chunk, print_part, NULL) != GRAIN_REFUSED)
        printf("not listed\n");
}

static void print_pools_flaw(const grain_pools *pools) {
    grain_pools_flaw flaw = {GRAIN_LIST_CONSTANTS, 0};
    if (!grain_check_pools(pools, &flaw))
        printf("not flat: list %u, index %llu\n", flaw.list, (unsigned long long)flaw.index);
}

static grain_status verify(uint16_t caps, const grain_program *given) {
    uint16_t depths[LENGTH(chunks)] = {0};
    grain_report report = {{GRAIN_FLAW_NONE, 0, 0, 0, 0}, 0};
    grain_status status = grain_verify(NULL, caps, sizeof code, given, depths, LENGTH(depths), NULL, &report);
    switch (status) {
    case GRAIN_ACCEPTED:
        printf("accepted %u %u (visited %llu instructions)\n", depths[0], depths[1], (unsigned long long)report.visited);
        break;
    case GRAIN_REFUSED:
        print_refusal(caps, given, &report.refusal);
        break;
    case GRAIN_NOT_FLAT:
        print_pools_flaw(&given->pools);
        break;
    default:
        printf("%s\n", grain_status_text(status));
        break;
    }
    return status;
}

/* Has each chunk declare its depth. */
static bool tighten(void) {
    grain_chunk tightened[LENGTH(chunks)] = {{0, 0, 0}};
    if (grain_tighten(NULL, GRAIN_CAP_ALL, sizeof code, &program, tightened, LENGTH(tightened), NULL) != GRAIN_ACCEPTED)
        return false;
    printf("declared %u %u\n", tightened[0].max_stack, tightened[1].max_stack);
    return true;
}

/* Prints the instructions that an address table names, each with its line and column. */
static bool list_code(void) {
    static const uint8_t table[] = {3, 0, 1, 5, 1, 1, 7, 3, 2, 1};
    grain_entry entries[LENGTH(table) / 3] = {{0, 0, 0}};
    size_t count = grain_table_entries(table, sizeof table, entries, LENGTH(entries));
    for (size_t i = 0; i < count; i++) {
        char text[GRAIN_TEXT_SIZE];
        if (grain_instruction_text(code, sizeof code, entries[i].address, text, sizeof text) == 0)
            return false;
        printf("%u:%u %s\n", entries[i].line, entries[i].column, text);
    }
    return count == LENGTH(entries);
}

/* Prints the places of a stream of two slots, of which the second has none. */
static bool list_places(void) {
    static const uint8_t stream[] = {2, 1, 7, 0, 0};
    grain_place places[LENGTH(stream) / 2] = {{0, 0}};
    size_t count = 0;
    if (!grain_stream_places(stream, sizeof stream, places, LENGTH(places), &count))
        return false;
    for (size_t i = 0; i < count; i++)
        printf("slot %zu: %u:%u\n", i, places[i].line, places[i].column);
    return true;
}

/* The first program file of FORMAT.md: it returns its constant 21. */
static const uint8_t file_bytes[] = {0x00, 0x67, 0x72, 0x6e, 0x02, 0x00, 0x00, 0x07, 0x00, 0x04, 0x01, 0x00,
                                     0x00, 0x13, 0x00, 0x04, 0x01, 0x00, 0x01, 0x03, 0x6c, 0x65, 0x6e, 0x01,
                                     0x03, 0x2a, 0x01, 0x00, 0x00, 0x00, 0x00, 0x00, 0x00};

/* Reads a program file and verifies its program; prints a constant and the depth, or why the bytes aren't a file. */
static bool read_file(size_t length) {
    const grain_limits limits = GRAIN_LIMITS_DEFAULT;
    grain_file *file;
    grain_read_error error = {GRAIN_CAUSE_TOO_LARGE, GRAIN_PART_HEADER, 0, 0, 0};
    char text[GRAIN_TEXT_SIZE];
    uint16_t depth = 0;
    grain_status status = grain_file_read(&file, file_bytes, length, &limits, &error);
    if (status != GRAIN_ACCEPTED) {
        if (status == GRAIN_MALFORMED && grain_read_error_text(&error, text, sizeof text) != 0)
            printf("no file: %s\n", text);
        return false;
    }
    const grain_contents *contents = grain_file_contents(file);
    const grain_value *constant = &contents->values[contents->constants[0]];
    status = grain_file_verify(NULL, file, GRAIN_CAP_NONE, contents->program.code_len, &depth, 1, NULL, NULL);
    if (status == GRAIN_ACCEPTED && constant->tag == GRAIN_VALUE_INTEGER)
        printf("file of constant %lld, depth %u\n", (long long)constant->number, depth);
    grain_file_free(file);
    return status == GRAIN_ACCEPTED;
}

/* Writes the file again, first with chunks that declare their depths, then without positions, and these as a file of their own. */
static bool write_file(void) {
    uint8_t bytes[sizeof file_bytes], sidecar_bytes[2 * sizeof file_bytes];
    grain_room room = {bytes, sizeof bytes, 0}, sidecar = {sidecar_bytes, sizeof sidecar_bytes, 0};
    if (grain_file_tighten(file_bytes, sizeof file_bytes, NULL, GRAIN_NO_LIMIT, &room, NULL, NULL) != GRAIN_ACCEPTED)
        return false;
    printf("tightened file of %zu bytes\n", room.size);
    if (grain_file_strip(file_bytes, sizeof file_bytes, NULL, &room, &sidecar, NULL) != GRAIN_ACCEPTED)
        return false;
    printf("stripped file of %zu bytes, sidecar of %zu\n", room.size, sidecar.size);
    return true;
}

int main(void) {
    bool as_wanted = verify(GRAIN_CAP_ALL, &program) == GRAIN_ACCEPTED;
    as_wanted = tighten() && list_code() && list_places() && as_wanted;

    /* The host lacks the capability of properties, which the second chunk needs. */
    as_wanted = verify(GRAIN_CAP_ALL & ~GRAIN_CAP_PROPERTY, &program) == GRAIN_REFUSED && as_wanted;

    /* The chain names a name that isn't there. */
    grain_program fewer = program;
    fewer.pools.names_len = 3;
    fewer.pools.starts_len = 2;
    as_wanted = verify(GRAIN_CAP_ALL, &fewer) == GRAIN_REFUSED && as_wanted;

    /* A step is missing. */
    grain_program uneven = program;
    uneven.pools.steps = NULL;
    uneven.pools.steps_len = 0;
    as_wanted = verify(GRAIN_CAP_ALL, &uneven) == GRAIN_NOT_FLAT && as_wanted;

    as_wanted = read_file(sizeof file_bytes) && !read_file(22) && write_file() && as_wanted;
    return as_wanted ? 0 : 1;
}
