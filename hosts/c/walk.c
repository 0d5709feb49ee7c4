/* A host from its parts to a result. It builds programs from data that isn't constant: the sum of the numbers up to N, right,
 * and with a value left over in each round. It verifies both in one scratch; explains the refusal of the second, with its line
 * from the address table; and runs the first. The interpreter tests nothing that verification has tested.
 *
 *     walk [N] */
#include "grain.h"

#include <stdio.h>
#include <stdlib.h>
#include <string.h>

/* A list that grows. Where memory is refused, the program ends. */
typedef struct {
    void *items;
    size_t count;
} list;

static void *append(list *to, size_t size) {
    void *grown = realloc(to->items, (to->count + 1) * size);
    if (grown == NULL)
        exit(2);
    to->items = grown;
    return (char *)grown + to->count++ * size;
}

#define APPEND(to, type) (*(type *)append(to, sizeof(type)))

/* A program as this host keeps it: the lists of the pools, and what it needs to run and to report. */
typedef struct {
    list code, names, starts, constants;
    list values; /* those of the constants */
    list table;  /* an address table */
    grain_chunk chunk;
} script;

/* The fields of each instruction as letters, and its width, by tags. */
static const struct {
    uint8_t width;
    const char *fields;
} instructions[256] = {
#define ROW(tag, name, width, fields, quiet) [tag] = {width, fields},
    GRAIN_INSTRUCTIONS(ROW)
#undef ROW
};

static size_t size_of_field(char letter) {
    return letter == 'a' ? 1 : letter == 'j' ? 4 : 2;
}

/* Appends an instruction and its line, and returns its address. */
static uint32_t emit(script *to, uint8_t tag, uint32_t line, uint32_t first, uint32_t second) {
    uint32_t at = (uint32_t)to->code.count, fields[3] = {first, second, 0};
    APPEND(&to->code, uint8_t) = tag;
    for (size_t i = 0; instructions[tag].fields[i] != 0; i++)
        for (size_t byte = 0; byte < size_of_field(instructions[tag].fields[i]); byte++)
            APPEND(&to->code, uint8_t) = (uint8_t)(fields[i] >> 8 * byte);
    uint8_t *table = to->table.items;
    uint8_t width = to->table.count == 1 ? 0 : (uint8_t)(at - to->chunk.end);
    table[0]++;
    APPEND(&to->table, uint8_t) = width; /* from the instruction before it; each number here is below 128 */
    APPEND(&to->table, uint8_t) = (uint8_t)line;
    APPEND(&to->table, uint8_t) = 1;
    to->chunk.end = at;
    return at;
}

static void set_target(script *of, uint32_t at, uint32_t target) {
    uint8_t *code = of->code.items;
    for (size_t byte = 0; byte < 4; byte++)
        code[at + 1 + byte] = (uint8_t)(target >> 8 * byte);
}

static uint32_t add_constant(script *to, int64_t value) {
    APPEND(&to->constants, grain_constant) = (grain_constant){1, GRAIN_CAP_NONE};
    APPEND(&to->values, int64_t) = value;
    return (uint32_t)to->values.count - 1;
}

static uint32_t add_name(script *to, const char *name) {
    if (to->starts.count == 0)
        APPEND(&to->starts, uint32_t) = 0;
    for (; *name != 0; name++)
        APPEND(&to->names, uint8_t) = (uint8_t)*name;
    APPEND(&to->starts, uint32_t) = (uint32_t)to->names.count;
    return (uint32_t)to->starts.count - 2;
}

/* let left = n; let sum = 0; while left != 0 { sum = sum + left; left = left - 1; } sum */
static script sum_up_to(int64_t n, bool is_flawed) {
    script to = {{NULL, 0}, {NULL, 0}, {NULL, 0}, {NULL, 0}, {NULL, 0}, {NULL, 0}, {0, 0, 9}};
    APPEND(&to.table, uint8_t) = 0;
    uint32_t all = add_constant(&to, n), zero = add_constant(&to, 0), one = add_constant(&to, 1);
    uint32_t add = add_name(&to, "add"), subtract = add_name(&to, "subtract");
    enum { LEFT, SUM };
    emit(&to, GRAIN_TAG_LOAD_CONST, 1, all, 0);
    emit(&to, GRAIN_TAG_STORE_LOCAL, 1, LEFT, 0);
    emit(&to, GRAIN_TAG_LOAD_CONST, 2, zero, 0);
    emit(&to, GRAIN_TAG_STORE_LOCAL, 2, SUM, 0);
    uint32_t loop = emit(&to, GRAIN_TAG_LOAD_LOCAL, 3, LEFT, 0);
    uint32_t leave = emit(&to, GRAIN_TAG_JUMP_IF_FALSE, 3, 0, 0);
    emit(&to, GRAIN_TAG_LOAD_LOCAL, 4, SUM, 0);
    emit(&to, GRAIN_TAG_LOAD_LOCAL, 4, LEFT, 0);
    emit(&to, GRAIN_TAG_CALL, 4, add, 2);
    if (!is_flawed)
        emit(&to, GRAIN_TAG_STORE_LOCAL, 4, SUM, 0);
    emit(&to, GRAIN_TAG_LOAD_LOCAL, 5, LEFT, 0);
    emit(&to, GRAIN_TAG_LOAD_CONST, 5, one, 0);
    emit(&to, GRAIN_TAG_CALL, 5, subtract, 2);
    emit(&to, GRAIN_TAG_STORE_LOCAL, 5, LEFT, 0);
    emit(&to, GRAIN_TAG_JUMP, 5, loop, 0);
    set_target(&to, leave, emit(&to, GRAIN_TAG_LOAD_LOCAL, 6, SUM, 0));
    emit(&to, GRAIN_TAG_RETURN, 6, 0, 0);
    to.chunk.end = (uint32_t)to.code.count;
    return to;
}

static grain_program program_of(const script *of) {
    grain_program program = {of->code.items, of->code.count, &of->chunk, 1, GRAIN_POOLS_NONE};
    program.pools.constants = of->constants.items;
    program.pools.constants_len = of->constants.count;
    program.pools.names = of->names.items;
    program.pools.names_len = of->names.count;
    program.pools.starts = of->starts.items;
    program.pools.starts_len = of->starts.count;
    return program;
}

static void release(script *of) {
    list *lists[] = {&of->code, &of->names, &of->starts, &of->constants, &of->values, &of->table};
    for (size_t i = 0; i < sizeof lists / sizeof *lists; i++)
        free(lists[i]->items);
}

static bool is_named(const script *of, uint32_t name, const char *wanted) {
    const uint32_t *starts = of->starts.items;
    const uint8_t *names = of->names.items;
    size_t length = starts[name + 1] - starts[name];
    return length == strlen(wanted) && memcmp(names + starts[name], wanted, length) == 0;
}

/* Calls a function of the host's. false: there is none with this name and number of arguments. */
static bool call(const script *of, uint32_t name, uint32_t count, const int64_t *arguments, int64_t *result) {
    uint64_t left = count == 2 ? (uint64_t)arguments[0] : 0, right = count == 2 ? (uint64_t)arguments[1] : 0;
    if (count == 2 && is_named(of, name, "add"))
        *result = (int64_t)(left + right);
    else if (count == 2 && is_named(of, name, "subtract"))
        *result = (int64_t)(left - right);
    else
        return false;
    return true;
}

static void decode(const uint8_t *code, size_t at, uint32_t fields[3]) {
    const char *letters = instructions[code[at]].fields;
    size_t next = at + 1;
    for (size_t i = 0; letters[i] != 0; i++) {
        fields[i] = 0;
        for (size_t byte = 0; byte < size_of_field(letters[i]); byte++)
            fields[i] |= (uint32_t)code[next++] << 8 * byte;
    }
}

/* Runs the chunk of an accepted program. No test is made of addresses, indices, operands or slots: `operands` has room for the
 * chunk's depth, and `locals` for its slots. false: a function isn't there, or an instruction that this host doesn't know.
 * Without PUSH_HANDLER nothing catches that, so the run ends. */
static bool run(const script *of, int64_t *operands, int64_t *locals, int64_t *result) {
    const uint8_t *code = of->code.items;
    const int64_t *values = of->values.items;
    size_t at = of->chunk.entry, depth = 0;
    for (;;) {
        uint32_t fields[3] = {0, 0, 0};
        decode(code, at, fields);
        size_t next = at + instructions[code[at]].width;
        switch (code[at]) {
        case GRAIN_TAG_LOAD_CONST: operands[depth++] = values[fields[0]]; break;
        case GRAIN_TAG_UNIT: operands[depth++] = 0; break;
        case GRAIN_TAG_FALSE: operands[depth++] = 0; break;
        case GRAIN_TAG_TRUE: operands[depth++] = 1; break;
        case GRAIN_TAG_LOAD_LOCAL: operands[depth++] = locals[fields[0]]; break;
        case GRAIN_TAG_STORE_LOCAL: locals[fields[0]] = operands[--depth]; break;
        case GRAIN_TAG_POP: depth--; break;
        case GRAIN_TAG_JUMP: next = fields[0]; break;
        case GRAIN_TAG_JUMP_IF_TRUE: next = operands[--depth] != 0 ? fields[0] : next; break;
        case GRAIN_TAG_JUMP_IF_FALSE: next = operands[--depth] == 0 ? fields[0] : next; break;
        case GRAIN_TAG_TICK: break;
        case GRAIN_TAG_CALL: {
            int64_t answer;
            depth -= fields[1];
            if (!call(of, fields[0], fields[1], operands + depth, &answer))
                return false;
            operands[depth++] = answer;
            break;
        }
        case GRAIN_TAG_RETURN:
            *result = depth > 0 ? operands[depth - 1] : 0;
            return true;
        default:
            return false;
        }
        at = next;
    }
}

static int print_part(void *context, const char *text, size_t length) {
    return fwrite(text, 1, length, context) != length;
}

/* Prints why a program is refused: the line of the script, the refusal, and a listing of the chunk. */
static void explain(const script *of, const grain_refusal *refusal) {
    char text[GRAIN_TEXT_SIZE];
    grain_place place;
    grain_program program = program_of(of);
    if (refusal->at <= UINT32_MAX && grain_table_place(of->table.items, of->table.count, (uint32_t)refusal->at, &place))
        printf("line %u: ", place.line);
    grain_refusal_text(refusal, text, sizeof text);
    printf("%s\n", text);
    if (refusal->chunk != GRAIN_WHOLE_PROGRAM &&
        grain_listing(GRAIN_CAP_ALL, &program, (size_t)refusal->chunk, print_part, stdout) != GRAIN_REFUSED)
        printf("not listed\n");
}

/* Verifies a program, and runs it or explains why not. */
static bool answer(grain_scratch *scratch, const script *of) {
    uint16_t depth = 0;
    uint32_t slots = 0;
    int64_t result = 0;
    grain_report report;
    grain_program program = program_of(of);
    /* The chunks don't overlap, so the length of the code bounds the work. */
    grain_status status = grain_verify(scratch, GRAIN_CAP_ALL, program.code_len, &program, &depth, 1, &slots, &report);
    if (status == GRAIN_REFUSED)
        explain(of, &report.refusal);
    if (status != GRAIN_ACCEPTED)
        return false;
    int64_t *locals = calloc((size_t)slots + depth + 1, sizeof *locals);
    bool is_done = locals != NULL && run(of, locals + slots, locals, &result);
    free(locals);
    printf(is_done ? "depth %u, visited %llu, result %lld\n" : "the run ended early\n", depth,
           (unsigned long long)report.visited, (long long)result);
    return is_done;
}

int main(int argc, char **argv) {
    int64_t n = argc > 1 ? atol(argv[1]) : 10;
    grain_scratch scratch = GRAIN_SCRATCH_NONE;
    script good = sum_up_to(n, false), flawed = sum_up_to(n, true);
    bool as_wanted = answer(&scratch, &good) && !answer(&scratch, &flawed) && answer(&scratch, &good);
    grain_scratch_free(&scratch);
    release(&good);
    release(&flawed);
    return as_wanted ? 0 : 1;
}
