/* Runs what `grain compile` makes of a script: reads the program file, verifies it, and runs its top level: script FILE.
 * Accepted code has its instructions, operands and slots. Types, and the number of steps, calls and variables are tested here. */
#include "grain.h"

#include <stdio.h>

enum { CAPS = GRAIN_CAP_FUNCTION, FILE_SIZE = 1 << 20, CHUNKS = 1000, ROOM = 20000, VARIABLES = 50, STEPS = 10000000 };
enum { PLUS = 0, MINUS = 2, DIVIDE = 5, LESS = 19 }; /* operators (RUNNING.md) */

static grain_file *file;
static const grain_contents *contents;
static uint16_t depths[CHUNKS]; /* of the operand stacks, by chunk */
static uint32_t slots[CHUNKS];
static grain_value room[ROOM]; /* the variables and then the operands of each call */
static uint32_t steps, at;     /* how many were done, and the address of the last one */

/* Replaces two integers by the result of an operator. Returns a fault or NULL. */
static const char *operate(const grain_value *operator, grain_value *top) {
    int64_t left = top[0].number, right = top[1].number;
    if (top[0].tag != GRAIN_VALUE_INTEGER || top[1].tag != GRAIN_VALUE_INTEGER)
        return "no integers";
    switch (operator->tag == GRAIN_VALUE_OPERATOR ? operator->number : -1) {
    case PLUS: return __builtin_add_overflow(left, right, &top->number) ? "overflow" : NULL;
    case MINUS: return __builtin_sub_overflow(left, right, &top->number) ? "overflow" : NULL;
    case LESS: top->tag = left < right ? GRAIN_VALUE_TRUE : GRAIN_VALUE_FALSE; return NULL;
    case DIVIDE:
        if (right == 0 || (right == -1 && left == INT64_MIN))
            return right == 0 ? "division by zero" : "overflow";
        top->number = left / right;
        return NULL;
    default: return "no such operator";
    }
}

/* Runs a chunk. Its variables begin at `base` with the arguments, and the result is left there. Returns a fault or NULL. */
static const char *run(size_t chunk, size_t base, size_t declared) {
    size_t bottom = base + VARIABLES + (slots[chunk] > declared ? slots[chunk] : declared), called;
    if (bottom + depths[chunk] > ROOM)
        return "too many calls";
    grain_value *variables = room + base, *top = room + bottom;
    const char *fault = NULL;
    grain_instruction_row row;
    for (grain_value *each = variables + declared; each < top; each++)
        each->tag = GRAIN_VALUE_UNIT;
    for (uint32_t next = contents->program.chunks[chunk].entry; fault == NULL; steps++) {
        (void)grain_instruction(contents->program.code, contents->program.code_len, at = next, &row);
        uint32_t first = row.fields[0].value, count = row.fields[1].value;
        next += row.width;
        switch (steps < STEPS ? row.tag : 0xff) {
        case GRAIN_TAG_LOAD_CONST: *top++ = contents->values[contents->constants[first]]; break;
        case GRAIN_TAG_UNIT: top++->tag = GRAIN_VALUE_UNIT; break;
        case GRAIN_TAG_FALSE: top++->tag = GRAIN_VALUE_FALSE; break;
        case GRAIN_TAG_TRUE: top++->tag = GRAIN_VALUE_TRUE; break;
        case GRAIN_TAG_LOAD_LOCAL: *top++ = variables[first]; break;
        case GRAIN_TAG_STORE_LOCAL:
        case GRAIN_TAG_ASSIGN_LOCAL: variables[first] = *--top; break;
        case GRAIN_TAG_DECLARE_LOCAL:
            if (base + declared == bottom)
                return "too many variables";
            variables[declared++] = *--top;
            break;
        case GRAIN_TAG_UNWIND_TO: declared = first < declared ? first : declared; break;
        case GRAIN_TAG_POP: top--; break;
        case GRAIN_TAG_JUMP: next = first; break;
        case GRAIN_TAG_JUMP_IF_FALSE:
            next = (--top)->tag == GRAIN_VALUE_FALSE ? first : next;
            fault = top->tag == GRAIN_VALUE_FALSE || top->tag == GRAIN_VALUE_TRUE ? NULL : "no boolean";
            break;
        case GRAIN_TAG_CALL_OP:
            top -= count;
            fault = count == 2 ? operate(&contents->operators[row.fields[2].value], top++) : "no such operator";
            break;
        case GRAIN_TAG_CALL:
            top -= count;
            called = grain_file_callee(file, first, count);
            fault = called != 0 ? run(called, (size_t)(top++ - room), count) : "no such function";
            break;
        case GRAIN_TAG_TICK:
        case GRAIN_TAG_CHECKPOINT:
        case GRAIN_TAG_STATEMENT: break;
        case GRAIN_TAG_RETURN:
            variables[0] = top > room + bottom ? top[-1] : (grain_value){GRAIN_VALUE_UNIT, 0, 0};
            return NULL;
        default: return steps < STEPS ? "an instruction that this machine lacks" : "too many steps";
        }
    }
    return fault;
}

static int print(void *stream, const char *text, size_t length) {
    return fwrite(text, 1, length, stream) != length;
}

int main(int argc, char **argv) {
    static uint8_t bytes[FILE_SIZE];
    char text[GRAIN_TEXT_SIZE];
    grain_read_error error;
    grain_report report;
    grain_place place = {0, 0};
    const char *fault = NULL;
    FILE *stream = argc == 2 ? fopen(argv[1], "rb") : NULL;
    if (stream == NULL)
        return 2;
    size_t length = fread(bytes, 1, sizeof bytes, stream);
    fclose(stream);
    grain_status status = grain_file_read(&file, bytes, length, NULL, &error);
    if (status == GRAIN_ACCEPTED) {
        contents = grain_file_contents(file);
        status = grain_file_verify(NULL, file, CAPS, length, depths, CHUNKS, slots, &report);
    }
    if (status == GRAIN_ACCEPTED && (fault = run(0, 0, 0)) != NULL) {
        (void)grain_table_place(contents->table, contents->table_len, at, &place);
        printf("%u:%u: %s\n", place.line, place.column, fault);
    } else if (status == GRAIN_ACCEPTED && room[0].tag == GRAIN_VALUE_INTEGER) {
        printf("result %lld\n", (long long)room[0].number);
    } else if (status == GRAIN_MALFORMED && grain_read_error_text(&error, text, sizeof text) != 0) {
        puts(text);
    } else if (status == GRAIN_REFUSED && grain_refusal_text(&report.refusal, text, sizeof text) != 0) {
        printf("refused: %s\n", text);
        if (report.refusal.chunk != GRAIN_WHOLE_PROGRAM)
            (void)!grain_listing(contents->caps, &contents->program, report.refusal.chunk, print, stdout);
    } else {
        puts(grain_status_text(status));
    }
    grain_file_free(file);
    return status == GRAIN_ACCEPTED && fault == NULL ? 0 : 1;
}
