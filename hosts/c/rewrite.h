/* Writes a program file again of its contents, by FORMAT.md alone ("Program files"), for tests: it must be the same bytes. */
#ifndef GRAIN_REWRITE_H
#define GRAIN_REWRITE_H

#include "grain.h"

#include <stdlib.h>
#include <string.h>

/* Bytes in the making. `failed`: there was no memory. */
typedef struct rewritten {
    uint8_t *bytes;
    size_t len;
    size_t room;
    bool failed;
} rewritten;

static void put_byte(rewritten *out, uint8_t byte) {
    if (out->len == out->room) {
        size_t room = out->room < 64 ? 64 : out->room * 2;
        uint8_t *grown = realloc(out->bytes, room);
        out->failed = out->failed || grown == NULL;
        if (grown == NULL)
            return;
        out->bytes = grown;
        out->room = room;
    }
    out->bytes[out->len++] = byte;
}

static void put_number(rewritten *out, uint64_t number) {
    for (; number >= 128; number >>= 7)
        put_byte(out, (uint8_t)(number | 128));
    put_byte(out, (uint8_t)number);
}

static void put_signed(rewritten *out, int64_t number) {
    put_number(out, ((uint64_t)number << 1) ^ (uint64_t)(number >> 63));
}

static void put_bytes(rewritten *out, const uint8_t *bytes, size_t len) {
    put_number(out, len);
    for (size_t i = 0; i < len; i++)
        put_byte(out, bytes[i]);
}

static void put_chunk(rewritten *out, const grain_chunk *chunk) {
    put_number(out, chunk->entry);
    put_number(out, chunk->end);
    put_number(out, chunk->max_stack);
}

static void put_place(rewritten *out, const grain_place *place) {
    put_byte(out, place->line != 0);
    if (place->line == 0)
        return;
    put_number(out, place->line);
    put_number(out, place->column);
}

static const grain_value *put_value(rewritten *out, const grain_contents *contents, const grain_value *value);

/* The text at a row, without its tag. */
static const grain_value *put_text(rewritten *out, const grain_contents *contents, const grain_value *value) {
    put_bytes(out, contents->texts + value->number, value->count);
    return value + 1;
}

static const grain_value *put_values(rewritten *out, const grain_contents *contents, const grain_value *value, size_t count) {
    for (size_t i = 0; i < count; i++)
        value = put_value(out, contents, value);
    return value;
}

/* Writes the value that begins at a row, and returns the row behind it. A file has another tag for a float than a row. */
static const grain_value *put_value(rewritten *out, const grain_contents *contents, const grain_value *value) {
    const grain_value *next = value + 1;
    put_byte(out, value->tag == GRAIN_VALUE_FLOAT ? 13 : (uint8_t)value->tag);
    switch (value->tag) {
    case GRAIN_VALUE_FLOAT:
        put_number(out, (uint64_t)value->number);
        return next;
    case GRAIN_VALUE_INTEGER:
        put_signed(out, value->number);
        return next;
    case GRAIN_VALUE_CHARACTER:
        put_number(out, (uint64_t)value->number);
        return next;
    case GRAIN_VALUE_TEXT:
    case GRAIN_VALUE_BLOB:
        return put_text(out, contents, value);
    case GRAIN_VALUE_RANGE:
    case GRAIN_VALUE_RANGE_INCLUSIVE:
        put_signed(out, next[0].number);
        put_signed(out, next[1].number);
        return next + 2;
    case GRAIN_VALUE_ARRAY:
        put_number(out, value->count);
        return put_values(out, contents, next, value->count);
    case GRAIN_VALUE_MAP:
        put_number(out, value->count);
        for (size_t i = 0; i < value->count; i++)
            next = put_value(out, contents, put_text(out, contents, next));
        return next;
    case GRAIN_VALUE_FN_PTR:
        next = put_text(out, contents, next);
        put_number(out, value->count);
        return put_values(out, contents, next, value->count);
    case GRAIN_VALUE_SHARED:
        return put_value(out, contents, next);
    default:
        return next;
    }
}

static void put_functions(rewritten *out, const grain_contents *contents) {
    const uint32_t *parameter = contents->parameters;
    put_number(out, contents->functions_len);
    for (size_t i = 0; i < contents->functions_len; i++) {
        const grain_function *function = &contents->functions[i];
        put_number(out, function->name);
        put_number(out, function->parameters);
        for (uint32_t n = 0; n < function->parameters; n++)
            put_number(out, *parameter++);
        put_byte(out, function->is_private);
        put_byte(out, function->is_typed);
        if (function->is_typed)
            put_number(out, function->this_type);
        put_chunk(out, &contents->program.chunks[i + 1]);
    }
}

static void put_names(rewritten *out, const grain_pools *pools) {
    put_number(out, pools->starts_len - 1);
    for (size_t i = 0; i + 1 < pools->starts_len; i++)
        put_bytes(out, pools->names + pools->starts[i], pools->starts[i + 1] - pools->starts[i]);
}

static void put_constants(rewritten *out, const grain_contents *contents) {
    put_number(out, contents->constants_len);
    for (size_t i = 0; i < contents->constants_len; i++)
        put_value(out, contents, &contents->values[contents->constants[i]]);
}

static void put_operator(rewritten *out, const grain_contents *contents, const grain_value *operator) {
    if (operator->tag == GRAIN_VALUE_OPERATOR) {
        put_byte(out, (uint8_t)operator->number);
        return;
    }
    put_byte(out, 39);
    put_bytes(out, contents->operator_texts + operator->number, operator->count);
}

static void put_operators(rewritten *out, const grain_contents *contents) {
    const grain_value *operator = contents->operators;
    put_number(out, contents->program.pools.operators);
    for (size_t i = 0; i < contents->program.pools.operators; i++)
        put_operator(out, contents, operator++);
    put_number(out, contents->op_assignments_len);
    for (size_t i = 0; i < contents->op_assignments_len; i++) {
        put_operator(out, contents, operator++);
        put_number(out, contents->op_assignments[i].op_assign_name);
        put_operator(out, contents, operator++);
        put_number(out, contents->op_assignments[i].op_name);
    }
}

static void put_step(rewritten *out, const grain_step *step, uint8_t flags, const grain_place **place) {
    put_byte(out, (uint8_t)step->kind);
    switch (step->kind) {
    case GRAIN_STEP_INDEX:
        put_number(out, step->operand);
        break;
    case GRAIN_STEP_PROPERTY:
        put_number(out, step->name);
        put_number(out, step->getter);
        put_number(out, step->setter);
        break;
    default:
        put_number(out, step->name);
        put_byte(out, step->argc);
        put_number(out, step->operand);
    }
    put_byte(out, flags);
    put_place(out, (*place)++);
    if (step->kind == GRAIN_STEP_INDEX)
        put_place(out, (*place)++);
}

static void put_root(rewritten *out, const grain_chain *chain, const grain_place **place) {
    put_byte(out, (uint8_t)chain->root);
    if (chain->root == GRAIN_ROOT_LOCAL)
        put_number(out, chain->slot);
    if (chain->root == GRAIN_ROOT_LOCAL || chain->root == GRAIN_ROOT_NAMED)
        put_number(out, chain->root_name);
    if (chain->root == GRAIN_ROOT_NAMED || chain->root == GRAIN_ROOT_THIS)
        put_place(out, (*place)++);
}

static void put_chains(rewritten *out, const grain_contents *contents) {
    const grain_pools *pools = &contents->program.pools;
    size_t count = 0, step = 0;
    grain_stream_places(contents->stream, contents->stream_len, NULL, 0, &count);
    grain_place *places = malloc((count + 1) * sizeof *places);
    const grain_place *place = places;
    out->failed = out->failed || places == NULL;
    if (places == NULL)
        return;
    grain_stream_places(contents->stream, contents->stream_len, places, count, &count);
    put_number(out, pools->chains_len);
    for (size_t i = 0; i < pools->chains_len; i++) {
        const grain_chain *chain = &pools->chains[i];
        put_root(out, chain, &place);
        put_number(out, chain->steps);
        for (uint32_t n = 0; n < chain->steps; n++, step++)
            put_step(out, &pools->steps[step], contents->step_flags[step], &place);
        put_byte(out, chain->tail != GRAIN_TAIL_READ);
        if (chain->tail != GRAIN_TAIL_READ)
            put_byte(out, chain->tail == GRAIN_TAIL_ASSIGN_THROUGH);
        if (chain->tail == GRAIN_TAIL_ASSIGN_THROUGH)
            put_number(out, chain->op);
        put_number(out, chain->operands);
    }
    free(places);
}

static int by_constant(const void *a, const void *b) {
    uint32_t one = ((const grain_case *)a)->constant, other = ((const grain_case *)b)->constant;
    return (one > other) - (one < other);
}

static void put_cases(rewritten *out, const grain_case *cases, uint32_t count) {
    grain_case *sorted = malloc((count + (size_t)1) * sizeof *sorted);
    out->failed = out->failed || sorted == NULL;
    if (sorted == NULL)
        return;
    if (count != 0)
        memcpy(sorted, cases, count * sizeof *sorted);
    qsort(sorted, count, sizeof *sorted, by_constant);
    put_number(out, count);
    for (uint32_t i = 0; i < count; i++) {
        put_number(out, sorted[i].constant);
        put_number(out, sorted[i].target);
    }
    free(sorted);
}

static void put_switches(rewritten *out, const grain_contents *contents) {
    const grain_pools *pools = &contents->program.pools;
    const grain_case *cases = pools->cases;
    const grain_range *range = contents->ranges;
    put_number(out, pools->switches_len);
    for (size_t i = 0; i < pools->switches_len; i++) {
        put_cases(out, cases, pools->switches[i].cases);
        cases += pools->switches[i].cases;
        put_number(out, pools->switches[i].ranges);
        for (uint32_t n = 0; n < pools->switches[i].ranges; n++, range++) {
            put_signed(out, range->from);
            put_signed(out, range->to);
            put_byte(out, range->is_inclusive);
            put_number(out, range->target);
        }
        put_number(out, pools->switches[i].otherwise);
    }
}

static void put_positions(rewritten *out, const grain_contents *contents) {
    const grain_place none = {0, 0};
    size_t count = grain_table_entries(contents->table, contents->table_len, NULL, 0), next = 0;
    grain_entry *entries = malloc((count + 1) * sizeof *entries);
    put_byte(out, contents->has_positions);
    out->failed = out->failed || entries == NULL;
    if (entries == NULL || !contents->has_positions) {
        free(entries);
        return;
    }
    grain_table_entries(contents->table, contents->table_len, entries, count);
    put_number(out, contents->positions);
    for (size_t i = 0; i < contents->positions; i++) {
        bool is_there = next < count && entries[next].address == i;
        const grain_place place = {is_there ? entries[next].line : 0, is_there ? entries[next].column : 0};
        put_place(out, is_there ? &place : &none);
        next += is_there;
    }
    free(entries);
}

/* The file again. The caller frees its bytes. */
static rewritten rewrite(const grain_contents *contents) {
    static const uint8_t head[] = {0, 'g', 'r', 'n', 2, 0};
    rewritten out = {NULL, 0, 0, false};
    for (size_t i = 0; i < sizeof head; i++)
        put_byte(&out, head[i]);
    put_number(&out, contents->caps);
    put_number(&out, contents->id_low);
    put_number(&out, contents->id_high);
    put_bytes(&out, contents->program.code, contents->program.code_len);
    put_chunk(&out, contents->program.chunks);
    put_functions(&out, contents);
    put_names(&out, &contents->program.pools);
    put_constants(&out, contents);
    put_operators(&out, contents);
    put_chains(&out, contents);
    put_switches(&out, contents);
    put_byte(&out, contents->has_source);
    if (contents->has_source)
        put_bytes(&out, contents->source, contents->source_len);
    put_positions(&out, contents);
    return out;
}

/* Whether the contents write these bytes. */
static bool writes_again(const grain_contents *contents, const uint8_t *bytes, size_t len) {
    rewritten out = rewrite(contents);
    bool is_same = !out.failed && out.len == len && memcmp(out.bytes, bytes, len) == 0;
    free(out.bytes);
    return is_same;
}

#endif
