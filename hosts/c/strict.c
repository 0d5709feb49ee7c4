/* Stands in front of each export of crates/grain_c, by the linker's --wrap, and ends the test where a pointer is NULL, also
 * that of an empty list. */
#include "proved.h"

#include <stdio.h>
#include <stdlib.h>

static void want(const void *pointer, const char *name) {
    if (pointer == NULL) {
        printf("%s is given NULL\n", name);
        exit(1);
    }
}

static void want_pools(const grain_pools *pools, const char *name) {
    want(pools, name);
    want(pools->constants, name);
    want(pools->names, name);
    want(pools->starts, name);
    want(pools->chains, name);
    want(pools->steps, name);
    want(pools->switches, name);
    want(pools->cases, name);
    want(pools->ranges, name);
}

static void want_program(const grain_program *program, const char *name) {
    want(program, name);
    want(program->code, name);
    want(program->chunks, name);
    want_pools(&program->pools, name);
}

static void want_contents(const grain_contents *contents, const char *name) {
    want(contents, name);
    want_program(&contents->program, name);
    want(contents->source, name);
    want(contents->functions, name);
    want(contents->parameters, name);
    want(contents->constants, name);
    want(contents->values, name);
    want(contents->texts, name);
    want(contents->operators, name);
    want(contents->operator_texts, name);
    want(contents->op_assignments, name);
    want(contents->step_flags, name);
    want(contents->ranges, name);
    want(contents->table, name);
    want(contents->stream, name);
    want(contents->chain_steps, name);
    want(contents->switch_cases, name);
    want(contents->switch_ranges, name);
    want(contents->function_parameters, name);
}

/* WRAP(answer, name, parameters, what is wanted, arguments) */
#define WRAP(answer, name, parameters, wanted, arguments) \
    answer __real_grain_proved_##name parameters; \
    answer __wrap_grain_proved_##name parameters; \
    answer __wrap_grain_proved_##name parameters { \
        static const char called[] = #name; \
        wanted; \
        return __real_grain_proved_##name arguments; \
    }

/* The same of a function that returns nothing. */
#define WRAP_VOID(name, parameters, wanted, arguments) \
    void __real_grain_proved_##name parameters; \
    void __wrap_grain_proved_##name parameters; \
    void __wrap_grain_proved_##name parameters { \
        static const char called[] = #name; \
        wanted; \
        __real_grain_proved_##name arguments; \
    }

WRAP(uint32_t, verify,
     (uint16_t caps, uint64_t limit, const grain_program *program, uint16_t *depths, size_t many, grain_report *report),
     (want_program(program, called), want(depths, called), want(report, called)),
     (caps, limit, program, depths, many, report))
WRAP(uint32_t, verify_with,
     (grain_scratch *scratch, uint16_t caps, uint64_t limit, const grain_program *program, uint16_t *depths, size_t many,
      grain_report *report),
     (want(scratch, called), want_program(program, called), want(depths, called), want(report, called)),
     (scratch, caps, limit, program, depths, many, report))
WRAP(uint32_t, tighten,
     (grain_scratch *scratch, uint16_t caps, uint64_t limit, const grain_program *program, grain_chunk *chunks, size_t many,
      grain_report *report),
     (want(scratch, called), want_program(program, called), want(chunks, called), want(report, called)),
     (scratch, caps, limit, program, chunks, many, report))
WRAP_VOID(slots, (const grain_program *program, uint32_t *slots, size_t many),
          (want_program(program, called), want(slots, called)), (program, slots, many))
WRAP(bool, check_pools, (const grain_pools *pools, grain_pools_flaw *flaw),
     (want_pools(pools, called), want(flaw, called)), (pools, flaw))
WRAP(uint32_t, explain,
     (uint16_t caps, const grain_program *program, size_t chunk, grain_row *rows, size_t rows_len, grain_base *bases,
      size_t bases_len, grain_explanation *explanation),
     (want_program(program, called), want(rows, called), want(bases, called), want(explanation, called)),
     (caps, program, chunk, rows, rows_len, bases, bases_len, explanation))
WRAP(uint32_t, file_read,
     (grain_held_file *file, const uint8_t *bytes, size_t bytes_len, const grain_limits *limits, grain_contents *contents,
      grain_read_error *error),
     (want(file, called), want(bytes, called), want(limits, called), want_contents(contents, called), want(error, called)),
     (file, bytes, bytes_len, limits, contents, error))
WRAP(uint32_t, file_verify,
     (grain_scratch *scratch, const grain_contents *contents, uint16_t host, uint64_t limit, uint16_t *depths, size_t many,
      grain_report *report),
     (want(scratch, called), want_contents(contents, called), want(depths, called), want(report, called)),
     (scratch, contents, host, limit, depths, many, report))
WRAP(uint32_t, file_tighten,
     (const uint8_t *bytes, size_t bytes_len, const grain_limits *limits, uint64_t limit, uint8_t *tightened, size_t room,
      size_t *size, grain_read_error *error, grain_report *report),
     (want(bytes, called), want(limits, called), want(tightened, called), want(size, called), want(error, called),
      want(report, called)),
     (bytes, bytes_len, limits, limit, tightened, room, size, error, report))
WRAP(uint32_t, file_strip,
     (const uint8_t *bytes, size_t bytes_len, const grain_limits *limits, uint8_t *stripped, size_t room, size_t *size,
      uint8_t *sidecar, size_t sidecar_room, size_t *sidecar_size, grain_read_error *error),
     (want(bytes, called), want(limits, called), want(stripped, called), want(size, called), want(sidecar, called),
      want(sidecar_size, called), want(error, called)),
     (bytes, bytes_len, limits, stripped, room, size, sidecar, sidecar_room, sidecar_size, error))
WRAP(size_t, read_error_text, (const grain_read_error *error, uint8_t *text, size_t size),
     (want(error, called), want(text, called)), (error, text, size))
WRAP(size_t, refusal_text, (const grain_refusal *refusal, uint8_t *text, size_t size),
     (want(refusal, called), want(text, called)), (refusal, text, size))
WRAP(size_t, instruction_text, (const uint8_t *code, size_t code_len, size_t at, uint8_t *text, size_t size),
     (want(code, called), want(text, called)), (code, code_len, at, text, size))
WRAP(bool, count_instructions, (const uint8_t *code, size_t code_len, size_t *count, size_t *damage),
     (want(code, called), want(count, called), want(damage, called)), (code, code_len, count, damage))
WRAP(bool, instruction, (const uint8_t *code, size_t code_len, size_t at, grain_instruction_row *instruction),
     (want(code, called), want(instruction, called)), (code, code_len, at, instruction))
WRAP(bool, site, (const uint8_t *table, size_t table_len, uint32_t address, grain_place *place),
     (want(table, called), want(place, called)), (table, table_len, address, place))
WRAP(uint32_t, check_table, (const uint8_t *table, size_t table_len, uint64_t *named),
     (want(table, called), want(named, called)), (table, table_len, named))
WRAP(size_t, table_entries, (const uint8_t *table, size_t table_len, grain_entry *entries, size_t entries_len),
     (want(table, called), want(entries, called)), (table, table_len, entries, entries_len))
WRAP(bool, stream_site, (const uint8_t *stream, size_t stream_len, uint32_t slot, grain_place *place),
     (want(stream, called), want(place, called)), (stream, stream_len, slot, place))
WRAP(uint32_t, check_stream, (const uint8_t *stream, size_t stream_len, uint64_t *named),
     (want(stream, called), want(named, called)), (stream, stream_len, named))
WRAP(bool, stream_sites,
     (const uint8_t *stream, size_t stream_len, grain_place *sites, size_t sites_len, size_t *count),
     (want(stream, called), want(sites, called), want(count, called)), (stream, stream_len, sites, sites_len, count))
