/* The layouts of grain.h's records, which are those of the records in Rattle (hosts/c/compare of the repository). */
#ifndef GRAIN_LAYOUT_H
#define GRAIN_LAYOUT_H

#include "grain.h"

#if defined(__cplusplus)
#define GRAIN_ASSERT(condition, name) static_assert(condition, #name)
#elif defined(__STDC_VERSION__) && __STDC_VERSION__ >= 201112L
#define GRAIN_ASSERT(condition, name) _Static_assert(condition, #name)
#else
#define GRAIN_ASSERT(condition, name) typedef char grain_layout_of_##name[(condition) ? 1 : -1]
#endif
#define GRAIN_AT(record, field, offset) GRAIN_ASSERT(offsetof(record, field) == (offset), record##_##field)
#define GRAIN_SIZE(record, size) GRAIN_ASSERT(sizeof(record) == (size), record)

GRAIN_SIZE(bool, 1);

GRAIN_SIZE(grain_chunk, 12);
GRAIN_AT(grain_chunk, entry, 0);
GRAIN_AT(grain_chunk, end, 4);
GRAIN_AT(grain_chunk, max_stack, 8);

GRAIN_SIZE(grain_constant, 4);
GRAIN_AT(grain_constant, is_known, 0);
GRAIN_AT(grain_constant, caps, 2);

GRAIN_SIZE(grain_chain, 24);
GRAIN_AT(grain_chain, root, 0);
GRAIN_AT(grain_chain, root_name, 4);
GRAIN_AT(grain_chain, steps, 8);
GRAIN_AT(grain_chain, tail, 12);
GRAIN_AT(grain_chain, op, 16);
GRAIN_AT(grain_chain, operands, 20);
GRAIN_AT(grain_chain, slot, 22);

GRAIN_SIZE(grain_step, 20);
GRAIN_AT(grain_step, kind, 0);
GRAIN_AT(grain_step, name, 4);
GRAIN_AT(grain_step, getter, 8);
GRAIN_AT(grain_step, setter, 12);
GRAIN_AT(grain_step, operand, 16);
GRAIN_AT(grain_step, argc, 18);

GRAIN_SIZE(grain_switch, 12);
GRAIN_AT(grain_switch, cases, 0);
GRAIN_AT(grain_switch, ranges, 4);
GRAIN_AT(grain_switch, otherwise, 8);

GRAIN_SIZE(grain_case, 8);
GRAIN_AT(grain_case, target, 0);
GRAIN_AT(grain_case, constant, 4);

GRAIN_SIZE(grain_pools, 160);
GRAIN_AT(grain_pools, constants, 0);
GRAIN_AT(grain_pools, constants_len, 8);
GRAIN_AT(grain_pools, names, 16);
GRAIN_AT(grain_pools, names_len, 24);
GRAIN_AT(grain_pools, starts, 32);
GRAIN_AT(grain_pools, starts_len, 40);
GRAIN_AT(grain_pools, operators, 48);
GRAIN_AT(grain_pools, op_assignments, 56);
GRAIN_AT(grain_pools, fragments, 64);
GRAIN_AT(grain_pools, functions, 72);
GRAIN_AT(grain_pools, chains, 80);
GRAIN_AT(grain_pools, chains_len, 88);
GRAIN_AT(grain_pools, steps, 96);
GRAIN_AT(grain_pools, steps_len, 104);
GRAIN_AT(grain_pools, switches, 112);
GRAIN_AT(grain_pools, switches_len, 120);
GRAIN_AT(grain_pools, cases, 128);
GRAIN_AT(grain_pools, cases_len, 136);
GRAIN_AT(grain_pools, ranges, 144);
GRAIN_AT(grain_pools, ranges_len, 152);

GRAIN_SIZE(grain_program, 192);
GRAIN_AT(grain_program, code, 0);
GRAIN_AT(grain_program, code_len, 8);
GRAIN_AT(grain_program, chunks, 16);
GRAIN_AT(grain_program, chunks_len, 24);
GRAIN_AT(grain_program, pools, 32);

GRAIN_SIZE(grain_scratch, 16);
GRAIN_AT(grain_scratch, made, 0);
GRAIN_AT(grain_scratch, block, 8);

GRAIN_SIZE(grain_refusal, 40);
GRAIN_AT(grain_refusal, flaw, 0);
GRAIN_AT(grain_refusal, chunk, 8);
GRAIN_AT(grain_refusal, at, 16);
GRAIN_AT(grain_refusal, first, 24);
GRAIN_AT(grain_refusal, second, 32);

GRAIN_SIZE(grain_report, 48);
GRAIN_AT(grain_report, refusal, 0);
GRAIN_AT(grain_report, visited, 40);

GRAIN_SIZE(grain_field, 8);
GRAIN_AT(grain_field, kind, 0);
GRAIN_AT(grain_field, value, 4);

GRAIN_SIZE(grain_instruction_row, 28);
GRAIN_AT(grain_instruction_row, tag, 0);
GRAIN_AT(grain_instruction_row, width, 1);
GRAIN_AT(grain_instruction_row, fields, 4);

GRAIN_SIZE(grain_place, 8);
GRAIN_AT(grain_place, line, 0);
GRAIN_AT(grain_place, column, 4);

GRAIN_SIZE(grain_entry, 12);
GRAIN_AT(grain_entry, address, 0);
GRAIN_AT(grain_entry, line, 4);
GRAIN_AT(grain_entry, column, 8);

GRAIN_SIZE(grain_row, 20);
GRAIN_AT(grain_row, at, 0);
GRAIN_AT(grain_row, operands, 4);
GRAIN_AT(grain_row, iterators, 8);
GRAIN_AT(grain_row, from, 12);
GRAIN_AT(grain_row, base, 16);

GRAIN_SIZE(grain_base, 12);
GRAIN_AT(grain_base, operands, 0);
GRAIN_AT(grain_base, iterators, 4);
GRAIN_AT(grain_base, next, 8);

GRAIN_SIZE(grain_explanation, 72);
GRAIN_AT(grain_explanation, rows, 0);
GRAIN_AT(grain_explanation, path, 8);
GRAIN_AT(grain_explanation, other, 16);
GRAIN_AT(grain_explanation, bases, 24);
GRAIN_AT(grain_explanation, refusal, 32);

GRAIN_SIZE(grain_pools_flaw, 16);
GRAIN_AT(grain_pools_flaw, list, 0);
GRAIN_AT(grain_pools_flaw, index, 8);

GRAIN_SIZE(grain_function, 16);
GRAIN_AT(grain_function, name, 0);
GRAIN_AT(grain_function, parameters, 4);
GRAIN_AT(grain_function, is_private, 8);
GRAIN_AT(grain_function, is_typed, 9);
GRAIN_AT(grain_function, this_type, 12);

GRAIN_SIZE(grain_op_assignment, 8);
GRAIN_AT(grain_op_assignment, op_assign_name, 0);
GRAIN_AT(grain_op_assignment, op_name, 4);

GRAIN_SIZE(grain_range, 24);
GRAIN_AT(grain_range, from, 0);
GRAIN_AT(grain_range, to, 8);
GRAIN_AT(grain_range, is_inclusive, 16);
GRAIN_AT(grain_range, target, 20);

GRAIN_SIZE(grain_value, 16);
GRAIN_AT(grain_value, tag, 0);
GRAIN_AT(grain_value, count, 4);
GRAIN_AT(grain_value, number, 8);

GRAIN_SIZE(grain_contents, 504);
GRAIN_AT(grain_contents, size, 0);
GRAIN_AT(grain_contents, program, 8);
GRAIN_AT(grain_contents, caps, 200);
GRAIN_AT(grain_contents, has_source, 202);
GRAIN_AT(grain_contents, has_positions, 203);
GRAIN_AT(grain_contents, id_low, 208);
GRAIN_AT(grain_contents, id_high, 216);
GRAIN_AT(grain_contents, source, 224);
GRAIN_AT(grain_contents, source_len, 232);
GRAIN_AT(grain_contents, functions, 240);
GRAIN_AT(grain_contents, functions_len, 248);
GRAIN_AT(grain_contents, parameters, 256);
GRAIN_AT(grain_contents, parameters_len, 264);
GRAIN_AT(grain_contents, constants, 272);
GRAIN_AT(grain_contents, constants_len, 280);
GRAIN_AT(grain_contents, values, 288);
GRAIN_AT(grain_contents, values_len, 296);
GRAIN_AT(grain_contents, texts, 304);
GRAIN_AT(grain_contents, texts_len, 312);
GRAIN_AT(grain_contents, operators, 320);
GRAIN_AT(grain_contents, operators_len, 328);
GRAIN_AT(grain_contents, operator_texts, 336);
GRAIN_AT(grain_contents, operator_texts_len, 344);
GRAIN_AT(grain_contents, op_assignments, 352);
GRAIN_AT(grain_contents, op_assignments_len, 360);
GRAIN_AT(grain_contents, positions, 368);
GRAIN_AT(grain_contents, step_flags, 376);
GRAIN_AT(grain_contents, step_flags_len, 384);
GRAIN_AT(grain_contents, ranges, 392);
GRAIN_AT(grain_contents, ranges_len, 400);
GRAIN_AT(grain_contents, table, 408);
GRAIN_AT(grain_contents, table_len, 416);
GRAIN_AT(grain_contents, stream, 424);
GRAIN_AT(grain_contents, stream_len, 432);
GRAIN_AT(grain_contents, chain_steps, 440);
GRAIN_AT(grain_contents, chain_steps_len, 448);
GRAIN_AT(grain_contents, switch_cases, 456);
GRAIN_AT(grain_contents, switch_cases_len, 464);
GRAIN_AT(grain_contents, switch_ranges, 472);
GRAIN_AT(grain_contents, switch_ranges_len, 480);
GRAIN_AT(grain_contents, function_parameters, 488);
GRAIN_AT(grain_contents, function_parameters_len, 496);

GRAIN_SIZE(grain_limits, 24);
GRAIN_AT(grain_limits, size, 0);
GRAIN_AT(grain_limits, cases, 8);
GRAIN_AT(grain_limits, depth, 16);

GRAIN_SIZE(grain_room, 24);
GRAIN_AT(grain_room, bytes, 0);
GRAIN_AT(grain_room, len, 8);
GRAIN_AT(grain_room, size, 16);

GRAIN_SIZE(grain_read_error, 32);
GRAIN_AT(grain_read_error, cause, 0);
GRAIN_AT(grain_read_error, part, 4);
GRAIN_AT(grain_read_error, index, 8);
GRAIN_AT(grain_read_error, at, 16);
GRAIN_AT(grain_read_error, limit, 24);

#undef GRAIN_SIZE
#undef GRAIN_AT
#undef GRAIN_ASSERT
#endif
