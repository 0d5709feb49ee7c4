/* Written by tools/from_table.py (in the repository) from the instruction table. Don't edit it.
 *
 * GRAIN_INSTRUCTIONS(X) is X(tag, NAME, width, fields, quiet) for each instruction, in the order of tags: the byte with which
 * it begins, its name, how many bytes it takes, a letter for each field, and whether it is quiet (grain.h, grain_verify).
 * No other byte begins an instruction. The fields follow the tag without a gap, their low bytes first:
 *
 *     letter  bytes  what the field is
 *     c       2      the index of a constant
 *     n       2      the index of a name
 *     t       2      the index of an operator
 *     o       2      the index of an op-assignment
 *     f       2      the index of a fragment
 *     h       2      the index of a chain
 *     w       2      the index of a switch
 *     y       2      the index of a site of custom syntax
 *     s       2      a slot, a depth or a length
 *     a       1      a count of arguments or operands
 *     j       4      a jump's target
 *
 * A machine makes its decoder and its table of widths from this list, so that they are those of the verifier. */
#ifndef GRAIN_INSTRUCTIONS_H
#define GRAIN_INSTRUCTIONS_H

#define GRAIN_INSTRUCTIONS(X) \
    X(0x01, LOAD_CONST, 3, "c", 0) \
    X(0x02, UNIT, 1, "", 1) \
    X(0x03, FALSE, 1, "", 1) \
    X(0x04, TRUE, 1, "", 1) \
    X(0x05, LOAD_LOCAL, 3, "s", 0) \
    X(0x06, STORE_LOCAL, 3, "s", 0) \
    X(0x07, ASSIGN_LOCAL, 5, "sn", 0) \
    X(0x08, ASSIGN_LOCAL_OP, 7, "sno", 0) \
    X(0x09, DECLARE_LOCAL, 3, "n", 0) \
    X(0x0a, DECLARE_CONST, 3, "n", 0) \
    X(0x0b, POP, 1, "", 1) \
    X(0x0c, JUMP, 5, "j", 0) \
    X(0x0d, JUMP_IF_TRUE, 5, "j", 0) \
    X(0x0e, JUMP_IF_FALSE, 5, "j", 0) \
    X(0x0f, CALL, 4, "na", 0) \
    X(0x10, CALL_OP, 6, "nat", 0) \
    X(0x11, UNWIND_TO, 3, "s", 1) \
    X(0x12, TICK, 1, "", 0) \
    X(0x13, RETURN, 1, "", 1) \
    X(0x14, EVAL_AST, 3, "f", 0) \
    X(0x15, EVAL_AST_KEEP, 3, "f", 0) \
    X(0x16, CHAIN, 3, "h", 0) \
    X(0x17, MAKE_ARRAY, 3, "s", 0) \
    X(0x18, SWITCH, 3, "w", 0) \
    X(0x19, LOAD_NAMED, 3, "n", 0) \
    X(0x1a, ASSIGN_NAMED, 3, "n", 0) \
    X(0x1b, ASSIGN_NAMED_OP, 5, "no", 0) \
    X(0x1c, THROW, 1, "", 0) \
    X(0x1d, ITER_INIT, 1, "", 0) \
    X(0x1e, ITER_NEXT, 5, "j", 0) \
    X(0x1f, ITER_DROP, 1, "", 1) \
    X(0x20, STORE_SHARED, 3, "s", 0) \
    X(0x21, ITER_NEXT_INDEXED, 7, "js", 0) \
    X(0x22, POP_HANDLER, 1, "", 1) \
    X(0x23, PUSH_HANDLER, 5, "j", 0) \
    X(0x24, PUSH_HANDLER_VAR, 7, "jn", 0) \
    X(0x25, INTERPOLATE_START, 1, "", 0) \
    X(0x26, INTERPOLATE_APPEND, 1, "", 0) \
    X(0x27, INTERPOLATE_END, 1, "", 0) \
    X(0x28, MAKE_FN_PTR, 1, "", 0) \
    X(0x29, CURRY, 2, "a", 0) \
    X(0x2a, CALL_FN_PTR, 2, "a", 0) \
    X(0x2b, CALL_FN_PTR_METHOD, 2, "a", 0) \
    X(0x2c, SHARE, 3, "s", 0) \
    X(0x2d, SHARE_NAMED, 3, "n", 0) \
    X(0x2e, LOAD_SHARED, 3, "s", 0) \
    X(0x2f, MAKE_CLOSURE, 3, "n", 0) \
    X(0x30, IS_SHARED, 1, "", 0) \
    X(0x31, CHECKPOINT, 1, "", 0) \
    X(0x32, CHECK_ARRAY_SIZE, 3, "s", 0) \
    X(0x33, CHECK_MAP_SIZE, 3, "s", 0) \
    X(0x34, MAKE_MAP, 3, "s", 0) \
    X(0x35, CALL_LOCAL_REF, 6, "nas", 0) \
    X(0x36, ROTATE, 2, "a", 1) \
    X(0x37, CALL_NAMED_REF, 6, "nan", 0) \
    X(0x38, LOAD_SHARED_NAMED, 3, "n", 0) \
    X(0x39, LOAD_THIS, 1, "", 0) \
    X(0x3a, LOAD_THIS_SHARED, 1, "", 0) \
    X(0x3b, REQUIRE_THIS, 1, "", 0) \
    X(0x3c, ASSIGN_THIS, 1, "", 0) \
    X(0x3d, ASSIGN_THIS_OP, 3, "o", 0) \
    X(0x3e, CALL_THIS_REF, 4, "na", 0) \
    X(0x3f, CALL_FN_PTR_ON_LOCAL, 4, "as", 0) \
    X(0x40, CALL_FN_PTR_ON_NAMED, 4, "an", 0) \
    X(0x41, CALL_FN_PTR_ON_THIS, 2, "a", 0) \
    X(0x42, SKIP_IF_NOT_UNIT, 5, "j", 0) \
    X(0x47, STATEMENT, 3, "s", 0) \
    X(0x48, STORE_CONST, 3, "s", 0) \
    X(0x49, CALL_FN_PTR_CAPTURE, 2, "a", 0) \
    X(0x4a, CUSTOM_SYNTAX, 3, "y", 0) \
    X(0x4b, DECLARE_GLOBAL_CONST, 3, "n", 0) \
    X(0x4d, EXPORT_LOCAL, 5, "sn", 0) \
    X(0x4e, EXPORT_NAMED, 5, "nn", 0) \
    X(0x4f, IMPORT, 3, "n", 0)

/* The bytes with which instructions begin. */
#define GRAIN_TAG_ENUMERATOR(tag, name, width, fields, quiet) GRAIN_TAG_##name = tag,
typedef enum grain_tag { GRAIN_INSTRUCTIONS(GRAIN_TAG_ENUMERATOR) } grain_tag;
#undef GRAIN_TAG_ENUMERATOR

#endif
