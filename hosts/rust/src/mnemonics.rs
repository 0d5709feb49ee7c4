//! The names of tags: those of FORMAT.md ("Instructions").

/// The name of the instructions that begin with this byte, or `None` if none does that this package knows.
///
/// ```
/// assert_eq!(grain::mnemonic(0x13), Some("RETURN"));
/// assert_eq!(grain::mnemonic(0x00), None);
/// ```
#[must_use]
pub const fn mnemonic(tag: u8) -> Option<&'static str> {
    BY_TAG[tag as usize]
}

const BY_TAG: [Option<&str>; 256] = by_tag();

const fn by_tag() -> [Option<&'static str>; 256] {
    let (mut names, mut place) = ([None; 256], 0);
    while place < MNEMONICS.len() {
        names[MNEMONICS[place].0 as usize] = Some(MNEMONICS[place].1);
        place += 1;
    }
    names
}

const MNEMONICS: [(u8, &str); 74] = [
    (0x01, "LOAD_CONST"),
    (0x02, "UNIT"),
    (0x03, "FALSE"),
    (0x04, "TRUE"),
    (0x05, "LOAD_LOCAL"),
    (0x06, "STORE_LOCAL"),
    (0x07, "ASSIGN_LOCAL"),
    (0x08, "ASSIGN_LOCAL_OP"),
    (0x09, "DECLARE_LOCAL"),
    (0x0a, "DECLARE_CONST"),
    (0x0b, "POP"),
    (0x0c, "JUMP"),
    (0x0d, "JUMP_IF_TRUE"),
    (0x0e, "JUMP_IF_FALSE"),
    (0x0f, "CALL"),
    (0x10, "CALL_OP"),
    (0x11, "UNWIND_TO"),
    (0x12, "TICK"),
    (0x13, "RETURN"),
    (0x14, "EVAL_AST"),
    (0x15, "EVAL_AST_KEEP"),
    (0x16, "CHAIN"),
    (0x17, "MAKE_ARRAY"),
    (0x18, "SWITCH"),
    (0x19, "LOAD_NAMED"),
    (0x1a, "ASSIGN_NAMED"),
    (0x1b, "ASSIGN_NAMED_OP"),
    (0x1c, "THROW"),
    (0x1d, "ITER_INIT"),
    (0x1e, "ITER_NEXT"),
    (0x1f, "ITER_DROP"),
    (0x20, "STORE_SHARED"),
    (0x21, "ITER_NEXT_INDEXED"),
    (0x22, "POP_HANDLER"),
    (0x23, "PUSH_HANDLER"),
    (0x24, "PUSH_HANDLER_VAR"),
    (0x25, "INTERPOLATE_START"),
    (0x26, "INTERPOLATE_APPEND"),
    (0x27, "INTERPOLATE_END"),
    (0x28, "MAKE_FN_PTR"),
    (0x29, "CURRY"),
    (0x2a, "CALL_FN_PTR"),
    (0x2b, "CALL_FN_PTR_METHOD"),
    (0x2c, "SHARE"),
    (0x2d, "SHARE_NAMED"),
    (0x2e, "LOAD_SHARED"),
    (0x2f, "MAKE_CLOSURE"),
    (0x30, "IS_SHARED"),
    (0x31, "CHECKPOINT"),
    (0x32, "CHECK_ARRAY_SIZE"),
    (0x33, "CHECK_MAP_SIZE"),
    (0x34, "MAKE_MAP"),
    (0x35, "CALL_LOCAL_REF"),
    (0x36, "ROTATE"),
    (0x37, "CALL_NAMED_REF"),
    (0x38, "LOAD_SHARED_NAMED"),
    (0x39, "LOAD_THIS"),
    (0x3a, "LOAD_THIS_SHARED"),
    (0x3b, "REQUIRE_THIS"),
    (0x3c, "ASSIGN_THIS"),
    (0x3d, "ASSIGN_THIS_OP"),
    (0x3e, "CALL_THIS_REF"),
    (0x3f, "CALL_FN_PTR_ON_LOCAL"),
    (0x40, "CALL_FN_PTR_ON_NAMED"),
    (0x41, "CALL_FN_PTR_ON_THIS"),
    (0x42, "SKIP_IF_NOT_UNIT"),
    (0x47, "STATEMENT"),
    (0x48, "STORE_CONST"),
    (0x49, "CALL_FN_PTR_CAPTURE"),
    (0x4a, "CUSTOM_SYNTAX"),
    (0x4b, "DECLARE_GLOBAL_CONST"),
    (0x4d, "EXPORT_LOCAL"),
    (0x4e, "EXPORT_NAMED"),
    (0x4f, "IMPORT"),
];
