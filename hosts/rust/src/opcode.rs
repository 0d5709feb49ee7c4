//! The instruction table.
use crate::code::Kind;

/// Where control goes after an instruction (FORMAT.md, "Verification").
#[derive(Clone, Copy, Debug, PartialEq, Eq, Hash)]
#[non_exhaustive]
pub enum Flow {
    /// To the next instruction.
    Next,
    /// Nowhere: the run of the chunk ends.
    Ends,
    /// To its target.
    Jumps,
    /// To its target, or to the next instruction.
    Branches,
    /// To the target of a case or of a range of its switch, or to the default target.
    Switches,
    /// To the next instruction, with an iterator more.
    BeginsIterator,
    /// To its target with an iterator fewer, or to the next instruction with an operand more.
    AdvancesIterator,
    /// To the next instruction, with an iterator fewer.
    EndsIterator,
    /// To the next instruction, with a handler more, which catches at its target.
    ArmsHandler,
    /// To the next instruction, without the last handler.
    DisarmsHandler,
}

/// A row of the table, without its tag.
struct Layout {
    name: &'static str,
    fields: &'static [Kind],
    flow: Flow,
    is_quiet: bool,
}

/// The type of a field of [`Instruction`].
macro_rules! field_type {
    (Count) => {
        u8
    };
    (Target) => {
        u32
    };
    ($other:ident) => {
        u16
    };
}

/// The doc comment of a field of [`Instruction`].
macro_rules! field_doc {
    (Constant) => {
        "The index of a constant."
    };
    (Name) => {
        "The index of a name."
    };
    (Operator) => {
        "The index of an operator."
    };
    (OpAssignment) => {
        "The index of an op-assignment."
    };
    (Fragment) => {
        "The index of a fragment of syntax."
    };
    (Chain) => {
        "The index of a chain."
    };
    (Switch) => {
        "The index of a switch."
    };
    (SyntaxSite) => {
        "The index of a site of custom syntax."
    };
    (Slot) => {
        "A slot, a depth, a length, or an index within a literal."
    };
    (Count) => {
        "A count of arguments or of operands."
    };
    (Target) => {
        "The address where it leads."
    };
}

/// Takes a field from the first of the bytes that have it.
macro_rules! take {
    (Count, $left:ident) => {{
        let (value, rest) = ($left[0], &$left[1..]);
        $left = rest;
        value
    }};
    (Target, $left:ident) => {{
        let value = u32::from_le_bytes([$left[0], $left[1], $left[2], $left[3]]);
        $left = &$left[4..];
        value
    }};
    ($other:ident, $left:ident) => {{
        let value = u16::from_le_bytes([$left[0], $left[1]]);
        $left = &$left[2..];
        value
    }};
}

/// How many bytes a field takes.
const fn size_of_field(kind: Kind) -> u32 {
    match kind {
        Kind::Count => 1,
        Kind::Target => 4,
        _ => 2,
    }
}

macro_rules! opcodes {
    ($(
        $variant:ident = $tag:literal, $name:literal, $([$($field:ident: $kind:ident),+],)? $flow:ident, $is_quiet:literal;
    )*) => {
        /// What an instruction does: a row of the instruction table (FORMAT.md, "Instructions"). Its number is the tag, the
        /// byte with which the instruction begins.
        ///
        /// A machine matches on an [`Instruction`], whose fields have names.
        ///
        /// ```
        /// use grain::{Flow, Kind, Opcode};
        ///
        /// let code = [0x0e, 7, 0, 0, 0, 0x13];
        /// let (opcode, fields) = Opcode::decode(&code, 0).unwrap();
        /// assert_eq!((opcode, fields[0]), (Opcode::JumpIfFalse, 7));
        /// assert_eq!((opcode.tag(), opcode.name()), (0x0e, "JUMP_IF_FALSE"));
        /// assert_eq!((opcode.fields(), opcode.width()), (&[Kind::Target][..], 5));
        /// assert_eq!((opcode.flow(), opcode.is_quiet()), (Flow::Branches, false));
        /// assert_eq!(Opcode::decode(&code, 5), Some((Opcode::Return, [0; 3])));
        /// assert_eq!(Opcode::decode(&[0xff], 0), None);
        /// ```
        #[derive(Clone, Copy, Debug, PartialEq, Eq, PartialOrd, Ord, Hash)]
        #[non_exhaustive]
        #[repr(u8)]
        pub enum Opcode {
            $(#[doc = concat!("`", $name, "`.")] $variant = $tag,)*
        }

        impl Opcode {
            /// All of them, in the order of their tags.
            pub const ALL: &'static [Opcode] = &[$(Opcode::$variant,)*];

            const fn layout(self) -> &'static Layout {
                match self {
                    $(Opcode::$variant => &Layout {
                        name: $name,
                        fields: &[$($(Kind::$kind),+)?],
                        flow: Flow::$flow,
                        is_quiet: $is_quiet,
                    },)*
                }
            }
        }

        /// An instruction with its fields, as a machine runs it (FORMAT.md, "Instructions").
        ///
        /// ```
        /// use grain::{Instruction, Opcode};
        ///
        /// let code = [0x0f, 7, 0, 2, 0x13];
        /// let (call, next) = Instruction::decode(&code, 0).unwrap();
        /// assert_eq!((call, next), (Instruction::Call { name: 7, argc: 2 }, 4));
        /// assert_eq!(call.opcode(), Opcode::Call);
        /// assert_eq!(Instruction::decode(&code, next), Some((Instruction::Return, 5)));
        /// assert_eq!(Instruction::decode(&code, 1), None);
        /// ```
        #[derive(Clone, Copy, Debug, PartialEq, Eq, Hash)]
        #[non_exhaustive]
        pub enum Instruction {
            $(
                #[doc = concat!("`", $name, "`.")]
                $variant $({
                    $(#[doc = field_doc!($kind)] $field: field_type!($kind),)+
                })?,
            )*
        }

        impl Instruction {
            /// The instruction at an address, and the address of the next one; `None` if there is none.
            ///
            /// This is plain Rust, quick enough for a machine. [`instruction`](crate::instruction) returns the same by the proved
            /// library.
            #[inline]
            #[must_use]
            pub fn decode(code: &[u8], address: u32) -> Option<(Instruction, u32)> {
                let (tag, rest) = code.get(address as usize..)?.split_first()?;
                match tag {
                    $($tag => {
                        const WIDTH: u32 = Opcode::$variant.width();
                        let next = address.checked_add(WIDTH)?;
                        $(
                            let mut left = rest.get(..WIDTH as usize - 1)?;
                            $(let $field = take!($kind, left);)+
                            debug_assert!(left.is_empty());
                        )?
                        Some((Instruction::$variant $({ $($field),+ })?, next))
                    })*
                    _ => None,
                }
            }

            /// What it does, without its fields.
            #[inline]
            #[must_use]
            pub const fn opcode(self) -> Opcode {
                match self {
                    $(Instruction::$variant { .. } => Opcode::$variant,)*
                }
            }
        }
    };
}

const BY_TAG: [Option<Opcode>; 256] = by_tag();

const fn by_tag() -> [Option<Opcode>; 256] {
    let (mut found, mut place) = ([None; 256], 0);
    while place < Opcode::ALL.len() {
        found[Opcode::ALL[place] as usize] = Some(Opcode::ALL[place]);
        place += 1;
    }
    found
}

impl Opcode {
    /// The one with this tag, or `None` if no instruction begins with the byte.
    #[inline]
    #[must_use]
    pub const fn from_tag(tag: u8) -> Option<Opcode> {
        BY_TAG[tag as usize]
    }

    /// The byte with which the instruction begins.
    #[inline]
    #[must_use]
    pub const fn tag(self) -> u8 {
        self as u8
    }

    /// Its name in FORMAT.md, such as `JUMP_IF_FALSE`.
    #[must_use]
    pub const fn name(self) -> &'static str {
        self.layout().name
    }

    /// What its fields are, in order: at most three. A [`Kind::Count`] takes one byte, a [`Kind::Target`] four, all others two,
    /// the lowest byte first.
    #[inline]
    #[must_use]
    pub const fn fields(self) -> &'static [Kind] {
        self.layout().fields
    }

    /// How many bytes the instruction takes, with its tag.
    #[inline]
    #[must_use]
    pub const fn width(self) -> u32 {
        let (fields, mut width, mut place) = (self.fields(), 1, 0);
        while place < fields.len() {
            width += size_of_field(fields[place]);
            place += 1;
        }
        width
    }

    /// Where control goes after it.
    #[inline]
    #[must_use]
    pub const fn flow(self) -> Flow {
        self.layout().flow
    }

    /// Whether it is quiet: a machine must never fault at it, or only with at least what was on the stacks when the last handler
    /// was armed ([what a host must do](crate#what-a-host-must-do)).
    #[inline]
    #[must_use]
    pub const fn is_quiet(self) -> bool {
        self.layout().is_quiet
    }

    /// The instruction at an address, and its fields, followed by zeros; `None` if there is none.
    ///
    /// [`Instruction::decode`] returns the same with names.
    #[inline]
    #[must_use]
    pub fn decode(code: &[u8], address: u32) -> Option<(Opcode, [u32; 3])> {
        let (tag, mut rest) = code.get(address as usize..)?.split_first()?;
        let opcode = Opcode::from_tag(*tag)?;
        let mut fields = [0; 3];
        for (field, kind) in fields.iter_mut().zip(opcode.fields()) {
            let size = size_of_field(*kind) as usize;
            let bytes = rest.get(..size)?;
            *field = bytes
                .iter()
                .rev()
                .fold(0, |value, byte| value << 8 | u32::from(*byte));
            rest = &rest[size..];
        }
        Some((opcode, fields))
    }
}

/// The one with this tag, as [`Opcode::from_tag`] finds it; otherwise the byte.
impl TryFrom<u8> for Opcode {
    type Error = u8;

    fn try_from(tag: u8) -> Result<Opcode, u8> {
        Opcode::from_tag(tag).ok_or(tag)
    }
}

// Written by tools/from_table.py (in the repository) from the instruction table.
opcodes! {
    LoadConst = 0x01, "LOAD_CONST", [constant: Constant], Next, false;
    Unit = 0x02, "UNIT", Next, true;
    False = 0x03, "FALSE", Next, true;
    True = 0x04, "TRUE", Next, true;
    LoadLocal = 0x05, "LOAD_LOCAL", [slot: Slot], Next, false;
    StoreLocal = 0x06, "STORE_LOCAL", [slot: Slot], Next, false;
    AssignLocal = 0x07, "ASSIGN_LOCAL", [slot: Slot, name: Name], Next, false;
    AssignLocalOp = 0x08, "ASSIGN_LOCAL_OP", [slot: Slot, name: Name, op_assignment: OpAssignment], Next, false;
    DeclareLocal = 0x09, "DECLARE_LOCAL", [name: Name], Next, false;
    DeclareConst = 0x0a, "DECLARE_CONST", [name: Name], Next, false;
    Pop = 0x0b, "POP", Next, true;
    Jump = 0x0c, "JUMP", [target: Target], Jumps, false;
    JumpIfTrue = 0x0d, "JUMP_IF_TRUE", [target: Target], Branches, false;
    JumpIfFalse = 0x0e, "JUMP_IF_FALSE", [target: Target], Branches, false;
    Call = 0x0f, "CALL", [name: Name, argc: Count], Next, false;
    CallOp = 0x10, "CALL_OP", [name: Name, argc: Count, operator: Operator], Next, false;
    UnwindTo = 0x11, "UNWIND_TO", [len: Slot], Next, true;
    Tick = 0x12, "TICK", Next, false;
    Return = 0x13, "RETURN", Ends, true;
    EvalAst = 0x14, "EVAL_AST", [fragment: Fragment], Next, false;
    EvalAstKeep = 0x15, "EVAL_AST_KEEP", [fragment: Fragment], Next, false;
    Chain = 0x16, "CHAIN", [chain: Chain], Next, false;
    MakeArray = 0x17, "MAKE_ARRAY", [len: Slot], Next, false;
    Switch = 0x18, "SWITCH", [switch: Switch], Switches, false;
    LoadNamed = 0x19, "LOAD_NAMED", [name: Name], Next, false;
    AssignNamed = 0x1a, "ASSIGN_NAMED", [name: Name], Next, false;
    AssignNamedOp = 0x1b, "ASSIGN_NAMED_OP", [name: Name, op_assignment: OpAssignment], Next, false;
    Throw = 0x1c, "THROW", Ends, false;
    IterInit = 0x1d, "ITER_INIT", BeginsIterator, false;
    IterNext = 0x1e, "ITER_NEXT", [target: Target], AdvancesIterator, false;
    IterDrop = 0x1f, "ITER_DROP", EndsIterator, true;
    StoreShared = 0x20, "STORE_SHARED", [slot: Slot], Next, false;
    IterNextIndexed = 0x21, "ITER_NEXT_INDEXED", [target: Target, slot: Slot], AdvancesIterator, false;
    PopHandler = 0x22, "POP_HANDLER", DisarmsHandler, true;
    PushHandler = 0x23, "PUSH_HANDLER", [target: Target], ArmsHandler, false;
    PushHandlerVar = 0x24, "PUSH_HANDLER_VAR", [target: Target, variable: Name], ArmsHandler, false;
    InterpolateStart = 0x25, "INTERPOLATE_START", Next, false;
    InterpolateAppend = 0x26, "INTERPOLATE_APPEND", Next, false;
    InterpolateEnd = 0x27, "INTERPOLATE_END", Next, false;
    MakeFnPtr = 0x28, "MAKE_FN_PTR", Next, false;
    Curry = 0x29, "CURRY", [argc: Count], Next, false;
    CallFnPtr = 0x2a, "CALL_FN_PTR", [argc: Count], Next, false;
    CallFnPtrMethod = 0x2b, "CALL_FN_PTR_METHOD", [argc: Count], Next, false;
    Share = 0x2c, "SHARE", [slot: Slot], Next, false;
    ShareNamed = 0x2d, "SHARE_NAMED", [name: Name], Next, false;
    LoadShared = 0x2e, "LOAD_SHARED", [slot: Slot], Next, false;
    MakeClosure = 0x2f, "MAKE_CLOSURE", [name: Name], Next, false;
    IsShared = 0x30, "IS_SHARED", Next, false;
    Checkpoint = 0x31, "CHECKPOINT", Next, false;
    CheckArraySize = 0x32, "CHECK_ARRAY_SIZE", [index: Slot], Next, false;
    CheckMapSize = 0x33, "CHECK_MAP_SIZE", [index: Slot], Next, false;
    MakeMap = 0x34, "MAKE_MAP", [len: Slot], Next, false;
    CallLocalRef = 0x35, "CALL_LOCAL_REF", [name: Name, argc: Count, slot: Slot], Next, false;
    Rotate = 0x36, "ROTATE", [count: Count], Next, true;
    CallNamedRef = 0x37, "CALL_NAMED_REF", [name: Name, argc: Count, variable: Name], Next, false;
    LoadSharedNamed = 0x38, "LOAD_SHARED_NAMED", [name: Name], Next, false;
    LoadThis = 0x39, "LOAD_THIS", Next, false;
    LoadThisShared = 0x3a, "LOAD_THIS_SHARED", Next, false;
    RequireThis = 0x3b, "REQUIRE_THIS", Next, false;
    AssignThis = 0x3c, "ASSIGN_THIS", Next, false;
    AssignThisOp = 0x3d, "ASSIGN_THIS_OP", [op_assignment: OpAssignment], Next, false;
    CallThisRef = 0x3e, "CALL_THIS_REF", [name: Name, argc: Count], Next, false;
    CallFnPtrOnLocal = 0x3f, "CALL_FN_PTR_ON_LOCAL", [argc: Count, slot: Slot], Next, false;
    CallFnPtrOnNamed = 0x40, "CALL_FN_PTR_ON_NAMED", [argc: Count, variable: Name], Next, false;
    CallFnPtrOnThis = 0x41, "CALL_FN_PTR_ON_THIS", [argc: Count], Next, false;
    SkipIfNotUnit = 0x42, "SKIP_IF_NOT_UNIT", [target: Target], Branches, false;
    Statement = 0x47, "STATEMENT", [depth: Slot], Next, false;
    StoreConst = 0x48, "STORE_CONST", [slot: Slot], Next, false;
    CallFnPtrCapture = 0x49, "CALL_FN_PTR_CAPTURE", [argc: Count], Next, false;
    CustomSyntax = 0x4a, "CUSTOM_SYNTAX", [site: SyntaxSite], Next, false;
    DeclareGlobalConst = 0x4b, "DECLARE_GLOBAL_CONST", [name: Name], Next, false;
    ExportLocal = 0x4d, "EXPORT_LOCAL", [slot: Slot, alias: Name], Next, false;
    ExportNamed = 0x4e, "EXPORT_NAMED", [name: Name, alias: Name], Next, false;
    Import = 0x4f, "IMPORT", [alias: Name], Next, false;
}
