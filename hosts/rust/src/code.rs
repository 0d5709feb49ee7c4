//! Code, instruction by instruction.
use crate::mnemonics::mnemonic;
use crate::opcode::Opcode;
use crate::raw;
use crate::text::Text;
use std::fmt;
use std::iter::FusedIterator;

/// What a number is: a field of an instruction, or the index that a refusal names.
#[derive(Clone, Copy, Debug, PartialEq, Eq, Hash)]
#[non_exhaustive]
pub enum Kind {
    /// The index of a constant.
    Constant,
    /// The index of a name.
    Name,
    /// The index of an operator.
    Operator,
    /// The index of an op-assignment.
    OpAssignment,
    /// The index of a fragment of syntax.
    Fragment,
    /// The index of a chain.
    Chain,
    /// The index of a switch.
    Switch,
    /// The index of a site of custom syntax.
    SyntaxSite,
    /// A place among the operands of a chain.
    Operand,
    /// A slot, a depth, a length, or an index within a literal.
    Slot,
    /// A count of arguments or of operands.
    Count,
    /// A jump target: an address in the code.
    Target,
    /// A number that this package doesn't know.
    Unknown(
        /// Its number in `grain.h`.
        u32,
    ),
}

impl Kind {
    pub(crate) fn of(kind: u32) -> Kind {
        match kind {
            1 => Kind::Constant,
            2 => Kind::Name,
            3 => Kind::Operator,
            4 => Kind::OpAssignment,
            5 => Kind::Fragment,
            6 => Kind::Chain,
            7 => Kind::Switch,
            8 => Kind::SyntaxSite,
            9 => Kind::Operand,
            10 => Kind::Slot,
            11 => Kind::Count,
            12 => Kind::Target,
            unknown => Kind::Unknown(unknown),
        }
    }
}

/// It prints as words of a sentence: `constant`, `op-assignment`.
impl fmt::Display for Kind {
    fn fmt(&self, f: &mut fmt::Formatter<'_>) -> fmt::Result {
        f.pad(match self {
            Kind::Constant => "constant",
            Kind::Name => "name",
            Kind::Operator => "operator",
            Kind::OpAssignment => "op-assignment",
            Kind::Fragment => "fragment of syntax",
            Kind::Chain => "chain",
            Kind::Switch => "switch",
            Kind::SyntaxSite => "site of custom syntax",
            Kind::Operand => "operand of the chain",
            Kind::Slot => "slot",
            Kind::Count => "count",
            Kind::Target => "target",
            Kind::Unknown(_) => "something unknown",
        })
    }
}

/// A field of an instruction.
#[derive(Clone, Copy, Debug, PartialEq, Eq, Hash)]
pub struct Field {
    /// What it is.
    pub kind: Kind,
    /// The index, the slot, the count or the target.
    pub value: u32,
}

/// An instruction as tools print it: its tag, its bytes, and its fields with their kinds. It prints as its name and its fields in
/// order, such as `CALL 3 2`.
///
/// The proved library decodes it. A machine matches on [`Instruction`](crate::Instruction).
#[derive(Clone, Copy, Debug, PartialEq, Eq, Hash)]
pub struct InstructionRow {
    /// The byte with which it begins.
    pub tag: u8,
    /// How many bytes it takes, with its tag.
    pub width: u8,
    fields: [Option<Field>; 3],
    bytes: [u8; MOST_BYTES],
}

/// No instruction takes more bytes.
const MOST_BYTES: usize = 7;

impl InstructionRow {
    /// Its row of the instruction table; `None` if this package doesn't know the tag.
    #[must_use]
    pub fn opcode(&self) -> Option<Opcode> {
        Opcode::from_tag(self.tag)
    }

    /// Its fields, in order.
    pub fn fields(&self) -> impl Iterator<Item = Field> + '_ {
        self.fields.iter().flatten().copied()
    }

    /// Its field of a kind, the first if it has two.
    #[must_use]
    pub fn field(&self, kind: Kind) -> Option<u32> {
        self.fields()
            .find(|field| field.kind == kind)
            .map(|field| field.value)
    }

    /// Whether it is quiet: a machine must never fault at it, or only with at least what was on the stacks when the last handler
    /// was armed ([what a host must do](crate#what-a-host-must-do)).
    #[must_use]
    pub fn is_quiet(&self) -> bool {
        // SAFETY: a number is all that the function is given.
        unsafe { raw::grain_is_quiet(self.tag) }
    }

    /// Its bytes.
    #[must_use]
    pub fn bytes(&self) -> &[u8] {
        &self.bytes[..usize::from(self.width).min(MOST_BYTES)]
    }

    /// Its name in FORMAT.md ("Instructions"); `?` if this package doesn't know the tag.
    #[must_use]
    pub fn mnemonic(&self) -> &'static str {
        mnemonic(self.tag).unwrap_or("?")
    }
}

impl fmt::Display for InstructionRow {
    fn fmt(&self, f: &mut fmt::Formatter<'_>) -> fmt::Result {
        let code = self.bytes();
        // SAFETY: the code is one slice, and the room is as large as is said.
        let text = Text::written_by(|room, size| unsafe {
            raw::grain_instruction_text(code.as_ptr(), code.len(), 0, room, size)
        });
        if text.is_empty() {
            f.pad(self.mnemonic())
        } else {
            f.pad(&text)
        }
    }
}

/// The instructions of code from address 0 on, each with its address, up to the first byte at which none begins.
///
/// ```
/// use grain::instructions;
///
/// let code = [0x02, 0x0e, 0x07, 0, 0, 0, 0x0b, 0x13, 0x00];
/// let mut left = instructions(&code);
/// let lines: Vec<_> = left.by_ref().map(|(address, each)| format!("{address} {each}")).collect();
/// assert_eq!(lines, ["0 UNIT", "1 JUMP_IF_FALSE 7", "6 POP", "7 RETURN"]);
/// assert_eq!((left.address(), left.is_whole()), (8, false));
/// ```
#[must_use]
pub fn instructions(code: &[u8]) -> Instructions<'_> {
    Instructions { code, address: 0 }
}

/// The instructions of code that are left, in order, each with its address, as [`instructions`] returns them.
#[derive(Clone, Debug)]
pub struct Instructions<'a> {
    code: &'a [u8],
    address: u32,
}

impl<'a> Instructions<'a> {
    /// Those from an address on.
    pub(crate) fn from(code: &'a [u8], address: u32) -> Instructions<'a> {
        Instructions { code, address }
    }

    /// The address of the next one. After the last it is the first address at which there is no instruction, or the length
    /// of the code.
    #[must_use]
    pub fn address(&self) -> u32 {
        self.address
    }

    /// Whether no code is left.
    #[must_use]
    pub fn is_whole(&self) -> bool {
        self.address as usize == self.code.len()
    }
}

impl Iterator for Instructions<'_> {
    type Item = (u32, InstructionRow);

    fn next(&mut self) -> Option<(u32, InstructionRow)> {
        let (address, found) = (self.address, instruction(self.code, self.address)?);
        // Code that is longer than an address can say is read no further.
        self.address = address.checked_add(u32::from(found.width))?;
        Some((address, found))
    }

    fn size_hint(&self) -> (usize, Option<usize>) {
        let left = self.code.len().saturating_sub(self.address as usize);
        (0, Some(left))
    }
}

impl FusedIterator for Instructions<'_> {}

/// How many instructions the whole code is.
///
/// ```
/// assert_eq!(grain::count_instructions(&[0x02, 0x13]), Ok(2));
/// assert_eq!(grain::count_instructions(&[0x02, 0xff]), Err(1));
/// ```
///
/// # Errors
/// The first address at which there is no instruction.
pub fn count_instructions(code: &[u8]) -> Result<usize, usize> {
    let (mut count, mut damage) = (0, 0);
    // SAFETY: the code is one slice, and the numbers live for the call.
    let is_whole = unsafe {
        raw::grain_count_instructions(code.as_ptr(), code.len(), &mut count, &mut damage)
    };
    if is_whole {
        Ok(count)
    } else {
        Err(damage)
    }
}

/// The instruction at an address, or `None` if there is none.
///
/// The proved library decodes it. A machine decodes faster by [`Instruction::decode`](crate::Instruction::decode).
#[must_use]
pub fn instruction(code: &[u8], address: u32) -> Option<InstructionRow> {
    let at = address as usize;
    let mut found = raw::Instruction::default();
    // SAFETY: the code is one slice, and `found` lives for the call.
    if !unsafe { raw::grain_instruction(code.as_ptr(), code.len(), at, &mut found) } {
        return None;
    }
    let fields = found.fields.map(|field| {
        (field.kind != 0).then(|| Field {
            kind: Kind::of(field.kind),
            value: field.value,
        })
    });
    let mut bytes = [0; MOST_BYTES];
    let spelled = code.iter().skip(at).take(usize::from(found.width));
    for (byte, own) in bytes.iter_mut().zip(spelled) {
        *byte = *own;
    }
    Some(InstructionRow {
        tag: found.tag,
        width: found.width,
        fields,
        bytes,
    })
}
