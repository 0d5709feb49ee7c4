//! The items of pools, and their rows in the flat form.
use crate::capabilities::Caps;

/// Where a chain begins.
#[derive(Clone, Copy, Debug, PartialEq, Eq, Hash)]
pub enum Root {
    /// At a local variable.
    Local {
        /// The index of its name.
        name: u32,
        /// Its slot.
        slot: u16,
    },
    /// At a variable that is found by its name.
    Named {
        /// The index of its name.
        name: u32,
    },
    /// At the receiver of the function.
    This,
    /// At a value on the operand stack.
    Temporary,
}

/// A step of a chain.
#[derive(Clone, Copy, Debug, PartialEq, Eq, Hash)]
pub enum Step {
    /// An index.
    Index {
        /// Which of the operands of the chain it is.
        operand: u16,
    },
    /// A property.
    Property {
        /// The index of its name.
        name: u32,
        /// The index of the name of the function that reads it.
        getter: u32,
        /// The index of the name of the function that writes it.
        setter: u32,
    },
    /// A call of a method.
    Method {
        /// The index of its name.
        name: u32,
        /// How many arguments it has.
        argc: u8,
        /// Which of the operands of the chain the first of them is.
        operand: u16,
    },
}

/// What a chain does at its end.
#[derive(Clone, Copy, Debug, PartialEq, Eq, Hash)]
pub enum Tail {
    /// It reads the value at its last step.
    Read,
    /// It assigns to the place at its last step.
    Assign,
    /// It assigns to that place through an op-assignment.
    AssignThrough {
        /// The index of the op-assignment.
        op: u32,
    },
}

/// A case of a switch.
#[repr(C)]
#[derive(Clone, Copy, Debug, PartialEq, Eq, Hash)]
pub struct Case {
    /// The address to which it jumps.
    pub target: u32,
    /// The index of its constant.
    pub constant: u32,
}

/// What a constant needs of the host.
#[derive(Clone, Copy, Debug, PartialEq, Eq, Hash)]
pub enum Needs {
    /// These capabilities. An array needs [`Caps::ARRAY`], a blob [`Caps::BLOB`], an object map [`Caps::MAP`], a function
    /// pointer [`Caps::FN_PTR`], and each also what its parts need. Other values need nothing.
    Caps(Caps),
    /// Nobody can say: the constant is a value that is shared or the host's own, or holds one. It passes under any
    /// capabilities, so a host that allows such constants must itself know what they can do.
    Unknown,
}

impl From<Caps> for Needs {
    #[inline]
    fn from(caps: Caps) -> Needs {
        Needs::Caps(caps)
    }
}

/// A constant, as verification sees it: what it needs of the host. It is made from [`Needs`] or [`Caps`].
#[repr(C)]
#[derive(Clone, Copy, Debug, PartialEq, Eq, Hash)]
pub struct Constant {
    is_known: u16,
    caps: u16,
}

impl Constant {
    /// What it needs.
    #[must_use]
    pub const fn needs(self) -> Needs {
        if self.is_known == 0 {
            Needs::Unknown
        } else {
            Needs::Caps(Caps::from_bits_truncate(self.caps))
        }
    }

    /// What it needs, by number, if that is known.
    pub(crate) fn bits(self) -> Option<u16> {
        (self.is_known != 0).then_some(self.caps)
    }
}

impl From<Needs> for Constant {
    #[inline]
    fn from(needs: Needs) -> Constant {
        let caps = match needs {
            Needs::Caps(caps) => Some(caps.bits()),
            Needs::Unknown => None,
        };
        Constant {
            is_known: u16::from(caps.is_some()),
            caps: caps.unwrap_or(0),
        }
    }
}

impl From<Caps> for Constant {
    #[inline]
    fn from(caps: Caps) -> Constant {
        Constant::from(Needs::Caps(caps))
    }
}

/// A chain in the flat form. Its steps are among the steps of all chains, after those of the chains before it.
#[repr(C)]
#[derive(Clone, Copy, Debug, PartialEq, Eq, Hash)]
pub struct ChainRow {
    root: u32,
    root_name: u32,
    steps: u32,
    tail: u32,
    op: u32,
    operands: u16,
    slot: u16,
}

impl ChainRow {
    /// A chain with this many steps, which take this many operands.
    #[inline]
    #[must_use]
    pub fn new(root: Root, steps: u32, tail: Tail, operands: u16) -> ChainRow {
        let (root, root_name, slot) = match root {
            Root::Local { name, slot } => (0, name, slot),
            Root::Named { name } => (1, name, 0),
            Root::This => (2, 0, 0),
            Root::Temporary => (3, 0, 0),
        };
        let (tail, op) = match tail {
            Tail::Read => (0, 0),
            Tail::Assign => (1, 0),
            Tail::AssignThrough { op } => (2, op),
        };
        ChainRow {
            root,
            root_name,
            steps,
            tail,
            op,
            operands,
            slot,
        }
    }

    /// Where it begins.
    #[must_use]
    pub fn root(&self) -> Root {
        let (name, slot) = (self.root_name, self.slot);
        match self.root {
            0 => Root::Local { name, slot },
            1 => Root::Named { name },
            2 => Root::This,
            _ => Root::Temporary,
        }
    }

    /// How many steps it has.
    #[must_use]
    pub fn steps(&self) -> u32 {
        self.steps
    }

    /// What it does at its end.
    #[must_use]
    pub fn tail(&self) -> Tail {
        match self.tail {
            0 => Tail::Read,
            1 => Tail::Assign,
            _ => Tail::AssignThrough { op: self.op },
        }
    }

    /// How many operands its steps take.
    #[must_use]
    pub fn operands(&self) -> u16 {
        self.operands
    }
}

/// A step in the flat form. It is made from a [`Step`].
#[repr(C)]
#[derive(Clone, Copy, Debug, PartialEq, Eq, Hash)]
pub struct StepRow {
    kind: u32,
    name: u32,
    getter: u32,
    setter: u32,
    operand: u16,
    argc: u8,
}

impl From<Step> for StepRow {
    #[inline]
    fn from(step: Step) -> StepRow {
        let none = StepRow {
            kind: 0,
            name: 0,
            getter: 0,
            setter: 0,
            operand: 0,
            argc: 0,
        };
        match step {
            Step::Index { operand } => StepRow { operand, ..none },
            Step::Property {
                name,
                getter,
                setter,
            } => StepRow {
                kind: 1,
                name,
                getter,
                setter,
                ..none
            },
            Step::Method {
                name,
                argc,
                operand,
            } => StepRow {
                kind: 2,
                name,
                argc,
                operand,
                ..none
            },
        }
    }
}

impl From<StepRow> for Step {
    fn from(row: StepRow) -> Step {
        let StepRow {
            kind,
            name,
            getter,
            setter,
            operand,
            argc,
        } = row;
        match kind {
            0 => Step::Index { operand },
            1 => Step::Property {
                name,
                getter,
                setter,
            },
            _ => Step::Method {
                name,
                argc,
                operand,
            },
        }
    }
}

/// A switch in the flat form. Its cases and ranges are among those of all switches, after those of the switches before it.
#[repr(C)]
#[derive(Clone, Copy, Debug, PartialEq, Eq, Hash)]
pub struct SwitchRow {
    /// How many cases it has.
    pub cases: u32,
    /// How many ranges it has.
    pub ranges: u32,
    /// The target of all other subjects.
    pub otherwise: u32,
}
