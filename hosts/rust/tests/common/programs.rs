//! Programs with pools, made by chance: most of them hold, since they are made of statements that leave the stacks as they
//! find them; and then something is changed in some.
use crate::common::chance::Chance;
use crate::common::model::{ModelChain, ModelPools, ModelSwitch, Row, Table};
use grain::{Caps, Case, Chunk, Constant, Needs, Pools, Root, Step, Tail};

#[derive(Clone, Debug)]
pub struct Program {
    pub caps: Caps,
    pub code: Vec<u8>,
    pub chunks: Vec<Chunk>,
    pub pools: ModelPools,
}

/// A constant that needs these, or of which nobody can say.
pub fn constant(needed: Option<Caps>) -> Constant {
    needed.map_or(Needs::Unknown, Needs::Caps).into()
}

/// The pools as the package builds them.
pub fn built(pools: &ModelPools) -> Pools {
    let mut built = Pools::new();
    built
        .extend_constants(pools.constants.iter().copied().map(constant))
        .unwrap();
    built.extend_names(&pools.names).unwrap();
    built.set_operators(pools.operators);
    built.set_op_assignments(pools.op_assignments);
    built.set_fragments(pools.fragments);
    built.set_functions(pools.functions);
    for chain in &pools.chains {
        let steps = chain.steps.iter().copied();
        built
            .add_chain(chain.root, steps, chain.tail, chain.operands)
            .unwrap();
    }
    for switch in &pools.switches {
        let cases = switch.cases.iter().copied();
        let ranges = switch.ranges.iter().copied();
        built.add_switch(cases, ranges, switch.otherwise).unwrap();
    }
    built
}

const NAMES: [&str; 10] = [
    "x", "len", "a::b", "::a", "b::", "a:::b", "a::b::c", "é::x", "get$x", "",
];

fn chain(chance: &mut Chance, names: u32, op_assignments: u32) -> ModelChain {
    let operands = chance.below(4) as u16;
    // One in a few is out of bounds, which does no harm where no code names the chain.
    let odd = |chance: &mut Chance| u32::from(chance.one_in(60)) * chance.below(9) as u32;
    let name = |chance: &mut Chance| (chance.next() as u32) % names.max(1) + odd(chance);
    let root = match chance.below(4) {
        0 if names > 0 => Root::Local {
            name: name(chance),
            slot: chance.below(1 << 16) as u16,
        },
        1 if names > 0 => Root::Named { name: name(chance) },
        2 => Root::This,
        _ => Root::Temporary,
    };
    let mut steps = Vec::new();
    for _ in 0..chance.below(4) {
        let argc = chance.below(usize::from(operands) + 1) as u8;
        steps.push(match chance.below(3) {
            0 if operands > 0 => Step::Index {
                operand: chance.below(usize::from(operands)) as u16 + odd(chance) as u16,
            },
            1 if names > 0 => Step::Property {
                name: name(chance),
                getter: name(chance),
                setter: name(chance),
            },
            2 if names > 0 => Step::Method {
                name: name(chance),
                argc,
                operand: if argc == 0 {
                    chance.below(9) as u16
                } else {
                    operands - u16::from(argc)
                },
            },
            _ => continue,
        });
    }
    let tail = match chance.below(4) {
        0 => Tail::Assign,
        1 if op_assignments > 0 => Tail::AssignThrough {
            op: (chance.next() as u32) % op_assignments + odd(chance),
        },
        _ => Tail::Read,
    };
    ModelChain {
        root,
        steps,
        tail,
        operands,
    }
}

fn pools(chance: &mut Chance) -> ModelPools {
    let of_values = Caps::ARRAY | Caps::BLOB | Caps::MAP | Caps::FN_PTR;
    let needed = |chance: &mut Chance| match chance.below(4) {
        0 => None,
        1 => Some(Caps::from_bits_truncate(chance.next() as u16) & of_values),
        _ => Some(Caps::NONE),
    };
    let names: Vec<_> = (0..chance.below(6))
        .map(|_| chance.one_of(&NAMES).to_string())
        .collect();
    let op_assignments = chance.below(3);
    ModelPools {
        constants: (0..chance.below(5)).map(|_| needed(chance)).collect(),
        operators: chance.below(3),
        op_assignments,
        fragments: chance.below(3),
        functions: chance.below(3),
        chains: (0..chance.below(4))
            .map(|_| chain(chance, names.len() as u32, op_assignments as u32))
            .collect(),
        switches: Vec::new(),
        names,
    }
}

/// Code in the making. Until it is whole, targets are numbers of labels.
struct Writer<'a> {
    table: &'a Table,
    chance: &'a mut Chance,
    code: Vec<u8>,
    labels: Vec<u32>,
    jumps: Vec<usize>,
    pools: ModelPools,
}

impl Writer<'_> {
    fn label(&mut self) -> usize {
        self.labels.push(u32::MAX);
        self.labels.len() - 1
    }

    fn place(&mut self, label: usize) {
        self.labels[label] = self.code.len() as u32;
    }

    fn jump(&mut self, tag: u8, label: usize) {
        self.code.push(tag);
        self.jumps.push(self.code.len());
        self.code.extend((label as u32).to_le_bytes());
    }

    /// A value for a field, if there is one.
    fn field(&mut self, letter: char) -> Option<usize> {
        let bound = match letter {
            'c' => self.pools.constants.len(),
            'n' => self.pools.names.len(),
            't' => self.pools.operators,
            'o' => self.pools.op_assignments,
            'f' => self.pools.fragments,
            'h' => self.pools.chains.len(),
            's' | 'a' => 4,
            _ => 0,
        };
        (bound > 0).then(|| self.chance.below(bound))
    }

    fn fields(&mut self, row: &Row) -> Option<Vec<(char, usize)>> {
        row.fields
            .iter()
            .map(|letter| Some((*letter, self.field(*letter)?)))
            .collect()
    }

    fn emit(&mut self, tag: u8, fields: &[(char, usize)]) {
        self.code.push(tag);
        for (letter, value) in fields {
            match letter {
                'a' => self.code.push(*value as u8),
                _ => self.code.extend((*value as u16).to_le_bytes()),
            }
        }
    }

    fn taken(&self, row: &Row, fields: &[(char, usize)]) -> usize {
        let field = |letter| fields.iter().find(|field| field.0 == letter).unwrap().1;
        match row.operands[1].as_str() {
            "a" => field('a'),
            "a+1" => field('a') + 1,
            "m" => field('a').saturating_sub(1),
            "s" => field('s'),
            "2s+1" => 2 * field('s') + 1,
            "k" => {
                let chain = &self.pools.chains[field('h')];
                let more = usize::from(chain.root == Root::Temporary);
                usize::from(chain.operands) + more + usize::from(chain.tail != Tail::Read)
            }
            number => number.parse().unwrap(),
        }
    }

    /// One operand more.
    fn value(&mut self, depth: usize) {
        let table = self.table;
        let choice = if self.chance.below(3) == 0 {
            None
        } else {
            Some(())
        };
        let (tag, row) = table.one_of(self.chance, |row| {
            row.flow.is_empty() && row.operands[2] == "1"
        });
        let fields = choice.and_then(|()| self.fields(row));
        match fields {
            Some(fields) if depth > 0 => {
                for _ in 0..self.taken(row, &fields) {
                    self.value(depth - 1);
                }
                self.emit(tag, &fields);
            }
            _ => {
                let tag = self.chance.one_of(&[0x02, 0x03, 0x04]);
                self.emit(tag, &[]);
            }
        }
        if self.chance.one_in(30) {
            // Two more, turned round, and taken off.
            self.emit(0x02, &[]);
            self.emit(0x02, &[]);
            self.emit(0x36, &[('a', 2)]);
            self.emit(0x0b, &[]);
            self.emit(0x0b, &[]);
        }
    }

    /// One operand fewer.
    fn sink(&mut self) {
        let table = self.table;
        let is_sink = |row: &Row| row.flow.is_empty() && row.operands[..] == ["1", "1", "0"];
        let (tag, row) = table.one_of(self.chance, is_sink);
        match self.fields(row) {
            Some(fields) => self.emit(tag, &fields),
            None => self.emit(0x0b, &[]),
        }
    }

    fn block(&mut self, depth: usize) {
        for _ in 0..self.chance.below(3) {
            self.statement(depth);
        }
    }

    /// What leaves the stacks as it finds them.
    fn statement(&mut self, depth: usize) {
        if depth == 0 {
            return self.value_and_sink(0);
        }
        match self.chance.below(10) {
            0 => self.nothing(),
            1 => self.branch(depth - 1),
            2 => self.round(depth - 1),
            3 => self.each(depth - 1),
            4 => self.handled(depth - 1),
            5 => self.switched(depth - 1),
            6 => self.unless_unit(depth - 1),
            7 => self.interpolated(depth - 1),
            _ => self.value_and_sink(depth),
        }
    }

    fn value_and_sink(&mut self, depth: usize) {
        self.value(depth);
        self.sink();
    }

    fn nothing(&mut self) {
        let table = self.table;
        let is_idle = |row: &Row| row.flow.is_empty() && row.operands[..] == ["0", "0", "0"];
        let (tag, row) = table.one_of(self.chance, is_idle);
        if let Some(fields) = self.fields(row) {
            self.emit(tag, &fields);
        }
    }

    fn branch(&mut self, depth: usize) {
        let (other, end) = (self.label(), self.label());
        self.value(depth);
        let tag = self.chance.one_of(&[0x0d, 0x0e]);
        self.jump(tag, other);
        self.block(depth);
        self.jump(0x0c, end);
        self.place(other);
        self.block(depth);
        self.place(end);
    }

    fn round(&mut self, depth: usize) {
        let (start, end) = (self.label(), self.label());
        self.place(start);
        self.value(depth);
        self.jump(0x0e, end);
        self.block(depth);
        self.jump(0x0c, start);
        self.place(end);
    }

    fn each(&mut self, depth: usize) {
        let (start, end) = (self.label(), self.label());
        self.value(depth);
        self.emit(0x1d, &[]);
        self.place(start);
        self.jump(0x1e, end);
        self.sink();
        self.block(depth);
        if self.chance.one_in(3) {
            self.emit(0x1f, &[]);
            self.jump(0x0c, end);
        } else {
            self.jump(0x0c, start);
        }
        self.place(end);
    }

    fn handled(&mut self, depth: usize) {
        let (caught, end) = (self.label(), self.label());
        let sinks = self.chance.one_in(6);
        if sinks {
            self.value(depth);
        }
        self.jump(0x23, caught);
        self.block(depth);
        if sinks {
            // Below the base of the handler, and back: only quiet instructions may be between.
            self.emit(0x0b, &[]);
            let tag = self.chance.one_of(&[0x02, 0x02, 0x02, 0x12]);
            self.emit(tag, &[]);
            self.emit(0x02, &[]);
            let tag = self.chance.one_of(&[0x0b, 0x0b, 0x31]);
            self.emit(tag, &[]);
        }
        self.emit(0x22, &[]);
        self.jump(0x0c, end);
        self.place(caught);
        self.emit(0x22, &[]);
        self.block(depth);
        self.place(end);
        if sinks {
            self.sink();
        }
    }

    fn switched(&mut self, depth: usize) {
        let end = self.label();
        let arms: Vec<usize> = (0..1 + self.chance.below(3))
            .map(|_| self.label())
            .collect();
        let mut switch = ModelSwitch::default();
        for _ in 0..self.chance.below(4) {
            if let Some(constant) = self.field('c') {
                switch.cases.push(Case {
                    target: self.chance.one_of(&arms) as u32,
                    constant: constant as u32,
                });
            }
        }
        for _ in 0..self.chance.below(3) {
            switch.ranges.push(self.chance.one_of(&arms) as u32);
        }
        switch.otherwise = self.chance.one_of(&arms) as u32;
        self.pools.switches.push(switch);
        let place = self.pools.switches.len() - 1;
        self.value(depth);
        self.emit(0x18, &[('w', place)]);
        for arm in arms {
            self.place(arm);
            self.block(depth);
            self.jump(0x0c, end);
        }
        self.place(end);
        self.sink();
    }

    fn unless_unit(&mut self, depth: usize) {
        let end = self.label();
        self.value(depth);
        self.jump(0x42, end);
        self.sink();
        self.value(depth);
        self.place(end);
        self.sink();
    }

    fn interpolated(&mut self, depth: usize) {
        self.emit(0x25, &[]);
        for _ in 0..self.chance.below(3) {
            self.value(depth);
            self.emit(0x26, &[]);
        }
        self.emit(0x27, &[]);
        self.sink();
    }

    fn chunk(&mut self) -> Chunk {
        let entry = self.code.len() as u32;
        self.block(3);
        self.value(2);
        let tag = self.chance.one_of(&[0x13, 0x13, 0x1c]);
        self.emit(tag, &[]);
        Chunk {
            entry,
            end: self.code.len() as u32,
            max_stack: 12 + self.chance.below(20) as u16,
        }
    }
}

/// A program that mostly holds.
fn whole(chance: &mut Chance, table: &Table) -> Program {
    let pools = pools(chance);
    let many = chance.below(4);
    let mut writer = Writer {
        table,
        chance,
        code: Vec::new(),
        labels: Vec::new(),
        jumps: Vec::new(),
        pools,
    };
    let mut chunks: Vec<Chunk> = (0..many).map(|_| writer.chunk()).collect();
    if many > 0 && writer.chance.one_in(4) {
        let again = writer.chance.one_of(&chunks);
        chunks.push(again);
    }
    let (labels, jumps) = (writer.labels, writer.jumps);
    let (mut code, mut pools) = (writer.code, writer.pools);
    for at in jumps {
        let label: [u8; 4] = code[at..at + 4].try_into().unwrap();
        let target = labels[u32::from_le_bytes(label) as usize];
        code[at..at + 4].copy_from_slice(&target.to_le_bytes());
    }
    for switch in &mut pools.switches {
        let targets = switch.cases.iter_mut().map(|case| &mut case.target);
        let targets = targets.chain(&mut switch.ranges);
        for target in targets.chain([&mut switch.otherwise]) {
            *target = labels[*target as usize];
        }
    }
    Program {
        caps: Caps::ALL,
        code,
        chunks,
        pools,
    }
}

/// Something else about the program.
fn change(chance: &mut Chance, program: &mut Program) {
    let len = program.code.len();
    let pools = &mut program.pools;
    let place = |chance: &mut Chance, len: usize| (len > 0).then(|| chance.below(len));
    match chance.below(18) {
        0..=2 => {
            if let Some(at) = place(chance, len) {
                program.code[at] = chance.next() as u8;
            }
        }
        3 => {
            if let Some(at) = place(chance, len) {
                program.code[at] = chance.one_of(&[0x02, 0x0b, 0x13, 0x1f, 0x22, 0x1d, 0x12, 0x31]);
            }
        }
        4 => program.code.truncate(len - len.min(chance.below(4))),
        5 | 6 => {
            let kept = chance.next() as u16 | chance.next() as u16;
            program.caps &= Caps::from_bits_truncate(kept);
        }
        7 | 8 => {
            if let Some(chunk) = place(chance, program.chunks.len()) {
                program.chunks[chunk].max_stack = chance.below(4) as u16;
            }
        }
        9 => {
            if let Some(chunk) = place(chance, program.chunks.len()) {
                let chunk = &mut program.chunks[chunk];
                chunk.entry = chunk.entry.wrapping_add(chance.below(3) as u32);
                chunk.end = chunk.end.wrapping_sub(chance.below(3) as u32);
            }
        }
        10 => program.chunks.push(Chunk {
            entry: chance.below(len + 2) as u32,
            end: chance.below(len + 2) as u32,
            max_stack: 8,
        }),
        11 => drop(pools.names.pop()),
        12 => drop(pools.constants.pop()),
        13 => {
            if let Some(switch) = place(chance, pools.switches.len()) {
                pools.switches[switch].otherwise = chance.below(len + 2) as u32;
            }
        }
        14 => {
            if let Some(switch) = place(chance, pools.switches.len()) {
                let target = chance.below(len + 2) as u32;
                pools.switches[switch].ranges.push(target);
            }
        }
        15 => {
            if let Some(chain) = place(chance, pools.chains.len()) {
                pools.chains[chain].operands = chance.below(4) as u16;
            }
        }
        16 => {
            let at = chance.below(len + 1);
            let short: &[&[u8]] = &[
                &[0x02],
                &[0x0b],
                &[0x1e, 0, 0, 0, 0],
                &[0x22],
                &[0x1f],
                &[0x12],
            ];
            let more = chance.one_of(short);
            program.code.splice(at..at, more.iter().copied());
        }
        _ => {
            pools.op_assignments = pools.op_assignments.saturating_sub(1);
            pools.operators = pools.operators.saturating_sub(1);
            pools.chains.truncate(2);
        }
    }
}

/// A program: of three, one as it was made, and two with something changed.
pub fn program(chance: &mut Chance, table: &Table) -> Program {
    let mut program = whole(chance, table);
    for _ in 0..chance.below(3) {
        change(chance, &mut program);
    }
    program
}
