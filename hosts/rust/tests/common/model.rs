//! A plain model of verification, written from FORMAT.md and from nothing else. What instructions do is read in its
//! table; all else is the section "Verification" in the order of its sentences, without a thought of speed.
use crate::common::chance::Chance;
use grain::{Caps, Case, Chunk, Flaw, Kind, Root, Step, Tail};
use std::collections::{BTreeMap, BTreeSet, VecDeque};
use std::fs;
use std::path::Path;

/// Where FORMAT.md lies from the package: in the repository, and in a release.
const FORMATS: [&str; 2] = ["../../docs/FORMAT.md", "../FORMAT.md"];

fn format() -> String {
    let own = Path::new(env!("CARGO_MANIFEST_DIR"));
    let mut read = FORMATS
        .iter()
        .map(|path| fs::read_to_string(own.join(path)));
    read.find_map(Result::ok).expect("FORMAT.md")
}

/// What a program has besides its code and its chunks.
#[derive(Clone, Debug, Default)]
pub struct ModelPools {
    /// What each constant needs, or `None` where nobody can say.
    pub constants: Vec<Option<Caps>>,
    pub names: Vec<String>,
    pub operators: usize,
    pub op_assignments: usize,
    pub fragments: usize,
    pub functions: usize,
    pub chains: Vec<ModelChain>,
    pub switches: Vec<ModelSwitch>,
}

#[derive(Clone, Debug)]
pub struct ModelChain {
    pub root: Root,
    pub steps: Vec<Step>,
    pub tail: Tail,
    pub operands: u16,
}

#[derive(Clone, Debug, Default)]
pub struct ModelSwitch {
    pub cases: Vec<Case>,
    pub ranges: Vec<u32>,
    pub otherwise: u32,
}

/// The address of a flaw, where it has one, and the flaw.
pub type Found = (Option<u32>, Flaw);

/// The depths of the chunks and how many instructions are visited; or the chunk that is refused, if one is, and all flaws that
/// a refusal may name.
pub type Verdict = Result<(Vec<u16>, u64), (Option<usize>, Vec<Found>)>;

/// A row of the instruction table.
pub struct Row {
    pub fields: Vec<char>,
    pub operands: Vec<String>,
    needs: Vec<String>,
    pub flow: String,
    is_quiet: bool,
}

/// The instruction table, by tag.
pub struct Table(BTreeMap<u8, Row>);

impl Table {
    pub fn read() -> Table {
        let text = format();
        let rows = text.split("\n## Instructions\n").nth(1).unwrap();
        let rows = rows.split("\n## ").next().unwrap();
        let mut table = BTreeMap::new();
        for line in rows.lines().filter(|line| line.starts_with("| ")) {
            let cells: Vec<&str> = line.split('|').map(str::trim).collect();
            let Ok(tag) = u8::from_str_radix(cells[1], 16) else {
                continue;
            };
            let row = Row {
                fields: cells[3].chars().filter(|c| *c != ' ').collect(),
                operands: cells[6].split(' ').map(String::from).collect(),
                needs: cells[7].split(", ").map(String::from).collect(),
                flow: cells[8].to_string(),
                is_quiet: cells[9] == "quiet",
            };
            let width: usize = 1 + row.fields.iter().map(|f| size(*f)).sum::<usize>();
            assert_eq!(cells[4], width.to_string(), "{line}");
            assert!(table.insert(tag, row).is_none(), "{line}");
        }
        assert_eq!(table.len(), 74);
        Table(table)
    }

    /// A row by chance of those of a kind, with its tag.
    pub fn one_of(&self, chance: &mut Chance, is: impl Fn(&Row) -> bool) -> (u8, &Row) {
        let rows: Vec<_> = self.0.iter().filter(|(_, row)| is(row)).collect();
        let (tag, row) = rows[chance.below(rows.len())];
        (*tag, row)
    }
}

fn size(field: char) -> usize {
    match field {
        'a' => 1,
        'j' => 4,
        _ => 2,
    }
}

/// An instruction of the code.
struct Instruction<'t> {
    at: usize,
    next: usize,
    row: &'t Row,
    fields: Vec<(char, u64)>,
}

impl Instruction<'_> {
    fn field(&self, letter: char) -> u64 {
        let found = self.fields.iter().find(|field| field.0 == letter);
        found.unwrap().1
    }
}

/// How many operands and iterators there are, and the bases of the armed handlers.
#[derive(Clone, Debug, PartialEq, Eq, PartialOrd, Ord)]
struct State {
    operands: u64,
    iterators: u64,
    handlers: Vec<(u64, u64)>,
}

/// All that verification is given.
pub struct Model<'a> {
    pub table: &'a Table,
    pub caps: Caps,
    pub code: &'a [u8],
    pub chunks: &'a [Chunk],
    pub pools: &'a ModelPools,
}

impl<'a> Model<'a> {
    /// "It tests in this order, and names the first test that fails."
    pub fn verdict(&self) -> Verdict {
        self.check_constants().map_err(|flaws| (None, flaws))?;
        let (instructions, flaws) = self.read_code();
        if !flaws.is_empty() {
            return Err((None, flaws));
        }
        if self.pools.functions > 0 && !self.caps.contains(Caps::FUNCTION) {
            return Err((None, vec![self.missing(None, Caps::FUNCTION)]));
        }
        let (mut depths, mut visited) = (Vec::new(), 0);
        for (place, chunk) in self.chunks.iter().enumerate() {
            let walked = self.walk(chunk, &instructions);
            let (depth, reached) = walked.map_err(|flaws| (Some(place), flaws))?;
            depths.push(depth);
            visited += reached;
        }
        Ok((depths, visited))
    }

    fn missing(&self, at: Option<u32>, missing: Caps) -> Found {
        let host = self.caps;
        (at, Flaw::MissingCaps { missing, host })
    }

    fn check_constants(&self) -> Result<(), Vec<Found>> {
        let needed = self.pools.constants.iter().flatten();
        match needed.copied().find(|needed| !self.caps.contains(*needed)) {
            Some(needed) => Err(vec![self.missing(None, needed)]),
            None => Ok(()),
        }
    }

    /// The code as instructions by their addresses, or what is wrong first.
    fn read_code(&self) -> (BTreeMap<usize, Instruction<'a>>, Vec<Found>) {
        let (mut instructions, mut at) = (BTreeMap::new(), 0);
        while at < self.code.len() {
            let Some(found) = self.read(at) else {
                return (instructions, vec![(Some(at as u32), Flaw::Undecodable)]);
            };
            let flaws = self.check_indices(&found);
            if !flaws.is_empty() {
                return (instructions, flaws);
            }
            at = found.next;
            instructions.insert(found.at, found);
        }
        (instructions, Vec::new())
    }

    fn read(&self, at: usize) -> Option<Instruction<'a>> {
        let row = self.table.0.get(&self.code[at])?;
        let (mut next, mut fields) = (at + 1, Vec::new());
        for letter in &row.fields {
            let bytes = self.code.get(next..next + size(*letter))?;
            let value = bytes
                .iter()
                .rev()
                .fold(0, |n, byte| n * 256 + u64::from(*byte));
            fields.push((*letter, value));
            next += size(*letter);
        }
        Some(Instruction {
            at,
            next,
            row,
            fields,
        })
    }

    /// The first index that is out of bounds, or of the constants of a switch all that are.
    fn check_indices(&self, i: &Instruction<'_>) -> Vec<Found> {
        let pools = self.pools;
        for (letter, value) in &i.fields {
            let (what, bound) = match letter {
                'c' => (Kind::Constant, pools.constants.len()),
                'n' => (Kind::Name, pools.names.len()),
                't' => (Kind::Operator, pools.operators),
                'o' => (Kind::OpAssignment, pools.op_assignments),
                'f' => (Kind::Fragment, pools.fragments),
                'h' => (Kind::Chain, pools.chains.len()),
                'w' => (Kind::Switch, pools.switches.len()),
                'y' => (Kind::SyntaxSite, 0),
                _ => continue,
            };
            let bad = |what, index| (Some(i.at as u32), Flaw::BadIndex { what, index });
            if *value >= bound as u64 {
                return vec![bad(what, *value as u32)];
            }
            let inside = match letter {
                'h' => self.check_chain(&pools.chains[*value as usize]),
                'w' => self.check_cases(&pools.switches[*value as usize]),
                _ => Vec::new(),
            };
            if !inside.is_empty() {
                return inside.iter().map(|flaw| bad(flaw.0, flaw.1)).collect();
            }
        }
        Vec::new()
    }

    fn check_cases(&self, switch: &ModelSwitch) -> Vec<(Kind, u32)> {
        let constants = switch.cases.iter().map(|case| case.constant);
        constants
            .filter(|constant| *constant as usize >= self.pools.constants.len())
            .map(|constant| (Kind::Constant, constant))
            .collect()
    }

    fn check_chain(&self, chain: &ModelChain) -> Vec<(Kind, u32)> {
        let mut indices = Vec::new();
        if let Root::Local { name, .. } | Root::Named { name } = chain.root {
            indices.push((Kind::Name, name));
        }
        for step in &chain.steps {
            match *step {
                Step::Index { operand } => indices.push((Kind::Operand, u32::from(operand))),
                Step::Property {
                    name,
                    getter,
                    setter,
                } => indices.extend([name, getter, setter].map(|name| (Kind::Name, name))),
                Step::Method {
                    name,
                    argc,
                    operand,
                } => {
                    indices.push((Kind::Name, name));
                    if argc > 0 {
                        let last = u32::from(operand) + u32::from(argc) - 1;
                        indices.push((Kind::Operand, last));
                    }
                }
            }
        }
        if let Tail::AssignThrough { op } = chain.tail {
            indices.push((Kind::OpAssignment, op));
        }
        let is_bad = |what: Kind, index: u32| match what {
            Kind::Name => index as usize >= self.pools.names.len(),
            Kind::Operand => index >= u32::from(chain.operands),
            _ => index as usize >= self.pools.op_assignments,
        };
        let first = indices.iter().find(|index| is_bad(index.0, index.1));
        first.into_iter().copied().collect()
    }

    fn check_frame(&self, chunk: &Chunk, starts: &BTreeMap<usize, Instruction<'a>>) -> Vec<Found> {
        let (entry, end) = (chunk.entry as usize, chunk.end as usize);
        let len = self.code.len();
        if end < entry || len < end {
            let (Chunk { entry, end, .. }, len) = (*chunk, len as u32);
            return vec![(Some(entry), Flaw::ChunkOutOfRange { entry, end, len })];
        }
        if entry == end {
            return vec![(None, Flaw::FallsOffTheEnd)];
        }
        let into = |target: usize| {
            let target = target as u32;
            (Some(chunk.entry), Flaw::JumpIntoAnInstruction { target })
        };
        let mut flaws = Vec::new();
        if !starts.contains_key(&entry) {
            flaws.push(into(entry));
        }
        if !starts.contains_key(&end) && end != len {
            flaws.push(into(end));
        }
        flaws
    }

    /// The depth of a chunk and how many instructions it reaches, or all its flaws.
    fn walk(
        &self,
        chunk: &Chunk,
        code: &BTreeMap<usize, Instruction<'a>>,
    ) -> Result<(u16, u64), Vec<Found>> {
        let mut flaws = self.check_frame(chunk, code);
        if !flaws.is_empty() {
            return Err(flaws);
        }
        let begin = State {
            operands: 0,
            iterators: 0,
            handlers: Vec::new(),
        };
        let mut reached: BTreeMap<usize, BTreeSet<State>> = BTreeMap::new();
        let mut waiting = VecDeque::from([(chunk.entry as usize, begin, 0)]);
        while let Some((at, state, steps)) = waiting.pop_front() {
            // What conflicts may go on without end; a path that meets no address twice is no longer than the code.
            if steps > code.len() + 1 || !reached.entry(at).or_default().insert(state.clone()) {
                continue;
            }
            let here = &code[&at];
            let found = self.check_state(here, &state);
            if !found.is_empty() {
                flaws.extend(found);
                continue;
            }
            for (target, next) in self.leave(here, &state) {
                match self.check_target(here, target, chunk, code) {
                    Some(flaw) => flaws.push(flaw),
                    None => waiting.push_back((target.1, next, steps + 1)),
                }
            }
        }
        for (at, states) in &reached {
            flaws.extend(conflicts(*at, states));
        }
        let most = reached.values().flatten().map(|state| state.operands).max();
        let most = most.unwrap_or(0);
        if flaws.is_empty() && most > u64::from(chunk.max_stack) {
            let (needed, declared) = (most as u32, u32::from(chunk.max_stack));
            flaws.push((None, Flaw::StackExceedsDeclared { needed, declared }));
        }
        if flaws.is_empty() {
            Ok((most as u16, reached.len() as u64))
        } else {
            Err(flaws)
        }
    }

    fn amount(&self, i: &Instruction<'_>, word: &str) -> u64 {
        match word {
            "a" => i.field('a'),
            "a+1" => i.field('a') + 1,
            "m" => i.field('a').saturating_sub(1),
            "s" => i.field('s'),
            "2s+1" => 2 * i.field('s') + 1,
            "k" => {
                let chain = &self.pools.chains[i.field('h') as usize];
                let of_root = u64::from(chain.root == Root::Temporary);
                u64::from(chain.operands) + of_root + u64::from(chain.tail != Tail::Read)
            }
            number => number.parse().unwrap(),
        }
    }

    fn needed(&self, i: &Instruction<'_>) -> Caps {
        let of = |word: &String| match word.as_str() {
            "" => Caps::NONE,
            "M" => {
                let name = &self.pools.names[i.field('n') as usize];
                let parts = name.rsplit_once("::");
                let is_qualified = parts.is_some_and(|(a, b)| !a.is_empty() && !b.is_empty());
                if is_qualified {
                    Caps::MODULE
                } else {
                    Caps::NONE
                }
            }
            "those of the chain" => needed_by(&self.pools.chains[i.field('h') as usize]),
            "ARRAY" => Caps::ARRAY,
            "MAP" => Caps::MAP,
            "FN_PTR" => Caps::FN_PTR,
            "CURRYING" => Caps::CURRYING,
            "SHARING" => Caps::SHARING,
            "THIS" => Caps::THIS,
            "EXPORT" => Caps::EXPORT,
            "IMPORT" => Caps::IMPORT,
            "CUSTOM_SYNTAX" => Caps::CUSTOM_SYNTAX,
            other => panic!("the table has the capability {other}"),
        };
        i.row.needs.iter().map(of).collect()
    }

    /// What an instruction lacks in a state.
    fn check_state(&self, i: &Instruction<'_>, state: &State) -> Vec<Found> {
        let (at, flow) = (Some(i.at as u32), i.row.flow.as_str());
        let (need, take) = (
            self.amount(i, &i.row.operands[0]),
            self.amount(i, &i.row.operands[1]),
        );
        let mut flaws = Vec::new();
        let missing = self.needed(i) - self.caps;
        if !missing.is_empty() {
            flaws.push(self.missing(at, missing));
        }
        if state.operands < need {
            let (need, have) = (need as u32, state.operands as u32);
            flaws.push((at, Flaw::Underflow { need, have }));
        }
        let is_advance = flow == "advances an iterator";
        if (is_advance || flow == "ends an iterator") && state.iterators == 0 {
            flaws.push((at, Flaw::IteratorUnderflow));
        }
        if flow == "disarms a handler" && state.handlers.is_empty() {
            flaws.push((at, Flaw::HandlerUnderflow));
        }
        if let (true, false, Some(base)) = (flaws.is_empty(), i.row.is_quiet, state.handlers.last())
        {
            let left = (
                state.operands - take,
                state.iterators - u64::from(is_advance),
            );
            let (need, have) = if left.0 < base.0 {
                (base.0, left.0)
            } else {
                (base.1, left.1)
            };
            if have < need {
                let (need, have) = (need as u32, have as u32);
                flaws.push((at, Flaw::SinksBelowHandler { need, have }));
            }
        }
        flaws
    }

    /// Where an instruction leads, whether by falling through, and with what.
    fn leave(&self, i: &Instruction<'_>, state: &State) -> Vec<((bool, usize), State)> {
        let (take, give) = (
            self.amount(i, &i.row.operands[1]),
            self.amount(i, &i.row.operands[2]),
        );
        let mut after = state.clone();
        after.operands = state.operands - take + give;
        let next = (true, i.next);
        let target = || (false, i.field('j') as usize);
        match i.row.flow.as_str() {
            "" => vec![(next, after)],
            "ends" => Vec::new(),
            "jumps" => vec![(target(), after)],
            "branches" => vec![(target(), after.clone()), (next, after)],
            "switches" => {
                let switch = &self.pools.switches[i.field('w') as usize];
                let cases = switch.cases.iter().map(|case| case.target);
                let all = cases.chain(switch.ranges.iter().copied());
                all.chain([switch.otherwise])
                    .map(|target| ((false, target as usize), after.clone()))
                    .collect()
            }
            "begins an iterator" => {
                after.iterators += 1;
                vec![(next, after)]
            }
            "advances an iterator" => {
                let mut ended = after.clone();
                ended.iterators -= 1;
                after.operands += 1;
                vec![(target(), ended), (next, after)]
            }
            "ends an iterator" => {
                after.iterators -= 1;
                vec![(next, after)]
            }
            "arms a handler" => {
                after.handlers.push((state.operands, state.iterators));
                vec![(target(), after.clone()), (next, after)]
            }
            "disarms a handler" => {
                after.handlers.pop();
                vec![(next, after)]
            }
            other => panic!("the table has the flow {other}"),
        }
    }

    fn check_target(
        &self,
        i: &Instruction<'_>,
        (falls_through, target): (bool, usize),
        chunk: &Chunk,
        code: &BTreeMap<usize, Instruction<'a>>,
    ) -> Option<Found> {
        let (at, named) = (Some(i.at as u32), target as u32);
        if falls_through {
            return (target == chunk.end as usize).then_some((None, Flaw::FallsOffTheEnd));
        }
        if !(chunk.entry as usize..chunk.end as usize).contains(&target) {
            return Some((at, Flaw::JumpOutOfRange { target: named }));
        }
        let is_start = code.contains_key(&target);
        (!is_start).then_some((at, Flaw::JumpIntoAnInstruction { target: named }))
    }
}

fn needed_by(chain: &ModelChain) -> Caps {
    let of_root = if chain.root == Root::This {
        Caps::THIS
    } else {
        Caps::NONE
    };
    let of_step = |step: &Step| match step {
        Step::Index { .. } => Caps::INDEXING,
        Step::Property { .. } => Caps::PROPERTY,
        Step::Method { .. } => Caps::METHOD,
    };
    let of_steps = chain.steps.iter().map(of_step);
    of_steps.fold(of_root, |all, some| all | some)
}

/// Each two states of one address are a conflict.
fn conflicts(at: usize, states: &BTreeSet<State>) -> Vec<Found> {
    let mut flaws = Vec::new();
    for (place, one) in states.iter().enumerate() {
        for (other_place, other) in states.iter().enumerate() {
            if place != other_place {
                let (expected, found) = (one.operands as u32, other.operands as u32);
                flaws.push((Some(at as u32), Flaw::DepthConflict { expected, found }));
            }
        }
    }
    flaws
}
