//! What a call costs in a host's process: programs of some sizes with pools, with the pools at hand and with the pools built;
//! and what a constant, a name, a chain, a step, a switch, a case and a chunk add to it, in time and in memory.
use grain::{verify_into, Caps, Case, Chunk, Pools, Root, Step, Tail};
use std::hint::black_box;
use std::process::Command;
use std::time::{Duration, Instant};

/// How many of each a program has.
#[derive(Clone, Copy)]
struct Size {
    instructions: usize,
    names: usize,
    chains: usize,
    switches: usize,
}

const SIZES: [Size; 5] = [
    Size {
        instructions: 5,
        names: 2,
        chains: 1,
        switches: 0,
    },
    Size {
        instructions: 5,
        names: 10,
        chains: 5,
        switches: 0,
    },
    Size {
        instructions: 20,
        names: 10,
        chains: 5,
        switches: 2,
    },
    Size {
        instructions: 1_000,
        names: 100,
        chains: 50,
        switches: 20,
    },
    Size {
        instructions: 1_000_000,
        names: 100,
        chains: 50,
        switches: 20,
    },
];

/// Chains, each on a value and taken off, switches, each on to what follows, and pairs of Unit and Pop; and a Return.
fn code(size: Size) -> Vec<u8> {
    let (mut code, mut instructions) = (Vec::new(), 1);
    let chains = (0..size.chains).map(|chain| (0x16, chain));
    let switches = (0..size.switches).map(|switch| (0x18, switch));
    for (tag, index) in chains.chain(switches) {
        if instructions + 3 <= size.instructions {
            code.extend([0x02, tag]);
            code.extend((index as u16).to_le_bytes());
            code.push(0x0b);
            instructions += 3;
        }
    }
    while instructions + 2 <= size.instructions {
        code.extend([0x02, 0x0b]);
        instructions += 2;
    }
    code.push(0x13);
    code
}

/// Where the Pop stands behind each Switch.
fn after_switches(code: &[u8]) -> Vec<u32> {
    let all = grain::instructions(code);
    let switches = all.filter(|(_, each)| each.tag == 0x18);
    switches
        .map(|(address, each)| address + u32::from(each.width))
        .collect()
}

fn build(pools: &mut Pools, names: &[String], size: Size, targets: &[u32]) {
    pools.clear();
    pools.extend_constants([Caps::NONE; 4]).unwrap();
    pools.extend_names(names).unwrap();
    for chain in 0..size.chains {
        let name = (chain % names.len()) as u32;
        let step = Step::Property {
            name,
            getter: 0,
            setter: 1,
        };
        pools
            .add_chain(Root::Temporary, [step], Tail::Read, 0)
            .unwrap();
    }
    for switch in 0..size.switches {
        let target = targets.get(switch).copied().unwrap_or(0);
        let cases = (0..4).map(|constant| Case { target, constant });
        pools.add_switch(cases, [target], target).unwrap();
    }
}

/// The least time of a call in some rounds, in nanoseconds.
fn least(most: u32, mut call: impl FnMut()) -> f64 {
    let mut least = Duration::MAX;
    let until = Instant::now() + Duration::from_millis(400);
    while Instant::now() < until {
        let start = Instant::now();
        for _ in 0..most {
            call();
        }
        least = least.min(start.elapsed() / most);
    }
    least.as_nanos() as f64
}

fn whole(code: &[u8]) -> Chunk {
    Chunk::new(0, code.len() as u32, 8)
}

fn programs() {
    println!(
        "{:>12} {:>6} {:>7} {:>9} {:>10} {:>12} {:>12}",
        "instructions", "names", "chains", "switches", "at hand", "built again", "built anew"
    );
    for size in SIZES {
        let code = code(size);
        let names: Vec<String> = (0..size.names).map(|n| format!("name{n}")).collect();
        let targets = after_switches(&code);
        let (chunks, mut depths) = ([whole(&code)], [0]);
        let mut pools = Pools::new();
        build(&mut pools, &names, size, &targets);
        let rounds = (100_000 / size.instructions).clamp(1, 5_000) as u32;
        let mut verify = |pools: &Pools| {
            verify_into(Caps::ALL, black_box(&code), &chunks, pools, &mut depths)
                .expect("accepted");
        };
        let at_hand = least(rounds, || verify(&pools));
        let again = least(rounds, || {
            build(&mut pools, &names, size, &targets);
            verify(&pools);
        });
        let anew = least(rounds, || {
            let mut pools = Pools::new();
            build(&mut pools, &names, size, &targets);
            verify(&pools);
        });
        let many = grain::count_instructions(&code).expect("whole instructions");
        println!(
            "{many:>12} {:>6} {:>7} {:>9} {at_hand:>10.0} {again:>12.0} {anew:>12.0}",
            size.names, size.chains, size.switches
        );
    }
}

/// The greatest memory that the process has had, in bytes.
fn peak() -> Option<u64> {
    let status = std::fs::read_to_string("/proc/self/status").ok()?;
    let line = status.lines().find(|line| line.starts_with("VmHWM"))?;
    Some(line.split_whitespace().nth(1)?.parse::<u64>().ok()? * 1024)
}

/// From now on the greatest memory is counted from what there is.
fn forget_peak() -> Option<u64> {
    std::fs::write("/proc/self/clear_refs", "5").ok()?;
    peak()
}

/// Adds an item to pools and chunks, this number of times.
type Add = fn(&mut Pools, &mut Vec<Chunk>, usize);

/// What this number of an item adds.
fn item(what: &str, many: usize, add: Add) {
    let code = [0x02, 0x13];
    let (mut pools, mut chunks) = (Pools::new(), vec![whole(&code)]);
    add(&mut pools, &mut chunks, many);
    let mut depths = vec![0; chunks.len()];
    let before = forget_peak();
    verify_into(Caps::ALL, &code, &chunks, &pools, &mut depths).expect("accepted");
    let bytes = before.and_then(|before| Some(peak()? - before));
    let mut time = |pools: &Pools, chunks: &[Chunk]| {
        least(1, || {
            verify_into(Caps::ALL, &code, chunks, pools, &mut depths).expect("accepted");
        })
    };
    let (with, without) = (time(&pools, &chunks), time(&Pools::new(), &chunks[..1]));
    let each = |all: f64| all / many as f64;
    let bytes = bytes.map_or("?".to_string(), |bytes| {
        format!("{:.0}", each(bytes as f64))
    });
    println!("{what:<24} {:>8.1} {bytes:>8}", each(with - without));
}

const ITEMS: [(&str, Add); 10] = [
    ("constant", |pools, _, many| {
        pools.extend_constants(vec![Caps::NONE; many]).unwrap();
    }),
    ("empty name", |pools, _, many| {
        pools.extend_names(vec![""; many]).unwrap();
    }),
    ("name of 8 bytes", |pools, _, many| {
        pools.extend_names(vec!["function"; many]).unwrap();
    }),
    ("chain without steps", |pools, _, many| {
        for _ in 0..many {
            pools.add_chain(Root::This, [], Tail::Read, 0).unwrap();
        }
    }),
    ("step of one chain", |pools, _, many| {
        let steps = vec![Step::Index { operand: 0 }; many];
        pools.add_chain(Root::This, steps, Tail::Read, 1).unwrap();
    }),
    ("switch without cases", |pools, _, many| {
        for _ in 0..many {
            pools.add_switch([], [], 0).unwrap();
        }
    }),
    ("switch of one case", |pools, _, many| {
        let case = Case {
            target: 0,
            constant: 0,
        };
        for _ in 0..many {
            pools.add_switch([case], [], 0).unwrap();
        }
    }),
    ("case of one switch", |pools, _, many| {
        let cases = vec![
            Case {
                target: 0,
                constant: 0
            };
            many
        ];
        pools.add_switch(cases, [], 0).unwrap();
    }),
    ("range of one switch", |pools, _, many| {
        pools.add_switch([], vec![0; many], 0).unwrap();
    }),
    ("chunk of 2 instructions", |_, chunks, many| {
        chunks.resize(many + 1, chunks[0]);
    }),
];

/// The variable that names the item which a process of its own measures, so that each finds memory as it was.
const ITEM: &str = "GRAIN_COSTS_ITEM";

fn items() {
    println!("{:<24} {:>8} {:>8}", "one more, unused", "ns", "bytes");
    let own = std::env::current_exe().expect("the path of this program");
    for place in 0..ITEMS.len() {
        let ended = Command::new(&own).env(ITEM, place.to_string()).status();
        assert!(ended.expect("this program runs").success());
    }
}

fn main() {
    const MANY: usize = 65_536;
    if let Some(place) = std::env::var(ITEM)
        .ok()
        .and_then(|place| place.parse::<usize>().ok())
    {
        let (what, add) = ITEMS[place];
        return item(what, MANY, add);
    }
    println!("nanoseconds a call: the pools at hand; cleared and built again; built anew");
    programs();
    println!();
    items();
}
