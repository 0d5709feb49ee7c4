//! Verifies a program with a name, a chain and a switch, for a host that has all capabilities, and for one that lacks some.
use grain::{Caps, Case, Chunk, PoolError, Pools, Program, Root, Step, Tail};
use std::error::Error;

fn pools() -> Result<Pools, PoolError> {
    let mut pools = Pools::new();
    let name = pools.add_name("age")? as u32;
    let constant = pools.add_constant(Caps::NONE)? as u32;
    let step = Step::Property {
        name,
        getter: name,
        setter: name,
    };
    pools.add_chain(Root::Temporary, [step], Tail::Read, 0)?;
    let case = Case {
        target: 4,
        constant,
    };
    pools.add_switch([case], [6], 6)?;
    Ok(pools)
}

fn main() -> Result<(), Box<dyn Error>> {
    let code = vec![
        0x02, 0x18, 0, 0, 0x02, 0x13, 0x02, 0x13, // the first chunk
        0x02, 0x16, 0, 0, 0x13, // the second
    ];
    let chunks = vec![Chunk::new(0, 8, 2), Chunk::new(8, 13, 1)];
    let mut program = Program::new(code, chunks, pools()?);
    for caps in [Caps::ALL - Caps::PROPERTY, Caps::ALL] {
        match program.into_verified(caps) {
            Ok(verified) => {
                println!("accepted {:?}", verified.depths());
                return Ok(());
            }
            Err(rejected) => {
                if let Some(refusal) = rejected.refusal() {
                    println!("refused {}", refusal.line());
                    print!("{}", rejected.program().explain(caps, refusal)?);
                }
                program = rejected.into_program();
            }
        }
    }
    Ok(())
}
