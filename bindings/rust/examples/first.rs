//! Two processes: one writes, and both copies get it.
use tellwydar::{Event, LocalRead, Op, World, check_serial};

fn main() -> Result<(), Box<dyn std::error::Error>> {
    let mut world = World::<LocalRead>::new(2, 1)?;
    world.step(Event::Call { process: 0, op: Op::Write { register: 0, value: 5 } })?;
    world.step(Event::Take { from: 0, to: 1, number: 0 })?;
    println!("{:?}", world.step(Event::Take { from: 1, to: 0, number: 1 })?);
    let (history, order) = (world.history(), world.serial_order()?);
    check_serial(2, 1, &history, &order)?;
    println!("{order:?} is a serial order");
    Ok(())
}

#[test]
fn ends_well() {
    main().expect("a serial order");
}
