//! Two yard hosts share one board. The second looked before the first wrote, so its release is refused; it rolls back,
//! looks again, and sees the truck. Run it in host/ with `cargo run --offline --example embed`.

use lane::{Board, Refusal};

const FIRST: u32 = 0;
const SECOND: u32 = 1;
const SEGMENT: u32 = 7;
const FREE: u32 = 0;
const TRUCK: u32 = 12;

fn main() -> Result<(), Refusal> {
    let mut board = Board::new(64).expect("a board has 1 to 1,024 cells");

    board.start(FIRST)?;
    board.update(FIRST, SEGMENT, TRUCK)?;
    board.start(SECOND)?;
    println!("before the commit the second host reads {}", board.read(SECOND, SEGMENT)?);
    println!("the first host commits: commit number {}", board.commit(FIRST)?);
    println!("the second host still reads {}", board.read(SECOND, SEGMENT)?);

    match board.update(SECOND, SEGMENT, FREE) {
        Err(refusal) => println!("its release is refused: {refusal}"),
        Ok(_) => unreachable!("the segment was taken after the second host's view"),
    }
    board.rollback(SECOND)?;

    board.start(SECOND)?;
    println!("after a new start it sees truck {}", board.read(SECOND, SEGMENT)?);
    Ok(())
}
