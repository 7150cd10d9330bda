//! Memory that may not be there.

use crate::mistake::Mistake;
use std::hint::black_box;

/// What must be free besides the buffers. Place takes up to 160 KB of stack, and a stack that cannot
/// grow ends the program.
const FREE: usize = 512 << 10;

/// So many zeros, for a buffer that is lent to the refiner.
pub fn zeros<T: Clone + Default>(count: usize, buffer: &str) -> Result<Vec<T>, Mistake> {
    let mut zeros = reserved(count, buffer)?;
    zeros.resize(count, T::default());
    Ok(zeros)
}

/// Whether there is memory for the stack to grow into, once the buffers are there.
pub fn check_stack() -> Result<(), Mistake> {
    let room: Vec<u8> = reserved(FREE, "the stack")?;
    // What nobody looks at would not be asked for.
    black_box(&room);
    Ok(())
}

fn reserved<T>(count: usize, what: &str) -> Result<Vec<T>, Mistake> {
    let mut room = Vec::new();
    match room.try_reserve_exact(count) {
        Ok(()) => Ok(room),
        Err(_) => Err(none_for(what, count.saturating_mul(size_of::<T>()))),
    }
}

/// There is no memory for so many bytes.
pub fn none_for(what: &str, bytes: usize) -> Mistake {
    Mistake::Memory(format!("no memory for {what}: {bytes} bytes"))
}
