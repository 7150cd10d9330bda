//! Memory that may not be there.

use crate::{store_words, Refiner};
use std::hint::black_box;
use std::io;
use std::sync::Mutex;

/// What must be free besides a store that grows, for the work of all threads.
const LEFT: usize = 4 << 20;

/// Held while a store grows: what one thread has looked for no other takes.
static GROWTH: Mutex<()> = Mutex::new(());

/// So much memory, if it is there.
pub(super) fn room_of(bytes: usize) -> io::Result<Vec<u8>> {
    let mut room = Vec::new();
    room.try_reserve_exact(bytes)?;
    // What nobody looks at would not be asked for.
    Ok(black_box(room))
}

/// Takes the store that a job needs, or tells how many bytes are not there for it. A thread that
/// finds no memory for its other work ends the program, so some is left.
pub(super) fn take_store(refiner: &mut Refiner, job: &[u8]) -> Result<(), usize> {
    if refiner.has_store_for(job) {
        return Ok(());
    }
    let bytes = store_words(job) * size_of::<u32>();
    let _alone = GROWTH.lock();
    let room = room_of(bytes + LEFT).map(drop);
    let taken = room.and_then(|()| Ok(refiner.try_reserve(job)?));
    taken.map_err(|_| bytes)
}
