//! Many jobs in one go: tasks from paths, threads with a [`Refiner`](crate::Refiner) each, answers
//! to files beside the jobs, and what came of all of them as CSV, as a page, and in sum.
//!
//! A task's output is written whole or not at all, and one of an earlier run is taken over, so a
//! run that was interrupted goes on where it was. What is said of cost and legality is the
//! refiner's word, also of an answer that is taken over.
//!
//! ```
//! use importer::batch::{gather, run, Done, Failure, Summary, Task, Watch};
//! use importer::Refiner;
//!
//! struct Quiet;
//! impl Watch for Quiet {
//!     fn done(&mut self, _: &Task, _: &Result<Done, Failure>) {}
//! }
//!
//! let folder = std::env::temp_dir().join(format!("refiner-doc-{}", std::process::id()));
//! std::fs::create_dir_all(&folder)?;
//! std::fs::write(folder.join("one.job"), "J,1,20,1,1,100,7,100,50\nC,0,17,1,1,4,3,3,2,2\n")?;
//! let tasks = gather([&folder]).tasks;
//! let results = run(&tasks, vec![Refiner::new()], &mut Quiet)?;
//! assert_eq!(Summary::of(&results).answered, 1);
//! assert_eq!(std::fs::read(folder.join("one.out"))?, b"7,0,1,0,0,-100\n16,0,0\n");
//! # std::fs::remove_dir_all(&folder)?;
//! # Ok::<(), std::io::Error>(())
//! ```

mod csv;
mod done;
mod earlier;
mod failure;
mod fields;
mod files;
mod gather;
mod memory;
mod page;
mod run;
mod summary;
mod task;

pub use csv::csv;
pub use done::Done;
pub use failure::{shown, Failure};
pub use fields::COLUMNS;
pub use files::{write, LONGEST};
pub use gather::{clash, gather, Clash, Gathered};
pub use page::{page, with_pictures};
pub use run::{run, Watch};
pub use summary::Summary;
pub use task::Task;
