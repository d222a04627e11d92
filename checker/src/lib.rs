//! An independent checker for controller tables and rule sheets: what the proved code answers is
//! compared with what is decided here, from the text of the scope document and of the requests that
//! changed it alone, and by other algorithms.
//!
//! `cargo test --release` runs everything, once `bash build.sh` in the repository root has
//! written the static library; `cargo test --release --lib` needs no library.
//!
//! - `format`: the numbers of the sheet format, which all the others cite.
//! - `machine`, `rules`: the questions 1 to 15, and what an accepted sheet describes.
//! - `truth`, `labelling`, `path`: truth of every line at every node, the questions 16 to 19, and
//!   a judge of shown paths.
//! - `compare`, `written`: comparison of two machines by the greatest fixpoint over pairs of nodes,
//!   and a judge of written rules. `partition`: the same by partition refinement.
//! - `program`: how the comparing program cuts its input, and the line it prints. `shown`: the text that
//!   the labelling program prints, and a judge of what the path program prints.
//! - `explanation`: a judge of what the explaining program prints. `sentence`: the sentence that it says first, read back.
//! - `text`: sheets as text, and what the program `sheet` prints.
//! - `files`: what `compare.sh` tells of two files.
//! - `refusal`: a refusing question and the sheet it was asked of.
//! - `components`: strong components of a directed graph.
//! - `worked`: the document's worked sheets and marked cases.
//! - `generate`: sheets of every shape, valid and damaged, from a fixed seed.
//! - `trial`: generated cases handed to an implementation, every answer and lent word compared.
//! - `rng`, `coverage`: the numbers behind the generators, and the account of what they reached.

#![forbid(unsafe_code)]

pub mod compare;
pub mod components;
pub mod coverage;
pub mod explanation;
pub mod files;
pub mod format;
pub mod generate;
pub mod labelling;
pub mod machine;
pub mod partition;
pub mod path;
pub mod program;
pub mod refusal;
pub mod rng;
pub mod rules;
pub mod sentence;
pub mod shown;
pub mod text;
pub mod trial;
pub mod truth;
pub mod worked;
pub mod written;
