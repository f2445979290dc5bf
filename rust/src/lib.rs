//! The ingest tool's side of corkgully: a safe, typed wrapper of the proved library.
//!
//! A survey has groups, each with its count of dead and of live objects, and links: where p has a
//! link to q, its objects may have pointers into q. [`read`] reads a survey file, [`choose`] chooses
//! the pick of a survey, and [`check`] checks a claim that a set of groups is the pick. Each says by
//! a [`Refusal`] what is wrong and where. `docs/SPECIFICATION.md` has it all.
//!
//! The file of a survey with five groups and four links has three blocks of 512 bytes:
//!
//! ```
//! use corkgully::{model, read, Group, Link, Place};
//!
//! let groups = [(2, 2), (4, 3), (1, 12), (6, 3), (10, 3)];
//! let links = [(0, 2), (1, 2), (1, 3), (1, 4)];
//! let mut file = model::build(5, 4, &groups, &links);
//! assert_eq!(file.len(), 3 * 512);
//!
//! let survey = read(&file).unwrap();
//! assert_eq!(survey.groups.len(), 5);
//! assert_eq!(survey.groups[4], Group { dead: 10, live: 3 });
//! assert_eq!(survey.links[0], Link { from: 0, to: 2 });
//!
//! // A byte of the second block goes wrong, and its check tells.
//! file[600] ^= 1;
//! let refusal = read(&file).unwrap_err();
//! assert_eq!((refusal.number, refusal.place), (3, Place::Block(1)));
//! assert_eq!(
//!     refusal.to_string(),
//!     "refused 3 at block 1: the check words are not those of the content"
//! );
//! ```
//!
//! The modules, from below:
//!
//! - [`boundary`]: the exported functions as they are, on bytes and numbers. The only unsafe code.
//! - `answer`: what the answer number says, as [`Place`] and [`Refusal`].
//! - `survey`: [`Survey`], [`Group`] and [`Link`], and their bytes; `claim`: [`Claim`] and its
//!   bytes.
//! - `reader`: [`read`] and [`read_into`].
//! - `chooser`: [`choose`], [`choose_into`] and the [`Pick`] it gives.
//! - `checker`: [`check`] and [`check_lists`].
//! - [`model`]: the same functions again in plain Rust, for tests and for comparing speed. It knows
//!   nothing of the modules above.

#![doc = include_str!("f2.md")]
#![deny(unsafe_code)]
#![warn(missing_docs)]

mod answer;
pub mod boundary;
mod checker;
mod chooser;
mod claim;
pub mod model;
mod reader;
mod survey;

pub use answer::{Place, Refusal};
pub use checker::{check, check_lists};
pub use chooser::{choose, choose_into, Pick};
pub use claim::Claim;
pub use reader::{read, read_into};
pub use survey::{Group, Link, Survey, MOST_GROUPS, MOST_LINKS};
