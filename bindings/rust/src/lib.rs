//! Tolphaneap for Rust: a proved block parser for Djot. [`Page`], [`Set`] and [`changed`] own their memory; [`parse`], [`write`], [`read`],
//! [`list`], [`page`], [`changes`] and those of [`sets`] work in memory that is lent, as much as [`room`] says.
//!
//! ```
//! let page = tolphaneap::Page::parse("# Restart\n\n1. Drain\n2. Restart\n")?;
//! for event in page.events() {
//!     println!("{event:?}");
//! }
//! let stream = page.stream()?;
//! assert!(tolphaneap::Page::read(&stream)?.events().eq(page.events()));
//! # Ok::<(), tolphaneap::Refused>(())
//! ```
//!
//! What the attribute lines of a page hold:
//!
//! ```
//! let text = "{.page owner=\"the night shift\"}\n# Restart\n";
//! let page = tolphaneap::Page::parse(text)?;
//! for set in page.attributes(text.as_bytes()) {
//!     let set = set?;
//!     assert_eq!(set.span(), 0..32);
//!     let owner = set.get("owner").map(|value| value.to_string());
//!     assert_eq!(owner.as_deref(), Some("the night shift"));
//!     for element in set.elements() {
//!         println!("{:?} {}", element.span(), element.value);
//!     }
//! }
//! # Ok::<(), tolphaneap::Refused>(())
//! ```
//!
//! What a reviewer has to read of a new edition:
//!
//! ```
//! use tolphaneap::{changed, Changed};
//!
//! let older = "# Restart\n\n1. Drain\n\nCall the owner.\n";
//! let newer = "# Restart\n\n1. Drain\n2. Wait\n\nCall the owner.\n";
//! let Changed::New(part) = changed(older, newer)? else {
//!     panic!("the list has a new item");
//! };
//! assert_eq!(part.bytes, b"1. Drain\n2. Wait\n\n");
//! # Ok::<(), tolphaneap::RefusedEdition>(())
//! ```

#![deny(unsafe_code)]

mod edition;
mod event;
mod lent;
mod page;
#[allow(unsafe_code)]
mod raw;
#[allow(unsafe_code)]
mod raw_sets;
mod refusal;
pub mod room;
mod set;
pub mod sets;
mod stream;

pub use edition::{changed, changed_pages, Blocks, Changed, RefusedEdition, Which};
pub use event::{Alignment, Atom, Bullet, Event, Events, Node, Numbering, Style};
pub use lent::{changes, list, page, parse, read, write, Mode, Moved, Parsed, Part};
pub use page::Page;
pub use refusal::{Refusal, Refused};
pub use set::{Attributes, Element, Kind, Pair, Set, Value};
pub use stream::{Record, Records};
