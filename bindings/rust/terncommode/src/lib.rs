//! Baggage contexts: what a request carries along. Where branches of a request join, their contexts are merged; where a channel has a
//! budget, a context is cut to it, and no field is read as exact that isn't.
//!
//! The work is done by `libbaggage`, whose calls are proved. This crate is safe Rust over them, and is tested, not proved.
//!
//! ```
//! use terncommode::{extract, to_header, Bag, Context, Writes};
//!
//! // What `baggage table FILE BAG` prints of a definition.
//! const TABLE: &str = "baggage table 1\n0 0 id scalar fixed32\n0 1 tags set string\n";
//!
//! # fn main() -> Result<(), terncommode::Error> {
//! let bag = Bag::new(TABLE)?;
//! // What came in. Here nothing did, and the request begins with the empty context.
//! let received = extract(std::iter::empty::<&[u8]>(), Context::default());
//! // What this service says.
//! let here = bag.update([&received], &Writes::new().set("id", "4711").set_string("tags", "spring"))?;
//! // What goes on to another service: a branch is a copy.
//! let value = to_header(&here);
//! // And what it reads there.
//! let there = extract([value.as_bytes()], Context::lost());
//! let id = bag.text(&there, "id")?;
//! assert_eq!((id.value.as_str(), id.exact), ("4711", true));
//! # Ok(())
//! # }
//! ```
//!
//! A [`Request`] holds the context of one visit of a service for all that work on it; [`Bag::ingress`] is the way in for what strangers send.

#![deny(unsafe_code)]
#![warn(missing_docs)]

mod bag;
mod carriers;
mod context;
mod error;
mod ingress;
#[doc(hidden)]
pub mod parts;
#[allow(unsafe_code)]
mod raw;
mod request;
mod table;
mod writes;

pub use bag::{Bag, Field, Limits, Others, TEXT_LIMIT};
pub use carriers::{
    check_of, extract, extract_reply, from_binary, from_header, no_cache, to_binary, to_header, FOR_HEADER, GRPC_BUDGET, GRPC_KEY, HEADER,
    REPLY_BUDGET, REQUEST_BUDGET,
};
pub use context::{Budget, Context, Form};
pub use error::{Code, Error, NoRequest, TableCode};
pub use request::{add, change, count, current, Reply, Request, Scoped, Told};
pub use writes::{quote, visible, Writes};
