//! The independent second program.
//!
//! It follows the rules (docs/RULES.md) one by one and tries to be plainly right, not fast:
//! a register is a set of rows, the list is a set of rows, the calls of a rule are a set of
//! combinations, and the rows sent are those of the register that have one of them.
//!
//! - `sheet` reads the sheet, `data` the row data, `route` builds routes and lists.
//! - `answer` puts them together, with the refusals in their order.
//! - `print` is what the program prints.
//! - `fields` writes a sheet from any fields into a lent buffer, with the refusals of that.
//! - `steps` answers a request step by step: it chooses a step, and takes what is delivered for it.
//! - `typed` reads a typed line with names, with the refusals of that, and answers it.
//! - `write` writes sheets and row data as they come; `made_up` makes cases from a seed, and `broken`
//!   breaks their sheets at each kind of field; `made_up_charges` makes cases with p and q;
//!   `made_up_fields` makes fields from a seed;
//!   `made_up_typed` makes typed requests, and `edited` changes their lines; `made_up_steps` makes
//!   plays of requests that are answered step by step, `delivered` what is delivered in them, right or
//!   wrong, and `damaged` changes states and tables between two calls; `examples` holds the examples in
//!   readable form.

pub mod answer;
mod broken;
mod damaged;
pub mod data;
mod delivered;
mod edited;
pub mod examples;
pub mod fields;
pub mod made_up;
pub mod made_up_charges;
pub mod made_up_fields;
pub mod made_up_steps;
pub mod made_up_typed;
pub mod print;
pub mod route;
pub mod sheet;
pub mod steps;
pub mod typed;
pub mod write;

pub use answer::{answer, answer_charged, check_route, count, route_steps, tables, Answer};
pub use print::{run_files, text};
pub use route::{Prices, Row, Step};
