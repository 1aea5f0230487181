//! Best values, routes, trees and tables in a road graph that is kept in memory.
//!
//! The answers come from `libdiffuse`, whose calls are proved to meet their contracts. This wrapper is not proved.
//!
//! ```
//! use diffuse::{Algebra, Arc, Graph};
//!
//! let arcs = [(1, 2, 4), (1, 3, 1), (3, 2, 2)].map(|(tail, head, weight)| Arc { tail, head, weight });
//! let graph = Graph::open(3, &arcs)?;
//! let route = graph.route(Algebra::Shortest, 1, 2)?.expect("2 can be reached");
//! assert_eq!((route.code, route.vertices), (3, vec![1, 3, 2]));
//! # Ok::<(), diffuse::Error>(())
//! ```
//!
//! A [`Graph`] answers one call at a time. It may go to another thread, but two threads do not share it: each has its own, by
//! [`Graph::share`], of the same graph in memory.
//!
//! ```compile_fail
//! fn is_sync<T: Sync>() {}
//! is_sync::<diffuse::Graph>();
//! ```
#![warn(missing_docs)]

mod algebra;
mod error;
mod graph;
mod route;
mod stop;
mod table;
mod tree;

pub use algebra::Algebra;
pub use diffuse_sys::Arc;
pub use error::{Error, TextFault};
pub use graph::Graph;
pub use route::{NumberedRoute, Route};
pub use stop::Stop;
pub use table::Table;
pub use tree::{Label, Reason, Tree, Wrong};

/// The version of the library: 10,000 times the first number, 100 times the second, and the third.
pub fn version() -> u32 {
    // SAFETY: the call has no arguments and reads nothing.
    unsafe { diffuse_sys::diffuse_version() }
}
