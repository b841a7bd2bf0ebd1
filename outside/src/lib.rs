//! An independent reference for the grader: the buyer's scope written down from its text alone, as
//! plainly as it can be run, so that the proved code can be compared with it case by case.
//!
//! What the scope defines, in its order:
//! - [`grid`]: bytes, houses, givens, legal completions, the keyer's refusals;
//! - [`clauses`]: families F1 to F9, the two clause sets, the clause call;
//! - [`closure`]: marks and the unit closure;
//! - [`order`]: the order of trials, its default and its refusals;
//! - [`job`]: techniques and one job;
//! - [`search`]: none, one or several completions;
//! - [`grading`]: verdicts 0 to 7;
//! - [`batch`], [`jobfile`], [`listing`]: the calls around jobs and gradings;
//! - [`refusal`]: what every refused call gives.
//!
//! What the comparisons need:
//! - [`dimacs`]: a clause set with a grid's givens, for public solvers;
//! - [`cases`]: named grids and generated ones;
//! - [`packed`]: the C functions' answer word;
//! - [`plain`], [`plain_job`], [`plain_search`]: fast clause, job, search and grading calls by the
//!   proved ones' steps, for the bench; the search stands on [`boards`], [`crowding`] and
//!   [`counting`];
//! - [`simple_job`], [`closure_search`], [`masks`]: the job call by a simpler loop, and two other
//!   searches, for the bench too;
//! - `proved` (feature `proved`): the proved library.

pub mod batch;
pub mod boards;
pub mod cases;
pub mod clauses;
pub mod closure;
pub mod closure_search;
pub mod counting;
pub mod crowding;
pub mod dimacs;
pub mod grading;
pub mod grid;
pub mod job;
pub mod jobfile;
pub mod listing;
pub mod masks;
pub mod order;
pub mod packed;
pub mod plain;
pub mod plain_job;
pub mod plain_search;
#[cfg(feature = "proved")]
pub mod proved;
pub mod refusal;
pub mod search;
pub mod simple_job;
