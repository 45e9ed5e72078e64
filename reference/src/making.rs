//! Making things to test with: networks, runs, damaged archives, states, arguments. Everything follows from a seed.

pub mod asked;
pub mod branches;
pub mod cases;
pub mod clauses;
pub mod corpus;
pub mod damage;
pub mod edges;
pub mod graphs;
pub mod held;
pub mod latency;
pub mod marks;
pub mod restricted;
pub mod rng;
pub mod routes;
pub mod runs;
pub mod spoil;
pub mod states;
