//! What the comparisons and the benchmark share: the independent implementation, the inputs, the report's method, the season
//! folder's method in plain Rust, the timing, and the benchmark's page and plot.

#[cfg(feature = "benchmark")]
pub mod figure1;
#[cfg(feature = "benchmark")]
pub mod finding;
pub mod inputs;
pub mod letters;
pub mod machine;
pub mod measured;
pub mod page;
pub mod plot;
pub mod reference;
pub mod season;
pub mod season_method;
#[cfg(feature = "benchmark")]
pub mod season_timing;
#[cfg(feature = "benchmark")]
pub mod timing;
