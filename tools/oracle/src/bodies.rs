//! Directed cases of Own and In-body: an HC whose body is renamed by Single helper.

pub mod places;
mod series;
pub mod shapes;
pub mod slots;
mod sums;

pub use series::Series;
