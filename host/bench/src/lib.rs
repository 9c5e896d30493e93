//! How long calls take: the unchanged Rust, the C function `tapewoad_apply` on
//! words made before, and `UsbSession`, in one process, their blocks taking
//! turns.
mod answer;
mod calls;
mod machine;
mod page;
mod plot;
mod results;
mod rust;
mod scene;
mod session;
mod side;
mod svg;
mod timing;
mod typed;
mod words;
mod workloads;

pub use answer::{Answer, Report, State};
pub use calls::{Call, Reply, Request};
pub use machine::Machine;
pub use page::{line, page};
pub use plot::plot;
pub use results::{Results, Row};
pub use rust::Rust;
pub use scene::{Rows, Scene};
pub use session::Session;
pub use side::Side;
pub use timing::{Effort, Measured, Spread, measure};
pub use words::Words;
pub use workloads::{Growth, STORES, Target, Workload, growth, workloads};
