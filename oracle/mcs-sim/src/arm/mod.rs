#[path = "../../../../docs/src/crates/mcs-sim/src/arm/bus.rs"]
pub mod bus;
#[path = "../../../../docs/src/crates/mcs-sim/src/arm/nvic.rs"]
pub mod nvic;
#[path = "../../../../docs/src/crates/mcs-sim/src/arm/sys.rs"]
pub mod sys;

pub mod periph;
