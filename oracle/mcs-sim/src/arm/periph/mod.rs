// lane_read and lane_write, cut out of the published periph/mod.rs by build.rs.
include!(concat!(env!("OUT_DIR"), "/lanes.rs"));

// `pub mod tim`, with the additions marked `// added`.
#[cfg(feature = "seen")]
include!(concat!(env!("OUT_DIR"), "/tim.rs"));

#[cfg(not(feature = "seen"))]
#[path = "../../../../../docs/src/crates/mcs-sim/src/arm/periph/tim.rs"]
pub mod tim;
