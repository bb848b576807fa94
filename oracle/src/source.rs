//! Who holds a pin's level (document 02, F-5). The published Rust does not say it: here it is read off what was set and what is connected, and not
//! off the Rust's resolving.

use mcs_sim::arm::sys::{sig, ArmSys};
use mcs_sim::pins::ExtDrive;

pub const CHIP: u8 = 1;
pub const OUTSIDE: u8 = 2;
pub const PULL: u8 = 3;
pub const HELD: u8 = 4;

/// The level that the chip has for a pin: an output's bit, the level of a signal that is no receive signal; else none.
pub fn wanted(sys: &ArmSys, pin: usize) -> Option<u8> {
    let signal = sys.pin_sig[pin];
    match sys.pcfg[pin].mode {
        1 => Some(sys.pcfg[pin].odr),
        2 if signal != sig::NONE && !sig::is_input(signal) => Some(sys.sig_level[signal as usize]),
        _ => None,
    }
}

/// The source of a pin whose level the chip wants to be `wanted`. An open-drain 1 is released.
pub fn source(sys: &ArmSys, pin: usize, wanted: Option<u8>) -> u8 {
    let (cfg, p) = (&sys.pcfg[pin], &sys.pins[pin]);
    if wanted.is_some_and(|level| !cfg.open_drain || level == 0) {
        return CHIP;
    }
    match p.ext {
        ExtDrive::Low | ExtDrive::High => OUTSIDE,
        // From VIH up or from VIL down the volts settle it; not-a-number is neither.
        ExtDrive::Analog if p.ext_volts >= 0.6 * sys.vcc || p.ext_volts <= 0.3 * sys.vcc => OUTSIDE,
        ExtDrive::Analog => HELD,
        ExtDrive::Float if cfg.pullup || cfg.pulldown => PULL,
        ExtDrive::Float => HELD,
    }
}
