//! The proved pilot timer's board, for a Rust server.
//!
//! A [`Board`] owns its state, some 44 KB, and a book for the pin changes that a call makes; both are allocated once.
//! Nothing is shared between boards, so they may live on any thread. Each call of document 01 is one method; what is above them is this crate's:
//!
//! - [`Pilot`] starts, changes and stops a pilot and delivers before it writes; [`Board::poll_all`] and [`Board::drain`] hand over what is due.
//! - [`Reg`], [`Cr1`], [`Ccmr`] and [`Ccer`] are the registers by name; [`Clock`] and [`Timing`] make cycles of hertz and seconds.
//! - A [`Shift`] takes the entries and gives the planner's figures.
//! - [`SmallPilots`] lists every pilot up to a size, for a test desk.
//! - [`TimerSpec::to_record`] and [`TimerSpec::from_record`] are a timer's settings as bytes, to be kept; [`TimerSpec::records`] reads a file of them.
//! - [`Error`] says what a call was refused for; [`Board::save`] and [`Board::restore`] carry a board over a restart.
//!
//! What the library answers is proved. This crate is not: it hands calls on, and its tests compare it with the published Rust.
//!
//! ```
//! use board::{Board, Channel, Clock, Duty, Pilot, Setup, Shift, TimerSpec};
//!
//! // TIM2 behind bit 0 of enable word 3; pin 0 has its channel 1 as function 1.
//! let mut setup = Setup::new(16e6, 3.3);
//! let tim2 = setup.add_timer(TimerSpec::new(2).width(32).enable(3, 0));
//! let pin = setup.add_pin(&[(1, Channel::Ch1.signal(2))]);
//! let mut board = Board::new(64);
//! board.set_up(&setup)?;
//! board.enable(3, 1)?;
//!
//! // A pilot of 1 kHz at 30 %, and its duty to 50 % a second later. Nobody polled in between: nothing is lost.
//! let clock = Clock::new(16e6).unwrap();
//! let second = clock.cycles(1.0).unwrap();
//! let pilot = Pilot::new(tim2, Channel::Ch1, pin, 1);
//! let (mut first, mut then) = (Shift::new([0; 4], 0, second), Shift::new([0; 4], second, 2 * second));
//! pilot.start(&mut board, clock.timing(1000.0, 32).unwrap(), Duty::percent(30).unwrap(), 0, &mut first)?;
//! pilot.set_duty(&mut board, Duty::percent(50).unwrap(), second - 1, &mut first)?;
//! board.poll_all(2 * second, &mut then)?;
//!
//! assert_eq!(first.report()?.pin(0).unwrap().duty(), Duty::percent(30));
//! assert_eq!(then.report()?.pin(0).unwrap().duty(), Duty::percent(50));
//! # Ok::<(), Box<dyn std::error::Error>>(())
//! ```
//!
//! The same with the calls alone:
//!
//! ```
//! use board::{Board, Entry, Error, PinConfig, Setup, TimerIndex};
//!
//! let (mut board, tim2) = (Board::new(64), TimerIndex(0));
//! board.set_up(&Setup::example())?;
//! board.enable(3, 1)?;
//! board.set_pin(0, &PinConfig::alternate(1), 0)?;
//! board.write(tim2, 0x18, 4, 0x60, 0)?; // CCMR1: PWM mode 1
//! board.write(tim2, 0x20, 4, 1, 0)?; // CCER: channel on
//! board.write(tim2, 0x2c, 4, 9, 0)?; // ARR: a period of 10 steps
//! let edges = board.write(tim2, 0x34, 4, 3, 0)?; // CCR1: high for 3 of them
//! assert_eq!(edges, [Entry::new(0, 1, 0)]);
//! board.write(tim2, 0, 4, 1, 100)?; // CR1: start
//!
//! // An edge carries its own cycle, however late the delivery.
//! assert_eq!(board.booked(tim2)?, Some(103));
//! let done = board.deliver(tim2, 115)?;
//! let edges: Vec<_> = done.entries.iter().map(|e| (e.level, e.cycle)).collect();
//! assert_eq!(edges, [(0, 103), (1, 110), (0, 113)]);
//! assert_eq!(board.read(tim2, 0x24, 4, 115), Ok(5));
//!
//! // A refused call changes nothing.
//! assert_eq!(board.write(tim2, 0, 4, 0, 114), Err(Error::CycleAstray { cycle: 114, last: 115 }));
//! # Ok::<(), Error>(())
//! ```
#![deny(unsafe_code)]
#![deny(missing_docs)]

mod board;
mod error;
#[allow(unsafe_code)]
pub mod ffi;
mod pilot;
mod record;
mod reg;
mod save;
mod setup;
mod shift;
mod small;
mod time;
mod why;

pub use board::{Board, Delivered, Entry, Line, Source, Written};
pub use error::{is_refusal, word, ClockField, Disorder, Error, Index, Limit, Setting};
pub use pilot::{Pilot, PilotError};
pub use record::{Records, RECORD};
pub use reg::{Ccer, Ccmr, Channel, Cr1, OutputMode, Reg, UG};
pub use save::RestoreError;
pub use setup::{signal, ClockTree, Drive, Mode, PinConfig, Setup, TimerIndex, TimerSpec};
pub use shift::{Duty, PinReport, Report, Shift, PINS};
pub use small::{SmallPilot, SmallPilots};
pub use time::{Clock, Timing, LAST_CYCLE};
pub use why::Reason;
