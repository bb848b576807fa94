//! One board's record: a list is played, and what happens between one set-up and the next is looked at.

use crate::args::Args;
use crate::fault::Fault;
use crate::list::Call;
use crate::play::{Answer, Player};
use crate::source::Source;

/// Timers of a board, at most.
const TIMERS: u32 = 8;

/// A list that is played, and the one board of it that is looked at.
pub struct Watch {
    source: Source,
    player: Player,
    /// The board asked for, from 1; a list with several has to be told which.
    wanted: Option<u64>,
    /// Set-ups so far.
    boards: u64,
    /// Deliveries that stopped with more due: for each timer the delivery's cycle and that of its last entry.
    stopped: [Option<(u64, u64)>; TIMERS as usize],
    open: Vec<Open>,
}

/// A timer whose events the list does not deliver from a cycle on.
#[derive(Clone, Copy, Debug, PartialEq, Eq)]
pub struct Open {
    pub timer: u32,
    pub from: u64,
}

impl Watch {
    /// The list of a command, and its option `--board`.
    pub fn open(args: &Args) -> Result<Self, Fault> {
        let wanted = args.number("--board")?;
        if wanted == Some(0) {
            return Err(Fault::usage("--board 0: boards are counted from 1"));
        }
        let source = Source::open(args.list()?, true)?;
        Ok(Self { source, player: Player::new(), wanted, boards: 0, stopped: Default::default(), open: Vec::new() })
    }

    /// The board's next call that was not refused, beginning with its set-up; `None` at the end of the list. The whole list is read:
    /// a malformed line anywhere is told.
    pub fn next(&mut self) -> Result<Option<Call>, Fault> {
        loop {
            let Some(call) = self.source.call().map_err(|t| self.source.fault(t))? else { return self.end() };
            let watched = self.watched();
            let open = if watched && matches!(call, Call::SetUp(_)) { self.look() } else { Vec::new() };
            let served = matches!(self.player.play(&call).number, 0 | 8);
            if served && matches!(call, Call::SetUp(_)) {
                self.boards += 1;
                if watched {
                    self.open = open;
                }
                if self.wanted.is_none() && self.boards == 2 {
                    return Err(Fault::failed(format!(
                        "line {}: a second set-up, and a set-up begins a new board: choose one with --board 1, --board 2 and so on",
                        self.source.line()
                    )));
                }
            }
            if served && self.watched() {
                self.note(&call);
                return Ok(Some(call));
            }
        }
    }

    /// The answer to the call that came last.
    pub fn answer(&self) -> Answer<'_> {
        self.player.answer()
    }

    /// That call's line.
    pub fn line(&self) -> u64 {
        self.source.line()
    }

    /// The board's timers whose events are not all delivered, once the list has been read.
    pub fn undelivered(&self) -> &[Open] {
        &self.open
    }

    fn watched(&self) -> bool {
        self.boards == self.wanted.unwrap_or(1)
    }

    fn end(&mut self) -> Result<Option<Call>, Fault> {
        if self.watched() {
            self.open = self.look();
        }
        match (self.boards, self.wanted) {
            (0, _) => Err(Fault::failed("the list sets up no board")),
            (boards, Some(wanted)) if boards < wanted => Err(Fault::failed(format!("--board {wanted}: the list sets up {boards}"))),
            _ => Ok(None),
        }
    }

    /// A delivery that stopped leaves its timer booked for its own cycle: where it stopped is kept.
    fn note(&mut self, call: &Call) {
        if matches!(call, Call::SetUp(_)) {
            self.stopped = Default::default();
        }
        if let Call::Deliver { timer, cycle, .. } = *call {
            let answer = self.player.answer();
            let last = answer.cycles.last().copied().unwrap_or(0);
            self.stopped[timer as usize] = (answer.number == 8).then_some((cycle, last));
        }
    }

    fn look(&self) -> Vec<Open> {
        let open = |timer: u32| {
            let booked = self.player.booked(timer)?;
            match self.stopped[timer as usize] {
                Some((cycle, last)) if cycle == booked => Some(Open { timer, from: last }),
                _ => Some(Open { timer, from: booked }),
            }
        };
        (0..TIMERS).filter_map(open).collect()
    }
}
