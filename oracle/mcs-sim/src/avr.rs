//! Stand-in: the log entry that sys.rs keeps. The timer writes none.

#[derive(Clone, Debug)]
pub struct Message {
    pub cycle: u64,
    pub level: &'static str,
    pub text: String,
}
