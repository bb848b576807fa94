//! Stand-in for mcs-core: only what `Timer::new` reads.

pub mod arm {
    pub mod device {
        /// A clock-enable bit: enable word and bit.
        #[derive(Clone, Copy, Debug)]
        pub struct Enable {
            pub reg: u8,
            pub bit: u8,
        }

        #[derive(Clone, Debug)]
        pub struct TimerInstance {
            /// `TIM` and the timer's number.
            pub name: String,
            pub width: u8,
            pub channels: u8,
            pub apb: u8,
            /// 32 bits, because document 01 leaves the interrupt number free.
            pub irq: u32,
            pub enable: Enable,
        }
    }
}
