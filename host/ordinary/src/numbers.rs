//! Numbers of threads and objects, each kind a type of its own.

use std::fmt;

macro_rules! number {
    ($(#[$doc:meta])* $name:ident, $limit:expr) => {
        $(#[$doc])*
        ///
        /// A call may carry any 32-bit number; `index` tells whether the
        /// tables have a place for it.
        #[derive(Clone, Copy, PartialEq, Eq, PartialOrd, Ord, Hash, Debug)]
        pub struct $name(pub u32);

        impl $name {
            /// How many of this kind the tables hold.
            pub const LIMIT: usize = $limit;

            /// The place in the tables, if the number is in range.
            #[inline]
            pub fn index(self) -> Option<usize> {
                let index = self.0 as usize;
                (index < Self::LIMIT).then_some(index)
            }
        }

        impl fmt::Display for $name {
            fn fmt(&self, f: &mut fmt::Formatter<'_>) -> fmt::Result {
                self.0.fmt(f)
            }
        }
    };
}

number!(
    /// A thread number, 0 to 31 when in range.
    ThreadNo,
    32
);
number!(
    /// A semaphore number, 0 to 15 when in range.
    SemaphoreNo,
    16
);
number!(
    /// A queue number, 0 to 7 when in range.
    QueueNo,
    8
);
number!(
    /// An event flags group number, 0 to 7 when in range.
    GroupNo,
    8
);
number!(
    /// A block pool number, 0 to 3 when in range.
    PoolNo,
    4
);
