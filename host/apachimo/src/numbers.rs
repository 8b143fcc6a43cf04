//! Numbers of threads and objects, each kind a type of its own.

use std::fmt;

macro_rules! number {
    ($(#[$doc:meta])* $name:ident, $limit:expr) => {
        $(#[$doc])*
        ///
        /// Any number can be written down; the library answers one that is
        /// out of range with the status of a number that is not created.
        #[derive(Clone, Copy, PartialEq, Eq, PartialOrd, Ord, Hash, Debug)]
        pub struct $name(pub u32);

        impl $name {
            /// How many of this kind the tables hold.
            pub const LIMIT: u32 = $limit;
        }

        impl fmt::Display for $name {
            fn fmt(&self, f: &mut fmt::Formatter<'_>) -> fmt::Result {
                self.0.fmt(f)
            }
        }
    };
}

number!(
    /// A thread number, 0 to 31.
    Thread,
    32
);
number!(
    /// A semaphore number, 0 to 15.
    Semaphore,
    16
);
number!(
    /// A queue number, 0 to 7.
    Queue,
    8
);
number!(
    /// An event flags group number, 0 to 7.
    Group,
    8
);
number!(
    /// A block pool number, 0 to 3.
    Pool,
    4
);
