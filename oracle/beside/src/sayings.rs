//! How a list of names is written, each with what it says: the wrong rules of the store and of the journal, and the kinds of
//! answers that a run must meet.

macro_rules! sayings {
    ($name:ident { $($case:ident: $says:expr,)* }) => {
        #[derive(Clone, Copy, Debug, PartialEq, Eq, PartialOrd, Ord)]
        pub enum $name {
            $($case,)*
        }

        /// Every one, and what it says.
        pub const ALL: &[($name, &str)] = &[$(($name::$case, $says),)*];
    };
}
