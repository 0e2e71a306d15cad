//! Wrong ideas, listed once: each is a variant of the type, and stands in the list of all.

/// The ideas, each with what it is: the type, and the list of all that are wrong, so that none is left out of it.
macro_rules! ideas {
    ($(#[$of:meta])* ideas; $($(#[$what:meta])* $idea:ident,)*) => {
        $(#[$of])*
        #[derive(Debug, Clone, Copy, PartialEq, Eq)]
        pub enum Idea {
            /// As it should be.
            Right,
            $($(#[$what])* $idea,)*
        }

        /// All wrong ideas.
        pub const ALL: &[Idea] = &[$(Idea::$idea,)*];
    };
}
