//! The operations as the library exports them: numbers in, numbers out, in lent slices.
//!
//! The library is compiled for x86-64 alone. There it is linked; on another processor a process has
//! it, which an emulator runs. Each operation is described once, at the end of this file: its
//! exported function, the call, and the message to the process follow from that.

#[cfg(piped)]
pub mod process;

#[cfg(direct)]
pub use direct::*;
#[cfg(not(direct))]
pub use piped::*;

/// The answer's numbers take so many places.
pub const PLACES: usize = 78;

/// The numbers of a sheet that was read take so many places.
pub const SHEET_PLACES: usize = 238;

/// The longest sheet has so many bytes.
pub const SHEET_BYTES: usize = 193;

/// A state between two steps takes so many bytes.
pub const STATE_BYTES: usize = 202;

/// The numbers of a step that is chosen or taken take so many places.
pub const TURN_PLACES: usize = 9;

/// A lent list of calls has at least this many words: 512 calls of 6.
pub const CALL_WORDS: usize = 3_072;

/// What is given where there are too few places, or bytes of a state, or one of the 16 words of the first
/// row, of a given variable or not, is over 32 bits: then nothing is written.
pub const NO_ROOM: u32 = u32::MAX;

/// The detail of a refusal.
pub type Detail = usize;

/// The type of what an exported function itself gives: its number, or nothing.
#[cfg(direct)]
macro_rules! gives {
    (number) => {
        u32
    };
    (nothing) => {
        ()
    };
}

/// What an operation hands back: its number, if it gives one, and the numbers that come back.
macro_rules! results {
    (number; $number:expr; $($back:expr),*) => { ($number $(, $back)*) };
    (nothing; $number:expr; $($back:expr),*) => {{
        let _ = $number;
        ($($back),*)
    }};
}

/// Its type.
macro_rules! result_types {
    (number $(, $back:ty)*) => { (u32 $(, $back)*) };
    (nothing $(, $back:ty)*) => { ($($back),*) };
}

/// The functions of the operations described: each takes the slices that it only reads, then plain
/// numbers, then the slices that it may change, and gives its number, if it has one, and further
/// numbers that come back.
macro_rules! operations {
    ($(
        $(#[$doc:meta])*
        $number:literal $name:ident = $export:ident
            reads($($read:ident: $r:ty),*) numbers($($given:ident: $n:ty),*)
            changes($($changed:ident: $c:ty),*) gives($gives:ident) back($($back:ident: $b:ty),*);
    )*) => {
        /// The operations of the library linked with this package.
        ///
        /// All `unsafe` of the package stands here. The exported functions take any values and are
        /// proved to write within the slices that they are lent; that a caller can lend them at all
        /// (each pointer is good for its length, and what is written overlaps nothing else) is what
        /// a Rust slice says.
        #[cfg(direct)]
        #[allow(unsafe_code, unused_parens, clippy::let_unit_value)]
        pub mod direct {
            use super::Detail;

            // A slice passes as a pointer and then a length.
            #[link(name = "export", kind = "static")]
            extern "C" {
                $(fn $export(
                    $($read: *const $r, _: usize,)* $($given: $n,)*
                    $($changed: *mut $c, _: usize,)* $($back: *mut $b),*
                ) -> gives!($gives);)*
            }

            $($(#[$doc])*
            pub fn $name(
                $($read: &[$r],)* $($given: $n,)* $($changed: &mut [$c]),*
            ) -> result_types!($gives $(, $b)*) {
                $(let mut $back = <$b>::MAX;)*
                // SAFETY: each pointer comes with the length of its slice or is that of one number,
                // and what is lent to be written overlaps with nothing else.
                let number = unsafe {
                    $export(
                        $($read.as_ptr(), $read.len(),)* $($given,)*
                        $($changed.as_mut_ptr(), $changed.len(),)* $(&mut $back),*
                    )
                };
                results!($gives; number; $($back),*)
            })*
        }

        /// The operations of the library in a process: the same results, only slower.
        #[cfg(piped)]
        #[allow(unused_parens)]
        pub mod piped {
            use super::process::Request;
            use super::Detail;

            $($(#[$doc])*
            pub fn $name(
                $($read: &[$r],)* $($given: $n,)* $($changed: &mut [$c]),*
            ) -> result_types!($gives $(, $b)*) {
                $(let mut $back = [<$b>::MAX];)*
                let mut request = Request::new($number);
                $(request.lend($read);)*
                $(request.lend(&[$given as usize]);)*
                $(request.lend_back($changed);)*
                $(request.lend_back(&$back);)*
                let mut answer = request.ask();
                $(answer.take($changed);)*
                $(answer.take(&mut $back);)*
                results!($gives; answer.number; $($back[0]),*)
            })*
        }
    };
}

operations! {
    /// The answer: its number, with its numbers in the first [`PLACES`](super::PLACES) places of
    /// `out` and the joined list in `first`. [`NO_ROOM`](super::NO_ROOM) where `out` is shorter.
    /// Contract: `export::ebbcandle_answer`.
    0 answer = ebbcandle_answer
        reads(sheet: u8, words: u32) numbers() changes(first: u32, second: u32, out: usize) gives(number) back();

    /// The route check: number and detail. Contract: `export::ebbcandle_check_route`.
    1 check_route = ebbcandle_check_route
        reads(sheet: u8) numbers() changes() gives(number) back(detail: Detail);

    /// The count: its number, and the different values of the variable over the first rows, without 0.
    /// Contract: `export::ebbcandle_count`.
    2 count = ebbcandle_count
        reads(table: u32) numbers(rows: usize, variable: usize) changes() gives(number) back(values: usize);

    /// What a sheet says: 0, or the number of its refusal, with its numbers in the first
    /// [`SHEET_PLACES`](super::SHEET_PLACES) places of `out`. [`NO_ROOM`](super::NO_ROOM) where
    /// `out` is shorter. Contract: `export::ebbcandle_read_sheet`.
    3 read_sheet = ebbcandle_read_sheet
        reads(sheet: u8) numbers() changes(out: usize) gives(number) back();

    /// The sheet written from the places of a reading, of which the number and the detail are not
    /// looked at: 0 or the number of a refusal, its detail, and the bytes put at the start of
    /// `buffer`. [`NO_ROOM`](super::NO_ROOM) where `fields` is shorter than
    /// [`SHEET_PLACES`](super::SHEET_PLACES), or a word of its first row is over 4,294,967,295.
    /// Contract: `export::ebbcandle_write_sheet`.
    4 write_sheet = ebbcandle_write_sheet
        reads(fields: usize) numbers() changes(buffer: u8) gives(number) back(detail: Detail, bytes: usize);

    /// The request that a typed line stands for: 0, or the number of its refusal, with its numbers in
    /// `out` as [`read_sheet`] puts them. Contract: `export::ebbcandle_read_typed`.
    5 read_typed = ebbcandle_read_typed
        reads(sheet: u8, names: u8, line: u8) numbers() changes(out: usize) gives(number) back();

    /// The answer to a typed request, as that to a sheet. Contract: `export::ebbcandle_answer_typed`.
    6 answer_typed = ebbcandle_answer_typed
        reads(sheet: u8, names: u8, line: u8, words: u32) numbers()
        changes(first: u32, second: u32, out: usize) gives(number) back();

    /// The route check of a typed request: number and detail. Contract:
    /// `export::ebbcandle_check_typed`.
    7 check_typed = ebbcandle_check_typed
        reads(sheet: u8, names: u8, line: u8) numbers() changes() gives(number) back(detail: Detail);

    /// The faulty name of a line that is refused with this number and detail: where it begins, and how
    /// many letters it has. Contract: `export::ebbcandle_faulty_name`.
    8 faulty_name = ebbcandle_faulty_name
        reads(line: u8) numbers(number: u32, detail: Detail) changes() gives(nothing)
        back(place: usize, length: usize);

    /// The answer where a call is charged p and a row sent q, as [`answer`], which is this at 1 and 0.
    /// Contract: `export::ebbcandle_answer_charged`.
    9 answer_charged = ebbcandle_answer_charged
        reads(sheet: u8, words: u32) numbers(p: usize, q: usize) changes(first: u32, second: u32, out: usize)
        gives(number) back();

    /// The state before the first step, put into the first [`STATE_BYTES`](super::STATE_BYTES) bytes of
    /// `state`: number and detail, as of [`check_route`]. [`NO_ROOM`](super::NO_ROOM) where `state` is
    /// shorter. Contract: `export::ebbcandle_start`.
    10 start = ebbcandle_start
        reads(sheet: u8) numbers() changes(state: u8) gives(number) back(detail: Detail);

    /// The next step, with its calls in `calls`: its number, with its numbers in the first
    /// [`TURN_PLACES`](super::TURN_PLACES) places of `out` and the state afterwards in `state`.
    /// [`NO_ROOM`](super::NO_ROOM) where `state` or `out` is shorter. Contract:
    /// `export::ebbcandle_choose`.
    11 choose = ebbcandle_choose
        reads() numbers() changes(state: u8, first: u32, second: u32, calls: u32, out: usize)
        gives(number) back();

    /// The rows sent for a step, taken: its number, with its numbers in the first
    /// [`TURN_PLACES`](super::TURN_PLACES) places of `out` and the state afterwards in `state`.
    /// [`NO_ROOM`](super::NO_ROOM) where `state` or `out` is shorter. Contract:
    /// `export::ebbcandle_take`.
    12 take = ebbcandle_take
        reads(sent: u32) numbers(step: usize) changes(state: u8, first: u32, second: u32, out: usize)
        gives(number) back();
}
