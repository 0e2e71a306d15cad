//! The library in processes of its own, for a processor that it is not compiled for: an emulator
//! runs them, and each call is a message to one of them and its answer.
//!
//! The numbers of a message have 8 bytes, the lowest first. A request is the operation, how many
//! slices it lends, the bytes of each, and the slices, each filled up to a multiple of 8 bytes. An
//! answer is what the operation gives, how many slices come back, the bytes of each, and those
//! slices. Both sides check every length: the process ends with status 1 at a request that is none
//! of the operation's, and an answer that is not the request's is an error here.
//!
//! What is run was made when the package was built, and is named by its whole path: nothing is looked
//! for by its name.

use std::io::{self, ErrorKind, Read, Write};
use std::mem::size_of;
use std::process::{Child, Command, Stdio};
use std::sync::{Mutex, MutexGuard};

/// What a slice has, as bytes of a message.
pub trait Item: Copy {
    /// An item takes so many bytes.
    const BYTES: usize;
    /// Puts the items' bytes behind a message.
    fn put(items: &[Self], message: &mut Vec<u8>);
    /// The item that these bytes are.
    fn got(bytes: &[u8]) -> Self;
}

macro_rules! items {
    ($($item:ty as $sent:ty),*) => {$(
        impl Item for $item {
            const BYTES: usize = size_of::<$sent>();
            fn put(items: &[$item], message: &mut Vec<u8>) {
                message.extend(items.iter().flat_map(|item| (*item as $sent).to_le_bytes()));
            }
            fn got(bytes: &[u8]) -> $item {
                <$sent>::from_le_bytes(bytes.try_into().expect("an item's bytes")) as $item
            }
        }
    )*};
}

items!(u8 as u8, u32 as u32, usize as u64);

/// A request: the operation with the slices that it is lent.
pub struct Request {
    operation: usize,
    /// The bytes of each slice, and of each that comes back.
    sizes: Vec<usize>,
    back: Vec<usize>,
    /// The slices, each filled up.
    slices: Vec<u8>,
}

/// An answer: what the operation gives, and the slices that came back.
pub struct Answer {
    /// The operation's number.
    pub number: u32,
    slices: Vec<u8>,
    taken: usize,
}

/// The numbers that follow in an answer.
fn numbers(from: &mut impl Read, count: usize) -> io::Result<Vec<usize>> {
    let mut bytes = vec![0; count * usize::BYTES];
    from.read_exact(&mut bytes)?;
    Ok(bytes.chunks_exact(usize::BYTES).map(usize::got).collect())
}

impl Request {
    /// A request for this operation, with nothing lent.
    pub fn new(operation: usize) -> Request {
        Request {
            operation,
            sizes: Vec::new(),
            back: Vec::new(),
            slices: Vec::new(),
        }
    }

    /// Lends a slice that is only read.
    pub fn lend<T: Item>(&mut self, slice: &[T]) {
        self.sizes.push(slice.len() * T::BYTES);
        T::put(slice, &mut self.slices);
        self.slices.resize(self.slices.len().next_multiple_of(8), 0);
    }

    /// Lends a slice that comes back.
    pub fn lend_back<T: Item>(&mut self, slice: &[T]) {
        self.back.push(slice.len() * T::BYTES);
        self.lend(slice);
    }

    /// The request as it is sent.
    pub fn message(&self) -> Vec<u8> {
        let mut message = Vec::with_capacity(8 * (2 + self.sizes.len()) + self.slices.len());
        usize::put(&[self.operation, self.sizes.len()], &mut message);
        usize::put(&self.sizes, &mut message);
        message.extend_from_slice(&self.slices);
        message
    }

    /// This request's answer, read; an error where it is cut off or another's.
    pub fn answer(&self, from: &mut impl Read) -> io::Result<Answer> {
        let head = numbers(from, 2)?;
        let number = u32::try_from(head[0]).map_err(|_| ErrorKind::InvalidData)?;
        if head[1] != self.back.len() || numbers(from, head[1])? != self.back {
            return Err(ErrorKind::InvalidData.into());
        }
        let mut slices = vec![0; self.back.iter().sum()];
        from.read_exact(&mut slices)?;
        Ok(Answer {
            number,
            slices,
            taken: 0,
        })
    }

    /// Asks a process of the library's. It ends with its input.
    pub fn ask(&self) -> Answer {
        let taken = free().pop();
        let mut process = taken.unwrap_or_else(|| start().unwrap_or_else(|error| gone(error)));
        let answer = self
            .ask_of(&mut process)
            .unwrap_or_else(|error| gone(error));
        free().push(process);
        answer
    }

    fn ask_of(&self, process: &mut Child) -> io::Result<Answer> {
        let input = process.stdin.as_mut().expect("piped");
        input.write_all(&self.message())?;
        self.answer(process.stdout.as_mut().expect("piped"))
    }
}

impl Answer {
    /// Puts the next slice that came back where it was lent from.
    pub fn take<T: Item>(&mut self, slice: &mut [T]) {
        let own = &self.slices[self.taken..][..slice.len() * T::BYTES];
        for (item, bytes) in slice.iter_mut().zip(own.chunks_exact(T::BYTES)) {
            *item = T::got(bytes);
        }
        self.taken += own.len();
    }
}

/// The processes that have the library and answer no call. A call that finds none starts one, so
/// that there are as many as calls were made at once.
static FREE: Mutex<Vec<Child>> = Mutex::new(Vec::new());

/// The free processes, taken or put back by one call at a time.
fn free() -> MutexGuard<'static, Vec<Child>> {
    FREE.lock().expect("nothing fails while they are held")
}

/// The program that has the library, or the script that runs it, by its whole path.
const SERVE: &str = env!("EBBCANDLE_SERVE");

/// Says which process failed, and what to do.
fn gone(error: io::Error) -> ! {
    panic!(
        "the library's process {SERVE} fails: {error}; \
         `cargo clean -p ebbcandle` and a new build make it again"
    )
}

/// Starts a process that has the library, in the root folder: it takes nothing from the current one.
pub fn start() -> io::Result<Child> {
    Command::new(SERVE)
        .current_dir("/")
        .stdin(Stdio::piped())
        .stdout(Stdio::piped())
        .spawn()
}
