//! The library under the emulator qemu-x86_64, where the archive is for another processor than this program's:
//! each call goes through a pipe to bridge/bridge.c. One bridge runs for each thread.

use std::cell::RefCell;
use std::io::{self, Read, Write};
use std::process::{Child, ChildStdin, ChildStdout, Command, Stdio};

use crate::case::{Answer, ReachAnswer, RunAnswer};

struct Bridge {
    child: Child,
    to: ChildStdin,
    from: ChildStdout,
}

impl Bridge {
    fn start() -> Bridge {
        let mut child = Command::new("qemu-x86_64")
            .arg(env!("ORACLE_BRIDGE"))
            .stdin(Stdio::piped())
            .stdout(Stdio::piped())
            .spawn()
            .expect("the emulator starts");
        let (to, from) = (child.stdin.take().unwrap(), child.stdout.take().unwrap());
        Bridge { child, to, from }
    }
}

impl Drop for Bridge {
    fn drop(&mut self) {
        let _ = self.child.kill();
        let _ = self.child.wait();
    }
}

thread_local! {
    static BRIDGE: RefCell<Bridge> = RefCell::new(Bridge::start());
}

/// What the bridge tells of a call: any answer, 0 where a function's says nothing.
pub struct Told {
    answer: Answer,
    reaches: u8,
    offset: u64,
}

impl From<Answer> for Told {
    fn from(answer: Answer) -> Told {
        Told {
            answer,
            reaches: 0,
            offset: 0,
        }
    }
}

impl From<Told> for Answer {
    fn from(told: Told) -> Answer {
        told.answer
    }
}

impl From<Told> for RunAnswer {
    fn from(told: Told) -> RunAnswer {
        let Answer { number, step } = told.answer;
        RunAnswer {
            number,
            step,
            offset: told.offset,
        }
    }
}

impl From<Told> for ReachAnswer {
    fn from(told: Told) -> ReachAnswer {
        let Answer { number, step } = told.answer;
        ReachAnswer {
            number,
            step,
            reaches: told.reaches,
            offset: told.offset,
        }
    }
}

/// A call on its way: the words so far, and the slices that come back.
pub struct Message {
    words: Vec<u8>,
    /// A pointer that waits for its length: start, bytes of an element, whether it is written.
    pointer: Option<(*mut u8, usize, bool)>,
    written: Vec<(*mut u8, usize)>,
}

impl Message {
    pub fn new(function: u32) -> Message {
        // The length comes first, once it is known.
        let mut message = Message {
            words: vec![0; 4],
            pointer: None,
            written: Vec::new(),
        };
        message.word(function);
        message
    }

    fn word(&mut self, n: u32) {
        self.words.extend(n.to_le_bytes());
    }

    /// # Safety
    ///
    /// Each pointer that was put and its length must be a slice that the call may use.
    pub unsafe fn send(mut self) -> Told {
        let length = self.words.len() as u32 - 4;
        self.words[..4].copy_from_slice(&length.to_le_bytes());
        BRIDGE.with_borrow_mut(|bridge| {
            unsafe { self.exchange(bridge) }.unwrap_or_else(|_| {
                *bridge = Bridge::start();
                Answer::ENDED.into()
            })
        })
    }

    /// Sends the call and reads what it did; an error where the bridge has ended.
    unsafe fn exchange(&self, bridge: &mut Bridge) -> io::Result<Told> {
        bridge.to.write_all(&self.words)?;
        let (mut reply, mut offset) = ([0; 4], [0; 8]);
        bridge.from.read_exact(&mut reply)?;
        bridge.from.read_exact(&mut offset)?;
        for (start, bytes) in &self.written {
            let slice = unsafe { std::slice::from_raw_parts_mut(*start, *bytes) };
            bridge.from.read_exact(slice)?;
        }
        let [number, step, touched, reaches] = reply;
        Ok(match touched {
            0 => Told {
                answer: Answer { number, step },
                reaches,
                offset: u64::from_le_bytes(offset),
            },
            _ => Answer::TOUCHED.into(),
        })
    }
}

/// An argument of a C function; a pointer is followed by its length.
pub trait Put {
    fn put(self, message: &mut Message);
}

impl Put for u32 {
    fn put(self, message: &mut Message) {
        message.word(self);
    }
}

impl Put for u8 {
    fn put(self, message: &mut Message) {
        message.word(self as u32);
    }
}

impl Put for f32 {
    fn put(self, message: &mut Message) {
        message.word(self.to_bits());
    }
}

impl Put for i32 {
    fn put(self, message: &mut Message) {
        message.word(self as u32);
    }
}

/// Its lower word, then its upper one.
impl Put for f64 {
    fn put(self, message: &mut Message) {
        message.word(self.to_bits() as u32);
        message.word((self.to_bits() >> 32) as u32);
    }
}

impl<T> Put for *const T {
    fn put(self, message: &mut Message) {
        message.pointer = Some((self.cast_mut().cast(), size_of::<T>(), false));
    }
}

impl<T> Put for *mut T {
    fn put(self, message: &mut Message) {
        message.pointer = Some((self.cast(), size_of::<T>(), true));
    }
}

impl Put for usize {
    fn put(self, message: &mut Message) {
        let (start, width, written) = message.pointer.take().expect("a pointer before its length");
        message.word(self as u32);
        // The caller lends this slice, as it would to the C function.
        let bytes = unsafe { std::slice::from_raw_parts(start, self * width) };
        message.words.extend(bytes);
        message
            .words
            .resize(message.words.len().next_multiple_of(4), 0);
        if written {
            message.written.push((start, bytes.len()));
        }
    }
}
