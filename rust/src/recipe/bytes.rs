//! The form of messages: how a step is written, and where in a message a step ends.

use crate::lighting::{Color, LightSource};
use alloc::vec;
use alloc::vec::Vec;

/// A step's bytes: its code, inputs and output, then its parameters.
#[derive(Clone, Debug, PartialEq, Eq, Hash)]
pub struct Step(Vec<u8>);

impl Step {
    /// The slots are its inputs and last its output.
    pub fn new(code: u8, slots: &[u32]) -> Step {
        let step = Step(vec![code]);
        slots.iter().fold(step, |step, slot| step.number(*slot))
    }

    pub fn number(mut self, number: u32) -> Step {
        push(&mut self.0, number.into());
        self
    }

    pub fn floats(self, numbers: &[f32]) -> Step {
        let bits = |x: &f32| match x.is_nan() {
            true => 0x7fc0_0000,
            false => x.to_bits(),
        };
        numbers.iter().fold(self, |step, x| step.number(bits(x)))
    }

    /// Two numbers each, the lower half first.
    pub fn doubles(self, numbers: &[f64]) -> Step {
        numbers.iter().fold(self, |step, x| {
            let bits = match x.is_nan() {
                true => 0x7ff8 << 48,
                false => x.to_bits(),
            };
            step.number(bits as u32).number((bits >> 32) as u32)
        })
    }

    /// How many there are, and they.
    pub fn list(mut self, numbers: &[f32]) -> Step {
        push(&mut self.0, numbers.len() as u64);
        self.floats(numbers)
    }

    pub fn light(self, color: Color, light: LightSource) -> Step {
        let (kind, x, y, z) = light.parts();
        [color.red, color.green, color.blue, kind]
            .into_iter()
            .fold(self, |step, byte| step.number(byte.into()))
            .floats(&[x, y, z])
    }

    pub fn code(&self) -> u8 {
        self.0[0]
    }

    /// Its inputs, and its output.
    pub fn slots(&self) -> (Vec<u32>, u32) {
        let mut reader = Reader(&self.0);
        let inputs = match reader.number() {
            7 => 0,
            4 | 6 => 2,
            _ => 1,
        };
        (
            (0..inputs).map(|_| reader.number()).collect(),
            reader.number(),
        )
    }

    /// Of a convolve matrix: its last number says so.
    pub fn preserves_alpha(&self) -> bool {
        self.0.last() == Some(&1)
    }
}

/// A number in groups of seven bits, lowest first.
fn push(bytes: &mut Vec<u8>, mut number: u64) {
    while number >= 0x80 {
        bytes.push(number as u8 | 0x80);
        number >>= 7;
    }
    bytes.push(number as u8);
}

/// The message of these steps.
pub fn joined(steps: &[Step]) -> Vec<u8> {
    let mut message = Vec::new();
    push(&mut message, steps.len() as u64);
    steps.iter().for_each(|step| message.extend(&step.0));
    message
}

/// The steps of a message that is well formed.
pub fn split(message: &[u8]) -> Vec<Step> {
    let mut reader = Reader(message);
    let count = reader.number();
    (0..count).map(|_| reader.step()).collect()
}

/// What is left of a message.
struct Reader<'a>(&'a [u8]);

impl Reader<'_> {
    fn number(&mut self) -> u32 {
        let (mut number, mut place) = (0, 0);
        while let Some((byte, rest)) = self.0.split_first() {
            self.0 = rest;
            number |= u32::from(byte & 0x7f).wrapping_shl(place);
            place += 7;
            if byte & 0x80 == 0 {
                break;
            }
        }
        number
    }

    fn skip(&mut self, numbers: u32) {
        for _ in 0..numbers {
            self.number();
        }
    }

    fn skip_list(&mut self) {
        let count = self.number();
        self.skip(count);
    }

    fn step(&mut self) -> Step {
        let start = self.0;
        match self.number() {
            1 => self.skip(5),
            2 => {
                self.skip(2);
                match self.number() {
                    0 => self.skip_list(),
                    1 => self.skip(1),
                    2 => self.skip(2),
                    _ => {}
                }
            }
            3 => {
                self.skip(2);
                for _ in 0..4 {
                    match self.number() {
                        1 | 2 => self.skip_list(),
                        3 => self.skip(2),
                        _ => {}
                    }
                }
            }
            4 => self.skip(7),
            5 => {
                self.skip(6);
                self.skip_list();
                self.skip(4);
            }
            6 => self.skip(8),
            7 => self.skip(16),
            8 => self.skip(11),
            _ => self.skip(12),
        }
        Step(start[..start.len() - self.0.len()].to_vec())
    }
}
