//! A single call with everything that it is lent, and what is expected of it.

use std::fmt;

/// A parameter. Floats are kept by their bits, so that cases compare and print exactly.
#[derive(Clone, Debug, PartialEq, Eq)]
pub enum Param {
    /// The number of an enum's case.
    Choice(u32),
    Float(u32),
    /// A double's bits; in the stored lists its lower word, then its upper one.
    Double(u64),
    /// Floats whose count is written before them.
    List(Vec<u32>),
    /// Floats up to the end of the parameters.
    Rest(Vec<u32>),
}

#[derive(Clone, Debug, PartialEq, Eq)]
pub struct Case {
    pub width: u32,
    pub height: u32,
    pub params: Vec<Param>,
    pub sheets: Vec<Vec<u8>>,
}

/// The answer of a call.
#[derive(Clone, Copy, Debug, PartialEq, Eq)]
#[repr(C)]
pub struct Answer {
    pub number: u8,
    pub step: u8,
}

/// What nup_run answers: for number 10, where in the message the wrong number begins.
#[derive(Clone, Copy, Debug, PartialEq, Eq)]
#[repr(C)]
pub struct RunAnswer {
    pub number: u8,
    pub step: u8,
    pub offset: u64,
}

/// What nup_reaches answers: the same, and 1 where the result reaches slot 0.
#[derive(Clone, Copy, Debug, PartialEq, Eq)]
#[repr(C)]
pub struct ReachAnswer {
    pub number: u8,
    pub step: u8,
    pub reaches: u8,
    pub offset: u64,
}

impl Answer {
    /// Stands for a call that wrote outside what it may write.
    pub const TOUCHED: Answer = Answer {
        number: 255,
        step: 255,
    };
    /// Stands for a call that ended the program which made it.
    pub const ENDED: Answer = Answer {
        number: 254,
        step: 255,
    };
}

impl fmt::Display for Answer {
    fn fmt(&self, out: &mut fmt::Formatter) -> fmt::Result {
        match *self {
            Answer::TOUCHED => write!(out, "a write outside the lent bytes"),
            Answer::ENDED => write!(out, "the end of its program"),
            Answer { number, step } => write!(out, "answer {number} at step {step}"),
        }
    }
}

impl fmt::Display for RunAnswer {
    fn fmt(&self, out: &mut fmt::Formatter) -> fmt::Result {
        let RunAnswer {
            number,
            step,
            offset,
        } = *self;
        write!(out, "{}, offset {offset}", Answer { number, step })
    }
}

impl fmt::Display for ReachAnswer {
    fn fmt(&self, out: &mut fmt::Formatter) -> fmt::Result {
        let ReachAnswer {
            number,
            step,
            reaches,
            offset,
        } = *self;
        write!(
            out,
            "{}, reaches {reaches}",
            RunAnswer {
                number,
                step,
                offset
            }
        )
    }
}

/// The answer and every lent sheet afterwards.
#[derive(Clone, Debug, PartialEq, Eq)]
pub struct Outcome {
    pub answer: Answer,
    pub sheets: Vec<Vec<u8>>,
}

impl Param {
    pub fn float(x: f32) -> Param {
        Param::Float(x.to_bits())
    }

    pub fn double(x: f64) -> Param {
        Param::Double(x.to_bits())
    }

    pub fn floats(xs: &[f32]) -> Vec<u32> {
        xs.iter().map(|x| x.to_bits()).collect()
    }

    /// How many floats and doubles this parameter has.
    pub fn numbers(&self) -> usize {
        match self {
            Param::Choice(_) => 0,
            Param::Float(_) | Param::Double(_) => 1,
            Param::List(bits) | Param::Rest(bits) => bits.len(),
        }
    }

    /// Puts the float of these bits, or the double of the same value, in the place of one number.
    pub fn put(&mut self, at: usize, value: u32) {
        match self {
            Param::Choice(_) => {}
            Param::Float(bits) => *bits = value,
            Param::Double(bits) => *bits = widened(value),
            Param::List(bits) | Param::Rest(bits) => bits[at] = value,
        }
    }

    fn write(&self, words: &mut Vec<u32>) {
        match self {
            Param::Choice(n) | Param::Float(n) => words.push(*n),
            Param::Double(bits) => words.extend([*bits as u32, (*bits >> 32) as u32]),
            Param::List(bits) => {
                words.push(bits.len() as u32);
                words.extend(bits);
            }
            Param::Rest(bits) => words.extend(bits),
        }
    }
}

/// The bits of the double of a float's value; a NaN keeps its sign and its payload.
fn widened(bits: u32) -> u64 {
    let x = f32::from_bits(bits);
    match x.is_nan() {
        true => (bits as u64 >> 31) << 63 | 0x7ff << 52 | (bits as u64 & 0x7f_ffff) << 29,
        false => (x as f64).to_bits(),
    }
}

impl Case {
    pub fn choice(&self, i: usize) -> u32 {
        match self.params[i] {
            Param::Choice(n) => n,
            _ => unreachable!("parameter {i} is no choice"),
        }
    }

    pub fn float(&self, i: usize) -> f32 {
        match self.params[i] {
            Param::Float(bits) => f32::from_bits(bits),
            _ => unreachable!("parameter {i} is no float"),
        }
    }

    pub fn double(&self, i: usize) -> f64 {
        match self.params[i] {
            Param::Double(bits) => f64::from_bits(bits),
            _ => unreachable!("parameter {i} is no double"),
        }
    }

    pub fn floats(&self, i: usize) -> Vec<f32> {
        match &self.params[i] {
            Param::List(bits) | Param::Rest(bits) => {
                bits.iter().map(|b| f32::from_bits(*b)).collect()
            }
            _ => unreachable!("parameter {i} is no list"),
        }
    }

    /// The bytes that each sheet must have; large enough a type for any two u32.
    pub fn size(&self) -> u128 {
        4 * self.width as u128 * self.height as u128
    }

    /// The parameters as the stored lists have them.
    pub fn words(&self) -> Vec<u32> {
        let mut words = Vec::new();
        for param in &self.params {
            param.write(&mut words);
        }
        words
    }
}
