//! The reader: the first wrong number of a message and where it begins, else its steps and its numbers.

use super::POOL;
use crate::recipe::{Function, Kernel, Lighting, STEPS, Step, Work};

/// Refused 10 with the offset of the wrong number, or 6 or 11 with 0.
#[derive(Clone, Copy, Debug, PartialEq, Eq)]
pub struct Refused {
    pub number: u8,
    pub offset: u64,
}

/// The steps, and the pool that their ranges are of, end to end.
pub fn read(message: &[u8]) -> Result<(Vec<Step>, Vec<f32>), Refused> {
    let mut reader = Reader {
        message,
        at: 0,
        pool: vec![],
    };
    let steps = reader.steps().map_err(|offset| Refused {
        number: 10,
        offset: offset as u64,
    })?;
    let whole = |number: u8| Refused { number, offset: 0 };
    if steps.len() > STEPS {
        return Err(whole(6));
    }
    if reader.pool.len() > POOL {
        return Err(whole(11));
    }
    Ok((steps, reader.pool))
}

/// The message and the place in it, and the numbers so far. An error is where the wrong number begins.
struct Reader<'a> {
    message: &'a [u8],
    at: usize,
    pool: Vec<f32>,
}

type Read<T> = Result<T, usize>;

impl Reader<'_> {
    fn steps(&mut self) -> Read<Vec<Step>> {
        let count = self.number()?;
        let steps = (0..count)
            .map(|_| self.step())
            .collect::<Read<Vec<Step>>>()?;
        match self.at < self.message.len() {
            true => Err(self.at),
            false => Ok(steps),
        }
    }

    fn number(&mut self) -> Read<u32> {
        let rest = &self.message[self.at..];
        let last = rest.iter().position(|byte| *byte < 128).ok_or(self.at)?;
        if last > 4 || last > 0 && rest[last] == 0 {
            return Err(self.at);
        }
        let groups = rest[..=last].iter().rev();
        let number = groups.fold(0u64, |sum, byte| sum * 128 + (*byte % 128) as u64);
        let number = u32::try_from(number).map_err(|_| self.at)?;
        self.at += last + 1;
        Ok(number)
    }

    /// A number that names one of so many cases, from 0 on.
    fn case(&mut self, cases: u32) -> Read<u32> {
        let start = self.at;
        match self.number()? {
            number if number < cases => Ok(number),
            _ => Err(start),
        }
    }

    fn float(&mut self) -> Read<f32> {
        Ok(f32::from_bits(self.number()?))
    }

    fn floats<const N: usize>(&mut self) -> Read<[f32; N]> {
        let mut numbers = [0.0; N];
        for number in &mut numbers {
            *number = self.float()?;
        }
        Ok(numbers)
    }

    /// A count and that many numbers, which go to the pool: their range there.
    fn range(&mut self) -> Read<(u32, u32)> {
        let (length, start) = (self.number()?, self.pool.len() as u32);
        for _ in 0..length {
            let number = self.float()?;
            self.pool.push(number);
        }
        Ok((start, length))
    }

    fn step(&mut self) -> Read<Step> {
        let start = self.at;
        let code = self.case(10)?;
        let inputs = match code {
            0 => return Err(start),
            7 => 0,
            4 | 6 => 2,
            _ => 1,
        };
        let inputs = (0..inputs).map(|_| self.number()).collect::<Read<_>>()?;
        Ok(Step {
            inputs,
            output: self.number()?,
            work: self.work(code)?,
        })
    }

    fn work(&mut self, code: u32) -> Read<Work> {
        Ok(match code {
            1 => Work::Morphology(self.case(2)?, self.float()?, self.float()?),
            2 => self.matrix()?,
            3 => {
                let mut functions = [Function::Identity; 4];
                for function in &mut functions {
                    *function = self.function()?;
                }
                Work::Transfer(functions)
            }
            4 => Work::Arithmetic(self.floats()?),
            5 => Work::Convolve(self.kernel()?),
            6 => Work::Displacement([self.case(4)?, self.case(4)?], self.floats()?),
            7 => self.turbulence()?,
            8 => Work::Diffuse(self.lighting(false)?.0),
            _ => {
                let (lighting, exponent) = self.lighting(true)?;
                Work::Specular(lighting, exponent)
            }
        })
    }

    fn matrix(&mut self) -> Read<Work> {
        Ok(match self.case(4)? {
            0 => {
                let (start, length) = self.range()?;
                Work::Matrix(start, length)
            }
            1 => Work::Saturate(self.float()?),
            2 => Work::HueRotate(self.float()?, self.float()?),
            _ => Work::LuminanceToAlpha,
        })
    }

    fn function(&mut self) -> Read<Function> {
        Ok(match self.case(4)? {
            0 => Function::Identity,
            3 => Function::Linear(self.float()?, self.float()?),
            kind => {
                let (start, length) = self.range()?;
                match kind {
                    1 => Function::Table(start, length),
                    _ => Function::Discrete(start, length),
                }
            }
        })
    }

    fn kernel(&mut self) -> Read<Kernel> {
        let (columns, rows) = (self.number()?, self.number()?);
        let (target_x, target_y) = (self.number()?, self.number()?);
        let (start, length) = self.range()?;
        Ok(Kernel {
            columns,
            rows,
            target_x,
            target_y,
            start,
            length,
            divisor: self.float()?,
            bias: self.float()?,
            edge: self.case(3)?,
            preserve_alpha: self.case(2)? == 1,
        })
    }

    fn turbulence(&mut self) -> Read<Work> {
        let mut doubles = [0.0; 6];
        for double in &mut doubles {
            let (low, high) = (self.number()?, self.number()?);
            *double = f64::from_bits((high as u64) << 32 | low as u64);
        }
        let (octaves, seed) = (self.number()?, self.number()? as i32);
        Ok(Work::Turbulence(doubles, octaves, seed, self.case(2)?))
    }

    /// With its exponent, which diffuse lighting lacks.
    fn lighting(&mut self, specular: bool) -> Read<(Lighting, f32)> {
        let (surface_scale, constant) = (self.float()?, self.float()?);
        let exponent = if specular { self.float()? } else { 1.0 };
        let mut color = [0; 3];
        for channel in &mut color {
            *channel = self.case(256)? as u8;
        }
        let light = self.case(2)?;
        let lighting = Lighting {
            light,
            place: self.floats()?,
            surface_scale,
            constant,
            color,
        };
        Ok((lighting, exponent))
    }
}

#[cfg(test)]
mod tests {
    use super::*;

    /// Where this message is wrong.
    fn offset(message: &[u8]) -> u64 {
        match read(message) {
            Err(Refused { number: 10, offset }) => offset,
            other => panic!("{message:02x?}: {other:?}"),
        }
    }

    /// The first example of docs/MESSAGES.md: one dilate of radius 1 by 0 from slot 0 to slot 1.
    const DILATE: [u8; 11] = [1, 1, 0, 1, 0, 0x80, 0x80, 0x80, 0xfc, 3, 0];

    fn changed(at: usize, to: &[u8]) -> Vec<u8> {
        [&DILATE[..at], to, &DILATE[at + 1..]].concat()
    }

    #[test]
    fn the_example_is_read() {
        let (steps, pool) = read(&DILATE).expect("a message");
        assert!(pool.is_empty());
        let [step] = &steps[..] else { panic!() };
        assert_eq!((&step.inputs[..], step.output), (&[0][..], 1));
        assert!(matches!(step.work, Work::Morphology(0, 1.0, 0.0)));
    }

    #[test]
    fn a_message_that_ends_early_is_wrong_where_its_last_number_begins() {
        let starts = [0, 1, 2, 3, 4, 5, 5, 5, 5, 5, 10];
        for (length, start) in starts.into_iter().enumerate() {
            assert_eq!(offset(&DILATE[..length]), start);
        }
    }

    #[test]
    fn wrong_numbers_are_told_by_their_first_byte() {
        // Not the shortest form, and too large: 2^32, and more groups than five.
        assert_eq!(offset(&changed(2, &[0x80, 0])), 2);
        assert_eq!(offset(&changed(9, &[0x83, 0])), 5);
        assert_eq!(offset(&changed(10, &[0x80, 0x80, 0x80, 0x80, 0x10])), 10);
        assert_eq!(offset(&changed(10, &[0xff; 40])), 10);
        assert_eq!(offset(&changed(10, &[0x80; 9])), 10);
        // Unknown codes and operators; a number is wrong before what follows is.
        for code in [0, 10, 14, 127] {
            assert_eq!(offset(&changed(1, &[code])), 1);
        }
        assert_eq!(offset(&[1, 10, 0x80, 0]), 1);
        assert_eq!(offset(&changed(4, &[2])), 4);
        assert_eq!(offset(&changed(4, &[0x80, 2])), 4);
        // Bytes left over, whatever they are.
        assert_eq!(offset(&[&DILATE[..], &[0]].concat()), 11);
        assert_eq!(offset(&[&DILATE[..], &[0x80]].concat()), 11);
        assert_eq!(offset(&[0, 0]), 1);
        // A count that is never reached.
        assert_eq!(offset(&changed(0, &[0xff, 0xff, 0xff, 0xff, 0x0f])), 15);
        // The largest number is taken where any will do.
        let slot = read(&changed(2, &[0xff, 0xff, 0xff, 0xff, 0x0f]));
        assert!(slot.is_ok_and(|(steps, _)| steps[0].inputs == [u32::MAX]));
    }

    #[test]
    fn colours_are_bytes() {
        let mut message = vec![1, 8, 0, 1, 0, 0, 0xff, 1, 0, 0, 0, 0, 0, 0];
        assert!(read(&message).is_ok());
        message[6..8].copy_from_slice(&[0x80, 2]);
        assert_eq!(offset(&message), 6);
    }

    #[test]
    fn seventeen_steps_are_read_to_their_end() {
        let mut message = vec![17];
        for _ in 0..17 {
            message.extend(&DILATE[1..]);
        }
        let refused = Refused {
            number: 6,
            offset: 0,
        };
        assert_eq!(read(&message).unwrap_err(), refused);
        *message.last_mut().unwrap() = 0x80;
        assert_eq!(offset(&message), 170);
    }
}
