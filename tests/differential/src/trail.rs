//! A sequence by stepping, for the narrow widths and for the even multipliers, whose different
//! elements are few.

use crate::calls::Generator;

/// The different elements in order, and the index to which the last one leads back.
pub struct Trail {
    elements: Vec<u64>,
    preperiod: usize,
}

/// The low `width` bits, for a width up to 64.
pub fn low(x: u128, width: u64) -> u64 {
    (x % (1 << width)) as u64
}

pub fn step(g: Generator, x: u64) -> u64 {
    low(g.multiplier as u128 * x as u128 + g.increment as u128, g.width)
}

impl Trail {
    pub fn of(g: Generator) -> Trail {
        let mut elements = Vec::new();
        let mut x = g.seed;
        loop {
            if let Some(preperiod) = elements.iter().position(|&earlier| earlier == x) {
                return Trail { elements, preperiod };
            }
            elements.push(x);
            x = step(g, x);
        }
    }

    fn period(&self) -> usize {
        self.elements.len() - self.preperiod
    }

    pub fn element(&self, index: u64) -> u64 {
        let (preperiod, period) = (self.preperiod as u64, self.period() as u64);
        let place = if index < preperiod { index } else { preperiod + (index - preperiod) % period };
        self.elements[place as usize]
    }

    /// How many different elements there are.
    pub fn size(&self) -> u64 {
        self.elements.len() as u64
    }

    pub fn preperiod(&self) -> u64 {
        self.preperiod as u64
    }

    pub fn exponent(&self) -> u64 {
        assert!(self.period().is_power_of_two());
        self.period().ilog2() as u64
    }

    pub fn index(&self, number: u64) -> Option<u64> {
        self.elements.iter().position(|&x| x == number).map(|place| place as u64)
    }
}
