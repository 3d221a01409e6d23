//! The fields GF(2^m). An element is a number below 2^m; bit i is the coefficient of x^i.

use std::sync::OnceLock;

/// GF(2^m) with tables of the powers of a, the class of x, and of logarithms to base a.
#[derive(Debug)]
pub struct Field {
    pub m: usize,
    /// The reduction polynomial, x^m included.
    pub modulus: u32,
    powers: Vec<u16>,
    logarithms: Vec<u16>,
}

impl Field {
    /// The field built on a primitive polynomial of degree m.
    pub fn new(m: usize, modulus: u32) -> Field {
        let order = (1 << m) - 1;
        let mut powers = Vec::with_capacity(order);
        let mut logarithms = vec![0; order + 1];
        let mut power = 1;
        for exponent in 0..order {
            assert!(exponent == 0 || power != 1, "a has a smaller order");
            powers.push(power as u16);
            logarithms[power as usize] = exponent as u16;
            power <<= 1;
            if power >> m == 1 {
                power ^= modulus;
            }
        }
        assert_eq!(power, 1);
        Field {
            m,
            modulus,
            powers,
            logarithms,
        }
    }

    /// The order of a, 2^m - 1. It is the length of the longest word.
    pub fn order(&self) -> usize {
        self.powers.len()
    }

    /// a raised to the exponent.
    pub fn power_of_a(&self, exponent: usize) -> u16 {
        self.powers[exponent % self.order()]
    }

    pub fn product(&self, left: u16, right: u16) -> u16 {
        if left == 0 || right == 0 {
            return 0;
        }
        let exponent =
            self.logarithms[left as usize] as usize + self.logarithms[right as usize] as usize;
        self.power_of_a(exponent)
    }

    /// The inverse of an element that is not 0.
    pub fn inverse(&self, element: u16) -> u16 {
        assert!(element != 0);
        self.power_of_a(self.order() - self.logarithms[element as usize] as usize)
    }
}

/// The two fields that a layout or a level field goes with.
#[derive(Clone, Copy, Debug, PartialEq, Eq)]
pub enum FieldChoice {
    Thirteen,
    Fourteen,
}

impl FieldChoice {
    pub const ALL: [FieldChoice; 2] = [FieldChoice::Thirteen, FieldChoice::Fourteen];

    /// The field of a choice handed in as a number; none but 0 and 1 are offered.
    pub fn from_number(number: u64) -> Option<FieldChoice> {
        match number {
            0 => Some(FieldChoice::Thirteen),
            1 => Some(FieldChoice::Fourteen),
            _ => None,
        }
    }

    pub fn field(self) -> &'static Field {
        static FIELDS: [OnceLock<Field>; 2] = [const { OnceLock::new() }; 2];
        let (m, modulus) = match self {
            FieldChoice::Thirteen => (13, 1 << 13 | 1 << 4 | 1 << 3 | 1 << 1 | 1),
            FieldChoice::Fourteen => (14, 1 << 14 | 1 << 5 | 1 << 3 | 1 << 1 | 1),
        };
        FIELDS[self as usize].get_or_init(|| Field::new(m, modulus))
    }
}
