//! 02, F-4: a volume as the wheels count it, one in normal cubic metres, and the only way from the first to the second.

use std::fmt::{self, Display, Formatter};
use std::iter::Sum;
use std::ops::{AddAssign, Sub};

/// A volume as the wheels of either meter count it, in thousandths.
#[derive(Clone, Copy, Debug, Default, PartialEq)]
pub struct Raw(u64);

/// A volume in normal cubic metres, in thousandths.
#[derive(Clone, Copy, Debug, Default, PartialEq)]
pub struct Normal(u64);

impl Raw {
    /// Units of the last wheel, each of so many thousandths.
    pub fn of_wheels(units: u64, unit: u64) -> Raw {
        Raw(units * unit)
    }
}

/// What a meter counts. Only one that counts cubic metres has a factor, in ten-thousandths.
#[derive(Clone, Copy, Debug, PartialEq)]
pub enum Counts {
    /// Code 1, OBIS 7-1:3.0.0.
    CubicMetres { factor: u64 },
    /// Code 2, OBIS 7-1:13.2.0.
    NormalCubicMetres,
}

impl Counts {
    /// By the code and the factor of a call that 22 and 40 let pass.
    pub fn of(code: u64, factor: u64) -> Counts {
        match code {
            1 => Counts::CubicMetres { factor },
            _ => Counts::NormalCubicMetres,
        }
    }

    /// The code and the factor as a line gives them.
    pub fn code_and_factor(&self) -> (u64, u64) {
        match *self {
            Counts::CubicMetres { factor } => (1, factor),
            Counts::NormalCubicMetres => (2, 0),
        }
    }

    /// The converted total: floor(total × factor / 10,000). An Nm³ meter passes its total on, as with 10,000.
    pub fn converted(&self, total: Raw) -> Normal {
        let factor = match *self {
            Counts::CubicMetres { factor } => factor,
            Counts::NormalCubicMetres => 10_000,
        };
        Normal(total.0 * factor / 10_000)
    }
}

/// Each of the two is added to and taken from its own kind only.
macro_rules! by_itself {
    ($volume:ident) => {
        impl AddAssign for $volume {
            fn add_assign(&mut self, other: $volume) {
                self.0 += other.0;
            }
        }

        impl Sub for $volume {
            type Output = $volume;

            fn sub(self, other: $volume) -> $volume {
                $volume(self.0 - other.0)
            }
        }

        impl Sum for $volume {
            fn sum<I: Iterator<Item = $volume>>(volumes: I) -> $volume {
                $volume(volumes.map(|volume| volume.0).sum())
            }
        }

        impl Display for $volume {
            fn fmt(&self, formatter: &mut Formatter) -> fmt::Result {
                self.0.fmt(formatter)
            }
        }
    };
}

by_itself!(Raw);
by_itself!(Normal);
