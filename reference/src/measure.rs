//! What a label costs against a sample.

/// The sample of which nothing is known. It costs nothing, whatever the label.
pub const ERASED: i16 = i16::MIN;

#[derive(Clone, Copy, Debug, PartialEq, Eq)]
pub enum Measure {
    Square,
    Bits(i32),
}

impl Measure {
    pub fn check(self) -> Result<(), u8> {
        match self {
            Measure::Bits(width) if !(1..=8).contains(&width) => Err(11),
            _ => Ok(()),
        }
    }

    /// The cost under erasing, for a measure that the check accepts.
    pub fn cost(self, label: i32, sample: i16) -> u64 {
        if sample == ERASED {
            return 0;
        }
        let sample = i32::from(sample);
        match self {
            Measure::Square => {
                let difference = u64::from(label.abs_diff(sample));
                difference * difference
            }
            Measure::Bits(width) => {
                let lowest = (1 << width) - 1;
                u64::from(((label ^ sample) & lowest).count_ones())
            }
        }
    }
}

#[cfg(test)]
mod tests {
    use super::*;

    #[test]
    fn costs() {
        assert_eq!(Measure::Square.cost(-1, 2), 9);
        assert_eq!(Measure::Square.cost(-32_768, 32_767), 4_294_836_225);
        assert_eq!(Measure::Square.cost(0, -32_767), 1_073_676_289);
        assert_eq!(Measure::Square.cost(32_767, ERASED), 0);
        assert_eq!(Measure::Bits(8).cost(-1, 255), 0);
        assert_eq!(Measure::Bits(4).cost(-1, 7), 1);
        assert_eq!(Measure::Bits(2).cost(3, 4), 2);
        assert_eq!(Measure::Bits(8).cost(5, ERASED), 0);
    }
}
