//! Answers as they are passed: of a step or a run, and of the functions over sheets.

/// The most steps of one run; more are refused with number 5.
pub const MOST_STEPS: u32 = 1_000_000;

/// An answer taken apart: document 01's number, and the counts of steps.
#[derive(Clone, Copy, PartialEq, Eq, Debug)]
pub struct Answer {
    pub number: u64,
    pub trapped: u64,
    pub retired: u64,
}

/// The number of an answer and the rest of it: number * 2^48 + rest.
pub fn number_and_rest(packed: u64) -> (u64, u64) {
    (packed >> 48, packed & 0xFFFF_FFFF_FFFF)
}

impl Answer {
    /// Takes apart number * 2^48 + trapped * 2^24 + retired.
    pub fn of(packed: u64) -> Answer {
        let (number, counts) = number_and_rest(packed);
        Answer {
            number,
            trapped: counts >> 24,
            retired: counts & 0xFF_FFFF,
        }
    }
}

#[cfg(test)]
mod tests {
    use super::*;

    #[test]
    fn an_answer_is_the_sum_of_its_parts() {
        let answer = Answer {
            number: 4,
            trapped: 1_000_000,
            retired: 999_999,
        };
        let packed = answer.number * (1 << 48) + answer.trapped * (1 << 24) + answer.retired;
        assert_eq!(Answer::of(packed), answer);
        assert_eq!(number_and_rest(packed), (4, packed - 4 * (1 << 48)));
        assert_eq!(number_and_rest(u64::MAX), (0xFFFF, (1 << 48) - 1));
    }
}
