//! How far the figures of several runs lie apart.

/// The least, the middle and the most of some numbers.
#[derive(Clone, Copy, Debug, PartialEq)]
pub struct Spread {
    pub least: f64,
    pub middle: f64,
    pub most: f64,
}

impl Spread {
    pub fn of(numbers: impl Iterator<Item = f64>) -> Spread {
        let mut numbers: Vec<f64> = numbers.collect();
        numbers.sort_by(f64::total_cmp);
        Spread {
            least: numbers[0],
            middle: numbers[numbers.len() / 2],
            most: numbers[numbers.len() - 1],
        }
    }

    pub fn width(&self) -> f64 {
        self.most - self.least
    }
}

#[cfg(test)]
mod tests {
    use super::*;

    #[test]
    fn the_middle_is_that_of_the_sorted_numbers() {
        let spread = Spread::of([3.0, 9.0, 1.0, 4.0, 2.0, 8.0, 7.0].into_iter());
        assert_eq!((spread.least, spread.middle, spread.most), (1.0, 4.0, 9.0));
        assert_eq!(spread.width(), 8.0);
    }

    #[test]
    fn one_number_is_all_three() {
        let spread = Spread::of([5.0].into_iter());
        assert_eq!((spread.least, spread.middle, spread.most), (5.0, 5.0, 5.0));
        assert_eq!(spread.width(), 0.0);
    }
}
