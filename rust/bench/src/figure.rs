//! Figures that were measured more than once, and agree.

/// Two times agree where the longer is at most so many times the shorter.
const AGREEMENT: f64 = 1.1;

/// The times that are taken where no two agree before.
const MOST_PASSES: usize = 3;

/// A time in seconds, or what follows from one.
#[derive(Clone, Copy, Debug, PartialEq)]
pub struct Figure {
    /// The lesser of the two that agree, or the least of all.
    pub least: f64,
    /// The most of all, where no two agree.
    at_most: Option<f64>,
}

impl Figure {
    fn of(mut times: Vec<f64>) -> Figure {
        times.sort_by(f64::total_cmp);
        let agreeing = times.windows(2).find(|pair| pair[1] <= AGREEMENT * pair[0]);
        match agreeing {
            Some(pair) => Figure {
                least: pair[0],
                at_most: None,
            },
            None => Figure {
                least: times[0],
                at_most: times.last().copied(),
            },
        }
    }

    /// Whether two times agree.
    pub fn is_sure(self) -> bool {
        self.at_most.is_none()
    }

    /// One of so many that this is the time of.
    pub fn each(self, count: f64) -> Figure {
        Figure {
            least: self.least / count,
            at_most: self.at_most.map(|most| most / count),
        }
    }

    /// How many times as long as another.
    pub fn over(self, other: Figure) -> Figure {
        let most = |figure: Figure| figure.at_most.unwrap_or(figure.least);
        if self.is_sure() && other.is_sure() {
            Figure {
                least: self.least / other.least,
                at_most: None,
            }
        } else {
            Figure {
                least: self.least / most(other),
                at_most: Some(most(self) / other.least),
            }
        }
    }

    /// The figure as text, or the least and the most where no two times agreed.
    pub fn show(self, text: impl Fn(f64) -> String) -> String {
        match self.at_most {
            None => text(self.least),
            Some(most) => format!("{} to {}", text(self.least), text(most)),
        }
    }
}

/// Measures all rows twice, one after the other, and those again of which some time does
/// not agree.
pub fn agreed<T, const N: usize>(rows: &[T], measure: impl Fn(&T) -> [f64; N]) -> Vec<[Figure; N]> {
    let mut taken: Vec<Vec<[f64; N]>> = rows.iter().map(|_| Vec::new()).collect();
    for pass in 0..MOST_PASSES {
        for (row, taken) in rows.iter().zip(&mut taken) {
            if pass < 2 || !figures(taken).iter().all(|f| f.is_sure()) {
                taken.push(measure(row));
            }
        }
    }
    taken.iter().map(|taken| figures(taken)).collect()
}

fn figures<const N: usize>(taken: &[[f64; N]]) -> [Figure; N] {
    std::array::from_fn(|i| Figure::of(taken.iter().map(|times| times[i]).collect()))
}

#[cfg(test)]
mod tests {
    use std::cell::RefCell;

    use super::*;
    use crate::page::ratio;

    /// Rows that are measured as these times in turn.
    fn shown(rows: &[&[f64]]) -> Vec<String> {
        let left = RefCell::new(rows.iter().map(|times| times.iter()).collect::<Vec<_>>());
        let numbers: Vec<usize> = (0..rows.len()).collect();
        let figures = agreed(&numbers, |row| {
            let next = left.borrow_mut()[*row].next();
            [*next.expect("no row is measured more often")]
        });
        assert!(left.borrow().iter().all(|times| times.len() == 0));
        figures.iter().map(|[f]| f.show(ratio)).collect()
    }

    #[test]
    fn a_figure_stands_where_two_times_agree() {
        let rows: [&[f64]; 4] = [&[1.0, 1.1], &[3.3, 3.0], &[2.0, 4.0, 2.1], &[1.0, 2.0, 4.0]];
        assert_eq!(shown(&rows), ["1.00", "3.00", "2.00", "1.00 to 4.00"]);
    }

    #[test]
    fn a_ratio_of_a_doubtful_figure_is_doubtful() {
        let sure = Figure::of(vec![4.0, 4.0]);
        let doubtful = Figure::of(vec![1.0, 2.0]);
        assert_eq!(sure.over(sure).show(ratio), "1.00");
        assert_eq!(sure.over(doubtful).show(ratio), "2.00 to 4.00");
        assert_eq!(doubtful.over(sure).show(ratio), "0.25 to 0.50");
        assert_eq!(doubtful.each(10.0).show(ratio), "0.10 to 0.20");
    }
}
