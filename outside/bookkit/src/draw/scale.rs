//! From figures to places.

/// The width of a picture, in hundredths of a per cent.
pub const WHOLE: i64 = 100_00;

/// A figure of thousands on the scale of the limit, which has hundredths of them.
pub fn in_hundredths(thousands: i64) -> i64 {
    thousands.saturating_mul(100)
}

/// Figures from `low` to `high`, laid out from 0 to `extent`. The ends are in hundredths of a figure, so that there is room
/// about small ones too.
pub struct Scale {
    low: i128,
    high: i128,
    extent: i64,
}

impl Scale {
    /// A scale that holds every one of the figures; from nought on, where there is no other.
    pub fn over(figures: impl Iterator<Item = i64>, extent: i64) -> Scale {
        let (mut low, mut high) = (i128::MAX, i128::MIN);
        for figure in figures {
            (low, high) = (low.min(fine(figure)), high.max(fine(figure)));
        }
        if low > high {
            (low, high) = (0, 0);
        }
        Scale { low, high, extent }
    }

    /// The same with room before and behind, so many hundredths of it each.
    pub fn with_room(self, before: i128, behind: i128) -> Scale {
        let span = self.high - self.low;
        Scale { low: self.low - span * before / 100, high: self.high + span * behind / 100, ..self }
    }

    /// Where a figure lies; one that the scale does not hold lies at its end.
    pub fn at(&self, figure: i64) -> i64 {
        let span = (self.high - self.low).max(1);
        let within = fine(figure).clamp(self.low, self.high) - self.low;
        (within * i128::from(self.extent) / span) as i64
    }

    /// The same from the other end: pictures count downwards.
    pub fn from_top(&self, figure: i64) -> i64 {
        self.extent - self.at(figure)
    }

    pub fn holds(&self, figure: i64) -> bool {
        (self.low..=self.high).contains(&fine(figure))
    }
}

fn fine(figure: i64) -> i128 {
    100 * i128::from(figure)
}

#[cfg(test)]
mod tests {
    use super::Scale;

    #[test]
    fn figures_lie_in_proportion() {
        let scale = Scale::over([-100, 300, 0].into_iter(), 4_000);
        assert_eq!([-100, 0, 100, 300].map(|figure| scale.at(figure)), [0, 1_000, 2_000, 4_000]);
        assert_eq!([-101, 301].map(|figure| scale.at(figure)), [0, 4_000]);
        assert_eq!((scale.from_top(300), scale.holds(300), scale.holds(301)), (0, true, false));
        let roomy = Scale::over([0, 100].into_iter(), 300).with_room(100, 100);
        assert_eq!([0, 100].map(|figure| roomy.at(figure)), [100, 200]);
        let small = Scale::over([0, 1].into_iter(), 1_100).with_room(0, 10);
        assert_eq!([0, 1].map(|figure| small.at(figure)), [0, 1_000]);
    }

    #[test]
    fn the_greatest_figures_and_none_have_a_place() {
        let scale = Scale::over([i64::MIN, i64::MAX].into_iter(), 10_000);
        assert_eq!([i64::MIN, 0, i64::MAX].map(|figure| scale.at(figure)), [0, 5_000, 10_000]);
        assert_eq!(Scale::over([].into_iter(), 10).at(5), 0);
        assert_eq!(Scale::over([7].into_iter(), 10).at(7), 0);
    }
}
