//! The two ways to plan a case. The long table keeps a layer for every interval and is worked out once, but the system has to hand out its memory,
//! which takes several times as long as working it out. Two layers are little memory; they are worked out about twice, by halves.

use ralwinga::Cells;

/// The cells up to which the long table is faster: 8 MiB, which the system hands out sooner than a plan goes through the halves.
const SMALL: usize = 1 << 20;

#[derive(Clone, Copy, Debug, PartialEq, Eq)]
pub enum Way {
    LongTable,
    TwoLayers,
}

impl Way {
    /// The faster of those that fit in so many cells.
    pub fn fastest_in(most: usize, cells: Cells) -> Option<Way> {
        // the long table of one interval is two layers
        let small = SMALL.max(cells.needed);
        if cells.table <= small.min(most) {
            return Some(Way::LongTable);
        }
        (cells.needed <= most).then_some(Way::TwoLayers)
    }

    /// The cells that are lent.
    pub fn scratch(self, cells: Cells) -> usize {
        match self {
            Way::LongTable => cells.table,
            Way::TwoLayers => cells.needed,
        }
    }

    /// The cells that a plan works out: the long table's once; in two layers those of every interval once, and at each level of halves half as many
    /// as at the one before.
    pub fn work(self, cells: Cells, intervals: usize) -> f64 {
        let (n, layer) = (intervals as f64, cells.needed as f64 / 2.0);
        match self {
            Way::LongTable => cells.table as f64,
            Way::TwoLayers => layer * n * 2.0,
        }
    }
}

#[cfg(test)]
mod tests {
    use super::*;

    const C1: Cells = Cells {
        needed: 168,
        table: 588,
    };

    /// A month with 200 hours.
    const MONTH: Cells = Cells {
        needed: 12_816,
        table: 19_076_616,
    };

    fn goes(most: usize, cells: Cells, way: Option<Way>) {
        assert_eq!(Way::fastest_in(most, cells), way, "{most} for {cells:?}");
    }

    #[test]
    fn a_small_long_table_where_it_fits() {
        goes(usize::MAX, C1, Some(Way::LongTable));
        goes(588, C1, Some(Way::LongTable));
        goes(587, C1, Some(Way::TwoLayers));
        goes(168, C1, Some(Way::TwoLayers));
        goes(167, C1, None);
    }

    #[test]
    fn two_layers_though_the_long_table_fits() {
        goes(usize::MAX, MONTH, Some(Way::TwoLayers));
        goes(19_076_616, MONTH, Some(Way::TwoLayers));
        goes(12_816, MONTH, Some(Way::TwoLayers));
        goes(12_815, MONTH, None);
    }

    /// 1,024 layers of 1,024 cells, and a cell more.
    #[test]
    fn up_to_where_the_long_table_is_faster() {
        let needed = 2048;
        let (small, large) = (SMALL, SMALL + 1);
        for most in [large, usize::MAX] {
            let table = small;
            goes(most, Cells { needed, table }, Some(Way::LongTable));
            let table = large;
            goes(most, Cells { needed, table }, Some(Way::TwoLayers));
        }
    }

    /// Layers of 2^20 cells: of two intervals, and of one, whose long table has no more than the two.
    #[test]
    fn wide_layers() {
        let needed = 2 * SMALL;
        let table = 3 * SMALL;
        goes(usize::MAX, Cells { needed, table }, Some(Way::TwoLayers));
        let table = needed;
        goes(usize::MAX, Cells { needed, table }, Some(Way::LongTable));
        goes(needed, Cells { needed, table }, Some(Way::LongTable));
        goes(needed - 1, Cells { needed, table }, None);
    }

    /// Six layers of 84 cells twice; the seven of the long table once.
    #[test]
    fn layers_worked_out() {
        assert_eq!(Way::TwoLayers.work(C1, 6), (84 * 6 * 2) as f64);
        assert_eq!(Way::LongTable.work(C1, 6), 588.0);
    }
}
