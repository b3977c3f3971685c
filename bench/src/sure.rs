//! The least sure reading beside what was read: the row limit, seen at the archive's size.
use furzeladle_tests::judge::Tables;

/// The least max(p, q) of a sure reading. Asserts that what was read is sure, and within the row limit.
pub fn least_sure(tables: &Tables, deepest: u32) -> u32 {
    let (m, n) = tables.counts();
    let sure = |d: u32| tables.sure(m.min(d as usize), n.min(d as usize));
    assert!(sure(deepest), "stopped too early");
    // By the row limit the least is above `low`; more rows, withdrawn ones too, keep a reading sure.
    let (mut low, mut high) = (deepest.saturating_sub(tables.asked.query.block), deepest);
    assert!(low == 0 || !sure(low), "above the row limit");
    while low + 1 < high {
        let middle = low.midpoint(high);
        if sure(middle) {
            high = middle;
        } else {
            low = middle;
        }
    }
    high
}
