//! Shortening what mismatches, while it still does.

/// Drops parts of the list, halves first and then ever smaller ones.
pub fn drop_parts<T: Clone>(mut items: Vec<T>, still: &dyn Fn(&[T]) -> bool) -> Vec<T> {
    let mut size = (items.len() + 1) / 2;
    while size > 0 {
        let mut at = 0;
        while at < items.len() {
            let end = items.len().min(at + size);
            let shorter = [&items[..at], &items[end..]].concat();
            if still(&shorter) {
                items = shorter;
            } else {
                at += size;
            }
        }
        size /= 2;
    }
    items
}

/// Drops places (or entries) of `size` bytes each, or takes them out: those behind close
/// up, so that what was in order stays so.
pub fn shorten_area(mut area: Vec<u8>, size: usize, still: &dyn Fn(&[u8]) -> bool) -> Vec<u8> {
    if area.len() % size != 0 {
        return area;
    }
    for at in (0..area.len()).step_by(size).rev() {
        let dropped = [&area[..at], &area[at + size..]].concat();
        let taken_out = [&dropped[..], &vec![0; size]].concat();
        if still(&dropped) {
            area = dropped;
        } else if still(&taken_out) {
            area = taken_out;
        }
    }
    area
}

#[cfg(test)]
mod tests {
    use super::*;

    #[test]
    fn only_what_matters_is_left() {
        let items: Vec<u32> = (0..40).collect();
        let still = |items: &[u32]| items.contains(&7) && items.contains(&31);
        assert_eq!(drop_parts(items, &still), [7, 31]);
    }

    #[test]
    fn areas_are_dropped_or_taken_out() {
        let still = |area: &[u8]| area.len() >= 4 && area.contains(&3);
        assert_eq!(
            shorten_area(vec![1, 1, 2, 2, 3, 3], 2, &still),
            [3, 3, 0, 0]
        );
    }
}
