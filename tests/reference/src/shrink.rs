//! Leaving out what a difference does not need.

/// Leaves elements out for as long as `fails` stays true. Of the result no single element can be left out.
///
/// `fails(list)` is taken to be true.
pub fn shrink<T: Clone>(list: &[T], mut fails: impl FnMut(&[T]) -> bool) -> Vec<T> {
    let mut kept = list.to_vec();
    let mut chunk = (kept.len() / 2).max(1);
    loop {
        let removed = leave_out_chunks(&mut kept, chunk, &mut fails);
        if chunk > 1 {
            chunk /= 2;
        } else if !removed {
            return kept;
        }
    }
}

/// Tries once to leave out each stretch of `chunk` elements. True if one could be.
fn leave_out_chunks<T: Clone>(kept: &mut Vec<T>, chunk: usize, fails: &mut impl FnMut(&[T]) -> bool) -> bool {
    let mut removed = false;
    let mut at = 0;
    while at < kept.len() {
        let end = (at + chunk).min(kept.len());
        let fewer = [&kept[..at], &kept[end..]].concat();
        if fails(&fewer) {
            *kept = fewer;
            removed = true;
        } else {
            at = end;
        }
    }
    removed
}

#[cfg(test)]
mod tests {
    use super::*;

    #[test]
    fn only_what_is_needed_stays() {
        let list: Vec<u32> = (0..1000).collect();
        let needs = |list: &[u32]| list.contains(&17) && list.contains(&18) && list.contains(&900);
        assert_eq!(shrink(&list, needs), vec![17, 18, 900]);
    }

    #[test]
    fn a_failure_that_needs_nothing_shrinks_to_nothing() {
        assert_eq!(shrink(&[1, 2, 3], |_| true), Vec::<i32>::new());
        assert_eq!(shrink(&[], |_: &[i32]| true), Vec::<i32>::new());
    }

    #[test]
    fn no_single_element_can_be_left_out() {
        let even = |list: &[u32]| !list.is_empty() && list.iter().sum::<u32>() % 2 == 0;
        let kept = shrink(&(1..=63).collect::<Vec<u32>>(), even);
        for left_out in 0..kept.len() {
            let mut fewer = kept.clone();
            fewer.remove(left_out);
            assert!(!even(&fewer));
        }
    }
}
