//! A smaller input that still shows a difference: items are left out one by one as long as it does.

pub fn shrink<T: Clone>(items: &[T], mut differs: impl FnMut(&[T]) -> bool) -> Vec<T> {
    let mut kept = items.to_vec();
    loop {
        let before = kept.len();
        let mut i = kept.len();
        while i > 0 {
            i -= 1;
            let mut fewer = kept.clone();
            fewer.remove(i);
            if differs(&fewer) {
                kept = fewer;
            }
        }
        if kept.len() == before {
            return kept;
        }
    }
}
