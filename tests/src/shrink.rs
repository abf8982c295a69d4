//! Finds a short stream that still fails.

/// Takes out spans, long ones first, as long as the rest still fails.
pub fn shrink<T: Copy>(stream: &[T], fails: &mut dyn FnMut(&[T]) -> bool) -> Vec<T> {
    let mut best = stream.to_vec();
    let mut span = best.len().div_ceil(2);
    while span > 0 {
        let mut at = 0;
        while at < best.len() {
            let end = (at + span).min(best.len());
            let shorter = [&best[..at], &best[end..]].concat();
            if fails(&shorter) {
                best = shorter;
            } else {
                at += span;
            }
        }
        span /= 2;
    }
    best
}
