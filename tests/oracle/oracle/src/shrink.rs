//! Lists that are a little shorter.

/// The two halves, then the list without each of its pieces: single items, or a sixty-fourth of a long list.
pub fn fewer<T: Clone>(items: &[T]) -> Vec<Vec<T>> {
    let (first, second) = items.split_at(items.len() / 2);
    let halves = if items.len() > 3 { vec![first.to_vec(), second.to_vec()] } else { Vec::new() };
    let piece = items.len().div_ceil(64).max(1);
    let without = (0..items.len()).step_by(piece).map(|k| {
        let rest = items.len().min(k + piece);
        [&items[..k], &items[rest..]].concat()
    });
    halves.into_iter().chain(without).collect()
}
