//! What comparisons of written buffers and of refusals share.

use programs::pattern;

/// The cells past the asked lengths that a call is lent beside them, and past those that it is lent.
pub const GUARDS: usize = 5;

/// The first cell that differs, all NaNs being one value.
pub fn differs(got: &[f32], want: &[f32]) -> Option<usize> {
    (0..got.len().max(want.len())).find(|&i| match (got.get(i), want.get(i)) {
        (Some(&g), Some(&w)) => pattern(g) != pattern(w),
        _ => true,
    })
}

/// The first of the cells to be left that isn't the same, NaN or not.
pub fn unchanged(got: &[f32], before: &[f32], left: impl Fn(usize) -> bool) -> Option<usize> {
    (0..got.len()).find(|&i| got[i].to_bits() != before[i].to_bits() && left(i))
}

/// Hands `each` all sets of up to `most` causes that set different arguments, by their places: the
/// empty one too.
pub fn sets<A: PartialEq>(arguments: &[A], most: usize, each: &mut impl FnMut(&[usize])) {
    grown(arguments, most, &mut Vec::new(), each);
}

fn grown<A: PartialEq>(arguments: &[A], most: usize, set: &mut Vec<usize>, each: &mut impl FnMut(&[usize])) {
    each(set);
    if set.len() == most {
        return;
    }
    for i in set.last().map_or(0, |&last| last + 1)..arguments.len() {
        if set.iter().all(|&j| arguments[j] != arguments[i]) {
            set.push(i);
            grown(arguments, most, set, each);
            set.pop();
        }
    }
}
