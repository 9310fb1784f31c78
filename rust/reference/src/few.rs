//! Walking along a few bytes, at most 23, in runs of fixed lengths that need no counting.

/// Hands on each byte in turn.
#[inline(always)]
pub(crate) fn each(bytes: &[u8], mut take: impl FnMut(u8)) {
    let rest = each_of::<8>(bytes, &mut take);
    let rest = each_of::<8>(rest, &mut take);
    let rest = each_of::<4>(rest, &mut take);
    let rest = each_of::<2>(rest, &mut take);
    each_of::<1>(rest, &mut take);
}

/// Fills each byte in turn.
#[inline(always)]
pub(crate) fn fill(bytes: &mut [u8], mut next: impl FnMut() -> u8) {
    let rest = fill_of::<8>(bytes, &mut next);
    let rest = fill_of::<8>(rest, &mut next);
    let rest = fill_of::<4>(rest, &mut next);
    let rest = fill_of::<2>(rest, &mut next);
    fill_of::<1>(rest, &mut next);
}

/// Hands on the first `N` bytes if there are so many, and gives the rest.
#[inline(always)]
fn each_of<'a, const N: usize>(bytes: &'a [u8], take: &mut impl FnMut(u8)) -> &'a [u8] {
    match bytes.split_first_chunk::<N>() {
        None => bytes,
        Some((first, rest)) => {
            first.iter().for_each(|&byte| take(byte));
            rest
        }
    }
}

#[inline(always)]
fn fill_of<'a, const N: usize>(bytes: &'a mut [u8], next: &mut impl FnMut() -> u8) -> &'a mut [u8] {
    if bytes.len() < N {
        return bytes;
    }
    let (first, rest) = bytes.split_at_mut(N);
    first.fill_with(next);
    rest
}
