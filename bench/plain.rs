//! The same in plain Rust, written for speed and with no proof.

/// The table of `n` places at the word `at`, if it fits in.
fn end(at: usize, n: usize) -> Option<usize> {
    at.checked_add(n.checked_mul(n)?)
}

#[inline(never)]
pub fn clear(work: &mut [u32], at: usize, n: usize) -> bool {
    match end(at, n).and_then(|end| work.get_mut(at..end)) {
        Some(table) => {
            table.fill(0);
            true
        }
        None => false,
    }
}

/// The inverse of an odd number modulo 2^32, by Newton's rule.
fn inverse(u: u32) -> u32 {
    let mut a = u;
    for _ in 0..4 {
        a = a.wrapping_mul(2u32.wrapping_sub(u.wrapping_mul(a)));
    }
    a
}

#[inline(never)]
pub fn insert(work: &mut [u32], at: usize, row: &mut [u32], changed: &mut [usize]) -> Option<usize> {
    let n = row.len();
    let table = work.get_mut(at..end(at, n)?)?;
    if changed.len() < n {
        return None;
    }
    let mut count = 0;
    for k in (0..n).rev() {
        let x = row[k];
        if x == 0 {
            continue;
        }
        let (entries, pivot) = table[k * n..k * n + k + 1].split_at_mut(k);
        let (old, new) = (pivot[0].trailing_zeros(), x.trailing_zeros());
        if new < old {
            let unit = inverse(x >> new);
            let times = (1u64 << (old - new)) as u32;
            pivot[0] = 1 << new;
            for (v, t) in row[..k].iter_mut().zip(entries) {
                let fresh = v.wrapping_mul(unit);
                *v = t.wrapping_sub(times.wrapping_mul(fresh));
                *t = fresh;
            }
            changed[count] = k;
            count += 1;
        } else {
            let times = x >> old;
            for (v, t) in row[..k].iter_mut().zip(entries) {
                *v = v.wrapping_sub(times.wrapping_mul(*t));
            }
        }
    }
    Some(count)
}

#[inline(never)]
pub fn tell(work: &[u32], at: usize, n: usize, rows: &mut [u32]) -> Option<usize> {
    let table = work.get(at..end(at, n)?)?;
    if rows.len() < n * n {
        return None;
    }
    let mut count = 0;
    for q in 0..n {
        let e = table[q * n + q].trailing_zeros();
        if e == 0 {
            continue;
        }
        let law = &mut rows[count * n..count * n + n];
        law[..q].fill(0);
        law[q] = 1 << (32 - e);
        for k in q + 1..n {
            let entries = &table[k * n..k * n + k + 1];
            let e = entries[k].trailing_zeros();
            let sum = law[q..k]
                .iter()
                .zip(&entries[q..k])
                .fold(0u32, |sum, (c, x)| sum.wrapping_add(c.wrapping_mul(*x)));
            let modulus = 1u64 << (32 - e);
            law[k] = ((modulus - (sum as u64 >> e)) & (modulus - 1)) as u32;
        }
        count += 1;
    }
    Some(count)
}
