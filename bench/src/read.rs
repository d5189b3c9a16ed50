//! Reading charts and sheets, for all of the Rust implementations: every byte is judged, as the archive does. The archive copies a sheet
//! before it reads it; here it is read where it stands, which is what serves Rust best.

/// What a chart that follows the layout says of itself; its bytes stay where they are.
#[derive(Clone, Copy)]
pub struct Shape {
    pub n: usize,
    pub m: usize,
    /// Where the triples start.
    pub at: usize,
}

pub fn chart(s: &[u8]) -> Option<Shape> {
    let n = *s.first()? as usize;
    if n == 0 || n > 64 {
        return None;
    }
    let m = *s.get(1 + n)? as usize;
    if m > 32 {
        return None;
    }
    for i in 0..m {
        let code = *s.get(2 + n + i)?;
        if i > 0 && code <= s[1 + n + i] {
            return None;
        }
    }
    let t = *s.get(2 + n + m)? as usize + 256 * *s.get(3 + n + m)? as usize;
    if t > 1024 {
        return None;
    }
    let at = 4 + n + m;
    for i in 0..t {
        let p = at + 3 * i;
        let (source, action, target) = (*s.get(p)?, *s.get(p + 1)?, *s.get(p + 2)?);
        if source as usize >= n || action as usize >= m || target as usize >= n {
            return None;
        }
        if i > 0 && (source, action, target) <= (s[p - 3], s[p - 2], s[p - 1]) {
            return None;
        }
    }
    if s.len() != at + 3 * t {
        return None;
    }
    Some(Shape { n, m, at })
}

/// The kind of a sheet that follows the layout.
pub fn sheet(s: &[u8], m: usize) -> Option<u8> {
    let (equations, kind, nodes) = (*s.first()?, *s.get(1)?, *s.get(2)? as usize);
    if equations != 1 || kind > 2 || nodes == 0 || nodes > 200 {
        return None;
    }
    let (at, left) = formula(s, m, 3, nodes)?;
    (left == 0 && at == s.len()).then_some(kind)
}

/// The place after the formula at a place, and the nodes still unread.
fn formula(s: &[u8], m: usize, at: usize, left: usize) -> Option<(usize, usize)> {
    if left == 0 {
        return None;
    }
    match *s.get(at)? {
        0..=2 => Some((at + 1, left - 1)),
        3 | 4 => {
            let (between, some) = formula(s, m, at + 1, left - 1)?;
            formula(s, m, between, some)
        }
        5 | 6 => {
            let action = *s.get(at + 1)?;
            if action as usize >= m && action != 255 {
                return None;
            }
            formula(s, m, at + 2, left - 1)
        }
        _ => None,
    }
}

/// The set that the applications start from. Kind 2 asks for the greatest solution, 0 and 1 for the least.
pub fn first_set(kind: u8, n: usize) -> u64 {
    if kind == 2 {
        all(n)
    } else {
        0
    }
}

/// All n states.
pub fn all(n: usize) -> u64 {
    u64::MAX >> (64 - n)
}
