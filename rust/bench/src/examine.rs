//! A plan's numbers examined, written for speed: so that the interpreter can make the same tests as the engine's single calls.

use oracle::MOST;

const LIMIT: i32 = MOST as i32;

fn in_range(n: i32) -> bool {
    (-LIMIT..=LIMIT).contains(&n)
}

/// The counts that every row is held against.
#[derive(Clone, Copy)]
struct Counts {
    states: u32,
    variables: u32,
    events: u32,
}

/// Whether n is 0 to most-1; a negative number is past every count.
#[inline(always)]
fn below(n: i32, most: u32) -> bool {
    (n as u32) < most
}

fn head_fits(h: &[i32], c: Counts) -> bool {
    let guard = (h[3] == -1 && h[4] == 0 && h[5] == 0) || (below(h[3], c.variables) && (1..=3).contains(&h[4]) && in_range(h[5]));
    guard
        && below(h[0], 128)
        && below(h[1], c.states)
        && below(h[2], c.events + 1)
        && below(h[6], c.states)
        && below(h[7], c.states)
        && h[6] <= h[7]
        && h[9] >= 0
}

/// An instruction that so many follow in its block.
#[inline(always)]
fn instruction_fits(r: &[i32], left: u32, c: Counts) -> bool {
    let (x, y, z) = (r[1], r[2], r[3]);
    match r[0] {
        1 => below(x, c.states) && y == 0 && z == 0,
        2 => below(x, c.states) && (y == -1 || below(y, c.states)) && z == 0,
        3..=5 => below(x, c.states) && below(y, left + 1) && z == 0,
        6 => below(x, c.states) && below(y, c.states) && below(z, left + 1),
        7 | 8 => below(x, c.variables) && in_range(y) && z == 0,
        9 => below(x, c.variables) && y == 0 && z == 0,
        10 => x >= 1 && below(x, c.events + 1) && in_range(y) && z == 0,
        11 => in_range(x) && y == 0 && z == 0,
        _ => false,
    }
}

/// The rows of a block, and what is after it, where it fits.
fn block(code: &[i32], length: usize, c: Counts) -> Option<&[i32]> {
    let rows = code.get(..4 * length)?;
    let mut left = length as u32;
    for row in rows.chunks_exact(4) {
        left -= 1;
        if !instruction_fits(row, left, c) {
            return None;
        }
    }
    Some(&code[4 * length..])
}

/// Whether the numbers begin with a well-formed plan.
pub fn well_formed(ns: &[i32]) -> bool {
    examined(ns).is_some()
}

fn examined(ns: &[i32]) -> Option<()> {
    let (states, variables, events, heads, code, start) = match ns.get(..6)? {
        [a, b, c, d, e, f] => (*a, *b, *c, *d, *e, *f),
        _ => return None,
    };
    let sizes = (2..=64).contains(&states) && below(variables, 17) && below(events, 33) && below(heads, 129) && below(code, 200_001);
    if !sizes || start < 0 {
        return None;
    }
    let c = Counts { states: states as u32, variables: variables as u32, events: events as u32 };
    let heads_at = 6 + 3 * variables as usize;
    let code_at = heads_at + 10 * heads as usize;
    let rows = ns.get(6..code_at + 4 * code as usize)?;
    let ranges_fit = rows[..heads_at - 6].chunks_exact(3).all(|v| in_range(v[0]) && in_range(v[1]) && v[0] <= v[2] && v[2] <= v[1]);
    if !ranges_fit {
        return None;
    }
    let mut rest = block(&rows[code_at - 6..], start as usize, c)?;
    let mut at = start as usize;
    for h in rows[heads_at - 6..code_at - 6].chunks_exact(10) {
        if !head_fits(h, c) || h[8] as u32 as usize != at {
            return None;
        }
        at += h[9] as usize;
        rest = block(rest, h[9] as usize, c)?;
    }
    if rest.is_empty() { Some(()) } else { None }
}
