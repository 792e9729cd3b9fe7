//! Makes a failing input shorter: drops lines as long as it still fails.

use engine::sheet::lines;
use std::time::{Duration, Instant};

/// Tries no longer than this; what has been reached by then is taken.
const PATIENCE: Duration = Duration::from_secs(60);

/// Lines, and whether the last of them is ended by byte 10.
type Lines<'a> = (Vec<&'a [u8]>, bool);

/// The shortest failing input that dropping lines leads to.
pub fn shrink(
    input: &[u8],
    mut fails: impl FnMut(&[u8]) -> Result<bool, String>,
) -> Result<Vec<u8>, String> {
    let end = Instant::now() + PATIENCE;
    let mut kept: Lines = (lines(input), true);
    if !fails(&join(&kept))? {
        kept.1 = input.ends_with(b"\n");
    }
    keep_front(&mut kept, &mut fails)?;
    let mut size = kept.0.len();
    while size > 0 && Instant::now() < end {
        let dropped = drop_blocks(&mut kept, size, end, &mut fails)?;
        if !dropped && (size > 1 || !drop_two(&mut kept, end, &mut fails)?) {
            size /= 2;
        }
    }
    Ok(join(&kept))
}

/// Keeps the shortest front that still fails, found by halving: what is printed for a front is the
/// front of what is printed for all.
fn keep_front(
    kept: &mut Lines,
    fails: &mut impl FnMut(&[u8]) -> Result<bool, String>,
) -> Result<(), String> {
    let (mut right, mut wrong) = (0, kept.0.len());
    while right + 1 < wrong {
        let middle = (right + wrong) / 2;
        if fails(&join(&(kept.0[..middle].to_vec(), kept.1)))? {
            wrong = middle;
        } else {
            right = middle;
        }
    }
    kept.0.truncate(wrong);
    Ok(())
}

/// Goes from the end to the front and drops every block of this size that is not needed. Whether
/// one was dropped.
fn drop_blocks(
    kept: &mut Lines,
    size: usize,
    end_of_patience: Instant,
    fails: &mut impl FnMut(&[u8]) -> Result<bool, String>,
) -> Result<bool, String> {
    let mut dropped = false;
    let mut end = kept.0.len();
    while end > 0 && Instant::now() < end_of_patience {
        let start = end.saturating_sub(size);
        let shorter = ([&kept.0[..start], &kept.0[end..]].concat(), kept.1);
        if fails(&join(&shorter))? {
            *kept = shorter;
            dropped = true;
        }
        end = start;
    }
    Ok(dropped)
}

/// Drops two lines that are needed only for each other, as a claim and what gives it back. Whether
/// there were two.
fn drop_two(
    kept: &mut Lines,
    end_of_patience: Instant,
    fails: &mut impl FnMut(&[u8]) -> Result<bool, String>,
) -> Result<bool, String> {
    for two in (1..kept.0.len()).rev() {
        for one in (0..two).rev() {
            if Instant::now() >= end_of_patience {
                return Ok(false);
            }
            let mut shorter = kept.clone();
            shorter.0.remove(two);
            shorter.0.remove(one);
            if fails(&join(&shorter))? {
                *kept = shorter;
                return Ok(true);
            }
        }
    }
    Ok(false)
}

/// The lines with a byte 10 between them, and one at the end or not.
fn join((lines, ended): &Lines) -> Vec<u8> {
    let mut input = lines.join(&b'\n');
    if *ended && !lines.is_empty() {
        input.push(b'\n');
    }
    input
}
