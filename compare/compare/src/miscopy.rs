//! What may happen to a text while it is copied: a figure becomes another, a line goes astray, `=`
//! or byte 10 is lost or comes twice. The text may be of any bytes.

use crate::prng::Prng;

/// What byte 10 parts. The last piece is empty where the text ends in byte 10.
type Pieces = Vec<Vec<u8>>;

/// One thing gone wrong, or a few.
pub fn miscopy(prng: &mut Prng, text: &mut Vec<u8>) {
    for _ in 0..prng.pick(&[1, 1, 1, 2, 3]) {
        match prng.below(4) {
            0 => bytes(prng, text),
            1 => ends(prng, text),
            2 => pieces(prng, text, astray),
            _ => pieces(prng, text, misspell),
        }
    }
}

fn pieces(prng: &mut Prng, text: &mut Vec<u8>, change: fn(&mut Prng, &mut Pieces)) {
    let mut pieces: Pieces = text.split(|byte| *byte == b'\n').map(<[u8]>::to_vec).collect();
    change(prng, &mut pieces);
    *text = pieces.join(&b'\n');
}

/// A place near the front, near the end, or any, below a length that is not 0.
fn place(prng: &mut Prng, length: usize) -> usize {
    let near = prng.below(8).min(length as u64 - 1) as usize;
    let any = prng.below(length as u64) as usize;
    prng.pick(&[near, length - 1 - near, any])
}

/// The place of one of the bytes that are as wanted.
fn place_of(prng: &mut Prng, text: &[u8], wanted: fn(u8) -> bool) -> Option<usize> {
    let places: Vec<usize> = (0..text.len()).filter(|place| wanted(text[*place])).collect();
    if places.is_empty() {
        return None;
    }
    let which = place(prng, places.len());
    Some(places[which])
}

/// A byte changed, put in or dropped, a figure changed, bytes lost at the front or at the end.
fn bytes(prng: &mut Prng, text: &mut Vec<u8>) {
    let any = prng.below(256) as u8;
    let new = prng.pick(&[b'=', b'\n', b'\r', b' ', b'a', b'b', b'0', b'1', 0, 255, any]);
    if text.is_empty() {
        text.push(new);
        return;
    }
    let at = place(prng, text.len());
    match prng.below(8) {
        0 => text.insert(at, new),
        1 => {
            text.remove(at);
        }
        2 => text[at] = new,
        3 => text.truncate(at),
        4 => {
            text.drain(..at);
        }
        _ => {
            if let Some(at) = place_of(prng, text, |byte| byte.is_ascii_digit()) {
                text[at] = b'0' + prng.below(10) as u8;
            }
        }
    }
}

/// A byte 10 lost, doubled or become another byte, the last one lost or put, byte 13 before one of
/// them or before all.
fn ends(prng: &mut Prng, text: &mut Vec<u8>) {
    if prng.chance(1, 3) {
        if text.pop() != Some(b'\n') {
            text.push(b'\n');
        }
        return;
    }
    if prng.chance(1, 8) {
        let all = text.split(|byte| *byte == b'\n');
        *text = all.collect::<Vec<_>>().join(&b"\r\n"[..]);
        return;
    }
    if let Some(at) = place_of(prng, text, |byte| byte == b'\n') {
        match prng.below(5) {
            0 => {
                text.remove(at);
            }
            1 => text.insert(at, b'\n'),
            2 => text.insert(at, b'\r'),
            3 => text.insert(at, b' '),
            _ => text[at] = prng.pick(&[b' ', b'=', b'\r', 0]),
        }
    }
}

/// A line left out, doubled, moved, two of them exchanged, or one taken for another.
fn astray(prng: &mut Prng, pieces: &mut Pieces) {
    let one = place(prng, pieces.len());
    let two = place(prng, pieces.len());
    match prng.below(7) {
        0 => {
            pieces.remove(one);
        }
        1 => pieces.insert(one, pieces[one].clone()),
        2 => {
            let moved = pieces.remove(one);
            pieces.insert(two.min(pieces.len()), moved);
        }
        3 => pieces.swap(one, two),
        4 if one + 1 < pieces.len() => pieces.swap(one, one + 1),
        5 => pieces.insert(two, pieces[one].clone()),
        _ => pieces[two] = pieces[one].clone(),
    }
}

/// A key that is longer, shorter or in other letters, `=` lost or doubled, more behind the line.
fn misspell(prng: &mut Prng, pieces: &mut Pieces) {
    let keyed: Vec<usize> = (0..pieces.len()).filter(|at| pieces[*at].contains(&b'=')).collect();
    if keyed.is_empty() {
        return;
    }
    let which = place(prng, keyed.len());
    let line = &mut pieces[keyed[which]];
    let end = line.iter().position(|byte| *byte == b'=').unwrap_or(0);
    match prng.below(9) {
        0 => {
            line.remove(end);
        }
        1 => line.insert(end, b'='),
        2 => line.insert(end, prng.pick(b"a sS0\0")),
        3 => line.insert(0, prng.pick(b"a =0")),
        4 if end > 0 => {
            line.remove(end - 1);
        }
        5 => line[..end].make_ascii_uppercase(),
        6 => line.extend_from_slice(prng.pick(&[b"=", b" ", b"0", b"\r", b"\0"])),
        7 => line.truncate(end + 1),
        _ => line[end] = prng.pick(b":- <>"),
    }
}
