//! Damage to bytes: most of it small, and some of it where a job file has its fields.

use super::Rng;

/// A byte that rules like to draw a line at.
fn telling(rng: &mut Rng) -> u8 {
    match rng.below(3) {
        0 => rng.pick(&[0, 1, 2, 3, 31, 32, 33, 35, 36, 37, 63, 64, 65, 127, 128, 254, 255]),
        1 => rng.pick(b" -0129csv\n\r"),
        _ => rng.byte(),
    }
}

/// Damages bytes once.
fn once(rng: &mut Rng, bytes: &mut Vec<u8>) {
    if bytes.is_empty() {
        let length = rng.from_to(0, 12);
        bytes.extend(rng.bytes(length));
        return;
    }
    let at = rng.below(bytes.len());
    match rng.below(10) {
        0 => bytes[at] = telling(rng),
        1 => bytes[at] = bytes[at].wrapping_add(1),
        2 => bytes[at] = bytes[at].wrapping_sub(1),
        3 => bytes[at] ^= 1 << rng.below(8),
        4 => {
            bytes.remove(at);
        }
        5 => bytes.insert(at, telling(rng)),
        6 => bytes.truncate(at),
        7 => {
            let byte = telling(rng);
            bytes.push(byte);
        }
        8 => {
            let other = rng.below(bytes.len());
            bytes.swap(at, other);
        }
        _ => {
            bytes.drain(..at.min(9));
        }
    }
}

/// Damage where a job file has its fields: the trailer, and one byte more or less of a section with the distances set right again.
fn at_a_field(rng: &mut Rng, file: &mut Vec<u8>) {
    let length = file.len();
    if length < 8 {
        return once(rng, file);
    }
    match rng.below(4) {
        0 => {
            let at = length - 8 + rng.below(8);
            file[at] = match rng.below(4) {
                0 => telling(rng),
                1 => file[at] ^ 1 << rng.below(8),
                2 => file[at].wrapping_add(1),
                _ => file[at].wrapping_sub(1),
            };
        }
        1 => {
            let at = rng.below(length - 7);
            file.insert(at, telling(rng));
            distances(file);
        }
        2 if length > 8 => {
            let at = rng.below(length - 8);
            file.remove(at);
            distances(file);
        }
        _ if length > 8 => {
            let at = rng.below(length - 8);
            file[at] = telling(rng);
        }
        _ => once(rng, file),
    }
}

/// Sets the distances to what the length and M ask.
fn distances(file: &mut [u8]) {
    let trailer = file.len() - 8;
    let back = 3 * u16::from(file[trailer + 6]);
    file[trailer..trailer + 2].copy_from_slice(&(trailer as u16).to_le_bytes());
    file[trailer + 2..trailer + 4].copy_from_slice(&back.to_le_bytes());
}

/// Damages a job file, or any bytes, once or a few times.
pub fn damage(rng: &mut Rng, bytes: &[u8]) -> Vec<u8> {
    let mut bytes = bytes.to_vec();
    for _ in 0..rng.pick(&[1, 1, 1, 1, 2, 3]) {
        if rng.once_in(2) {
            at_a_field(rng, &mut bytes);
        } else {
            once(rng, &mut bytes);
        }
    }
    bytes
}
