//! Well-formed texts, damaged.
use crate::random::Random;

const VALUES: &[&[u8]] = &[
    b"0", b"-0", b"00", b"01", b"-1", b"-01", b"+1", b"1", b"2", b"7", b"65535", b"65536", b"2147483647", b"2147483648", b"-2147483648", b"-2147483649",
    b"4294967296", b"18446744073709551616", b"99999999999999999999999", b"", b"-", b" 1", b"1 ", b"1\r", b"0x1", b"1e3", b"1_0", b"a", b"AA", b"aA", b"0a",
    b"g0", b"6162", b"616", b"a_b", b"a b", b"\x1f", b"\x7f", b"~", b" ", b"=", b"\xc3\xa9", b"\x00", b"Halt", b"ResultRow", b"INTEGER",
    b"abcdefghijklmnopqrstuvwxyz012345", b"abcdefghijklmnopqrstuvwxyz0123456",
    b"0123456789012345678901234567890123456789012345678901234567890123", b"01234567890123456789012345678901234567890123456789012345678901234",
];
const BYTES: &[u8] = b"\n\n=-+0123456789abcfgAZ ~\r\t\x00\x7f\x80\xff";

fn lines(text: &[u8]) -> Vec<Vec<u8>> {
    text.split(|b| *b == b'\n').map(<[u8]>::to_vec).collect()
}

fn one_byte(r: &mut Random, text: &mut Vec<u8>) {
    let at = r.below(text.len() + 1);
    let byte = if r.chance(80) { r.pick(BYTES) } else { r.below(256) as u8 };
    match r.below(4) {
        0 if at < text.len() => text[at] = byte,
        1 if at < text.len() => drop(text.remove(at)),
        2 => text.truncate(at),
        _ => text.insert(at, byte),
    }
}

fn one_line(r: &mut Random, text: &mut Vec<u8>) {
    let mut all = lines(text);
    let (a, b) = (r.below(all.len()), r.below(all.len()));
    match r.below(7) {
        0 => all.swap(a, b),
        1 => drop(all.remove(a)),
        2 => all.insert(b, all[a].clone()),
        3 => all.insert(a, r.pick(&[&b""[..], b"op=Halt", b"p4=", b"db=0", b"#"]).to_vec()),
        _ => {
            let key = all[a].iter().position(|c| *c == b'=').map_or(0, |e| e + 1);
            all[a].truncate(key);
            all[a].extend_from_slice(r.pick(VALUES));
        }
    }
    *text = all.join(&b'\n');
}

/// A P4 of 255 or 256 bytes, which is and is not well-formed.
fn long_p4(r: &mut Random, text: &mut Vec<u8>) {
    let mut all = lines(text);
    let at = r.below(all.len());
    if all[at].starts_with(b"p4=") {
        all[at] = [b"p4=".to_vec(), b"61".repeat(r.pick(&[254, 255, 256, 300]))].concat();
    }
    *text = all.join(&b'\n');
}

/// One to three damages; now and then none.
pub fn damage(r: &mut Random, text: &mut Vec<u8>) {
    for _ in 0..r.pick(&[0, 1, 1, 1, 1, 2, 3]) {
        match r.below(16) {
            0..=6 => one_byte(r, text),
            7 => long_p4(r, text),
            _ => one_line(r, text),
        }
    }
}
