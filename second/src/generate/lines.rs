//! Damage to one line. What comes out is seldom a frame, and next to never one of the kind that went in.

use crate::frames::line_of;
use crate::random::Random;

/// One way to damage a line: what it does, and how.
pub type Damage = (&'static str, fn(&mut Random, &[u8]) -> Vec<u8>);

/// Every way to damage a line that is a frame.
pub const DAMAGES: [Damage; 16] = [
    ("a lower-case digit", lower_case),
    ("no line feed", |_, line| line[..line.len() - 1].to_vec()),
    ("two line feeds", |_, line| [line, b"\n"].concat()),
    ("a byte too many", byte_too_many),
    ("a byte too few", byte_too_few),
    ("a digit too many", digit_too_many),
    ("a digit too few", digit_too_few),
    ("a length that disagrees", wrong_length),
    ("another kind", other_kind),
    ("a carriage return", |_, line| [&line[..line.len() - 1], b"\r\n"].concat()),
    ("a space", space),
    ("a byte that is no digit", no_digit),
    ("a line feed inside", line_feed_inside),
    ("cut short", cut_short),
    ("nothing but the line feed", |_, _| b"\n".to_vec()),
    ("nothing at all", |_, _| Vec::new()),
];

/// A line damaged in any of these ways.
pub fn damaged(random: &mut Random, line: &[u8]) -> Vec<u8> {
    let (_, damage) = random.pick(&DAMAGES);
    damage(random, line)
}

/// A place of a digit.
fn place(random: &mut Random, line: &[u8]) -> usize {
    random.below(line.len() - 1)
}

/// The line with a part of it replaced.
fn replaced(line: &[u8], from: usize, to: usize, by: &[u8]) -> Vec<u8> {
    [&line[..from], by, &line[to..]].concat()
}

/// One letter among the digits in lower case; where there is none, a digit becomes `a`.
fn lower_case(random: &mut Random, line: &[u8]) -> Vec<u8> {
    let letters: Vec<usize> = (0..line.len()).filter(|at| line[*at].is_ascii_uppercase()).collect();
    if letters.is_empty() {
        let at = place(random, line);
        return replaced(line, at, at + 1, b"a");
    }
    let at = random.pick(&letters);
    replaced(line, at, at + 1, &[line[at].to_ascii_lowercase()])
}

/// A byte more after the last, or right after the kind.
fn byte_too_many(random: &mut Random, line: &[u8]) -> Vec<u8> {
    let byte = line_of(&[random.below(256) as u8]);
    let at = random.pick(&[2, line.len() - 1, line.len() - 1]);
    replaced(line, at, at, &byte[..2])
}

fn byte_too_few(_: &mut Random, line: &[u8]) -> Vec<u8> {
    replaced(line, line.len() - 3, line.len() - 1, b"")
}

fn digit_too_many(random: &mut Random, line: &[u8]) -> Vec<u8> {
    let at = random.between(0, line.len() - 1);
    replaced(line, at, at, b"0")
}

fn digit_too_few(random: &mut Random, line: &[u8]) -> Vec<u8> {
    let at = place(random, line);
    replaced(line, at, at + 1, b"")
}

/// The length byte of a 4E, 51 or 4C line is one off; of another kind, and of a line that is too short to have one, a byte goes.
fn wrong_length(random: &mut Random, line: &[u8]) -> Vec<u8> {
    let at = match &line[..2] {
        b"4E" if line.len() > 8 => 6,
        b"51" if line.len() > 22 => 20,
        b"4C" if line.len() > 12 => 10,
        _ => return byte_too_few(random, line),
    };
    let pair = std::str::from_utf8(&line[at..at + 2]).ok().and_then(|pair| u8::from_str_radix(pair, 16).ok());
    let length = pair.unwrap_or(0);
    let other = if random.once_in(2) { length.wrapping_add(1) } else { length.wrapping_sub(1) };
    replaced(line, at, at + 2, &line_of(&[other])[..2])
}

fn other_kind(random: &mut Random, line: &[u8]) -> Vec<u8> {
    let kinds = ["4E", "51", "52", "45", "58", "00", "4D", "4F", "50", "53", "71", "4C", "E4", "15", "FF"];
    let others: Vec<&str> = kinds.into_iter().filter(|kind| kind.as_bytes() != &line[..2]).collect();
    replaced(line, 0, 2, random.pick(&others).as_bytes())
}

/// A space before the line, inside it or at its end.
fn space(random: &mut Random, line: &[u8]) -> Vec<u8> {
    let inside = random.between(0, line.len() - 1);
    let at = random.pick(&[0, inside, line.len() - 1]);
    replaced(line, at, at, b" ")
}

/// A digit becomes a byte beside the digits' ranges, or one far from them.
fn no_digit(random: &mut Random, line: &[u8]) -> Vec<u8> {
    let at = place(random, line);
    let byte = random.pick(&[b'/', b':', b'@', b'G', b'`', b'g', b'x', b'-', 0, 9, 127, 128, 0xB4, 0xC1, 255]);
    replaced(line, at, at + 1, &[byte])
}

fn line_feed_inside(random: &mut Random, line: &[u8]) -> Vec<u8> {
    let at = place(random, line);
    if random.once_in(2) {
        replaced(line, at, at, b"\n")
    } else {
        replaced(line, at, at + 1, b"\n")
    }
}

/// The line ends early, with its line feed or without.
fn cut_short(random: &mut Random, line: &[u8]) -> Vec<u8> {
    let at = place(random, line);
    if random.once_in(2) {
        replaced(line, at, line.len() - 1, b"")
    } else {
        line[..at].to_vec()
    }
}
