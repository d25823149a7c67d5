//! Lines as words, spelt in the many right ways and the many wrong ones.

use super::Rng;
use crate::listener::WHOLE_SHARE;
use crate::script::LONGEST_LINE;
use crate::wire::Codings;

#[derive(Clone)]
enum Word {
    Text(&'static str),
    /// A value, and the largest its place takes.
    Number(u64, u64),
    Bytes(Vec<u8>),
    /// Stands behind the words that a line must have, or is left out.
    Codings(Codings),
    /// Stands behind the coding setting, or is left out.
    Share(u32),
}

impl Word {
    /// Left out or not, if a line says the same without it.
    fn is_left_out(&self, rng: &mut Rng) -> bool {
        match self {
            Word::Codings(Codings::New) => rng.percent(50),
            Word::Share(WHOLE_SHARE) => rng.percent(80),
            _ => false,
        }
    }
}

#[derive(Clone)]
pub struct Line {
    words: Vec<Word>,
}

impl Line {
    pub fn new(name: &'static str) -> Line {
        Line { words: vec![Word::Text(name)] }
    }

    pub fn text(mut self, text: &'static str) -> Line {
        self.words.push(Word::Text(text));
        self
    }

    fn number(mut self, value: u64, most: u64) -> Line {
        self.words.push(Word::Number(value, most));
        self
    }

    pub fn u64(self, value: u64) -> Line {
        self.number(value, u64::MAX)
    }

    pub fn u32(self, value: u32) -> Line {
        self.number(value.into(), u32::MAX.into())
    }

    pub fn u16(self, value: u16) -> Line {
        self.number(value.into(), u16::MAX.into())
    }

    pub fn out(self, value: usize) -> Line {
        self.number(value as u64, crate::script::MOST_OUTPUT)
    }

    pub fn bytes(mut self, bytes: &[u8]) -> Line {
        self.words.push(Word::Bytes(bytes.to_vec()));
        self
    }

    pub fn codings(mut self, codings: Codings) -> Line {
        self.words.push(Word::Codings(codings));
        self
    }

    pub fn share(mut self, share: u32) -> Line {
        self.words.push(Word::Share(share));
        self
    }

    /// The line with words left out from the right, or as it is.
    fn shortened(&self, rng: &mut Rng) -> Line {
        let mut line = self.clone();
        while line.words.last().is_some_and(|word| word.is_left_out(rng)) {
            line.words.pop();
        }
        line
    }

    fn plain(&self) -> Vec<Vec<u8>> {
        self.words
            .iter()
            .map(|word| match word {
                Word::Text(text) => text.as_bytes().to_vec(),
                Word::Number(value, _) => value.to_string().into_bytes(),
                Word::Bytes(bytes) if bytes.is_empty() => b"-".to_vec(),
                Word::Bytes(bytes) => bytes.iter().flat_map(|b| format!("{b:02x}").into_bytes()).collect(),
                Word::Codings(Codings::New) => b"new".to_vec(),
                Word::Codings(Codings::Both) => b"both".to_vec(),
                Word::Share(share) => share.to_string().into_bytes(),
            })
            .collect()
    }

    fn places(&self, wanted: fn(&Word) -> bool) -> Vec<usize> {
        (0..self.words.len()).filter(|&at| wanted(&self.words[at])).collect()
    }

    fn numbers(&self) -> Vec<usize> {
        self.places(|word| matches!(word, Word::Number(..) | Word::Share(_)))
    }

    fn strings(&self) -> Vec<usize> {
        self.places(|word| matches!(word, Word::Bytes(bytes) if !bytes.is_empty()))
    }

    /// A right spelling.
    pub fn spelt(&self, rng: &mut Rng) -> Vec<u8> {
        let line = self.shortened(rng);
        let mut words = line.plain();
        match rng.below(12) {
            0 => line.recase(&mut words, |_| true),
            1 | 2 => {
                let pattern = rng.next();
                line.recase(&mut words, |at| pattern >> (at % 64) & 1 == 1);
            }
            _ => {}
        }
        let numbers = line.numbers();
        if !numbers.is_empty() && rng.percent(6) {
            let at = rng.pick(&numbers);
            let zeros = rng.pick(&[1, 2, 10, 20, 30]);
            pad(&mut words[at], zeros);
        }
        if !numbers.is_empty() && rng.below(300) == 0 {
            let at = rng.pick(&numbers);
            pad_line(&mut words, at, LONGEST_LINE - rng.index(2));
        }
        words.join(&b' ')
    }

    fn recase(&self, words: &mut [Vec<u8>], upper: impl Fn(usize) -> bool) {
        for at in self.strings() {
            for (place, digit) in words[at].iter_mut().enumerate() {
                if upper(place) {
                    digit.make_ascii_uppercase();
                }
            }
        }
    }

    /// The line with something else from the coding setting on.
    pub fn miscoded(&self, rng: &mut Rng) -> Vec<u8> {
        let wrong: [&[u8]; 4] = [b"old", b"NEW", b"", b"both both"];
        let rarer: [&[u8]; 8] = [b"Both", b" ", b"new ", b" both", b"new both", b"newer", b"-", b"254"];
        let wrong = if rng.percent(60) { rng.pick(&wrong) } else { rng.pick(&rarer) };
        let mut words = self.plain();
        words.truncate(self.coding_place());
        words.push(wrong.to_vec());
        words.join(&b' ')
    }

    /// The line with something that is no share behind the coding setting, or with a share and no
    /// coding setting.
    pub fn misshared(&self, rng: &mut Rng) -> Vec<u8> {
        // Some are right again if they are cut to 32 or 64 bits.
        let large: [&[u8]; 4] = [b"4294967296", b"4294967296", b"4294967304", b"18446744073709551624"];
        let rarer: [&[u8]; 10] = [b"", b"-", b"+8", b"-1", b"0x8", b"8.0", b"8 8", b"8 ", b" 8", b"08 both"];
        let mut words = self.plain();
        words.truncate(self.coding_place());
        if rng.percent(20) {
            words.push(rng.pick(&[&b"1"[..], b"8", b"8", b"64", b"8 new", b"64 both"]).to_vec());
        } else {
            words.push(rng.pick(&[&b"new"[..], b"both"]).to_vec());
            words.push(if rng.percent(60) { rng.pick(&large) } else { rng.pick(&rarer) }.to_vec());
        }
        words.join(&b' ')
    }

    /// Where the coding setting stands, or would.
    fn coding_place(&self) -> usize {
        self.words.iter().position(|word| matches!(word, Word::Codings(_))).unwrap_or(self.words.len())
    }

    /// A spelling that is wrong in one way, if the line has what that way needs; right after
    /// all where it is the coding setting or the share that was dropped.
    pub fn spoilt(&self, rng: &mut Rng) -> Vec<u8> {
        match self.words.last() {
            Some(Word::Codings(_) | Word::Share(_)) if rng.percent(25) => return self.miscoded(rng),
            Some(Word::Share(_)) if rng.percent(25) => return self.misshared(rng),
            _ => {}
        }
        let mut words = self.plain();
        let numbers = self.numbers();
        let strings = self.strings();
        let any = rng.index(words.len());
        match rng.below(26) {
            0 => {
                let names: [&[u8]; 9] =
                    [b"Start", b"SEGMENT", b"segments", b"segmen", b"stop", b"reset", b"-", b"0", b"start\0"];
                words[0] = rng.pick(&names).to_vec();
            }
            1 => words[any].insert(0, b' '),
            2 => words[any].push(b' '),
            3 => words.push(Vec::new()),
            4 => words[any] = Vec::new(),
            5 => {
                words.pop();
            }
            6 => {
                words.remove(any);
            }
            7 => words.push(words[any].clone()),
            8 => words.push(b"-".to_vec()),
            9 => words[any].push(b'\r'),
            10 => words[any].push(b'\t'),
            11 => words[any].push(rng.pick(&[0u8, 0x80, 0xff, b'#', b'_', b',', 0x0b, 0xc2])),
            12 if words.len() > 1 => {
                let joined = rng.index(words.len() - 1);
                let tail = words.remove(joined + 1);
                words[joined].push(b'\t');
                words[joined].extend_from_slice(&tail);
            }
            13 if !numbers.is_empty() => words[rng.pick(&numbers)].insert(0, b'+'),
            14 if !numbers.is_empty() => words[rng.pick(&numbers)].insert(0, b'-'),
            15 if !numbers.is_empty() => {
                words[rng.pick(&numbers)] =
                    rng.pick(&[&b"0x10"[..], b"1e3", b"-", b"5.0", b"1_0", b"a", b"0f"]).to_vec()
            }
            16 | 17 if !numbers.is_empty() => {
                let at = rng.pick(&numbers);
                let most = if let Word::Number(_, most) = self.words[at] { most } else { u32::MAX.into() };
                words[at] = (u128::from(most) + 1).to_string().into_bytes();
                if rng.percent(25) {
                    pad(&mut words[at], 25);
                }
            }
            18 if !numbers.is_empty() => {
                let huge: [&[u8]; 5] = [
                    b"18446744073709551616",
                    b"18446744073709551617",
                    b"36893488147419103232",
                    b"340282366920938463463374607431768211456",
                    b"99999999999999999999999999999999999999999999999999",
                ];
                words[rng.pick(&numbers)] = rng.pick(&huge).to_vec();
            }
            19 if !strings.is_empty() => {
                words[rng.pick(&strings)].pop();
            }
            20 if !strings.is_empty() => words[rng.pick(&strings)].push(b'0'),
            21 if !strings.is_empty() => {
                let at = rng.pick(&strings);
                let place = rng.index(words[at].len());
                words[at][place] = rng.pick(&[b'g', b'G', b'-', b'.', b'/', b':', b'@', b'`', b'x', 0xff]);
            }
            22 if !strings.is_empty() => {
                words[rng.pick(&strings)] = rng.pick(&[&b"--"[..], b"-00", b"00-", b"0x00"]).to_vec()
            }
            23 if !numbers.is_empty() => {
                let at = rng.pick(&numbers);
                let over = rng.pick(&[1, 1, 1, 2, 800]);
                pad_line(&mut words, at, LONGEST_LINE + over);
            }
            24 => {
                return rng
                    .pick(&[&b" "[..], b"-", b"  ", b"\r", b" # no comment", b"\t", b"0", b"bad line", b"\0"])
                    .to_vec()
            }
            _ => {
                let length = rng.within(1, 60) as usize;
                let mut junk = rng.bytes(length);
                junk.retain(|&b| b != b'\n');
                return junk;
            }
        }
        words.join(&b' ')
    }
}

fn pad(word: &mut Vec<u8>, zeros: usize) {
    word.splice(0..0, std::iter::repeat_n(b'0', zeros));
}

/// Pads the number at `at` so that the whole line is `length` bytes long.
fn pad_line(words: &mut [Vec<u8>], at: usize, length: usize) {
    let now = words.iter().map(Vec::len).sum::<usize>() + words.len() - 1;
    pad(&mut words[at], length.saturating_sub(now));
}

/// A line that prints nothing.
pub fn silent(rng: &mut Rng) -> Vec<u8> {
    let length = match rng.below(12) {
        0..=3 => return Vec::new(),
        4 => 0,
        5 => rng.pick(&[8191, 8192, 8193, 20_000]),
        _ => rng.within(1, 80),
    };
    let mut comment = vec![b'#'];
    comment.extend(rng.bytes(length as usize).iter().map(|b| match b % 64 {
        0 => 0xff,
        1 => b'\r',
        2..=10 => b' ',
        printable => b'a' + printable % 26,
    }));
    comment
}
