//! The lines of a listing, written into a list as far as there is room.

use energy::Figures;

/// A list that is written on, and the place behind what is written.
struct Page<'a> {
    text: &'a mut [u8],
    at: usize,
}

impl Page<'_> {
    fn put(&mut self, piece: &[u8]) {
        let bytes = piece.len().min(self.text.len() - self.at);
        self.text[self.at..self.at + bytes].copy_from_slice(&piece[..bytes]);
        self.at += bytes;
    }

    fn put_number(&mut self, number: u64) {
        let (mut digits, mut first, mut rest) = ([0; 20], 20, number);
        while first == 20 || rest != 0 {
            first -= 1;
            digits[first] = b'0' + (rest % 10) as u8;
            rest /= 10;
        }
        self.put(&digits[first..]);
    }

    /// A line of names, each before its number.
    fn put_line<const N: usize>(&mut self, names: [&str; N], numbers: [u64; N]) {
        for (name, number) in names.iter().zip(numbers) {
            self.put(name.as_bytes());
            self.put_number(number);
        }
        self.put(b"\n");
    }
}

/// What a listing shows.
pub struct Shown<'a> {
    pub figures: Figures,
    pub needed: u64,
    pub budgets: &'a [u32],
    pub charges: &'a [i64],
    pub losses: &'a [u32],
    pub worth: [u64; 3],
}

/// Writes the lines, and gives the number of bytes.
pub fn write(shown: &Shown, text: &mut [u8]) -> usize {
    let mut page = Page { text, at: 0 };
    let frames = shown.budgets.len() as u64;
    let first = [frames, shown.figures.capacity.into(), shown.needed];
    page.put_line(["frames ", " capacity ", " needed "], first);
    let figures = shown.budgets.iter().zip(shown.charges).zip(shown.losses);
    for (i, ((&budget, &charge), &loss)) in figures.enumerate() {
        let numbers = [i as u64 + 1, budget.into(), charge.unsigned_abs(), loss.into()];
        page.put_line(["", " ", " ", " "], numbers);
    }
    page.put_line(["worth ", " ", " "], shown.worth);
    page.at
}

/// Writes the line of a refusal, and gives the number of bytes.
pub fn refuse(number: u32, p: u64, text: &mut [u8]) -> usize {
    let mut page = Page { text, at: 0 };
    page.put_line(["refused ", " "], [number.into(), p]);
    page.at
}
