//! Lines read in place, in one pass: a first word, a process and more numbers, one space before each, and a line feed.
//!
//! A line is read or it is not: which fault it has is found by `words`, apart from this.

/// The first words that the lines of a text can have.
pub trait Form: Copy {
    /// The form whose word and a space the text begins with, and what follows these.
    fn named(text: &[u8]) -> Option<(Self, &[u8])>;
    /// How many numbers follow the process.
    fn numbers(self, width: usize) -> usize;
    /// Whether a count of steps may follow the process.
    fn may_count(self) -> bool;
}

/// The body of `named`: the words are tried in turn.
macro_rules! first_of {
    ($text:expr, $($word:literal => $form:expr,)*) => {{
        $(if let Some(rest) = $text.strip_prefix($word) {
            return Some(($form, rest));
        })*
        None
    }};
}
pub(crate) use first_of;

/// The least and the greatest count of steps that is written.
pub const COUNTS: (u64, u64) = (2, 1_000_000);

/// The numbers after a line's process. None has more than a `show` of eight words.
pub type Numbers = [u64; 10];

/// Goes over the bytes of a text.
pub struct Reader<'a> {
    pub rest: &'a [u8],
}

impl Reader<'_> {
    /// Reads the next line, and the numbers after its process. Where a count of steps may stand and does not, it is 1.
    #[inline]
    pub fn line<F: Form>(&mut self, width: usize, numbers: &mut Numbers) -> Option<(F, u64)> {
        let (form, rest) = F::named(self.rest)?;
        self.rest = rest;
        let p = self.number()?;
        if form.may_count() {
            numbers[0] = self.last_count()?;
            return Some((form, p));
        }
        for number in &mut numbers[..form.numbers(width)] {
            self.pass(b' ')?;
            *number = self.number()?;
        }
        self.pass(b'\n')?;
        Some((form, p))
    }

    fn pass(&mut self, byte: u8) -> Option<()> {
        let (first, rest) = self.rest.split_first()?;
        self.rest = rest;
        (*first == byte).then_some(())
    }

    fn digit(&mut self) -> Option<u64> {
        let (first, rest) = self.rest.split_first()?;
        let digit = first.wrapping_sub(b'0');
        if digit > 9 {
            return None;
        }
        self.rest = rest;
        Some(u64::from(digit))
    }

    /// A number without leading zeros: after a first 0 no digit is read.
    #[inline]
    fn number(&mut self) -> Option<u64> {
        let mut number = self.digit()?;
        if number > 0 {
            while let Some(digit) = self.digit() {
                number = number.checked_mul(10)?.checked_add(digit)?;
            }
        }
        Some(number)
    }

    /// The count of steps before the line feed, which may be left out.
    #[inline]
    fn last_count(&mut self) -> Option<u64> {
        let (first, rest) = self.rest.split_first()?;
        self.rest = rest;
        match first {
            b'\n' => Some(1),
            b' ' => {
                let count = self.number().filter(|count| (COUNTS.0..=COUNTS.1).contains(count))?;
                self.pass(b'\n')?;
                Some(count)
            }
            _ => None,
        }
    }
}
