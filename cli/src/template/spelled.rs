//! The text of motifs, one after the other. There may be millions of them, and
//! in a table each begins mostly as the one before it.

use super::Template;

/// A motif's text, or that of a prefix, in its template's shape.
pub struct Spelled {
    text: Vec<u8>,
    /// Where the letters stand in it.
    places: Vec<usize>,
    number: u64,
    /// The symbols by their digits, and the bits of a digit.
    symbols: [u8; 16],
    bits: u32,
}

impl Spelled {
    /// Spells the motif or prefix of a number: of the text so far, only the
    /// letters from the first that differs on.
    pub fn to(&mut self, number: u64) -> &[u8] {
        let digit = (1 << self.bits) - 1;
        let (mut differs, mut left) = (self.number ^ number, number);
        self.number = number;
        for place in self.places.iter().rev() {
            if differs == 0 {
                break;
            }
            self.text[*place] = self.symbols[(left & digit) as usize];
            differs >>= self.bits;
            left >>= self.bits;
        }
        &self.text
    }
}

impl Template {
    /// What spells its motifs.
    pub fn spelled(&self) -> Spelled {
        self.spelled_to(self.letters())
    }

    /// What spells prefixes of so many letters: it has spelled the first.
    fn spelled_to(&self, mut letters: u64) -> Spelled {
        let (known, bits) = self.symbols();
        let mut symbols = [b'?'; 16];
        symbols[..known.len()].copy_from_slice(known);
        let mut spelled = Spelled {
            text: Vec::new(),
            places: Vec::new(),
            number: 0,
            symbols,
            bits,
        };
        for (component, range) in self.components.iter().zip(&self.ranges) {
            if letters == 0 {
                break;
            }
            spelled.text.extend_from_slice(range.as_bytes());
            for _ in 0..letters.min(component.length) {
                spelled.places.push(spelled.text.len());
                spelled.text.push(known[0]);
            }
            letters -= letters.min(component.length);
        }
        spelled
    }

    /// A prefix's text.
    pub fn prefix(&self, letters: u64, number: u64) -> String {
        let mut spelled = self.spelled_to(letters);
        String::from_utf8_lossy(spelled.to(number)).into_owned()
    }
}

#[cfg(test)]
mod tests {
    use crate::template::Template;

    #[test]
    fn the_first_letter_is_the_highest_digit() {
        let template = Template::read("NN[0,3]NN[1,255]N", None).expect("a template");
        let mut motif = template.spelled();
        // Up and down: what differs is written, and nothing of before stays.
        for (number, text) in [
            (0, "AA[0,3]AA[1,255]A"),
            (1, "AA[0,3]AA[1,255]C"),
            (3, "AA[0,3]AA[1,255]T"),
            (4, "AA[0,3]AC[1,255]A"),
            (0b11_10_01_00_11, "TG[0,3]CA[1,255]T"),
            (0b11_10_01_00_11, "TG[0,3]CA[1,255]T"),
            (0b01_10_01_00_11, "CG[0,3]CA[1,255]T"),
            (1_023, "TT[0,3]TT[1,255]T"),
            (0, "AA[0,3]AA[1,255]A"),
        ] {
            assert_eq!(String::from_utf8_lossy(motif.to(number)), text);
            assert_eq!(template.number(text), Ok(number));
        }
    }

    #[test]
    fn a_mixed_one_has_digits_of_four_bits() {
        let template = Template::read("NNN[0,0]N", Some("3,1")).expect("a template");
        let mut motif = template.spelled();
        for (number, text) in [
            (0xd345, "VTR[0,0]Y"),
            (0x0123, "ACG[0,0]T"),
            (0x6789, "KMS[0,0]W"),
            (0xabcd, "BDH[0,0]V"),
            // No motif has these digits.
            (0x0ef0, "A??[0,0]A"),
        ] {
            assert_eq!(String::from_utf8_lossy(motif.to(number)), text);
        }
    }

    #[test]
    fn all_numbers_of_64_bits_are_motifs_of_32_letters() {
        let text = "NNNNNNNN[0,5]NNNNNNNN[0,5]NNNNNNNN[0,5]NNNNNNNN";
        let template = Template::read(text, None).expect("a template");
        let mut motif = template.spelled();
        let mut number = 7u64;
        for step in 0..1_000 {
            // Far apart, and then near.
            number = if step % 2 == 0 {
                number.wrapping_mul(0x5851_f42d_4c95_7f2d).wrapping_add(1)
            } else {
                number ^ 1 << (step % 64)
            };
            let text = String::from_utf8_lossy(motif.to(number)).into_owned();
            assert_eq!(template.number(&text), Ok(number), "{text}");
        }
        assert_eq!(motif.to(u64::MAX), text.replace('N', "T").as_bytes());
    }

    #[test]
    fn a_prefix_ends_with_its_last_letter() {
        let template = Template::read("NN[0,3]NN", None).expect("a template");
        for (letters, number, text) in [
            (0, 0, ""),
            (1, 2, "G"),
            (2, 2, "AG"),
            (3, 2, "AA[0,3]G"),
            (4, 0xe4, "TG[0,3]CA"),
        ] {
            assert_eq!(template.prefix(letters, number), text);
        }
    }
}
