//! The parts of a few letters in which a template's components are taken.

use crate::template::Template;

/// The most letters of a part: few, so that many motifs have the same.
const PART: u64 = 5;

/// A part of a component, and the gap range behind it.
pub struct Part {
    pub length: u16,
    /// The letters of the motif behind it.
    pub behind: u32,
    pub low: u16,
    pub high: u16,
}

/// The parts of a template's components, each as long as the others of its
/// component or a letter longer, with no gap between them.
pub fn parts(template: &Template) -> Vec<Part> {
    let mut parts: Vec<Part> = Vec::new();
    let mut behind = template.letters();
    for component in &template.components {
        if let Some(last) = parts.last_mut() {
            (last.low, last.high) = (component.low as u16, component.high as u16);
        }
        let mut left = component.length;
        for count in (1..=component.length.div_ceil(PART)).rev() {
            let length = left.div_ceil(count);
            left -= length;
            behind -= length;
            parts.push(Part {
                length: length as u16,
                behind: behind as u32,
                low: 0,
                high: 0,
            });
        }
    }
    parts
}

#[cfg(test)]
mod tests {
    use super::parts;
    use crate::template::Template;

    #[test]
    fn components_are_taken_in_even_parts() {
        let template = Template::read("NNNNNNNNNNNN[3,9]NNNNNN[0,7]N", None).expect("a template");
        let found: Vec<_> = parts(&template)
            .iter()
            .map(|p| (p.length, p.behind, p.low, p.high))
            .collect();
        assert_eq!(
            found,
            [
                (4, 15, 0, 0),
                (4, 11, 0, 0),
                (4, 7, 3, 9),
                (3, 4, 0, 0),
                (3, 1, 0, 7),
                (1, 0, 0, 0)
            ]
        );
    }
}
