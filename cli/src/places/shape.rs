//! The template that a motif stands for: its shape, and the allowances that
//! its letters need.

use crate::failure::{Answer, Failure};
use crate::template::Template;

/// The template of a motif that is looked for: its text as it is given, or the
/// motif's shape; the allowances as they are given, or as many as the motif
/// needs, and where it needs none an exact template.
pub fn template(text: Option<&str>, mixed: Option<&str>, motif: &str) -> Answer<Template> {
    let template = match text {
        Some(text) => Template::read(text, mixed)?,
        None => of_shape(motif, mixed)?,
    };
    if mixed.is_some() {
        return Ok(template);
    }
    needed(&template, &several(&template, motif))
}

/// The template that a motif alone is of: N for each of its letters.
fn of_shape(motif: &str, mixed: Option<&str>) -> Answer<Template> {
    let mut between = false;
    let shape: String = motif
        .chars()
        .map(|c| {
            between = c == '[' || between && c != ']';
            if between || c == ']' {
                c
            } else {
                'N'
            }
        })
        .collect();
    if shape == motif {
        return Err(Failure::usage(format!(
            "{motif} is a template and no motif: places takes MOTIF FILE.fa, or TEMPLATE MOTIF FILE.fa (tulfasheq places --help)"
        )));
    }
    Template::read(&shape, mixed)
        .map_err(|failure| failure.and(format!("The template is the shape of the motif {motif}.")))
}

/// How many letters of each component stand for several bases: all but A, C,
/// G and T, for what is no letter at all is refused when the motif is read.
pub fn several(template: &Template, motif: &str) -> Vec<u64> {
    let mut between = false;
    let mut letters = motif.chars().filter(|c| {
        between = *c == '[' || between && *c != ']';
        !between && *c != ']'
    });
    let lengths = template.components.iter().map(|c| c.length as usize);
    lengths
        .map(|length| {
            let component = letters.by_ref().take(length);
            component.filter(|c| !"ACGT".contains(*c)).count() as u64
        })
        .collect()
}

/// The template with these allowances; an exact one where all are 0.
pub fn needed(template: &Template, allowances: &[u64]) -> Answer<Template> {
    if allowances.iter().all(|allowance| *allowance == 0) {
        return Template::read(&template.text, None);
    }
    let each: Vec<String> = allowances.iter().map(u64::to_string).collect();
    Template::read(&template.text, Some(&each.join(",")))
}

#[cfg(test)]
mod tests {
    use super::template;

    #[test]
    fn a_motif_tells_its_template() {
        for (text, motif, shape, mixed) in [
            (None, "ACG[0,3]TA", "NNN[0,3]NN", "no"),
            (None, "A", "N", "no"),
            (None, "RCG[10,255]TW[0,0]A", "NNN[10,255]NN[0,0]N", "1,1,0"),
            (Some("NNN[0,3]NN"), "ACGTA", "NNN[0,3]NN", "no"),
            (Some("NNN[0,3]NN"), "ACGBV", "NNN[0,3]NN", "0,2"),
        ] {
            let found = template(text, None, motif).expect("a template");
            assert_eq!((&found.text[..], &found.mixed_or_no()[..]), (shape, mixed));
        }
        let given = template(None, Some("2,1"), "ACG[0,3]TA").expect("a template");
        assert_eq!(given.mixed_or_no(), "2,1");
    }

    #[test]
    fn a_template_is_no_motif() {
        for text in ["N", "NNN[0,3]NN", "NN[0,"] {
            let failure = template(None, None, text).expect_err("no motif");
            assert!(failure.words.contains("is a template"), "{}", failure.words);
        }
    }
}
