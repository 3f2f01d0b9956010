//! The index, the sum that reaches it and its two parts, with which a record's page begins.
use super::drawing::{scales, Scale};
use super::html::{self, escaped, figure, paragraph, said, terms};
use super::record::{term, Figures};
use super::rules;
use crate::show::tables::bits;
use crate::show::INDEX;
use crate::verify;
use carolsedge::{Reached, Verdict};

const SEALED: &str = "It has all that every sealed record has (RULE.md, 30). A record is not signed: who knows the \
                      rule can still have written it.";

pub fn section(read: &Figures) -> String {
    let h = &read.h;
    let value = figure("index_value", &format!("{:?}", h.index));
    let value = format!("{value} (bits {}); {INDEX}", figure("index_bits", &bits(h)));
    let verdict = match &read.verdict {
        Verdict::CouldBeSealed(_) => SEALED.to_string(),
        verdict => format!("This record is {}.", verify::said(verdict)),
    };
    let entries = [
        term(h, "Index", &value, rules::INDEX),
        ("Its two parts", vec![said(&parts(read.reached.as_ref(), h.index))]),
        ("Verified", vec![said(&figure("verdict", &escaped(&verdict)))]),
    ];
    let drawing = scales("index-drawing", "The index and its two parts", &drawn(read.reached.as_ref(), h.index));
    html::section("index", "Index", &[sum(read.reached.as_ref()), drawing, terms(&entries)])
}

/// What is said above all else of a record that no seal leaves.
pub fn forged(verdict: &Verdict) -> String {
    match verdict {
        Verdict::CouldBeSealed(_) => String::new(),
        Verdict::CouldNotBeSealed(_) => {
            let verdict = escaped(&verify::said(verdict));
            format!("<p class=\"forged\" id=\"forged\">This record is {verdict}. {}</p>\n", verify::FORGED)
        }
    }
}

fn sum(reached: Option<&Reached>) -> String {
    let sum = reached.map(|reached| figure("sum", &reached.to_string()));
    sum.map(|sum| paragraph(&sum)).unwrap_or_default()
}

fn drawn(reached: Option<&Reached>, index: f64) -> Vec<Scale> {
    let two = reached.map(|reached| {
        let Reached { unrepeated, pictures, packets, lost, index } = reached;
        let of_pictures = format!("4 x ({unrepeated} / {pictures})");
        let of_packets = format!("{packets} / ({packets} + {lost})");
        [
            Scale::of([0.0, 4.0], "pictures", "Ic", index.ic, &of_pictures),
            Scale::of([0.0, 1.0], "packets", "Ip", index.ip, &of_packets),
        ]
    });
    let sum = if reached.is_some_and(|reached| is_the_index(reached, index)) { "1 + Ic x Ip" } else { "" };
    let index = Scale::of([1.0, 5.0], "index", "index", index, sum);
    two.into_iter().flatten().chain([index]).collect()
}

fn is_the_index(reached: &Reached, index: f64) -> bool {
    reached.index.value.to_bits() == index.to_bits()
}

/// The two parts in words, and whether they give the record's index.
fn parts(reached: Option<&Reached>, index: f64) -> String {
    let Some(reached) = reached else {
        return "None: the rows below have more repeated pictures than there are.".into();
    };
    let given = match is_the_index(reached, index) {
        true => "is the record's index, bit by bit",
        false => "is not the record's index",
    };
    format!(
        "Ic {} of the pictures that are not repeated, and Ip {} of the packets that came; 1 + (Ic × Ip) {given}.",
        figure("ic", &format!("{:?}", reached.index.ic)),
        figure("ip", &format!("{:?}", reached.index.ip))
    )
}
