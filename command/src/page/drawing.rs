//! Drawings. Places along a drawing are parts of its width, so that bars grow with the window and letters do not. What
//! is drawn is scaled; what is written is exact.
use crate::output::grouped;

/// A place on the axis: where it begins and how wide it is, from 0 to 1, where it is marked below the axis, what
/// stands there, and the two lines that are written at the mark where there is room.
pub struct Place {
    pub at: f64,
    pub width: f64,
    pub mark: f64,
    pub said: String,
    pub below: [String; 2],
}

/// A strip of bars, one for each place: its kind, what is written above it, and how high each bar is, from 0 to 1.
pub struct Strip {
    kind: &'static str,
    label: String,
    heights: Vec<f64>,
}

/// A bar that lies: its kind, what is written above it, and how long it is, from 0 to 1.
pub struct Scale {
    kind: &'static str,
    label: String,
    part: f64,
}

/// How high a strip is, what is written above it, a bar that lies, with its distance to the next, and what is written
/// below the axis.
const STRIP: f64 = 44.0;
const LABEL: f64 = 24.0;
const LYING: f64 = 12.0;
const DISTANCE: f64 = 8.0;
const BELOW: f64 = 36.0;

/// The least height of a bar that is not 0.
const LEAST: f64 = 1.5;

/// The least width of a bar; of many bars, this part of what each has of the axis.
const NARROW: f64 = 0.005;
const OF_EACH: f64 = 0.7;

/// How far apart two places are that have lines below them.
const APART: f64 = 0.24;

impl Strip {
    /// Bars as high as the figures; `noun` is what a place stands for.
    pub fn of(kind: &'static str, name: &str, noun: &str, figures: &[u64]) -> Strip {
        let most = figures.iter().copied().max().unwrap_or(0);
        let label = match figures.iter().position(|figure| *figure == most) {
            Some(j) if most > 0 => format!("{name}: at most {} ({noun} {j})", grouped(most)),
            _ => format!("{name}: 0 in every {noun}"),
        };
        let heights = figures.iter().map(|figure| part(*figure, most)).collect();
        Strip { kind, label, heights }
    }

    /// Bars on a scale.
    pub fn on(scale: [f64; 2], kind: &'static str, name: &str, figures: &[f64]) -> Strip {
        let label = format!("{name}, from {} to {}", scale[0], scale[1]);
        Strip { kind, label, heights: figures.iter().map(|figure| along(scale, *figure)).collect() }
    }

    fn bar(&self, j: usize, place: &Place, floor: f64) -> String {
        let height = self.heights.get(j).copied().unwrap_or(0.0);
        if height == 0.0 {
            return String::new();
        }
        let height = (height * STRIP).max(LEAST);
        let width = place.width.max(NARROW.min(OF_EACH / self.heights.len() as f64));
        rect(self.kind, place.at.min(1.0 - width), width, floor - height, height)
    }
}

impl Scale {
    /// A bar as long as the figure is far along a scale; `sum` is how the figure comes about, where that is known.
    pub fn of(scale: [f64; 2], kind: &'static str, name: &str, figure: f64, sum: &str) -> Scale {
        let [least, most] = scale;
        let sum = if sum.is_empty() { String::new() } else { format!(" = {sum}") };
        let label = format!("{name} {figure:?}{sum}, from {least} to {most}");
        Scale { kind, label, part: along(scale, figure) }
    }
}

/// What part of the whole a figure is.
pub fn part(figure: u64, whole: u64) -> f64 {
    match whole {
        0 => 0.0,
        _ => figure as f64 / whole as f64,
    }
}

/// How far along a scale a figure is; one that is no number is at its beginning.
fn along([least, most]: [f64; 2], figure: f64) -> f64 {
    match figure.is_nan() {
        true => 0.0,
        false => ((figure - least) / (most - least)).clamp(0.0, 1.0),
    }
}

/// Strips one below the other, over one axis.
pub fn strips(id: &str, title: &str, places: &[Place], strips: &[Strip]) -> String {
    let floors: Vec<f64> = (1..=strips.len()).map(|i| i as f64 * (LABEL + STRIP)).collect();
    let mut text = String::new();
    for (strip, floor) in strips.iter().zip(&floors) {
        text += &label(&strip.label, floor - STRIP);
        text += &line(*floor);
    }
    for (j, place) in places.iter().enumerate() {
        let bars: String = strips.iter().zip(&floors).map(|(strip, floor)| strip.bar(j, place, *floor)).collect();
        text += &format!("<g><title>{}</title>{bars}</g>\n", place.said);
    }
    let axis = strips.len() as f64 * (LABEL + STRIP);
    let ticks = ticks(places);
    for (i, place) in ticks.iter().enumerate() {
        let kind = if i == 0 || i + 1 == ticks.len() { "edge" } else { "between" };
        text += &below(place, kind, axis);
    }
    drawn(id, title, axis + BELOW, &text)
}

/// Bars that lie, one below the other.
pub fn scales(id: &str, title: &str, scales: &[Scale]) -> String {
    let each = LABEL + LYING + DISTANCE;
    let mut text = String::new();
    for (i, scale) in scales.iter().enumerate() {
        let top = i as f64 * each + LABEL;
        text += &label(&scale.label, top);
        text += &rect("whole", 0.0, 1.0, top, LYING);
        text += &rect(scale.kind, 0.0, scale.part, top, LYING);
    }
    drawn(id, title, scales.len() as f64 * each, &text)
}

fn drawn(id: &str, title: &str, height: f64, text: &str) -> String {
    format!(
        "<figure>\n<svg xmlns=\"http://www.w3.org/2000/svg\" role=\"img\" aria-labelledby=\"{id}-t\" width=\"100%\" \
         height=\"{height:.0}\">\n<title id=\"{id}-t\">{title}</title>\n{text}</svg>\n\
         <figcaption>{title}</figcaption>\n</figure>\n"
    )
}

fn rect(kind: &str, at: f64, width: f64, top: f64, height: f64) -> String {
    let (x, width) = (100.0 * at, 100.0 * width);
    format!("<rect class=\"{kind}\" x=\"{x:.3}%\" y=\"{top:.1}\" width=\"{width:.3}%\" height=\"{height:.1}\"/>")
}

fn line(y: f64) -> String {
    format!("<line x1=\"0\" x2=\"100%\" y1=\"{y:.1}\" y2=\"{y:.1}\"/>\n")
}

fn label(text: &str, top: f64) -> String {
    format!("<text x=\"0\" y=\"{:.1}\">{text}</text>\n", top - 5.0)
}

/// The first place, some behind it, and the last, if there is room for both.
fn ticks(places: &[Place]) -> Vec<&Place> {
    let mut sorted: Vec<&Place> = places.iter().collect();
    sorted.sort_by(|one, other| one.mark.total_cmp(&other.mark));
    let last = sorted.last().map_or(0.0, |place| place.mark);
    let mut taken: Vec<&Place> = Vec::new();
    for place in sorted {
        let free = taken.last().is_none_or(|before| place.mark - before.mark >= APART);
        let room = taken.is_empty() || place.mark == last || last - place.mark >= APART;
        if free && room {
            taken.push(place);
        }
    }
    taken
}

/// The lines below a place, which go inward from the edges. Between the first and the last, a narrow window has none.
fn below(place: &Place, kind: &str, axis: f64) -> String {
    let anchor = match place.mark {
        at if at < APART => "start",
        at if at > 1.0 - APART => "end",
        _ => "middle",
    };
    let x = 100.0 * place.mark;
    let text =
        |line: &str, y: f64| format!("<text x=\"{x:.3}%\" y=\"{y:.1}\" text-anchor=\"{anchor}\">{line}</text>");
    format!(
        "<g class=\"{kind}\"><line x1=\"{x:.3}%\" x2=\"{x:.3}%\" y1=\"{axis:.1}\" y2=\"{:.1}\"/>{}{}</g>\n",
        axis + 5.0,
        text(&place.below[0], axis + 18.0),
        text(&place.below[1], axis + 32.0)
    )
}
