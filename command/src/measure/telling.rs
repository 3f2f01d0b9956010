//! What is to be said on standard error of a run: behind a seal what was measured and what looks doubtful; behind a
//! refusal what was really found.
use super::{Measured, NO_PICTURE};
use crate::explain;
use crate::output::{count, grouped};
use crate::walk::Walk;
use carolsedge::{Header, Refusal};

/// What a sealed record holds, and warnings where that may not be what was meant.
pub fn sealed(header: &Header, measured: &Measured) -> Vec<String> {
    let Header { edition, units, pictures, frames, skipped, bad, .. } = *header;
    let (units, pictures) = (units as u64, u64::from(pictures));
    let both = format!("{} beside {}", count(pictures, "picture"), count(units, "unit"));
    let skips = if skipped == 0 { "none".into() } else { grouped(skipped.into()) };
    let frames = count(frames.into(), "frame");
    let bads = count(bad.into(), "bad packet");
    let mut lines = vec![format!("{both}; {frames}, {skips} skipped; {bads}; edition {edition} of the rules")];
    if pictures != units {
        lines.push(format!("warning: {both}: {}", differ(pictures, units, measured.raw)));
    }
    if skipped > 0 {
        let reasons = measured.walk.reasons();
        lines.push(format!("warning: {} of {frames} skipped: {reasons}", grouped(skipped.into())));
        lines.extend(measured.walk.mends());
    }
    let without = measured.walk.bad();
    if without > 0 {
        let bad = count(without, "packet");
        lines.push(format!("warning: {bad} without 0x47 at the beginning: damaged, or no transport stream"));
    }
    if u64::from(bad) > without {
        let early = count(u64::from(bad) - without, "packet");
        lines.push(format!("warning: {early} marked as damaged before the first unit"));
    }
    lines.extend(measured.doubts.iter().map(|doubt| format!("warning: {doubt}")));
    lines
}

/// What it may be that there are not as many pictures as units.
fn differ(pictures: u64, units: u64, raw: bool) -> &'static str {
    let near = |twice: u64| raw && (2 * pictures).abs_diff(twice * units) <= twice;
    if near(3) {
        "half as many again; there may be chroma too (yuv420p): ffmpeg -vf extractplanes=y gives the luma alone"
    } else if near(4) {
        "twice as many; samples may have two bytes each (10 bits), or there may be chroma too (yuv422p)"
    } else if near(6) {
        "three times as many; there may be chroma too (yuv444p): ffmpeg -vf extractplanes=y gives the luma alone"
    } else if pictures < units {
        "units before the first key frame give no picture, nor do lost ones and second fields; see that the \
         pictures are those of the captured time"
    } else {
        "see that the pictures are those of the captured time, and that the decoder doubled none \
         (ffmpeg -fps_mode passthrough)"
    }
}

/// What was found about a refused seal; nothing where the table says it all.
pub fn refused(refusal: &Refusal, pid: u32, measured: &Measured) -> Vec<String> {
    match refusal.number {
        12 => no_packet(pid, &measured.walk),
        NO_PICTURE => no_picture(measured),
        _ => Vec::new(),
    }
}

/// What may be why no picture came: what the decoder said, and the frames that it was not given.
fn no_picture(measured: &Measured) -> Vec<String> {
    let mut lines: Vec<_> = measured.failed.iter().chain(&measured.doubts).cloned().collect();
    if lines.is_empty() {
        lines.push(explain::mends(NO_PICTURE).into());
    }
    let skipped = measured.walk.skipped();
    if skipped > 0 {
        let all = count(skipped + measured.walk.carrying(), "frame");
        lines.push(format!("Of {all}, {} skipped: {}", grouped(skipped), measured.walk.reasons()));
        lines.extend(measured.walk.mends());
    }
    lines
}

/// Why there is no packet of the identifier.
fn no_packet(pid: u32, walk: &Walk) -> Vec<String> {
    let identifiers = walk.identifiers();
    let marked = walk.damaged_of(pid);
    if marked > 0 {
        let all = count(marked, "packet");
        return vec![format!(
            "The receiver marked {all} of identifier {pid} as damaged, and there is no other of it."
        )];
    }
    if identifiers.is_empty() {
        return walk.nothing_good();
    }
    let frames = count(walk.carrying(), "frame");
    let most = identifiers.iter().take(6).map(|(of, n)| format!("{of} ({})", count(*n, "packet")));
    let most = most.collect::<Vec<_>>().join(", ");
    let mut lines = vec![format!("No packet in {frames} has identifier {pid}. There are: {most}.")];
    lines.extend(walk.marked());
    // Identifiers below 32 are tables, and 8191 fills gaps.
    if let Some((likely, _)) = identifiers.iter().find(|(of, _)| (32..8191).contains(of)) {
        lines.push(format!("Most likely: --pid {likely}"));
    }
    lines
}
