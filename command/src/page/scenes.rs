//! The scenes with their cut scores, repeats and changes, on a record's page.
use super::drawing::{part, strips, Place, Strip};
use super::html::{self, paragraph, table, terms};
use super::record::Figures;
use super::rules::{self, quoted};
use crate::output::{count, grouped};
use crate::show::date::seconds;
use carolsedge::Scene;

pub fn section(read: &Figures) -> String {
    let repeated = read.scenes.iter().map(|scene| u64::from(scene.repeated)).sum();
    let number = count(read.scenes.len() as u64, "scene");
    let totals = format!("{number}, {} repeated", count(repeated, "picture"));
    html::section("scenes", "Scenes", &[paragraph(&totals), drawing(read), told(read), rows(read)])
}

fn drawing(read: &Figures) -> String {
    let strip = |kind, name: &str, figure: fn(&Scene) -> u32| {
        let figures: Vec<_> = read.scenes.iter().map(|scene| u64::from(figure(scene))).collect();
        Strip::of(kind, name, "scene", &figures)
    };
    let bars = [
        strip("score", "cut scores, sum", |scene| scene.score),
        strip("peak", "cut scores, greatest", |scene| scene.peak),
        strip("repeated", "repeated", |scene| scene.repeated),
        strip("longest", "longest run of repeated", |scene| scene.longest),
        strip("change", "changes, sum", |scene| scene.change),
    ];
    let places: Vec<_> = read.scenes.iter().enumerate().map(|(j, scene)| place(j, scene, read.h.pictures)).collect();
    strips("scenes-drawing", "Scenes over pictures: a bar is as wide as its scene", &places, &bars)
}

fn place(j: usize, scene: &Scene, pictures: u32) -> Place {
    let part = |figure: u32| part(figure.into(), pictures.into());
    let [score, peak, change] = [scene.score, scene.peak, scene.change].map(|figure| grouped(figure.into()));
    let repeated =
        format!("{} repeated, longest run {}", grouped(scene.repeated.into()), grouped(scene.longest.into()));
    let of = format!("scene {j}, {} from {} on", count(scene.pictures.into(), "picture"), scene.first);
    Place {
        at: part(scene.first),
        mark: part(scene.first),
        width: part(scene.pictures),
        said: format!("{of}: cut scores {score}, greatest {peak}; {repeated}; changes {change}"),
        below: [format!("scene {j}"), format!("picture {}", scene.first)],
    }
}

fn told(read: &Figures) -> String {
    let quoted = |rules| quoted(rules, read.h.edition);
    terms(&[
        ("Scene", quoted(rules::SCENE)),
        ("First, pictures", quoted(rules::SPAN)),
        ("Repeated", quoted(rules::REPEATED)),
        ("Longest run", quoted(rules::ROW)),
        ("Cut scores, in millionths", quoted(rules::SCORE)),
        ("Changes, in hundredths", quoted(rules::CHANGE)),
    ])
}

fn rows(read: &Figures) -> String {
    let headings = [
        "No.",
        "begins s",
        "lasts s",
        "first",
        "pictures",
        "repeated",
        "longest run",
        "cut scores, sum",
        "greatest",
        "changes, sum",
    ];
    let at = |pictures: u32| seconds(u64::from(pictures) * u64::from(read.h.time));
    let row = |(j, s): (usize, &Scene)| {
        let mut row = vec![j.to_string(), at(s.first), at(s.pictures)];
        row.extend([s.first, s.pictures, s.repeated, s.longest].map(|figure| figure.to_string()));
        row.extend([s.score, s.peak, s.change].map(|figure| grouped(figure.into())));
        row
    };
    let rows: Vec<_> = read.scenes.iter().enumerate().map(row).collect();
    table("scenes", "Scenes: scores in millionths, changes in hundredths", &headings, &rows)
}
