//! The tables of hullcert in plain double precision, for bench/compare: COMMAND JOB OFFSETS, and `newton` where levels
//! are to be searched for by Newton's steps and not by halving.
//!
//! The lines are those of the report, with one number where it has an interval or two levels. Files are taken to be
//! right.

mod below;
mod bonjean;
mod cross;
mod damage;
mod floodable;
mod hull;
mod hydro;
mod job;
mod offsets;
mod root;
mod stability;

use hull::Hull;
use job::Job;
use root::Search;
use std::io::Write;

fn report(command: &str, job: &Job, hull: &Hull, search: Search) -> Vec<String> {
    let has = |names: &[&str]| command == "all" || names.contains(&command);
    let six = 6.0 * below::volume(&hull.faces, &below::Plane::upright(hull.high_z)).0;
    let mut lines = vec![format!("hullcert {} {command}", job.version)];
    lines.push(format!("hull {} {}", hull.stations.len(), hull.points()));
    lines.push(format!("body {six:.0}"));
    if has(&["hydro"]) {
        lines.extend(hydro::lines(hull, job));
    }
    if has(&["bonjean"]) {
        lines.extend(bonjean::lines(hull, job));
    }
    if has(&["cross"]) {
        lines.extend(cross::lines(hull, job, search));
    }
    if has(&["stability", "damage", "floodable"]) {
        lines.push(load_line(job));
    }
    if has(&["stability"]) {
        lines.extend(stability::lines(hull, job, search));
    }
    if has(&["damage"]) {
        lines.extend(damage::lines(hull, job, search));
    }
    if has(&["floodable"]) {
        lines.extend(floodable::lines(hull, job, search));
    }
    lines.push(format!("end {}", lines.len() + 1));
    lines
}

fn load_line(job: &Job) -> String {
    let load = &job.load;
    let athwart = if job.version == 2 { format!("{:.6} ", load.y * 1e-3) } else { String::new() };
    format!("load {} {:.6} {athwart}{:.6}", load.mass, load.x * 1e-3, load.z * 1e-3)
}

fn main() -> std::io::Result<()> {
    let words: Vec<String> = std::env::args().skip(1).collect();
    let (command, job, offsets) = match &words[..] {
        [command, job, offsets, ..] => (command, job, offsets),
        _ => panic!("COMMAND JOB OFFSETS [newton]"),
    };
    let job = Job::of(&std::fs::read_to_string(job)?);
    let hull = Hull::of(offsets::stations(&std::fs::read_to_string(offsets)?));
    let search = if words.len() > 3 && words[3] == "newton" { Search::Newton } else { Search::Halving };
    let text = report(command, &job, &hull, search).join("\n") + "\n";
    std::io::stdout().write_all(text.as_bytes())
}
