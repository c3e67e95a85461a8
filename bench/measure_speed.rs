//! Nanoseconds a face of the integrals below a plane, and of the volume alone, for two hulls.
#![tactic(auto)]

use flux_moments::{PlaneBox, measure, volume_below};
use hull_model::{Hull, Point, Points, Station};
use hull_polyhedron::{Faces, faces_of};
use outward_interval::Span;
use std::alloc::Global;
use std::io;
use std::io::Print;
use std::time::{Clock, Instant};

// The cargo ship, a station on each line: x, and half-breadths over heights.
const CARGO: &str = "\
0 0/0 0/1000 0/3000 1500/6000 6000/9000 7500/12000\n\
5000 0/0 400/1000 900/3000 3800/6000 7300/9000 8200/12000\n\
10000 200/0 1200/1000 2500/3000 5900/6000 8300/9000 8700/12000\n\
15000 800/0 2600/1000 4600/3000 7500/6000 8800/9000 8950/12000\n\
20000 1900/0 4400/1000 6500/3000 8500/6000 9000/9000 9000/12000\n\
25000 3400/0 6200/1000 7900/3000 8900/6000 9000/9000 9000/12000\n\
30000 5000/0 7600/1000 8700/3000 9000/6000 9000/9000 9000/12000\n\
35000 6200/0 8300/1000 8950/3000 9000/6000 9000/9000 9000/12000\n\
40000 6800/0 8600/1000 9000/3000 9000/6000 9000/9000 9000/12000\n\
45000 7000/0 8700/1000 9000/3000 9000/6000 9000/9000 9000/12000\n\
50000 7000/0 8700/1000 9000/3000 9000/6000 9000/9000 9000/12000\n\
55000 7000/0 8700/1000 9000/3000 9000/6000 9000/9000 9000/12000\n\
60000 6800/0 8600/1000 9000/3000 9000/6000 9000/9000 9000/12000\n\
65000 6300/0 8300/1000 8950/3000 9000/6000 9000/9000 9000/12000\n\
70000 5400/0 7700/1000 8700/3000 8950/6000 9000/9000 9000/12000\n\
75000 4200/0 6600/1000 8000/3000 8600/6000 8850/9000 9000/12000\n\
80000 2900/0 5200/1000 6900/3000 7800/6000 8300/9000 8800/12000\n\
85000 1700/0 3600/1000 5300/3000 6400/6000 7200/9000 8200/12000\n\
90000 800/0 2200/1000 3500/3000 4600/6000 5600/9000 7100/12000\n\
95000 200/0 900/1000 1700/3000 2500/6000 3500/9000 5200/12000\n\
102000 0/12000";

/// Stations and points of the hull made by a formula.
const STATIONS: i64 = 64;

const POINTS: i64 = 32;

/// The half-breadth of its middle body, in mm.
const FULL: i64 = 12000;

/// Faces that are measured in each row, about.
const FACES: u64 = 4_000_000;

/// The levels at the first station and at the last of a plane, in grid units of 1/1024 mm.
#[derive(Clone, Copy)]
struct Levels {
    aft: i64,
    fore: i64,
}

impl Levels {
    // Each turn has a plane of its own, all within 1 mm, so that no turn's result does for another.
    fn at(self, turn: u64) -> Option<PlaneBox> {
        let up = i64::try_from(turn % 1024).ok()?;
        let aft = self.aft.wrapping_add(up);
        let fore = self.fore.wrapping_add(up);
        PlaneBox::upright(aft, aft, fore, fore)
    }
}

fn hull_of(alloc: Global, text: &str) -> Option<Hull> {
    let mut stations = Vec::new(alloc);
    for line in text.lines() {
        let mut x = 0;
        let mut points = Vec::new(alloc);
        for word in line.split(' ') {
            match word.split_once('/') {
                Some((y, z)) => points
                    .push(Point {
                        y: y.parse().ok()?,
                        z: z.parse().ok()?,
                    })
                    .ok()?,
                None => x = word.parse().ok()?,
            }
        }
        stations
            .push(Station {
                x,
                points: Points::new(points),
            })
            .ok()?;
    }
    Hull::of(stations)
}

// Rises with n like a parabola, and is level at its most from there.
fn rise(n: i64, full: i64) -> i64 {
    let n = if n < full { n } else { full };
    n.wrapping_mul(full.wrapping_mul(2).wrapping_sub(n))
}

fn half_breadth(i: i64, j: i64) -> i64 {
    let (aft, fore) = (i.wrapping_add(1), STATIONS.wrapping_sub(i));
    let along = rise(if aft < fore { aft } else { fore }, 20);
    let up = rise(j.wrapping_add(1), 16);
    FULL.wrapping_mul(along).wrapping_mul(up) / (20 * 20 * 16 * 16)
}

fn formula_hull(alloc: Global) -> Option<Hull> {
    let mut stations = Vec::new(alloc);
    for i in 0..STATIONS {
        let mut points = Vec::new(alloc);
        for j in 0..POINTS {
            points
                .push(Point {
                    y: half_breadth(i, j),
                    z: j.wrapping_mul(600),
                })
                .ok()?;
        }
        stations
            .push(Station {
                x: i.wrapping_mul(2500),
                points: Points::new(points),
            })
            .ok()?;
    }
    Hull::of(stations)
}

fn ends(span: Span<20>) -> i128 {
    span.lo().wrapping_add(span.hi())
}

fn measured(faces: &Faces, levels: Levels, turns: u64) -> Option<i128> {
    let mut sum: i128 = 0;
    for turn in 0..turns {
        let wet = measure(faces, &levels.at(turn)?);
        sum = sum
            .wrapping_add(ends(wet.volume))
            .wrapping_add(ends(wet.mx))
            .wrapping_add(ends(wet.mv))
            .wrapping_add(ends(wet.mu));
    }
    Some(sum)
}

fn volumes(faces: &Faces, levels: Levels, turns: u64) -> Option<i128> {
    let mut sum: i128 = 0;
    for turn in 0..turns {
        sum = sum.wrapping_add(ends(volume_below(faces, &levels.at(turn)?)));
    }
    Some(sum)
}

fn row<R: Print + Clock>(rt: &R, faces: &Faces, name: &str, levels: Levels) -> io::Result<()> {
    let count = (faces.list().len() as u64).max(1);
    let turns = FACES / count;
    let all = u128::from(turns.wrapping_mul(count)).max(1);
    let start = Instant::now(rt)?;
    let sum = measured(faces, levels, turns);
    let time = start.elapsed(rt)?.as_nanos() / all;
    println!(rt; "{name}, measure: {time} ns a face ({sum:?})")?;
    let start = Instant::now(rt)?;
    let sum = volumes(faces, levels, turns);
    let time = start.elapsed(rt)?.as_nanos() / all;
    println!(rt; "{name}, volume_below: {time} ns a face ({sum:?})")
}

fn rows<R: Print + Clock>(
    rt: &R,
    name: &str,
    faces: &Faces,
    half: i64,
    top: i64,
) -> io::Result<()> {
    println!(rt; "{name}: {} faces", faces.list().len())?;
    let trim = 1024000;
    row(rt, faces, "dry", level(-trim))?;
    row(rt, faces, "level", level(half))?;
    let (aft, fore) = (half.wrapping_sub(trim), half.wrapping_add(trim));
    row(rt, faces, "trimmed", Levels { aft, fore })?;
    row(rt, faces, "sunk", level(top.wrapping_add(trim)))
}

fn level(at: i64) -> Levels {
    Levels { aft: at, fore: at }
}

fn faces_from(alloc: Global, hull: Option<Hull>) -> Option<Faces> {
    faces_of(alloc, &hull?).ok()
}

fn main(rt: HostRuntime) -> io::Result<()> {
    let alloc = rt.alloc();
    match faces_from(alloc, hull_of(alloc, CARGO)) {
        Some(faces) => rows(&rt, "cargo ship", &faces, 5632000, 12288000)?,
        None => println!(rt; "no cargo ship")?,
    }
    match faces_from(alloc, formula_hull(alloc)) {
        Some(faces) => rows(&rt, "64 stations by 32", &faces, 9523200, 19046400)?,
        None => println!(rt; "no hull of 64 stations")?,
    }
    Ok(())
}
