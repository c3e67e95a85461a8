//! Microseconds of a table of 91 degrees: draft brackets alone, KN over them, and levers to both sides, for two hulls; and how
//! wide the levers are.
#![tactic(auto)]

ghost use Rattle.std.specs.Prelude.{◌≤◌, IfSome};
ghost use Rattle.draft_bracket.specs.DraftBracket.{IsNeed};

use angle_bounds::{Degree, bracket_of};
use cross_curves::kn_near;
use draft_bracket::{Guess, float_near};
use dynamic_lever::{ArmTable, arms};
use exact_fraction::Ratio;
use hull_model::{Hull, Point, Points, Station, Water};
use hull_polyhedron::{Faces, faces_of};
use job_reader::Item;
use loading_sheet::load;
use outward_interval::Encloses;
use std::alloc::Global;
use std::io;
use std::io::Print;
use std::time::{Clock, Instant};

// The cargo ship, a station on each line: x, and half-breadths over heights.
const CARGO: &str = "\
0 0/0 0/1000 0/3000 1500/6000 6000/9000 7500/12000\n\
5000 0/0 400/1000 900/3000 3800/6000 7300/9000 8200/12000\n\
10000 200/0 1200/1000 2500/3000 5900/6000 8300/9000 8700/12000\n\
15000 800/0 2600/1000 4600/3000 7500/6000 8800/9000 8950/12000\n\
20000 1900/0 4400/1000 6500/3000 8500/6000 9000/9000 9000/12000\n\
25000 3400/0 6200/1000 7900/3000 8900/6000 9000/9000 9000/12000\n\
30000 5000/0 7600/1000 8700/3000 9000/6000 9000/9000 9000/12000\n\
35000 6200/0 8300/1000 8950/3000 9000/6000 9000/9000 9000/12000\n\
40000 6800/0 8600/1000 9000/3000 9000/6000 9000/9000 9000/12000\n\
45000 7000/0 8700/1000 9000/3000 9000/6000 9000/9000 9000/12000\n\
50000 7000/0 8700/1000 9000/3000 9000/6000 9000/9000 9000/12000\n\
55000 7000/0 8700/1000 9000/3000 9000/6000 9000/9000 9000/12000\n\
60000 6800/0 8600/1000 9000/3000 9000/6000 9000/9000 9000/12000\n\
65000 6300/0 8300/1000 8950/3000 9000/6000 9000/9000 9000/12000\n\
70000 5400/0 7700/1000 8700/3000 8950/6000 9000/9000 9000/12000\n\
75000 4200/0 6600/1000 8000/3000 8600/6000 8850/9000 9000/12000\n\
80000 2900/0 5200/1000 6900/3000 7800/6000 8300/9000 8800/12000\n\
85000 1700/0 3600/1000 5300/3000 6400/6000 7200/9000 8200/12000\n\
90000 800/0 2200/1000 3500/3000 4600/6000 5600/9000 7100/12000\n\
95000 200/0 900/1000 1700/3000 2500/6000 3500/9000 5200/12000\n\
102000 0/12000";

/// Stations and points of the hull made by a formula.
const STATIONS: i64 = 64;

const POINTS: i64 = 32;

/// The half-breadth of its middle body, in mm.
const FULL: i64 = 12000;

fn hull_of(alloc: Global, text: &str) -> Option<Hull> {
    let mut stations = Vec::new(alloc);
    for line in text.lines() {
        let mut x = 0;
        let mut points = Vec::new(alloc);
        for word in line.split(' ') {
            match word.split_once('/') {
                Some((y, z)) => points
                    .push(Point {
                        y: y.parse().ok()?,
                        z: z.parse().ok()?,
                    })
                    .ok()?,
                None => x = word.parse().ok()?,
            }
        }
        stations
            .push(Station {
                x,
                points: Points::new(points),
            })
            .ok()?;
    }
    Hull::of(stations)
}

// Rises with n like a parabola, and is level at its most from there.
fn rise(n: i64, full: i64) -> i64 {
    let n = if n < full { n } else { full };
    n.wrapping_mul(full.wrapping_mul(2).wrapping_sub(n))
}

fn half_breadth(i: i64, j: i64) -> i64 {
    let (aft, fore) = (i.wrapping_add(1), STATIONS.wrapping_sub(i));
    let along = rise(if aft < fore { aft } else { fore }, 20);
    let up = rise(j.wrapping_add(1), 16);
    FULL.wrapping_mul(along).wrapping_mul(up) / (20 * 20 * 16 * 16)
}

fn formula_hull(alloc: Global) -> Option<Hull> {
    let mut stations = Vec::new(alloc);
    for i in 0..STATIONS {
        let mut points = Vec::new(alloc);
        for j in 0..POINTS {
            points
                .push(Point {
                    y: half_breadth(i, j),
                    z: j.wrapping_mul(600),
                })
                .ok()?;
        }
        stations
            .push(Station {
                x: i.wrapping_mul(2500),
                points: Points::new(points),
            })
            .ok()?;
    }
    Hull::of(stations)
}

fn need_of(mass: u32) -> Option<Ratio>
    requires { 1 ≤ mass }
    ensures { IfSome result IsNeed }
{
    Ratio::new(i128::from(mass) * 1_000_000_000, 1025)
}

fn drafts(faces: &Faces, mass: u32) -> Option<i64>
    requires { 1 ≤ mass }
{
    let need = need_of(mass)?;
    let mut guess = Guess::new();
    let mut sum: i64 = 0;
    for k in 0..91u32 {
        match float_near(faces, &bracket_of(Degree::new(k)?), &need, &mut guess) {
            Ok(d) => sum = sum.wrapping_add(d.d1).wrapping_add(d.d2),
            Err(_) => return None,
        }
    }
    Some(sum)
}

fn cells(faces: &Faces, mass: u32) -> Option<i128>
    requires { 1 ≤ mass }
{
    let need = need_of(mass)?;
    let mut guess = Guess::new();
    let mut sum: i128 = 0;
    for k in 0..91u32 {
        match kn_near(faces, &bracket_of(Degree::new(k)?), &need, &mut guess) {
            Ok(cell) => sum = sum.wrapping_add(cell.kn.lo()).wrapping_add(cell.kn.hi()),
            Err(_) => return None,
        }
    }
    Some(sum)
}

const WATER: Water = Water {
    density: 1025,
    length_bp: 100000,
};

/// One item with the mass and the moment in height of all the cargo ship's items with their free surfaces.
const CARGO_ITEM: Item = Item {
    mass: 8380000,
    x: 49542,
    y: 0,
    z: 5958,
    free_surface: 1960,
};

const FORMULA_ITEM: Item = Item {
    mass: 20000000,
    x: 80000,
    y: 0,
    z: 6000,
    free_surface: 0,
};

fn table(faces: &Faces, item: Item) -> Option<ArmTable> {
    let loading = load(&[item]).ok()?;
    arms(faces, &loading, &WATER).ok()
}

/// The widest lever and the widest separation, in units of 2^-20 mm.
fn widest(table: Option<ArmTable>) -> Option<(i128, i128)> {
    let (mut gz, mut sep) = (0, 0);
    for row in &table?.rows {
        gz = gz.max(row.gz[0].units());
        sep = sep.max(row.sep[0].units());
    }
    Some((gz, sep))
}

fn row<R: Print + Clock>(
    rt: &R,
    name: &str,
    faces: &Faces,
    mass: u32,
    item: Item,
) -> io::Result<()>
    requires { 1 ≤ mass }
{
    for _turn in 0..3u32 {
        let start = Instant::now(rt)?;
        let sum = drafts(faces, mass);
        let time = start.elapsed(rt)?.as_micros();
        println!(rt; "{name}, drafts: {time} us ({sum:?})")?;
        let start = Instant::now(rt)?;
        let sum = cells(faces, mass);
        let time = start.elapsed(rt)?.as_micros();
        println!(rt; "{name}, KN: {time} us ({sum:?})")?;
        let start = Instant::now(rt)?;
        let widths = widest(table(faces, item));
        let time = start.elapsed(rt)?.as_micros();
        println!(rt; "{name}, levers: {time} us (widest {widths:?})")?;
    }
    Ok(())
}

fn faces_from(alloc: Global, hull: Option<Hull>) -> Option<Faces> {
    faces_of(alloc, &hull?).ok()
}

fn main(rt: HostRuntime) -> io::Result<()> {
    let alloc = rt.alloc();
    match faces_from(alloc, hull_of(alloc, CARGO)) {
        Some(faces) => row(&rt, "cargo ship", &faces, 8380000, CARGO_ITEM)?,
        None => println!(rt; "no cargo ship")?,
    }
    match faces_from(alloc, formula_hull(alloc)) {
        Some(faces) => row(&rt, "64 stations by 32", &faces, 20000000, FORMULA_ITEM)?,
        None => println!(rt; "no hull of 64 stations")?,
    }
    Ok(())
}
