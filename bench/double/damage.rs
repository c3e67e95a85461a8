//! The drafts of the damaged ship, by lost buoyancy.

use crate::below::{each_wet, mean, mean_product, values, Plane};
use crate::hull::{area_of, Face, Hull, Node};
use crate::job::{Job, Slab};
use crate::root::{Search, GRID};

// The greatest trim over the ship's length, in mm.
const MOST_TRIM: f64 = 524_288.0;

/// How a ship comes to rest.
pub enum Rest {
    /// On this plane.
    Afloat(Plane),
    /// The volume that is left of the whole hull in mm³ is too small.
    Sinks(f64),
    /// On no trim that is looked at, being down by an end.
    NoStart(&'static str),
}

/// A line for each damage case of the job.
pub fn lines(hull: &Hull, job: &Job, search: Search) -> Vec<String> {
    let line = |(at, slabs): (usize, &Vec<Slab>)| match settle(hull, job, slabs, search) {
        Rest::Afloat(plane) => format!("damage {} {}", at + 1, levels(hull, &plane)),
        Rest::Sinks(left) => format!("damage {} sinks {:.6}", at + 1, left * 1e-9),
        Rest::NoStart(end) => format!("damage {} nostart {end}", at + 1),
    };
    job.cases.iter().enumerate().map(line).collect()
}

/// The levels at the first and the last station, in grid units.
pub fn levels(hull: &Hull, plane: &Plane) -> String {
    let [a, f] = [hull.first_x, hull.last_x].map(|x| plane.level_at(x) / GRID);
    format!("{a:.1} {f:.1}")
}

/// The upright plane at which the load is balanced by what is left where slabs flood: trims are searched for, and at
/// each of them the level at which enough is left.
pub fn settle(hull: &Hull, job: &Job, slabs: &[Slab], search: Search) -> Rest {
    let lost: Vec<Face> = slabs.iter().flat_map(|slab| flooded(hull, slab)).collect();
    let (need, x) = (job.displaced(job.load.mass), job.load.x);
    let whole = left(hull, &lost, &Plane::upright(hull.high_z)).volume;
    if whole < need {
        return Rest::Sinks(whole);
    }
    let mut middle = (hull.low_z + hull.high_z) / 2.0;
    let mut plane_of = |trim: f64| {
        let half = trim.abs() / 2.0;
        middle = search.root(hull.low_z - half, hull.high_z + half, middle, |middle| {
            let left = left(hull, &lost, &Plane::trimmed(hull, middle, trim));
            (left.volume - need, left.area)
        });
        Plane::trimmed(hull, middle, trim)
    };
    let mut moment = |trim: f64| {
        let left = left(hull, &lost, &plane_of(trim));
        (left.x - left.volume * x, (left.plane_xx - left.plane_x * left.plane_x / left.area) / hull.length())
    };
    for (end, trim) in [("fore", MOST_TRIM), ("aft", -MOST_TRIM)] {
        if moment(trim).0 * trim < 0.0 {
            return Rest::NoStart(end);
        }
    }
    let trim = search.root(-MOST_TRIM, MOST_TRIM, 0.0, moment);
    Rest::Afloat(plane_of(trim))
}

/// What is left below a plane: the volume and the integral of x; the waterplane's area and its integrals of x and x².
#[derive(Default)]
struct Left {
    volume: f64,
    x: f64,
    area: f64,
    plane_x: f64,
    plane_xx: f64,
}

fn left(hull: &Hull, lost: &[Face], plane: &Plane) -> Left {
    let mut sums = Left::default();
    for faces in [&hull.faces[..], lost] {
        each_wet(faces, plane, |seen, corners| {
            let (x, depth) = (values(corners, |corner| corner.x), values(corners, |corner| corner.h));
            sums.volume += seen * mean(depth);
            sums.x += seen * mean_product(x, depth);
            sums.area += seen;
            sums.plane_x += seen * mean(x);
            sums.plane_xx += seen * mean_product(x, x);
        });
    }
    sums
}

// The parts of the hull's faces that lie in a slab, turned round and with their areas taken times the permeability.
fn flooded(hull: &Hull, slab: &Slab) -> Vec<Face> {
    let mut faces = Vec::new();
    for face in &hull.faces {
        let part = clipped(clipped(face.corners.to_vec(), |x| x - slab.aft), |x| slab.fore - x);
        for at in 2..part.len() {
            let corners = [part[0], part[at - 1], part[at]];
            let along: f64 = area_of(&corners).iter().zip(face.area).map(|(p, q)| p * q).sum();
            let sign = if along < 0.0 { 1.0 } else { -1.0 };
            faces.push(Face { corners, area: area_of(&corners).map(|part| sign * slab.permeability * part) });
        }
    }
    faces
}

// The part of a polygon on which a linear function of x is at least 0.
fn clipped(corners: Vec<Node>, inside: impl Fn(f64) -> f64) -> Vec<Node> {
    let mut kept = Vec::new();
    for (at, p) in corners.iter().enumerate() {
        let q = corners[(at + 1) % corners.len()];
        let (from, to) = (inside(p[0]), inside(q[0]));
        if from >= 0.0 {
            kept.push(*p);
        }
        if from * to < 0.0 {
            let part = from / (from - to);
            kept.push([0, 1, 2].map(|axis| p[axis] + (q[axis] - p[axis]) * part));
        }
    }
    kept
}
