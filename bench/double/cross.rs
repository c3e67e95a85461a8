//! The cross curves.

use crate::below::{moments, volume, Plane};
use crate::hull::Hull;
use crate::job::Job;
use crate::root::{Search, GRID};

/// A line for each degree from 0 to 90 at each displacement of the job.
pub fn lines(hull: &Hull, job: &Job, search: Search) -> Vec<String> {
    job.displacements.iter().flat_map(|&mass| curve(hull, mass, job.displaced(mass), search)).collect()
}

fn curve(hull: &Hull, mass: f64, need: f64, search: Search) -> Vec<String> {
    let line = |(degree, plane): (usize, Plane)| {
        let kn = moments(&hull.faces, &plane).v / need;
        format!("cross {mass} {degree} {:.1} {:.6}", plane.level / GRID, kn * 1e-3)
    };
    floating(hull, need, search).into_iter().enumerate().map(line).collect()
}

/// The level planes at which the hull displaces a volume, at each degree from 0 to 90.
pub fn floating(hull: &Hull, need: f64, search: Search) -> Vec<Plane> {
    let mut level = hull.high_z / 2.0;
    let mut float_at = |degree: i32| {
        let (s, c) = f64::from(degree).to_radians().sin_cos();
        let plane = |level| Plane { c, s, level, rise: 0.0 };
        level = search.root(-hull.half_breadth, hull.high_z + hull.half_breadth, level, |level| {
            let (volume, area) = volume(&hull.faces, &plane(level));
            (volume - need, area)
        });
        plane(level)
    };
    (0..=90).map(|degree| float_at(degree)).collect()
}
