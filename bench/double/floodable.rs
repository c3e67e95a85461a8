//! Floodable lengths.

use crate::below::Plane;
use crate::damage::{levels, settle, Rest};
use crate::hull::Hull;
use crate::job::{Job, Plan, Slab};
use crate::root::Search;

/// A length that is safe, with its plane, or why it isn't.
type Weighed = Result<Plane, String>;

/// A safe and a next line for each centre of the job's plan.
pub fn lines(hull: &Hull, job: &Job, search: Search) -> Vec<String> {
    let lines = |plan: &Plan| {
        plan.centres.iter().flat_map(|&centre| reach(hull, job, plan, centre, search)).collect()
    };
    job.plan.as_ref().map_or(Vec::new(), lines)
}

// Halves between no length and the first one that reaches past an end.
fn reach(hull: &Hull, job: &Job, plan: &Plan, centre: f64, search: Search) -> [String; 2] {
    let slab = |steps: f64| {
        let half = steps * plan.step / 2.0;
        Slab { aft: centre - half, fore: centre + half, permeability: plan.permeability }
    };
    let mut at = match weigh(hull, job, &[], search) {
        Ok(plane) => plane,
        Err(reason) => return [format!("safe {centre} -"), format!("next {centre} 0 {reason}")],
    };
    let room = (centre - hull.first_x).min(hull.last_x - centre);
    let (mut safe, mut next) = (0.0, ((room / (plan.step / 2.0)).floor() + 1.0).max(1.0));
    let mut reason = "endofship".to_string();
    while next - safe > 1.0 {
        let middle = ((safe + next) / 2.0_f64).floor();
        match weigh(hull, job, &[slab(middle)], search) {
            Ok(plane) => (safe, at) = (middle, plane),
            Err(found) => (next, reason) = (middle, found),
        }
    }
    [
        format!("safe {centre} {} {}", safe * plan.step, levels(hull, &at)),
        format!("next {centre} {} {reason}", next * plan.step),
    ]
}

fn weigh(hull: &Hull, job: &Job, slabs: &[Slab], search: Search) -> Weighed {
    let plane = match settle(hull, job, slabs, search) {
        Rest::Afloat(plane) => plane,
        Rest::Sinks(_) => return Err("sinks".to_string()),
        Rest::NoStart(_) => return Err("nostart".to_string()),
    };
    let is_under = |x: f64, top: f64| plane.level_at(x) > top - job.margin;
    match hull.stations.iter().position(|station| is_under(station.x, station.top().1)) {
        Some(station) => Err(format!("over {station} {}", levels(hull, &plane))),
        None => Ok(plane),
    }
}
