//! Righting levers and the criteria.

use crate::below::{lid, moments, Plane};
use crate::cross::floating;
use crate::hull::Hull;
use crate::job::Job;
use crate::root::{Search, GRID};

/// Righting levers and areas under them by the degree, in mm and mm·rad, to one side.
struct Curve {
    levers: Vec<f64>,
    areas: Vec<f64>,
}

/// The line of the ship upright, those of the levers, the marks and the verdict.
pub fn lines(hull: &Hull, job: &Job, search: Search) -> Vec<String> {
    let need = job.displaced(job.load.mass);
    let planes = floating(hull, need, search);
    let below: Vec<_> = planes.iter().map(|plane| moments(&hull.faces, plane)).collect();
    let (kb, bm) = (below[0].u / need, lid(&hull.faces, &planes[0]).yy / need);
    let gm = kb + bm - job.load.z;
    let curves = [1.0, -1.0].map(|side| {
        let (y, z) = (side * job.load.y, job.load.z);
        let separation = |at: usize| planes[at].c * z + planes[at].s * y - below[at].u / need;
        Curve {
            levers: (0..planes.len()).map(|at| below[at].v / need - planes[at].s * z + planes[at].c * y).collect(),
            areas: (0..planes.len()).map(|at| separation(at) - separation(0)).collect(),
        }
    });
    let sides = if job.version == 2 { &curves[..] } else { &curves[..1] };
    let [kb_m, bm_m, gm_m] = [kb, bm, gm].map(|mm| mm * 1e-3);
    let mut lines = vec![format!("upright {:.1} {kb_m:.6} {bm_m:.6} {gm_m:.6}", planes[0].level / GRID)];
    for (at, plane) in planes.iter().enumerate() {
        let line = format!("arm {at} {:.1}", plane.level / GRID);
        lines.push(sides.iter().fold(line, |line, curve| {
            format!("{line} {:.6} {:.6}", curve.levers[at] * 1e-3, curve.areas[at] * 1e-3)
        }));
    }
    lines.extend(judgement(sides, gm, downflooding(&planes, &job.openings)));
    lines
}

// The last degree up to 40 to which no opening is under water.
fn downflooding(planes: &[Plane], openings: &[(f64, f64)]) -> usize {
    let is_wet = |plane: &Plane| openings.iter().any(|(y, z)| plane.level - (plane.c * z - plane.s * y) > 0.0);
    planes[..=40].iter().position(is_wet).map_or(40, |degree| degree.saturating_sub(1))
}

fn judgement(sides: &[Curve], gm: f64, flooded: usize) -> Vec<String> {
    let greatest = |levers: &[f64]| levers.iter().copied().fold(f64::NEG_INFINITY, f64::max);
    let all = |holds: &dyn Fn(&Curve) -> bool| sides.iter().all(holds);
    let holds = [
        all(&|curve| curve.areas[30] >= 55.0),
        all(&|curve| curve.areas[flooded] >= 90.0),
        all(&|curve| flooded >= 30 && curve.areas[flooded] - curve.areas[30] >= 30.0),
        all(&|curve| greatest(&curve.levers[30..]) >= 200.0),
        all(&|curve| greatest(&curve.levers[25..]) >= greatest(&curve.levers[..25])),
        gm >= 150.0,
    ];
    let mark = |(at, holds): (usize, &bool)| format!("mark C{} {}", at + 1, if *holds { "holds" } else { "fails" });
    let mut lines: Vec<_> = holds.iter().enumerate().map(mark).collect();
    lines.push(match holds.iter().position(|holds| !holds) {
        Some(at) => format!("verdict fail C{}", at + 1),
        None => "verdict pass".to_string(),
    });
    lines
}
