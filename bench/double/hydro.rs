//! The hydrostatic table.

use crate::below::{lid, moments, Plane};
use crate::hull::Hull;
use crate::job::Job;

/// A line for each draft of the job.
pub fn lines(hull: &Hull, job: &Job) -> Vec<String> {
    job.drafts.iter().map(|&draft| line(hull, job, draft)).collect()
}

fn line(hull: &Hull, job: &Job, draft: f64) -> String {
    let plane = Plane::upright(draft);
    let (below, lid) = (moments(&hull.faces, &plane), lid(&hull.faces, &plane));
    let (lcf, bmt) = (lid.x / lid.area, lid.yy / below.volume);
    let bml = (lid.xx - lid.area * lcf * lcf) / below.volume;
    let displacement = below.volume * job.density * 1e-12;
    let figures = [
        Some(below.volume * 1e-9),
        Some(displacement),
        Some(below.x / below.volume * 1e-3),
        Some(below.u / below.volume * 1e-3),
        Some(lid.area * 1e-6),
        Some(lcf * 1e-3),
        Some(bmt * 1e-3),
        Some(bml * 1e-3),
        Some((below.u / below.volume + bmt) * 1e-3),
        Some(lid.area * job.density * 1e-11),
        Some(displacement * bml / (100.0 * job.length_bp)),
    ];
    figures.iter().fold(format!("hydro {draft}"), |line, figure| match figure {
        Some(figure) if figure.is_finite() => format!("{line} {figure:.6}"),
        _ => line + " -",
    })
}
