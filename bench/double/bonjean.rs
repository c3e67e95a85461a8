//! The Bonjean curves.

use crate::hull::Hull;
use crate::job::Job;
use crate::offsets::Station;

/// A line for each station at each draft of the job.
pub fn lines(hull: &Hull, job: &Job) -> Vec<String> {
    let at = |draft| hull.stations.iter().enumerate().map(move |(number, station)| line(number, station, draft));
    job.drafts.iter().flat_map(|&draft| at(draft)).collect()
}

fn line(number: usize, station: &Station, draft: f64) -> String {
    let (area, moment) = section(station, draft);
    format!("section {number} {} {draft} {:.6} {:.9}", station.x, area * 1e-6, moment * 1e-9)
}

// The area below a draft, both sides, in mm², and its moment about the base in mm³.
fn section(station: &Station, draft: f64) -> (f64, f64) {
    let (mut area, mut moment) = (0.0, 0.0);
    for pair in station.points.windows(2).take_while(|pair| pair[0].1 < draft) {
        let [(y, z), (next_y, next_z)] = [pair[0], pair[1]];
        let top = next_z.min(draft);
        let top_y = y + (next_y - y) * (top - z) / (next_z - z);
        area += (y + top_y) * (top - z);
        moment += (top - z) * (2.0 * (y * z + top_y * top) + y * top + top_y * z) / 3.0;
    }
    (area, moment)
}
