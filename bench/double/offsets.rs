//! The offset file: rows of x, half-breadth and height, in mm.

/// x in mm, and the points as (half-breadth, height) from the lowest to the highest.
pub struct Station {
    pub x: f64,
    pub points: Vec<(f64, f64)>,
}

impl Station {
    /// The lowest point.
    pub fn low(&self) -> (f64, f64) {
        self.points[0]
    }

    /// The highest point.
    pub fn top(&self) -> (f64, f64) {
        self.points[self.points.len() - 1]
    }
}

/// The stations of an offset file from aft to fore.
pub fn stations(text: &str) -> Vec<Station> {
    let mut stations: Vec<Station> = Vec::new();
    for row in text.lines().filter(|row| !row.trim().is_empty()) {
        let fields: Vec<f64> = row.split(',').map(|field| field.trim().parse().expect("a number")).collect();
        let (x, point) = (fields[0], (fields[1], fields[2]));
        match stations.last_mut() {
            Some(station) if station.x == x => station.points.push(point),
            _ => stations.push(Station { x, points: vec![point] }),
        }
    }
    stations.iter_mut().for_each(|station| keep(&mut station.points));
    stations
}

// A flat bottom keeps its outer point, and so does a deck.
fn keep(points: &mut Vec<(f64, f64)>) {
    while points.len() > 1 && points[0].1 == points[1].1 {
        points.remove(0);
    }
    while points.len() > 1 && points[points.len() - 1].1 == points[points.len() - 2].1 {
        points.pop();
    }
}
