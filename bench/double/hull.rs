//! The hull as the faces of its boundary.

use crate::offsets::Station;

/// x, y and z in mm.
pub type Node = [f64; 3];

/// A triangle of the boundary, and its area vector: half as long as the product of two sides, outwards, in mm².
///
/// That of a face of a flooded slab is taken times the permeability, and points inwards.
pub struct Face {
    pub corners: [Node; 3],
    pub area: Node,
}

pub struct Hull {
    pub stations: Vec<Station>,
    pub faces: Vec<Face>,
    pub first_x: f64,
    pub last_x: f64,
    pub low_z: f64,
    pub high_z: f64,
    pub half_breadth: f64,
}

impl Hull {
    pub fn of(stations: Vec<Station>) -> Hull {
        let faces = stations.windows(2).flat_map(|pair| strip(&pair[0], &pair[1])).collect();
        let points = || stations.iter().flat_map(|station| &station.points);
        Hull {
            faces,
            first_x: stations[0].x,
            last_x: stations[stations.len() - 1].x,
            low_z: points().fold(f64::INFINITY, |least, point| least.min(point.1)),
            high_z: points().fold(0.0, |most, point| point.1.max(most)),
            half_breadth: points().fold(0.0, |most, point| point.0.max(most)),
            stations,
        }
    }

    pub fn length(&self) -> f64 {
        self.last_x - self.first_x
    }

    pub fn points(&self) -> usize {
        self.stations.iter().map(|station| station.points.len()).sum()
    }
}

/// The area vector of a triangle.
pub fn area_of([a, b, c]: &[Node; 3]) -> Node {
    let [p, q] = [b, c].map(|end| [end[0] - a[0], end[1] - a[1], end[2] - a[2]]);
    let product = [p[1] * q[2] - p[2] * q[1], p[2] * q[0] - p[0] * q[2], p[0] * q[1] - p[1] * q[0]];
    product.map(|twice| twice / 2.0)
}

// The faces between two stations: both sides, bottom and deck. The ends, seen edge-on from above, count in no sum.
fn strip(aft: &Station, fore: &Station) -> Vec<Face> {
    let mut faces = Vec::new();
    for side in zipper(aft, fore) {
        faces.push(facing(side, [0.0, 1.0, 0.0]));
        faces.push(facing(side.map(mirrored), [0.0, -1.0, 0.0]));
    }
    for (a, b, way) in [(aft.low(), fore.low(), -1.0), (aft.top(), fore.top(), 1.0)] {
        let (a, b) = ([aft.x, a.0, a.1], [fore.x, b.0, b.1]);
        faces.push(facing([a, mirrored(a), b], [0.0, 0.0, way]));
        faces.push(facing([b, mirrored(a), mirrored(b)], [0.0, 0.0, way]));
    }
    faces.retain(|face| face.area[1] != 0.0 || face.area[2] != 0.0);
    faces
}

// The triangles of one side: the next one advances on the station whose next point is lower, else on the aft one.
fn zipper(aft: &Station, fore: &Station) -> Vec<[Node; 3]> {
    let at = |station: &Station, i: usize| [station.x, station.points[i].0, station.points[i].1];
    let (mut i, mut j, mut triangles) = (0, 0, Vec::new());
    while i + 1 < aft.points.len() || j + 1 < fore.points.len() {
        let is_aft = match (aft.points.get(i + 1), fore.points.get(j + 1)) {
            (Some(a), Some(b)) => a.1 <= b.1,
            (next, _) => next.is_some(),
        };
        let (next_i, next_j) = if is_aft { (i + 1, j) } else { (i, j + 1) };
        let next = if is_aft { at(aft, next_i) } else { at(fore, next_j) };
        triangles.push([at(aft, i), at(fore, j), next]);
        i = next_i;
        j = next_j;
    }
    triangles
}

fn mirrored([x, y, z]: Node) -> Node {
    [x, -y, z]
}

// The face of a triangle, turned so that its area vector points to a side.
fn facing(corners: [Node; 3], side: Node) -> Face {
    let area = area_of(&corners);
    let along: f64 = area.iter().zip(side).map(|(p, q)| p * q).sum();
    Face { corners, area: area.map(|part| if along < 0.0 { -part } else { part }) }
}
