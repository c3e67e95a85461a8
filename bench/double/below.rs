//! What lies below a waterplane, summed face by face: each carries the column that stands over its wet part.

use crate::hull::{Face, Hull, Node};

/// A waterplane: the cosine and the sine of the heel, the level at x = 0 in mm, and its rise for each mm of x.
#[derive(Clone, Copy)]
pub struct Plane {
    pub c: f64,
    pub s: f64,
    pub level: f64,
    pub rise: f64,
}

impl Plane {
    pub fn upright(level: f64) -> Plane {
        Plane { c: 1.0, s: 0.0, level, rise: 0.0 }
    }

    /// The upright plane of a level at mid-length and a trim: how much higher the level is at the last station.
    pub fn trimmed(hull: &Hull, middle: f64, trim: f64) -> Plane {
        let rise = trim / hull.length();
        Plane { level: middle - rise * (hull.first_x + hull.last_x) / 2.0, rise, ..Plane::upright(0.0) }
    }

    pub fn level_at(&self, x: f64) -> f64 {
        self.level + self.rise * x
    }

    // The area of a face as it is seen along the height, above 0 where water stands over it.
    fn seen(&self, face: &Face) -> f64 {
        -(self.s * face.area[1] + self.c * face.area[2])
    }

    fn corner(&self, [x, y, z]: Node) -> Corner {
        let u = self.c * z + self.s * y;
        Corner { x, u, v: self.s * z - self.c * y, h: self.level_at(x) - u }
    }
}

/// A corner as a waterplane sees it: x, the height, the distance to the low side, and the depth.
#[derive(Clone, Copy)]
pub struct Corner {
    pub x: f64,
    pub u: f64,
    pub v: f64,
    pub h: f64,
}

type Corners = [Corner; 3];

/// Hands over the seen area and the corners of each triangle that is wet.
pub fn each_wet(faces: &[Face], plane: &Plane, mut take: impl FnMut(f64, &Corners)) {
    for face in faces {
        let corners = face.corners.map(|node| plane.corner(node));
        match corners.iter().filter(|corner| corner.h > 0.0).count() {
            0 => {}
            3 => take(plane.seen(face), &corners),
            wet => cut(plane.seen(face), corners, wet == 1, &mut take),
        }
    }
}

// A triangle of which one corner is alone on its side of the plane: wet where that is so, else dry.
fn cut(seen: f64, corners: Corners, is_wet: bool, take: &mut impl FnMut(f64, &Corners)) {
    let alone = corners.iter().position(|corner| (corner.h > 0.0) == is_wet).unwrap_or(0);
    let [p, q, r] = [corners[alone], corners[(alone + 1) % 3], corners[(alone + 2) % 3]];
    let (to_q, to_r) = (p.h / (p.h - q.h), p.h / (p.h - r.h));
    let (at_q, at_r) = (between(p, q, to_q), between(p, r, to_r));
    if is_wet {
        take(seen * to_q * to_r, &[p, at_q, at_r]);
    } else {
        take(seen * (1.0 - to_q), &[at_q, q, r]);
        take(seen * to_q * (1.0 - to_r), &[at_q, r, at_r]);
    }
}

fn between(p: Corner, q: Corner, part: f64) -> Corner {
    let mix = |a: f64, b: f64| a + (b - a) * part;
    Corner { x: mix(p.x, q.x), u: mix(p.u, q.u), v: mix(p.v, q.v), h: mix(p.h, q.h) }
}

/// The values of a linear function at the corners.
pub fn values(corners: &Corners, f: impl Fn(&Corner) -> f64) -> [f64; 3] {
    [f(&corners[0]), f(&corners[1]), f(&corners[2])]
}

/// The mean over a triangle of a linear function.
pub fn mean(f: [f64; 3]) -> f64 {
    (f[0] + f[1] + f[2]) / 3.0
}

/// The mean over a triangle of the product of two linear functions.
pub fn mean_product(f: [f64; 3], g: [f64; 3]) -> f64 {
    (f[0] * g[0] + f[1] * g[1] + f[2] * g[2] + 9.0 * mean(f) * mean(g)) / 12.0
}

/// The volume below a plane in mm³, and by how much it rises with the level: the area of the waterplane in mm².
pub fn volume(faces: &[Face], plane: &Plane) -> (f64, f64) {
    let (mut volume, mut area) = (0.0, 0.0);
    each_wet(faces, plane, |seen, corners| {
        volume += seen * mean(values(corners, |corner| corner.h));
        area += seen;
    });
    (volume, area)
}

/// The volume below a plane, and the integrals of x, of the distance to the low side and of the height, in mm⁴.
#[derive(Default)]
pub struct Moments {
    pub volume: f64,
    pub x: f64,
    pub v: f64,
    pub u: f64,
}

pub fn moments(faces: &[Face], plane: &Plane) -> Moments {
    let mut sums = Moments::default();
    each_wet(faces, plane, |seen, corners| {
        let depth = values(corners, |corner| corner.h);
        sums.volume += seen * mean(depth);
        sums.x += seen * mean_product(values(corners, |corner| corner.x), depth);
        sums.v += seen * mean_product(values(corners, |corner| corner.v), depth);
        sums.u += seen * mean_product(values(corners, |corner| corner.u + corner.h / 2.0), depth);
    });
    sums
}

/// The area of an upright waterplane, and the integrals of x, y² and x² over it.
#[derive(Default)]
pub struct Lid {
    pub area: f64,
    pub x: f64,
    pub yy: f64,
    pub xx: f64,
}

pub fn lid(faces: &[Face], plane: &Plane) -> Lid {
    let mut sums = Lid::default();
    each_wet(faces, plane, |seen, corners| {
        let (x, y) = (values(corners, |corner| corner.x), values(corners, |corner| corner.v));
        sums.area += seen;
        sums.x += seen * mean(x);
        sums.yy += seen * mean_product(y, y);
        sums.xx += seen * mean_product(x, x);
    });
    sums
}
