//! The job file: as much of TOML as jobs are written in, which is keys, tables, whole numbers, names and lists of them.

use std::collections::HashMap;

/// A part of the ship from one x to another in mm, and its permeability from 0 to 1.
#[derive(Clone, Copy)]
pub struct Slab {
    pub aft: f64,
    pub fore: f64,
    pub permeability: f64,
}

/// The lengths of the floodable table, in mm.
pub struct Plan {
    pub centres: Vec<f64>,
    pub step: f64,
    pub permeability: f64,
}

/// The mass in kg and its centre in mm, free surfaces in its height.
pub struct Load {
    pub mass: f64,
    pub x: f64,
    pub y: f64,
    pub z: f64,
}

pub struct Job {
    pub version: u32,
    pub density: f64,
    pub length_bp: f64,
    pub margin: f64,
    pub drafts: Vec<f64>,
    pub displacements: Vec<f64>,
    pub load: Load,
    /// y and z of each.
    pub openings: Vec<(f64, f64)>,
    pub cases: Vec<Vec<Slab>>,
    pub plan: Option<Plan>,
}

impl Job {
    pub fn of(text: &str) -> Job {
        let tables = tables_of(text);
        let all = |name: &str| tables.iter().filter(move |table| table.name == name).collect::<Vec<_>>();
        let top = &tables[0];
        let compartments = all("compartment");
        let slabs: HashMap<_, _> = compartments.iter().map(|table| (table.words("name")[0], table.slab())).collect();
        let flooded = |case: &&Table| case.words("flooded").iter().map(|name| slabs[name]).collect();
        Job {
            version: top.number("version", 1.0) as u32,
            density: top.number("density", 0.0),
            length_bp: top.number("length_bp", 0.0),
            margin: top.number("margin", 76.0),
            drafts: top.numbers("drafts"),
            displacements: top.numbers("displacements"),
            load: load_of(&all("item")),
            openings: all("opening").iter().map(|one| (one.number("y", 0.0), one.number("z", 0.0))).collect(),
            cases: all("damage").iter().map(flooded).collect(),
            plan: all("floodable").first().map(|table| table.plan()),
        }
    }

    /// The volume in mm³ of the water that a mass displaces.
    pub fn displaced(&self, mass: f64) -> f64 {
        mass * 1e9 / self.density
    }
}

// The table of a heading, or the keys above the first one; values as they stand in the file.
struct Table<'a> {
    name: &'a str,
    values: HashMap<&'a str, String>,
}

impl Table<'_> {
    fn words(&self, key: &str) -> Vec<&str> {
        let value = self.values.get(key).map_or("", |value| value);
        value.split(|part| "[], \"".contains(part)).filter(|word| !word.is_empty()).collect()
    }

    fn numbers(&self, key: &str) -> Vec<f64> {
        self.words(key).iter().map(|word| word.replace('_', "").parse().expect("a number")).collect()
    }

    fn number(&self, key: &str, default: f64) -> f64 {
        self.numbers(key).first().copied().unwrap_or(default)
    }

    fn slab(&self) -> Slab {
        Slab {
            aft: self.number("from", 0.0),
            fore: self.number("to", 0.0),
            permeability: self.number("permeability", 0.0) / 1000.0,
        }
    }

    fn plan(&self) -> Plan {
        Plan {
            centres: self.numbers("centres"),
            step: self.number("step", 0.0),
            permeability: self.number("permeability", 0.0) / 1000.0,
        }
    }
}

fn tables_of(text: &str) -> Vec<Table<'_>> {
    let mut tables = vec![Table { name: "", values: HashMap::new() }];
    let mut key = "";
    for line in text.lines().map(|line| line.split('#').next().unwrap_or("").trim()) {
        let table = tables.last_mut().expect("one at least");
        if let Some((name, value)) = line.split_once('=') {
            key = name.trim();
            table.values.insert(key, value.to_string());
        } else if let Some(value) = table.values.get_mut(key).filter(|value| is_open(value)) {
            value.push_str(line);
        } else if line.starts_with('[') {
            tables.push(Table { name: line.trim_matches(|part| "[] ".contains(part)), values: HashMap::new() });
        }
    }
    tables
}

// Whether a list goes on in the next line.
fn is_open(value: &str) -> bool {
    value.contains('[') && !value.contains(']')
}

fn load_of(items: &[&Table]) -> Load {
    let of = |item: &Table, key| item.number(key, 0.0);
    let mass: f64 = items.iter().map(|item| of(item, "mass")).sum();
    let moment = |axis| items.iter().map(|item| of(item, "mass") * of(item, axis)).sum::<f64>();
    let free: f64 = items.iter().map(|item| of(item, "free_surface")).sum();
    Load { mass, x: moment("x") / mass, y: moment("y") / mass, z: (moment("z") + 1000.0 * free) / mass }
}
