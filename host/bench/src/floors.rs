//! The least that a row's ratio may be: what the forms that the owner names leave of speed is not to be lost by accident.

/// Rows whose name begins so, from so many nodes or rules on. The first that fits counts.
const FLOORS: [(&str, usize, f64); 17] = [
    ("text of formulas", 1024, 6.0),
    ("text, ", 512, 8.0),
    ("free names, deep", 512, 1.0),
    ("free names", 512, 4.0),
    ("substitution by parts, everywhere", 400, 0.7),
    ("substitution by parts", 400, 1.2),
    ("substitution, everywhere", 400, 2.0),
    ("substitution", 400, 4.0),
    ("step, ", 500, 5.0),
    ("reduction, applications at the root", 500, 10.0),
    ("reduction, applications", 500, 150.0),
    ("reduction, case ladder", 500, 150.0),
    ("reduction, let-pairs at the root", 500, 10.0),
    ("reduction, let-pairs", 500, 100.0),
    ("reduction, straight", 500, 40.0),
    ("reduction, ", 500, 10.0),
    ("extraction, ", 100, 1.0),
];

/// The floor of a row, if it has one.
pub fn floor(name: &str, nodes: usize) -> Option<f64> {
    let fits = |(start, least, _): &&(&str, usize, f64)| name.starts_with(start) && *least <= nodes;
    FLOORS.iter().find(fits).map(|(_, _, ratio)| *ratio)
}

/// How many floors there are, and the rows that are below theirs.
#[derive(Default)]
pub struct Held {
    floors: usize,
    below: Vec<String>,
}

impl Held {
    /// Takes a row's ratio in, and answers what stands in its column.
    pub fn column(&mut self, head: &str, floor: Option<f64>, ratio: f64) -> String {
        let Some(floor) = floor else { return String::new() };
        self.floors += 1;
        if ratio < floor {
            self.below.push(head.split_whitespace().collect::<Vec<_>>().join(" "));
        }
        floor.to_string()
    }

    pub fn print(&self) {
        println!("floors: {} of {} held", self.floors - self.below.len(), self.floors);
        for row in &self.below {
            println!("  below its floor: {row}");
        }
    }
}
