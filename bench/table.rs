//! The one table: a line for each work and size, the best time of each side, and the library's time over each other's.

/// Best times in seconds, of a whole row or of one record.
pub struct Line<'a> {
    pub work: &'a str,
    pub size: &'a str,
    pub library: f64,
    pub rust: f64,
    pub position: Option<f64>,
    pub copy: Option<f64>,
}

pub fn print_head() {
    println!("| {:<34} | {:<9} | {:>8} | {:>8} | {:>5} | {:>10} | {:>5} | {:>8} | {:>5} |", "work", "size", "library", "Rust", "ratio", "position()", "ratio", "copy", "ratio");
    println!("|---|---|---|---|---|---|---|---|---|");
}

impl Line<'_> {
    pub fn print(&self) {
        let [rust, position, copy] = [Some(self.rust), self.position, self.copy].map(|other| against(self.library, other));
        let library = time(self.library);
        println!(
            "| {:<34} | {:<9} | {library:>8} | {:>8} | {:>5} | {:>10} | {:>5} | {:>8} | {:>5} |",
            self.work, self.size, rust.0, rust.1, position.0, position.1, copy.0, copy.1
        );
    }
}

/// A side's time, and the library's over it.
fn against(library: f64, other: Option<f64>) -> (String, String) {
    other.map_or_else(Default::default, |other| (time(other), format!("{:.2}", library / other)))
}

/// Three digits and a unit.
fn time(seconds: f64) -> String {
    let (number, unit) = match seconds {
        s if s < 1e-6 => (s * 1e9, "ns"),
        s if s < 1e-3 => (s * 1e6, "µs"),
        s => (s * 1e3, "ms"),
    };
    let decimals = if number < 10.0 {
        2
    } else if number < 100.0 {
        1
    } else {
        0
    };
    format!("{number:.decimals$} {unit}")
}
