//! Lines of figures.

/// A number, if there is one.
pub fn cell(number: Option<f64>, places: usize) -> String {
    number.map_or(String::from("-"), |x| format!("{x:.places$}"))
}

/// Nanoseconds as microseconds.
pub fn us(ns: Option<f64>) -> String {
    cell(ns.map(|x| x / 1000.0), 2)
}

pub fn ratio(number: Option<f64>) -> String {
    cell(number, 2)
}

pub fn line(name: &str, cells: &[String]) {
    let cells: String = cells.iter().map(|cell| format!(" {cell:>10}")).collect();
    println!("{name:<36}{cells}");
}

pub fn head(name: &str, columns: &[&str]) {
    println!();
    let columns: Vec<String> = columns.iter().map(|column| column.to_string()).collect();
    line(name, &columns);
}
