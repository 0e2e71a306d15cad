//! The printed tables.

use crate::contenders::NAMES;

/// One figure per contender that took part.
pub type Figures = [Option<f64>; NAMES.len()];

/// The ratios that are shown, by the places of the contenders.
const RATIOS: [(usize, usize); 4] = [(0, 1), (0, 3), (0, 4), (0, 2)];

/// The heads of the columns: the contenders, and then the ratios.
fn heads() -> Vec<String> {
    let ratio = |(over, under): (usize, usize)| format!("{}/{}", NAMES[over], NAMES[under]);
    [&NAMES.map(String::from)[..], &RATIOS.map(ratio)].concat()
}

/// Prints a line. A column is as wide as its head, and at least 12 wide.
fn print(name: &str, cells: &[String]) {
    print!("{name:<54}");
    for (head, cell) in heads().iter().zip(cells) {
        print!(" {cell:>0$}", head.len().max(12));
    }
    println!();
}

/// The line above a table.
pub fn head(what: &str) {
    print(what, &heads());
}

/// A line of a table. A contender that did not take part has a dash.
pub fn line(name: &str, figures: &Figures) {
    let cell = |figure: Option<f64>, digits: usize| {
        figure.map_or("-".to_string(), |figure| format!("{figure:.digits$}"))
    };
    let ratio = |(over, under): (usize, usize)| {
        let ratio = figures[over].zip(figures[under]).map(|(a, b)| a / b);
        cell(ratio, 3)
    };
    let figures = figures.map(|figure| cell(figure, 0));
    print(name, &[&figures[..], &RATIOS.map(ratio)].concat());
}
