//! The texts of the statements.

use second::sheet::Request;
use std::collections::BTreeSet;

fn columns(count: usize) -> String {
    let names: Vec<String> = (0..count).map(|c| format!("c{c}")).collect();
    names.join(", ")
}

/// A register's table. It is a set of rows.
pub fn table(number: usize, count: usize) -> String {
    let typed: Vec<String> = (0..count)
        .map(|c| format!("c{c} INTEGER NOT NULL"))
        .collect();
    let (typed, names) = (typed.join(", "), columns(count));
    format!("CREATE TABLE r{number} ({typed}, UNIQUE ({names}))")
}

/// All rows deleted.
pub fn clear(number: usize) -> String {
    format!("DELETE FROM r{number}")
}

/// A row put in, unless it stands there.
pub fn insert(number: usize, count: usize) -> String {
    let places = vec!["?"; count].join(", ");
    format!("INSERT OR IGNORE INTO r{number} VALUES ({places})")
}

/// An index on the must-give columns of each rule that has some, first those and then the others,
/// so that the index alone answers. One that begins as the set of all columns does is there already.
pub fn indexes(number: usize, rules: &[Vec<bool>]) -> Vec<String> {
    let mut orders = BTreeSet::new();
    for rule in rules {
        let (must, free): (Vec<usize>, Vec<usize>) = (0..rule.len()).partition(|c| rule[*c]);
        let order = [must, free].concat();
        if !order.is_sorted() {
            orders.insert(order);
        }
    }
    let text = |(place, order): (usize, &Vec<usize>)| {
        let names: Vec<String> = order.iter().map(|c| format!("c{c}")).collect();
        format!(
            "CREATE INDEX r{number}_{place} ON r{number} ({})",
            names.join(", ")
        )
    };
    orders.iter().enumerate().map(text).collect()
}

/// The columns over all look-ups that the variable stands in.
fn stands_in(request: &Request, variable: usize) -> usize {
    let columns = request.lookups.iter().flat_map(|lookup| &lookup.variables);
    columns.filter(|other| **other == variable).count()
}

/// The SELECT over all look-ups: one column a variable, the given ones bound in order. Where a
/// variable stands in more than one column, the first is not 0 and the others are equal to it. A
/// given value is not 0.
pub fn select(request: &Request) -> String {
    let mut shown: Vec<Option<String>> = Vec::new();
    let mut place = 0;
    for given in &request.givens {
        place += usize::from(given.is_some());
        shown.push(given.map(|_| format!("?{place}")));
    }
    let mut from = Vec::new();
    let mut agree = Vec::new();
    for (number, lookup) in request.lookups.iter().enumerate() {
        from.push(format!("r{} AS l{number}", lookup.register));
        for (c, variable) in lookup.variables.iter().enumerate() {
            let column = format!("l{number}.c{c}");
            match &shown[*variable] {
                Some(other) => agree.push(format!("{column} = {other}")),
                None => {
                    if stands_in(request, *variable) > 1 {
                        agree.push(format!("{column} <> 0"));
                    }
                    shown[*variable] = Some(column);
                }
            }
        }
    }
    let shown: Vec<String> = shown.into_iter().flatten().collect();
    let order: Vec<String> = (1..=shown.len()).map(|place| place.to_string()).collect();
    if agree.is_empty() {
        agree.push("1".to_string());
    }
    format!(
        "SELECT DISTINCT {} FROM {} WHERE {} ORDER BY {}",
        shown.join(", "),
        from.join(", "),
        agree.join(" AND "),
        order.join(", ")
    )
}
