//! What differs between two results.

/// The place of the first difference.
pub fn difference<T: PartialEq + std::fmt::Debug>(what: &str, ours: &[T], theirs: &[T]) -> String {
    if ours.len() != theirs.len() {
        return format!("{what}: {} against {} places", ours.len(), theirs.len());
    }
    for (place, (a, b)) in ours.iter().zip(theirs).enumerate() {
        if a != b {
            return format!("{what}: place {place} is {a:?} against {b:?}");
        }
    }
    String::new()
}

/// `Ok` where nothing differs.
pub fn agree(mut found: Vec<String>) -> Result<(), String> {
    found.retain(|text| !text.is_empty());
    match found[..] {
        [] => Ok(()),
        _ => Err(found.join("; ")),
    }
}
