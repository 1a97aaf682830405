//! The crates that the library is made of, by the list that says what each depends on.

use std::collections::HashMap;

/// A crate and the crates that it may name.
pub struct Crate {
    pub name: String,
    pub depends_on: Vec<String>,
}

/// The crate `top` and all that it needs, lowest first as in the list.
pub fn needed(list: &str, top: &str) -> Result<Vec<Crate>, String> {
    let crates = listed(list)?;
    let by_name: HashMap<&str, &Vec<String>> = crates.iter().map(|c| (c.name.as_str(), &c.depends_on)).collect();
    let mut wanted = vec![top.to_string()];
    let mut at = 0;
    while at < wanted.len() {
        let depends_on = by_name.get(wanted[at].as_str()).ok_or_else(|| format!("{}: no crate of the list", wanted[at]))?;
        for name in depends_on.iter() {
            if !wanted.contains(name) {
                wanted.push(name.clone());
            }
        }
        at += 1;
    }
    Ok(crates.into_iter().filter(|c| wanted.contains(&c.name)).collect())
}

/// A line for each crate, `NAME: DEP DEP ..`, with its kind behind the name where it is no library that others name; `#` starts a comment.
fn listed(list: &str) -> Result<Vec<Crate>, String> {
    let mut crates = Vec::new();
    for line in list.lines().map(|line| line.split('#').next().unwrap_or("").trim()) {
        if line.is_empty() {
            continue;
        }
        let (name, depends_on) = line.split_once(':').ok_or_else(|| format!("`{line}`: no line of a crate"))?;
        let name = name.split_whitespace().next().unwrap_or("");
        let depends_on = depends_on.split_whitespace().map(str::to_string).collect();
        crates.push(Crate { name: name.to_string(), depends_on });
    }
    Ok(crates)
}

#[cfg(test)]
mod tests {
    use super::needed;

    const LIST: &str = "# lowest first\na:\nb: a   # above\nother: a io\ntop: b\ntop_c staticlib: top\n";

    #[test]
    fn only_what_is_needed_in_the_order_of_the_list() {
        let names: Vec<String> = needed(LIST, "top").unwrap().into_iter().map(|c| c.name).collect();
        assert_eq!(names, ["a", "b", "top"]);
        assert_eq!(needed(LIST, "top_c").unwrap().len(), 4);
    }

    #[test]
    fn a_crate_that_is_not_listed_is_a_fault() {
        assert!(needed(LIST, "other").is_err_and(|fault| fault.starts_with("io")));
        assert!(needed("a b", "a").is_err());
    }
}
