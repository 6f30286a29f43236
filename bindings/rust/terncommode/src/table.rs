//! The lines of a table's text, which was checked before.

pub(crate) const HEAD: &str = "baggage table 1\n";

/// The line of a field.
pub(crate) struct Line<'t> {
    /// With its line feed.
    pub text: &'t str,
    pub depth: usize,
    /// The names on the way to it; none inside the values of a map.
    pub path: Option<String>,
    pub is_bag: bool,
}

/// The lines after the head.
pub(crate) fn lines_of(table: &str) -> Vec<Line<'_>> {
    let mut names: Vec<&str> = Vec::new();
    let mut map_depth = None; // of the outermost map that is open
    let fields = table.split_inclusive('\n').skip(1);
    fields
        .map(|text| {
            let mut words = text.trim_end_matches('\n').splitn(4, ' ');
            let mut word = || words.next().expect("a checked table has four words a line");
            let depth: usize = word().parse().expect("a checked table has depths");
            let (_number, name, shape) = (word(), word(), word());
            if map_depth.is_some_and(|map| depth <= map) {
                map_depth = None;
            }
            names.truncate(depth);
            names.push(name);
            let path = map_depth.is_none().then(|| names.join("."));
            if map_depth.is_none() && shape.starts_with("map ") {
                map_depth = Some(depth);
            }
            Line { text, depth, path, is_bag: shape == "bag" }
        })
        .collect()
}

/// Each slot by itself: its path, and the table that has it alone.
pub(crate) fn alone(table: &str) -> Vec<(String, String)> {
    let mut found: Vec<(String, String)> = Vec::new();
    let mut bags: Vec<&str> = Vec::new(); // that are open
    for line in lines_of(table) {
        bags.truncate(line.depth);
        match line.path {
            Some(_) if line.is_bag => bags.push(line.text),
            Some(path) => found.push((path, [HEAD, &bags.concat(), line.text].concat())),
            None => found.last_mut().expect("what is inside of a map stands after it").1 += line.text,
        }
    }
    found
}

/// The numbers on the way to the one counter of a table; none where the table has anything else at this path.
pub(crate) fn counter_of(alone: &str, path: &str) -> Option<String> {
    let lines = lines_of(alone);
    let is_counter = lines.last().is_some_and(|last| last.path.as_deref() == Some(path) && last.text.ends_with(" counter\n"));
    let numbers: Vec<&str> = lines.iter().filter_map(|line| line.text.split(' ').nth(1)).collect();
    is_counter.then(|| numbers.join("."))
}

/// The excerpt of the fields at these paths, or the first path that is no field's.
pub(crate) fn excerpt<'p>(table: &str, paths: &[&'p str]) -> Result<String, &'p str> {
    let lines = lines_of(table);
    let mut kept = vec![false; lines.len()];
    for path in paths {
        let mut found = false;
        let mut is_below = false; // what stands inside a map goes with the map
        for (line, keep) in lines.iter().zip(&mut kept) {
            if let Some(at) = &line.path {
                found |= at == path;
                is_below = is_at_or_below(at, path);
                *keep |= line.is_bag && is_at_or_below(path, at);
            }
            *keep |= is_below;
        }
        if !found {
            return Err(*path);
        }
    }
    let left = lines.iter().zip(&kept).filter(|(_, keep)| **keep).map(|(line, _)| line.text);
    Ok(std::iter::once(HEAD).chain(left).collect())
}

fn is_at_or_below(path: &str, top: &str) -> bool {
    path.strip_prefix(top).is_some_and(|rest| rest.is_empty() || rest.starts_with('.'))
}
