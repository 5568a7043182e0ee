//! "Did you mean": the name that one was probably meant to be.

/// The candidate with the fewest edits from a name, if they are few for its length; the first of those that tie.
pub fn nearest<'a>(name: &str, candidates: impl IntoIterator<Item = &'a str>) -> Option<&'a str> {
    let most = (name.chars().count() / 3).max(1);
    let near = |candidate: &'a str| (edits(name, candidate), candidate);
    let found = candidates.into_iter().map(near).min_by_key(|(edits, _)| *edits)?;
    (1..=most).contains(&found.0).then_some(found.1)
}

/// How many characters have to be put in, left out, replaced or swapped with the next one to come from one text to the
/// other (each place edited once).
fn edits(a: &str, b: &str) -> usize {
    let [a, b] = [a, b].map(|text| text.chars().collect::<Vec<char>>());
    let mut before: Vec<usize> = vec![];
    let mut last: Vec<usize> = (0..=b.len()).collect();
    for i in 1..=a.len() {
        let mut row = vec![i];
        for j in 1..=b.len() {
            let replaced = last[j - 1] + usize::from(a[i - 1] != b[j - 1]);
            let mut least = replaced.min(last[j] + 1).min(row[j - 1] + 1);
            if i > 1 && j > 1 && a[i - 1] == b[j - 2] && a[i - 2] == b[j - 1] {
                least = least.min(before[j - 2] + 1);
            }
            row.push(least);
        }
        before = std::mem::replace(&mut last, row);
    }
    last[b.len()]
}

#[cfg(test)]
mod tests {
    use super::*;

    #[test]
    fn edits_are_counted() {
        let of = |a, b, n| assert_eq!((edits(a, b), edits(b, a)), (n, n), "{a} {b}");
        of("", "", 0);
        of("", "abc", 3);
        of("kitten", "sitting", 3);
        of("seen", "sene", 1);
        of("Küche", "Kuche", 1);
    }

    #[test]
    fn what_is_far_is_not_meant() {
        let names = ["seen", "unseen", "still", "d"];
        let nearest = |name| nearest(name, names);
        assert_eq!(nearest("sen"), Some("seen"));
        assert_eq!(nearest("unsene"), Some("unseen"));
        assert_eq!(nearest("seen"), None, "it is there already");
        assert_eq!(nearest("nothing"), None);
        assert_eq!(nearest("e"), Some("d"));
        assert_eq!(super::nearest("x", []), None);
    }
}
