//! Which known word a mistyped one was probably meant to be.

/// The nearest of the known words, if it is near enough to be worth a suggestion.
pub fn nearest<'a>(word: &str, known: impl Iterator<Item = &'a str>) -> Option<&'a str> {
    let far = 1 + word.len() / 3;
    known.map(|k| (distance(word, k), k)).filter(|&(d, _)| d <= far).min().map(|(_, k)| k)
}

/// How many letters have to be put in, taken out or replaced to make one word the other.
fn distance(a: &str, b: &str) -> usize {
    let mut row: Vec<usize> = (0..=b.len()).collect();
    for (i, x) in a.bytes().enumerate() {
        let mut diagonal = row[0];
        row[0] = i + 1;
        for (j, y) in b.bytes().enumerate() {
            let replaced = diagonal + usize::from(x != y);
            diagonal = row[j + 1];
            row[j + 1] = replaced.min(row[j] + 1).min(diagonal + 1);
        }
    }
    row[b.len()]
}

#[cfg(test)]
mod tests {
    use super::*;

    #[test]
    fn distances() {
        for (a, b, d) in [("rows", "rows", 0), ("", "eta", 3), ("roes", "rows", 1), ("row", "rows", 1), ("kitten", "sitting", 3)] {
            assert_eq!(distance(a, b), d, "{a} {b}");
            assert_eq!(distance(b, a), d, "{b} {a}");
        }
    }

    #[test]
    fn nothing_near() {
        let known = ["rows", "radii", "eta"];
        assert_eq!(nearest("raddi", known.into_iter()), Some("radii"));
        assert_eq!(nearest("temperature", known.into_iter()), None);
    }
}
