//! What somebody may have meant.

/// The known word that is nearest to one that is not known, if it is near: of up to four letters
/// one change away, of more two. A change is a letter more, less or another one, or two that
/// have changed places.
pub fn nearest<'a>(word: &str, known: impl IntoIterator<Item = &'a str>) -> Option<&'a str> {
    let most = if word.trim_start_matches('-').len() > 4 {
        2
    } else {
        1
    };
    let away = |known: &'a str| (changes(word, known), known);
    let near = known.into_iter().map(away);
    let least = near.min_by_key(|(changes, _)| *changes);
    least
        .filter(|(changes, _)| *changes <= most)
        .map(|(_, known)| known)
}

/// The same as the end of a message.
pub fn meant<'a>(word: &str, known: impl IntoIterator<Item = &'a str>) -> String {
    let found = nearest(word, known);
    found.map_or(String::new(), |found| format!(": did you mean '{found}'?"))
}

/// How many changes lead from one word to another.
fn changes(from: &str, to: &str) -> usize {
    let (from, to): (Vec<char>, Vec<char>) = (from.chars().collect(), to.chars().collect());
    let mut rows = vec![(0..=to.len()).collect::<Vec<usize>>()];
    for (i, left) in from.iter().enumerate() {
        let mut row = vec![i + 1];
        for (j, right) in to.iter().enumerate() {
            let other = rows[i][j] + usize::from(left != right);
            let mut least = other.min(rows[i][j + 1] + 1).min(row[j] + 1);
            if i > 0 && j > 0 && *left == to[j - 1] && from[i - 1] == *right {
                least = least.min(rows[i - 1][j - 1] + 1);
            }
            row.push(least);
        }
        rows.push(row);
    }
    rows[from.len()][to.len()]
}

#[cfg(test)]
mod tests {
    use super::*;

    #[test]
    fn near_words() {
        let known = ["verdict", "schedule", "run", "--spread", "--seed"];
        let near = |word| nearest(word, known);
        assert_eq!(near("shedule"), Some("schedule"));
        assert_eq!(near("verdcit"), Some("verdict"));
        assert_eq!(near("rnu"), Some("run"));
        assert_eq!(near("--sprad"), Some("--spread"));
        assert_eq!(near("brew"), None);
        assert_eq!(near(""), None);
        assert_eq!(meant("shedule", known), ": did you mean 'schedule'?");
    }
}
