//! The word that was probably meant.

/// "; did you mean WORD?" where one of these words is near, else nothing.
pub fn asked(given: &str, known: &[&str]) -> String {
    let meant = word(given, known);
    meant.map_or(String::new(), |word| format!("; did you mean {word}?"))
}

/// The nearest of these words, if one is near: a third of its letters may differ, and
/// capitals do not count.
pub fn word<'a>(given: &str, known: &[&'a str]) -> Option<&'a str> {
    let given = given.to_lowercase();
    let near = known.iter().filter_map(|word| {
        let distance = distance(&given, &word.to_lowercase());
        (distance <= allowed(word)).then_some((distance, *word))
    });
    near.min_by_key(|(distance, _)| *distance)
        .map(|(_, word)| word)
}

/// How many letters of a word may differ.
fn allowed(word: &str) -> usize {
    let letters = word.chars().filter(|letter| letter.is_alphanumeric());
    letters.count().div_ceil(3).min(3)
}

/// The letters to insert, leave out, exchange or swap with the next, to make one of
/// the other.
fn distance(one: &str, other: &str) -> usize {
    let (one, other): (Vec<char>, Vec<char>) = (one.chars().collect(), other.chars().collect());
    let mut rows: Vec<Vec<usize>> = vec![(0..=other.len()).collect()];
    for i in 1..=one.len() {
        let mut row = vec![i];
        for j in 1..=other.len() {
            let exchanged = rows[i - 1][j - 1] + usize::from(one[i - 1] != other[j - 1]);
            let mut least = exchanged.min(rows[i - 1][j] + 1).min(row[j - 1] + 1);
            if i > 1 && j > 1 && one[i - 1] == other[j - 2] && one[i - 2] == other[j - 1] {
                least = least.min(rows[i - 2][j - 2] + 1);
            }
            row.push(least);
        }
        rows.push(row);
    }
    rows[one.len()][other.len()]
}
