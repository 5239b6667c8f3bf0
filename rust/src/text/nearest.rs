//! Names that were meant where others stand.

/// The name that is nearest to another, if it is so near that it may be meant: of the letters at most a third are others.
///
/// ```
/// use spireyerba::text::nearest;
///
/// assert_eq!(nearest("Nubmer", ["Name", "Number"]), Some("Number".to_owned()));
/// assert_eq!(nearest("Colour", ["Name", "Number"]), None);
/// ```
pub fn nearest<'a>(name: &str, names: impl IntoIterator<Item = &'a str>) -> Option<String> {
    let distances = names.into_iter().map(|other| (distance(name, other), other));
    let (distance, other) = distances.min()?;
    (3 * distance <= name.chars().count().max(other.chars().count())).then(|| other.to_owned())
}

/// The fewest letters to insert, to leave out, to change or to swap with the next that make one name of another, whatever their case.
fn distance(one: &str, other: &str) -> usize {
    let letters = |name: &str| name.chars().flat_map(char::to_lowercase).take(LONGEST).collect::<Vec<char>>();
    let (one, other) = (letters(one), letters(other));
    let mut rows = vec![vec![0; other.len() + 1]; one.len() + 1];
    for row in 0..=one.len() {
        for column in 0..=other.len() {
            rows[row][column] = match (row, column) {
                (0, _) | (_, 0) => row + column,
                _ => step(&rows, &one[..row], &other[..column]),
            };
        }
    }
    rows[one.len()][other.len()]
}

/// Letters of a name beyond this are not compared.
const LONGEST: usize = 64;

/// The distance of two fronts, given those of shorter ones.
fn step(rows: &[Vec<usize>], one: &[char], other: &[char]) -> usize {
    let (row, column) = (one.len(), other.len());
    let changed = usize::from(one[row - 1] != other[column - 1]);
    let step = (rows[row - 1][column] + 1).min(rows[row][column - 1] + 1).min(rows[row - 1][column - 1] + changed);
    let swapped = row > 1 && column > 1 && one[row - 1] == other[column - 2] && one[row - 2] == other[column - 1];
    match swapped {
        true => step.min(rows[row - 2][column - 2] + 1),
        false => step,
    }
}
