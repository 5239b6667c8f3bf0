//! Which words of a sentence another one does not have, by an alignment of both.

/// For each word of `other` whether it stands outside a longest common part of both lists, so that as few words as possible
/// are called different. Of two such parts the one that keeps an earlier word is meant.
pub fn differing<T: PartialEq>(usual: &[T], other: &[T]) -> Vec<bool> {
    let common = common_lengths(usual, other);
    let (mut at, mut differing) = (0, Vec::with_capacity(other.len()));
    for (number, word) in other.iter().enumerate() {
        let left = common[at][number];
        // the first place where the word is taken and nothing is lost
        let taken = (at..usual.len()).find(|&place| usual[place] == *word && common[place + 1][number + 1] + 1 == left);
        differing.push(taken.is_none());
        at = taken.map_or(at, |place| place + 1);
    }
    differing
}

/// The length of the longest common part of what both lists have from each pair of places on.
fn common_lengths<T: PartialEq>(usual: &[T], other: &[T]) -> Vec<Vec<usize>> {
    let mut lengths = vec![vec![0; other.len() + 1]; usual.len() + 1];
    let places = (0..usual.len()).rev().flat_map(|first| (0..other.len()).rev().map(move |second| (first, second)));
    for (first, second) in places {
        lengths[first][second] = if usual[first] == other[second] {
            lengths[first + 1][second + 1] + 1
        } else {
            lengths[first + 1][second].max(lengths[first][second + 1])
        };
    }
    lengths
}

#[cfg(test)]
mod tests {
    use super::*;

    fn marked(usual: &str, other: &str) -> String {
        let lists = [usual, other].map(|text| text.split_whitespace().collect::<Vec<_>>());
        let marks = differing(&lists[0], &lists[1]);
        let words = lists[1]
            .iter()
            .zip(marks)
            .map(|(word, differs)| if differs { format!("<{word}>") } else { (*word).into() });
        words.collect::<Vec<_>>().join(" ")
    }

    #[test]
    fn as_few_as_possible() {
        for (usual, other, expected) in [
            ("door twenty four oak", "door twenty four oak", "door twenty four oak"),
            ("door twenty four oak", "door forty oak", "door <forty> oak"),
            ("door forty oak", "door twenty four oak", "door <twenty> <four> oak"),
            ("door four oak", "door twenty four oak left", "door <twenty> four oak <left>"),
            ("a b", "b a", "b <a>"),
            ("a", "a a a", "a <a> <a>"),
            ("", "a", "<a>"),
            ("a", "", ""),
        ] {
            assert_eq!(marked(usual, other), expected);
        }
    }

    /// As many words are not marked as any common part has, by trying every part.
    #[test]
    fn no_common_part_is_longer() {
        let words = |number: usize| (0..5).map(move |place| number / [1, 2, 4, 8, 16][place] % 2).collect::<Vec<_>>();
        for (usual, other) in (0..32).flat_map(|usual| (0..32).map(move |other| (words(usual), words(other)))) {
            let kept = differing(&usual, &other).iter().filter(|differs| !**differs).count();
            let part = |list: &[usize], chosen: usize| {
                (0..5).filter(|place| chosen >> place & 1 == 1).map(|place| list[place]).collect::<Vec<_>>()
            };
            let parts: std::collections::HashSet<Vec<usize>> = (0..32).map(|chosen| part(&usual, chosen)).collect();
            let longest = (0..32).map(|chosen| part(&other, chosen)).filter(|list| parts.contains(list));
            assert_eq!(Some(kept), longest.map(|list| list.len()).max());
        }
    }
}
