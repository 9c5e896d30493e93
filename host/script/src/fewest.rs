//! Cutting a list down to few items that still show something.

/// Drops the items that don't matter, largest parts first, in at most so many
/// trials. `show` says what a list shows, and `items` which of its items it
/// took; none where the whole list shows nothing.
pub fn fewest<T: Clone, Shown>(
    list: Vec<T>,
    most_trials: usize,
    mut show: impl FnMut(Vec<T>) -> Option<Shown>,
    items: impl Fn(&Shown) -> &[T],
) -> Option<Shown> {
    let mut best = show(list)?;
    let mut trials = 0;
    let mut part = items(&best).len().div_ceil(2);
    while part > 0 && trials < most_trials {
        let mut from = 0;
        let mut dropped = false;
        while from < items(&best).len() && trials < most_trials {
            let mut fewer = items(&best).to_vec();
            fewer.drain(from..fewer.len().min(from + part));
            trials += 1;
            match show(fewer) {
                Some(found) => {
                    best = found;
                    dropped = true;
                }
                None => from += part,
            }
        }
        part = match (part, dropped) {
            (1, true) => 1,
            _ => part / 2,
        };
    }
    Some(best)
}

#[cfg(test)]
mod tests {
    use super::*;

    /// A list shows it with a 3 and, later, a 7.
    fn three_then_seven(list: Vec<u8>) -> Option<Vec<u8>> {
        let three = list.iter().position(|item| *item == 3)?;
        list[three..].contains(&7).then_some(list)
    }

    #[test]
    fn what_does_not_matter_is_dropped() {
        let list = (0..100).map(|place| place % 10).collect();
        let found = fewest(list, 1_000, three_then_seven, |list| list);
        assert_eq!(found, Some(vec![3, 7]));
    }

    #[test]
    fn a_list_that_shows_nothing_gives_none() {
        assert_eq!(fewest(vec![7, 3], 9, three_then_seven, |list| list), None);
    }

    #[test]
    fn trials_are_counted() {
        let mut shown = 0;
        let show = |list: Vec<u8>| {
            shown += 1;
            (list.len() == 1_000).then_some(list)
        };
        fewest(vec![0; 1_000], 5, show, |list| list);
        assert_eq!(shown, 6);
    }
}
