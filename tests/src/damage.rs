//! Plans that are wrong in one place: the least that a check of a plan must see.
use crate::chance::Chance;
use crate::lend::Entry;
use crate::oracle::plan::Lists;

/// The same list with one entry altered, for each entry; and one entry longer, or shorter at either end.
fn altered<T: Entry>(list: &[T], chance: &mut Chance) -> Vec<Vec<T>> {
    let mut all = Vec::new();
    for at in 0..list.len() {
        let mut bad = list.to_vec();
        while bad[at] == list[at] {
            bad[at] = T::cut(chance.word());
        }
        all.push(bad);
    }
    let more = list.last().copied().unwrap_or_else(|| T::cut(0));
    all.push([list, &[more]].concat());
    all.push([list, &[T::cut(0)]].concat());
    if let Some((_, shorter)) = list.split_last() {
        all.push(shorter.to_vec());
        all.push(list[1..].to_vec());
    }
    all
}

/// Hands on every way of damaging one of the four lists in one place.
pub fn each_damage(good: &Lists, chance: &mut Chance, mut use_it: impl FnMut(&Lists)) {
    for clearances in altered(&good.clearances, chance) {
        use_it(&Lists { clearances, ..good.clone() });
    }
    for corners in altered(&good.corners, chance) {
        use_it(&Lists { corners, ..good.clone() });
    }
    for starts in altered(&good.starts, chance) {
        use_it(&Lists { starts, ..good.clone() });
    }
    for neighbours in altered(&good.neighbours, chance) {
        use_it(&Lists { neighbours, ..good.clone() });
    }
}

/// Makes one entry of one list another one, or one list longer by an entry.
pub fn damage_one(lists: &mut Lists, chance: &mut Chance) {
    let at = chance.below(lists.clearances.len());
    match chance.below(4) {
        0 => lists.clearances[at] = lists.clearances[at].wrapping_add(1),
        1 => lists.corners.push(0),
        2 => lists.starts[0] = 1,
        _ => lists.neighbours.push(0),
    }
}

#[cfg(test)]
mod tests {
    use super::*;

    #[test]
    fn every_damage_differs() {
        let good = Lists { clearances: vec![1, 2, 3], corners: vec![], starts: vec![0], neighbours: vec![7] };
        let mut seen = 0;
        each_damage(&good, &mut Chance::new(6), |bad| {
            assert_ne!(*bad, good);
            seen += 1;
        });
        assert_eq!(seen, (3 + 4) + 2 + (1 + 4) + (1 + 4));
    }
}
