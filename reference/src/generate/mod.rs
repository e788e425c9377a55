//! Images to check, the same for one seed on every machine: the worked card,
//! two cut forms of it, the edges of every rule, and then as many drawn images
//! as are asked for. Cards to run are drawn apart, in `starts`.

pub mod bytes;
pub mod counted;
pub mod damage;
pub mod edges;
pub mod grow;
pub mod plan;
pub mod starts;

use crate::image::Draft;
use crate::random::Random;
use crate::shorthand::card_k;
use plan::{Size, Slips};

/// The first images of a seed's endless list.
pub fn images(seed: u64, count: usize) -> impl Iterator<Item = Vec<u8>> {
    let mut fixed = worked();
    fixed.extend(edges::images());
    let first_drawn = fixed.len();
    fixed.into_iter().chain((first_drawn..).map(move |index| drawn(seed, index))).take(count)
}

/// The worked card, then without its first CLOSE, then without its last.
fn worked() -> Vec<Vec<u8>> {
    let whole = card_k();
    let mut open_enum = whole.clone();
    open_enum.records.remove(4);
    let mut open_def = whole.clone();
    open_def.records.remove(16);
    [whole, open_enum, open_def].iter().map(Draft::image).collect()
}

/// One drawn image, good or damaged in one or several ways.
fn drawn(seed: u64, index: usize) -> Vec<u8> {
    let random = &mut Random::for_image(seed, index);
    match random.below(100) {
        0..=9 => grown(random).image(),
        10..=34 => slipped(random, 90).image(),
        35..=42 => slipped(random, 200).image(),
        43..=68 => damaged(random, 1).image(),
        69..=78 => damaged(random, 3).image(),
        79..=84 => {
            let mut draft = slipped(random, 60);
            damage::harm(random, &mut draft);
            draft.image()
        }
        85..=94 => bytes::damaged_image(random),
        _ => damage::jumble(random).image(),
    }
}

/// A good card.
fn grown(random: &mut Random) -> Draft {
    let size = Size::draw(random);
    grow::card(random, size, Slips::NONE)
}

/// A card in which the generator's choices slip with some such chance in 1000.
fn slipped(random: &mut Random, chance: usize) -> Draft {
    let size = Size::draw(random);
    let slips = Slips::draw(random, chance);
    grow::card(random, size, slips)
}

/// A card that was good before it was harmed, at most so many times.
fn damaged(random: &mut Random, most: usize) -> Draft {
    let mut draft = grown(random);
    for _ in 0..random.between(1, most) {
        damage::harm(random, &mut draft);
    }
    draft
}

#[cfg(test)]
mod tests {
    use super::*;
    use crate::check;
    use crate::verdict::Verdict;

    #[test]
    fn begins_with_the_worked_card() {
        let answers: Vec<String> = images(1, 3).map(|image| check(&image).to_string()).collect();
        assert_eq!(answers, ["ok 1 1", "no 8 4 0", "no 8 16 5"]);
    }

    #[test]
    fn cards_without_slips_are_good() {
        for index in 0..3000 {
            let draft = grown(&mut Random::for_image(5, index));
            let verdict = check(&draft.image());
            assert!(matches!(verdict, Verdict::Accepted { .. }), "{index}: {verdict}");
        }
    }

    #[test]
    fn every_answer_comes_up() {
        let mut met = [0; 14];
        for image in images(2, 6000) {
            match check(&image) {
                Verdict::Accepted { .. } => met[0] += 1,
                Verdict::Refused(refusal) => met[usize::from(refusal.number)] += 1,
            }
        }
        assert!(met[0] > 100 && met[2..].iter().all(|count| *count > 10), "{met:?}");
    }

    #[test]
    fn one_seed_gives_one_list() {
        assert!(images(3, 4000).eq(images(3, 4000)));
        assert!(!images(3, 4000).eq(images(4, 4000)));
    }
}
