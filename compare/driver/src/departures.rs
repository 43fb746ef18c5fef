//! Questions that the rules of the proved code answer otherwise than the published ones, and which departures explain each.

use crate::answer::Answer;
use crate::compare::differ_for_crate;
use crate::question::Question;
use second::{Departure, Rules};
use std::collections::BTreeMap;

/// Gives the answer to a question by a set of rules.
pub type Wanted = fn(&Question, Rules) -> Answer;

/// How many cases each explanation has.
pub type Counts = BTreeMap<String, u64>;

/// What is wanted of a question by both rules.
pub struct Answers {
    /// By the rules that the proved code is held to.
    pub landed: Answer,
    /// By the published rules, where these say something else.
    published: Option<Answer>,
}

impl Answers {
    pub fn to(question: &Question, wanted: Wanted) -> Answers {
        let landed = wanted(question, Rules::landed());
        let departs = !Departure::LANDED.is_empty() && matches!(question, Question::Elf(_));
        let published = departs.then(|| wanted(question, Rules::PUBLISHED));
        Answers {
            published: published.filter(|published| *published != landed),
            landed,
        }
    }

    /// What a backend is held to.
    pub fn by(&self, rules: Rules) -> &Answer {
        match &self.published {
            Some(published) if rules == Rules::PUBLISHED => published,
            _ => &self.landed,
        }
    }

    /// Where the two differ in what the crate tells, the names of the switches that explain it: of the fewest that alone, over the
    /// published rules, give the answer of the proved code.
    pub fn explained(&self, question: &Question, wanted: Wanted) -> Option<String> {
        if !differ_for_crate(self.published.as_ref()?, &self.landed) {
            return None;
        }
        let gives = |set: &Vec<Departure>| wanted(question, Rules::of(set)) == self.landed;
        let set = sets(Departure::LANDED).into_iter().find(gives);
        let names = set?.into_iter().map(Departure::name);
        Some(names.collect::<Vec<_>>().join("+"))
    }
}

/// Every set of departures, the smallest first.
fn sets(departures: &[Departure]) -> Vec<Vec<Departure>> {
    let mut sets = vec![vec![]];
    for departure in departures {
        let with = sets.iter().map(|set| [&set[..], &[*departure]].concat());
        sets = sets.iter().cloned().chain(with).collect();
    }
    sets.sort_by_key(Vec::len);
    sets
}

/// The counts in words.
pub fn counts(counts: &Counts) -> String {
    if counts.is_empty() {
        return "none".into();
    }
    let words = counts.iter().map(|(name, count)| format!("{name} {count}"));
    words.collect::<Vec<_>>().join(", ")
}

#[cfg(test)]
mod tests {
    use super::*;
    use crate::examples;
    use crate::over_second::answer_by;

    #[test]
    fn the_smallest_sets_come_first_and_each_once() {
        let (one, other) = (Departure::L13, Departure::L3);
        let wanted = [vec![], vec![one], vec![other], vec![one, other]];
        assert_eq!(sets(&[one, other]), wanted);
        assert_eq!(sets(&[]), [vec![]]);
    }

    #[test]
    fn what_both_rules_answer_alike_needs_no_explanation() {
        let question = Question::Elf(examples::small_elf());
        let answers = Answers::to(&question, answer_by);
        assert_eq!(answers.explained(&question, answer_by), None);
        assert_eq!(answers.by(Rules::PUBLISHED), answers.by(Rules::landed()));
    }

    #[test]
    fn each_departure_is_explained_by_its_switch_alone() {
        let smallest = examples::departures();
        assert_eq!(smallest.len(), Departure::LANDED.len());
        for (name, what, _, load) in smallest {
            let question = Question::Elf(load);
            let answers = Answers::to(&question, answer_by);
            assert_ne!(answers.by(Rules::PUBLISHED), answers.by(Rules::landed()));
            let names = answers.explained(&question, answer_by);
            assert_eq!(names.as_deref(), Some(name), "{what}");
        }
    }

    #[test]
    fn counts_read_as_a_list() {
        assert_eq!(counts(&Counts::new()), "none");
        let two = Counts::from([("L13".into(), 5), ("L13+L8".into(), 2)]);
        assert_eq!(counts(&two), "L13 5, L13+L8 2");
    }
}
