//! A load taken in steps, each with a budget of bytes.

use crate::fields::within_limit;
use crate::map::Map;
use crate::{arm64, bzimage, elf, Refusal, Rules};

/// Every byte that a load writes, in its order: the address in guest memory, and the place in the image.
pub type Writes = Vec<(usize, usize)>;

/// What a loader answers for a whole load that is accepted.
pub trait Loads: Copy {
    /// The whole load, which leaves the guest as it is: its answer, and what it writes.
    fn whole(
        rules: Rules,
        image: &[u8],
        guest: &[u8],
        map: &[u64],
        offset: Option<u64>,
        highmem: Option<u64>,
    ) -> (Result<Self, Refusal>, Writes);
}

impl Loads for elf::Loaded {
    fn whole(
        rules: Rules,
        image: &[u8],
        guest: &[u8],
        map: &[u64],
        offset: Option<u64>,
        highmem: Option<u64>,
    ) -> (Result<Self, Refusal>, Writes) {
        let answer = elf::load(rules, image, &mut guest.to_vec(), map, offset, highmem);
        let writes = answer.map_or(Vec::new(), |_| elf::writes(image, offset));
        (answer, writes)
    }
}

impl Loads for bzimage::Loaded {
    fn whole(
        _: Rules,
        image: &[u8],
        guest: &[u8],
        map: &[u64],
        offset: Option<u64>,
        highmem: Option<u64>,
    ) -> (Result<Self, Refusal>, Writes) {
        let answer = bzimage::load(image, &mut guest.to_vec(), map, offset, highmem);
        let writes = answer.map_or(Vec::new(), |loaded| bzimage::writes(image, &loaded));
        (answer, writes)
    }
}

/// The base is the offset, and 0 where none is given.
impl Loads for arm64::Loaded {
    fn whole(
        _: Rules,
        image: &[u8],
        guest: &[u8],
        map: &[u64],
        offset: Option<u64>,
        _: Option<u64>,
    ) -> (Result<Self, Refusal>, Writes) {
        let answer = arm64::load(image, &mut guest.to_vec(), map, offset.unwrap_or(0));
        let writes = answer.map_or(Vec::new(), |loaded| arm64::writes(image, &loaded));
        (answer, writes)
    }
}

/// A load between two steps.
#[derive(Clone, Debug)]
pub struct Steps<A> {
    rules: Rules,
    offset: Option<u64>,
    highmem: Option<u64>,
    begun: Option<Begun<A>>,
}

/// What the first step settles.
#[derive(Clone, Debug)]
struct Begun<A> {
    image: usize,
    guest: usize,
    map: Vec<u64>,
    answer: Result<A, Refusal>,
    writes: Writes,
    done: usize,
}

/// What a step did: the bytes copied, and the answer where the load is at its end.
#[derive(Clone, Debug, PartialEq, Eq)]
pub struct Step<A> {
    pub copied: u64,
    pub answer: Option<Result<A, Refusal>>,
}

impl<A: Loads> Steps<A> {
    pub fn new(rules: Rules, offset: Option<u64>, highmem: Option<u64>) -> Steps<A> {
        Steps {
            rules,
            offset,
            highmem,
            begun: None,
        }
    }

    /// A call: a step, or a refusal that changes nothing.
    pub fn step(
        &mut self,
        guest: &mut [u8],
        map: &[u64],
        image: &[u8],
        budget: u64,
    ) -> Result<Step<A>, Refusal> {
        within_limit(image.len())?;
        within_limit(guest.len())?;
        Map::from_numbers(map, guest.len())?;
        if budget == 0 {
            return Err(Refusal::NoBudget);
        }
        if let Some(begun) = &mut self.begun {
            if (begun.image, begun.guest) != (image.len(), guest.len()) || begun.map != map {
                return Err(Refusal::LentChanged);
            }
        }
        let (rules, offset, highmem) = (self.rules, self.offset, self.highmem);
        let begun = self.begun.get_or_insert_with(|| {
            let (answer, writes) = A::whole(rules, image, guest, map, offset, highmem);
            Begun {
                image: image.len(),
                guest: guest.len(),
                map: map.to_vec(),
                answer,
                writes,
                done: 0,
            }
        });
        let left = &begun.writes[begun.done..];
        let copied = usize::try_from(budget).map_or(left.len(), |budget| budget.min(left.len()));
        for (address, place) in &left[..copied] {
            guest[*address] = image[*place];
        }
        let is_last = copied == left.len();
        begun.done += copied;
        Ok(Step {
            copied: copied as u64,
            answer: is_last.then_some(begun.answer),
        })
    }
}

#[cfg(test)]
mod tests {
    use super::*;
    use crate::map::whole;

    type Elf = Steps<elf::Loaded>;

    #[test]
    fn an_image_that_is_refused_is_answered_at_once() {
        let mut steps = Elf::new(Rules::PUBLISHED, None, None);
        let mut guest = [7; 9];
        let answer = Ok(Step {
            copied: 0,
            answer: Some(Err(Refusal::ReadElfHeader)),
        });
        assert_eq!(steps.step(&mut guest, &whole(9), b"short", 1), answer);
        assert_eq!(steps.step(&mut guest, &whole(9), b"other", 9), answer);
        let changed = Err(Refusal::LentChanged);
        assert_eq!(steps.step(&mut guest, &whole(9), b"longer", 1), changed);
        assert_eq!(steps.step(&mut guest, &[0, 8], b"short", 1), changed);
        assert_eq!(guest, [7; 9]);
    }

    #[test]
    fn refusals_come_in_their_order() {
        let mut steps = Elf::new(Rules::PUBLISHED, None, None);
        let mut step = |map: &[u64], budget| steps.step(&mut [7; 9], map, b"", budget);
        assert_eq!(step(&[0, 10], 0), Err(Refusal::BadMap));
        assert_eq!(step(&[0, 9], 0), Err(Refusal::NoBudget));
        assert!(step(&[0, 9], 1).is_ok());
        assert_eq!(step(&[0, 8], 0), Err(Refusal::NoBudget));
        assert_eq!(step(&[0, 8], 1), Err(Refusal::LentChanged));
    }

    #[test]
    fn a_kernel_is_copied_in_portions() {
        let mut image = vec![0; 1027];
        image[0x1f1] = 1;
        image[0x202..0x206].copy_from_slice(b"HdrS");
        image[0x207] = 2;
        image[0x211] = 1;
        image[1024..].copy_from_slice(b"abc");
        let mut steps = Steps::<bzimage::Loaded>::new(Rules::landed(), Some(4), None);
        let mut guest = [7; 9];
        let mut copied = Vec::new();
        for budget in [2, u64::MAX, 1] {
            let step = steps.step(&mut guest, &whole(9), &image, budget).unwrap();
            copied.push((step.copied, step.answer.map(|answer| answer.unwrap().end)));
        }
        assert_eq!(copied, [(2, None), (1, Some(7)), (0, Some(7))]);
        assert_eq!(guest, *b"\x07\x07\x07\x07abc\x07\x07");
    }
}
