//! Images loaded in steps, each with a budget of bytes.

use std::fmt;
use std::marker::PhantomData;
use std::num::NonZeroU64;

use super::format::{Format, Options};
use super::{arm64, errors, BzImage, Elf, KernelLoaderResult, PvhNote, Result};
use crate::entry::{STATE_NUMBERS, STEP_NUMBERS};
use crate::ffi::call;
use crate::refusal::answered;
use crate::{GuestAddress, Map, Refusal};

/// What a step of a load did; `T` is what an accepted load returns.
#[derive(Clone, Debug, PartialEq)]
pub struct Step<T> {
    /// How many bytes it copied.
    pub copied: u64,
    /// The load's answer, once all its bytes are copied: that of the whole load.
    pub answer: Option<Result<T>>,
}

/// Why a call was no step. It changed nothing.
#[derive(Clone, Copy, Debug, PartialEq, Eq)]
pub enum StepError {
    /// The image or guest memory has more than 2^40 bytes.
    SliceTooLong,
    /// The map is not good over this slice.
    BadMap,
    /// The budget is 0.
    NoBudget,
    /// The length of the image or of guest memory, or the map, is not that of the first step.
    LentChanged,
}

impl StepError {
    /// The refusal that this error stands for.
    pub fn refusal(self) -> Refusal {
        match self {
            StepError::SliceTooLong => Refusal::SliceTooLong,
            StepError::BadMap => Refusal::BadMap,
            StepError::NoBudget => Refusal::NoBudget,
            StepError::LentChanged => Refusal::LentChanged,
        }
    }

    fn of(refusal: Refusal) -> StepError {
        match refusal {
            Refusal::SliceTooLong => StepError::SliceTooLong,
            Refusal::BadMap => StepError::BadMap,
            Refusal::NoBudget => StepError::NoBudget,
            Refusal::LentChanged => StepError::LentChanged,
            // only the library writes the state, and both lists have their sizes
            refusal => unreachable!("a step is not refused with {refusal:?}"),
        }
    }
}

impl fmt::Display for StepError {
    fn fmt(&self, f: &mut fmt::Formatter<'_>) -> fmt::Result {
        write!(f, "Kernel Loader: {}", self.refusal().sentence())
    }
}

impl std::error::Error for StepError {}

/// A loader that can load in steps: [`Elf`], [`BzImage`] and [`arm64::Image`].
pub trait InSteps: sealed::Sealed {
    /// What an accepted load returns.
    type Loaded;

    #[doc(hidden)]
    const FORMAT: Format;

    #[doc(hidden)]
    fn loaded(loaded: (KernelLoaderResult, Option<PvhNote>)) -> Self::Loaded;
}

mod sealed {
    pub trait Sealed {}
    impl Sealed for super::Elf {}
    impl Sealed for super::BzImage {}
    impl Sealed for super::arm64::Image {}
}

impl InSteps for Elf {
    type Loaded = (KernelLoaderResult, Option<PvhNote>);
    const FORMAT: Format = Format::Elf;

    fn loaded(loaded: (KernelLoaderResult, Option<PvhNote>)) -> Self::Loaded {
        loaded
    }
}

impl InSteps for BzImage {
    type Loaded = KernelLoaderResult;
    const FORMAT: Format = Format::BzImage;

    fn loaded((kernel, _): (KernelLoaderResult, Option<PvhNote>)) -> Self::Loaded {
        kernel
    }
}

impl InSteps for arm64::Image {
    type Loaded = KernelLoaderResult;
    const FORMAT: Format = Format::Arm64;

    fn loaded((kernel, _): (KernelLoaderResult, Option<PvhNote>)) -> Self::Loaded {
        kernel
    }
}

/// A load between two steps. It is a value of its own: a clone goes on from the same state.
#[derive(Clone, Debug, PartialEq, Eq)]
pub struct Steps<L: InSteps> {
    // written by the library only
    state: [u64; STATE_NUMBERS],
    loader: PhantomData<L>,
}

/// A load of an ELF image between two steps.
pub type ElfSteps = Steps<Elf>;

/// A load of a bzImage between two steps.
pub type BzImageSteps = Steps<BzImage>;

/// A load of an arm64 Image between two steps.
pub type Arm64Steps = Steps<arm64::Image>;

impl<L: InSteps> Steps<L> {
    /// A load that is not started.
    pub fn new(
        kernel_offset: Option<GuestAddress>,
        highmem_start_address: Option<GuestAddress>,
    ) -> Self {
        let Options {
            flags,
            offset,
            highmem,
        } = Options::new(kernel_offset, highmem_start_address);
        let mut state = [0; STATE_NUMBERS];
        let format = L::FORMAT as u32;
        let answer = call!(rekusoyen_raw_begin(mut &mut state, format, flags, offset, highmem));
        debug_assert_eq!(answer, 0, "a state of the right size is not refused");
        let loader = PhantomData;
        Steps { state, loader }
    }

    /// Copies exactly the smaller of the budget and what is still to be written. The first step looks at all headers
    /// and notes before it copies anything; an image that is refused is answered there, and nothing is copied. Steps
    /// after the answer repeat it and copy nothing. The setup header of a bzImage is read from the image of the step
    /// that returns it.
    pub fn step(
        &mut self,
        guest: &mut [u8],
        map: &Map,
        kernel_image: &[u8],
        budget: u64,
    ) -> std::result::Result<Step<L::Loaded>, StepError> {
        let mut step = [0; STEP_NUMBERS];
        answered(call!(rekusoyen_raw_step(
            mut guest, in map.numbers(), in kernel_image, mut &mut self.state, budget, mut &mut step
        )))
        .map_err(StepError::of)?;
        let [copied, is_answered, answer, kernel @ ..] = step;
        let loaded = || L::loaded(L::FORMAT.loaded(kernel_image, kernel));
        let answer = (is_answered == 1).then(|| {
            let accepted = answered(answer as u32).map(|()| loaded());
            accepted.map_err(|refusal| errors::of(L::FORMAT, refusal))
        });
        Ok(Step { copied, answer })
    }
}

/// The steps of one load, all with one budget: an iterator that ends after the step that answers, or after a call
/// that was refused.
#[derive(Debug)]
pub struct Portions<'a, L: InSteps> {
    load: Steps<L>,
    guest: &'a mut [u8],
    map: &'a Map,
    image: &'a [u8],
    budget: NonZeroU64,
    ended: bool,
}

impl<'a, L: InSteps> Portions<'a, L> {
    /// The steps of a load that is not started, each with this budget.
    pub fn new(
        load: Steps<L>,
        guest: &'a mut [u8],
        map: &'a Map,
        kernel_image: &'a [u8],
        budget: NonZeroU64,
    ) -> Self {
        Portions {
            load,
            guest,
            map,
            image: kernel_image,
            budget,
            ended: false,
        }
    }
}

impl<L: InSteps> Iterator for Portions<'_, L> {
    type Item = std::result::Result<Step<L::Loaded>, StepError>;

    fn next(&mut self) -> Option<Self::Item> {
        if self.ended {
            return None;
        }
        let step = self
            .load
            .step(self.guest, self.map, self.image, self.budget.get());
        self.ended = match &step {
            Ok(step) => step.answer.is_some(),
            Err(_) => true,
        };
        Some(step)
    }
}

impl<L: InSteps> std::iter::FusedIterator for Portions<'_, L> {}

impl Elf {
    /// Loads an image in portions of `budget` bytes, so that a monitor can do something between them, such as to pat the watchdog that would
    /// else end it.
    ///
    /// ```
    /// use rekusoyen::loader::Elf;
    /// use rekusoyen::{GuestAddress, Map};
    /// use std::num::NonZeroU64;
    ///
    /// # let mut image = [0u8; 123];
    /// # image[..6].copy_from_slice(b"\x7fELF\x02\x01");
    /// # for (place, value) in [(24, 16), (32, 64), (54, 56), (56, 1), (64, 1), (72, 120), (88, 16), (96, 3), (104, 8)] {
    /// #     image[place] = value;
    /// # }
    /// # image[120..].copy_from_slice(b"abc");
    /// # let mut pats = 0;
    /// # let mut pat_watchdog = || pats += 1;
    /// let mut guest = [0u8; 32];
    /// let map = Map::whole(guest.len());
    /// let mut answer = None;
    /// for step in Elf::load_in_portions(&mut guest, &map, None, &image, None, NonZeroU64::new(2).unwrap()) {
    ///     pat_watchdog();
    ///     answer = step?.answer;
    /// }
    /// let (kernel, _) = answer.expect("the last step answers")?;
    /// assert_eq!(kernel.kernel_load, GuestAddress(16));
    /// assert_eq!(&guest[16..19], b"abc");
    /// # assert_eq!(pats, 2);
    /// # Ok::<(), Box<dyn std::error::Error>>(())
    /// ```
    pub fn load_in_portions<'a>(
        guest: &'a mut [u8],
        map: &'a Map,
        kernel_offset: Option<GuestAddress>,
        kernel_image: &'a [u8],
        highmem_start_address: Option<GuestAddress>,
        budget: NonZeroU64,
    ) -> Portions<'a, Elf> {
        let load = Steps::new(kernel_offset, highmem_start_address);
        Portions::new(load, guest, map, kernel_image, budget)
    }
}

impl BzImage {
    /// Loads a bzImage in portions of `budget` bytes, as [`Elf::load_in_portions`] does an ELF image.
    ///
    /// ```
    /// use rekusoyen::loader::BzImage;
    /// use rekusoyen::{GuestAddress, Map};
    /// use std::num::NonZeroU64;
    ///
    /// # let mut image = vec![0u8; 1024 + 3];
    /// # image[0x1f1] = 1;
    /// # image[0x202..0x206].copy_from_slice(b"HdrS");
    /// # image[0x207] = 2;
    /// # image[0x211] = 1;
    /// # image[1024..].copy_from_slice(b"abc");
    /// # let mut pats = 0;
    /// # let mut pat_watchdog = || pats += 1;
    /// let (mut guest, offset) = ([0u8; 32], Some(GuestAddress(8)));
    /// let map = Map::whole(guest.len());
    /// let mut answer = None;
    /// for step in BzImage::load_in_portions(&mut guest, &map, offset, &image, None, NonZeroU64::new(2).unwrap()) {
    ///     pat_watchdog();
    ///     answer = step?.answer;
    /// }
    /// let kernel = answer.expect("the last step answers")?;
    /// assert_eq!((kernel.kernel_load, kernel.kernel_end), (GuestAddress(8), 11));
    /// assert_eq!(&guest[8..11], b"abc");
    /// # assert_eq!(pats, 2);
    /// # Ok::<(), Box<dyn std::error::Error>>(())
    /// ```
    pub fn load_in_portions<'a>(
        guest: &'a mut [u8],
        map: &'a Map,
        kernel_offset: Option<GuestAddress>,
        kernel_image: &'a [u8],
        highmem_start_address: Option<GuestAddress>,
        budget: NonZeroU64,
    ) -> Portions<'a, BzImage> {
        let load = Steps::new(kernel_offset, highmem_start_address);
        Portions::new(load, guest, map, kernel_image, budget)
    }
}

impl arm64::Image {
    /// Loads an arm64 Image in portions of `budget` bytes, as [`Elf::load_in_portions`] does.
    pub fn load_in_portions<'a>(
        guest: &'a mut [u8],
        map: &'a Map,
        base: GuestAddress,
        kernel_image: &'a [u8],
        budget: NonZeroU64,
    ) -> Portions<'a, arm64::Image> {
        let load = Steps::new(Some(base), None);
        Portions::new(load, guest, map, kernel_image, budget)
    }
}
