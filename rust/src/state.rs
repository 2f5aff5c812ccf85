use crate::usable::STATE_WORDS;
use crate::{bare, Memory, Refusal};

/// A state as the library has it.
pub type StateWords = [u32; STATE_WORDS];

/// What a writer keeps between calls, as words: they may be copied, stored and sent.
///
/// Any words are a state. A refused call leaves them as they were.
///
/// It holds the number of the feature in hand: the first event that is taken sets it, every further one must have it, and
/// [`State::next`] lets it go. A refused event never sets it, and only events are held to it.
#[derive(Clone, Copy, Debug, PartialEq, Eq)]
pub struct State {
    words: StateWords,
}

/// Of the marks in word 0: a feature's number is held, and word 3 has it.
const NUMBER_HELD: u32 = 8 << 24;

/// How many events were taken, and why the one after them was not. All were if nothing was refused.
#[derive(Clone, Copy, Debug, PartialEq, Eq)]
pub struct Taken {
    pub answer: Result<(), Refusal>,
    pub count: usize,
}

impl State {
    /// A fresh writer's. `declared` is the type of the features to come, 0 where it is not known.
    pub fn start(declared: u8, detect: bool, promote: bool) -> State {
        let mut words = [0; STATE_WORDS];
        bare::start(&mut words, declared, detect, promote);
        State { words }
    }

    pub fn from_words(words: StateWords) -> State {
        State { words }
    }

    pub fn words(&self) -> StateWords {
        self.words
    }

    /// The number of the feature in hand; none before its first event is taken.
    pub fn feature(&self) -> Option<u32> {
        (self.words[0] & NUMBER_HELD != 0).then_some(self.words[3])
    }

    /// How many parts the feature has so far.
    pub fn parts(&self) -> usize {
        self.words[1] as usize
    }

    /// How many property bytes it has so far.
    pub fn property_bytes(&self) -> usize {
        self.words[2] as usize
    }

    /// Takes an event record, 64 bytes. Refused: 11, 15, 17, 5, 12.
    pub fn event(&mut self, event: &[u8], memory: &mut Memory) -> Result<(), Refusal> {
        Refusal::of(bare::event(&mut self.words, event, memory))
    }

    /// Takes event records of 64 bytes one after the other, until one is refused: as many calls of [`State::event`], but
    /// faster.
    pub fn events(&mut self, events: &[u8], memory: &mut Memory) -> Taken {
        let mut count = 0;
        let answer = Refusal::of(bare::events(&mut self.words, events, memory, &mut count));
        Taken { answer, count }
    }

    /// Lays a property down in a buffer, after those before it: a number by its bits, a type from 11 to 14 by its text. A text
    /// that is longer than the buffer's room is searched for what is not UTF-8 too. Refused: 15, 16, 11, 6, 12.
    pub fn property(
        &mut self,
        column: u32,
        column_type: u8,
        bits: u64,
        text: &[u8],
        buffer: &mut [u8],
    ) -> Result<(), Refusal> {
        let mut place = 0;
        let number = bare::property(&mut self.words, column, column_type, bits, text, buffer, &mut place);
        Refusal::of_properties(number, place)
    }

    /// Lays the feature's root down, and has it wait. Refused: 15, 12.
    pub fn finish(&mut self, memory: &mut Memory) -> Result<(), Refusal> {
        Refusal::of(bare::finish(&mut self.words, memory))
    }

    /// Leaves a finished feature behind, and carries what is still pending into the next; its number is let go. Refused: 15,
    /// 12.
    pub fn next(&mut self, memory: &mut Memory) -> Result<(), Refusal> {
        Refusal::of(bare::next(&mut self.words, memory))
    }
}
