//! Pictures of a history, kept to be read back later in it.

use crate::mutate::mutated;
use crate::random::Random;
use second_model::{picture, State};

/// Of a hundred calls, so many are readings.
const SHARE: usize = 2;
/// So many older pictures are kept.
const KEPT: usize = 8;

#[derive(Default)]
pub struct Saved {
    texts: Vec<Vec<u8>>,
}

impl Saved {
    /// Now and then a text to be read: the last picture or an older one, as it is or changed.
    pub fn reading(&mut self, random: &mut Random, state: &State) -> Option<Vec<u8>> {
        if random.percent(SHARE) {
            self.keep(random, picture(state));
        }
        if !random.percent(SHARE) {
            return None;
        }
        let older = !self.texts.is_empty() && random.percent(30);
        let text = if older { self.texts[random.below(self.texts.len())].clone() } else { picture(state) };
        Some(if random.percent(30) { text } else { mutated(random, &text) })
    }

    fn keep(&mut self, random: &mut Random, text: Vec<u8>) {
        if self.texts.len() == KEPT {
            self.texts.swap_remove(random.below(KEPT));
        }
        self.texts.push(text);
    }
}
