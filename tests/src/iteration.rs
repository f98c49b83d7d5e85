//! The crate's iterator over the stored keys, compared with steps of the model's next key.

use crate::calls::Call;
use crate::model;
use crate::safe::number_of;
use crate::twins::Arena;
use trieff::{Refusal, Stored};

/// A stored key with its value, or a refusal's number and place.
pub type Met = Result<(Vec<u8>, u64), (u32, u32)>;

/// The longest image that is iterated over, and the most keys that are taken. They keep the time
/// low: each step checks the whole image.
const IMAGE_MOST: usize = 1_000;
const KEYS_MOST: usize = 40;

/// An iteration from the key that a next key is asked for.
#[derive(Clone)]
pub struct Iteration {
    pub keys: Vec<Met>,
    after: bool,
    /// The words of the arena, lent afresh.
    words: Vec<u32>,
}

impl Iteration {
    /// Iterates over the stored keys of a small image, if the call is a next key.
    pub fn of(call: Call, arena: &Arena) -> Option<Iteration> {
        match call {
            Call::NextKey { after } if arena.image.len() <= IMAGE_MOST => {
                let mut words = arena.words.clone();
                let work = &mut words[arena.work.clone()];
                let keys = by_crate(arena.image(), work, arena.given(), after);
                Some(Iteration { keys, after, words })
            }
            _ => None,
        }
    }

    /// Where it differs from the model, whose memory is that after the next key. The iterator
    /// leaves the working numbers as the next key does.
    pub fn difference(&self, model: &Arena) -> Option<String> {
        let work_len = model.work.len();
        let keys = by_model(model.image(), &mut vec![0; work_len], model.given(), self.after);
        if self.keys != keys {
            Some(format!("the iterator gives {:?}, not {keys:?}", self.keys))
        } else if self.words != model.words {
            Some("the iterator leaves other working numbers or guards".to_string())
        } else {
            None
        }
    }
}

/// What the crate's iterator gives. Where it has ended, it is asked once more.
fn by_crate(image: &[u8], work: &mut [u32], letters: &[u8], after: bool) -> Vec<Met> {
    let mut keys = if letters.is_empty() && !after {
        trieff::keys(image, work)
    } else {
        trieff::keys_from(image, work, letters, after)
    };
    let mut all: Vec<Met> = keys.by_ref().take(KEYS_MOST).map(met).collect();
    if all.len() < KEYS_MOST {
        all.extend(keys.next().map(met));
    }
    all
}

fn met(stored: Result<Stored, Refusal>) -> Met {
    stored
        .map(|stored| (stored.letters().to_vec(), stored.value()))
        .map_err(|refusal| (number_of(&refusal), refusal.place()))
}

/// The same by next key: from each key to the one after it, until none is left or the call is
/// refused.
fn by_model(image: &[u8], work: &mut [u32], letters: &[u8], mut after: bool) -> Vec<Met> {
    let (mut all, mut last, mut key) = (Vec::new(), letters.to_vec(), [0; 64]);
    while all.len() < KEYS_MOST {
        let answer = model::next_key(image, work, &last, after, &mut key);
        match answer.number {
            0 => {
                last = key[..answer.length as usize].to_vec();
                after = true;
                all.push(Ok((last.clone(), answer.value)));
            }
            15 => break,
            number => {
                all.push(Err((number, answer.place)));
                break;
            }
        }
    }
    all
}
