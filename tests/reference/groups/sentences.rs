//! The group on refusals as sentences: a fixed set of numbers, places and buffers.

use crate::calls::{Call, Name};
use crate::inputs::Rng;
use crate::Harness;
use reference::told;

/// First and second words of a refused answer.
const WORDS: [u64; 9] = [0, 1, 5, 20, 21, 255, 256, 1 << 63, u64::MAX];

/// A buffer that every sentence fits, and some more.
const ROOM: usize = 100;

/// How many bytes the sentence takes.
fn length(number: u8, refused: &[u64; 5]) -> usize {
    let mut answer = [0; 5];
    told::refusal_sentence(number, refused, &mut [0; ROOM], &mut answer);
    answer[0] as usize
}

/// Every byte as the number with each first and second word: with much room, just room, and a byte less. The numbers up to 20 and
/// some above with every buffer from 0 to 90 bytes, for some words.
pub fn sentences(h: &mut Harness) {
    let mut rng = Rng::of(h.seed, "sentences", 0);
    for number in 0..=255 {
        for place in WORDS {
            for earlier in WORDS {
                let bytes = length(number, &[place, earlier, 0, 0, 0]);
                for room in [ROOM, bytes, bytes - 1] {
                    say(h, &mut rng, number, [place, earlier], room);
                }
            }
        }
        if number > 20 && number % 51 != 0 {
            continue;
        }
        for looked_at in [[0, 0], [5, 2], [20, 19], [0, 7], [7, 0], [u64::MAX, u64::MAX]] {
            for room in 0..=90 {
                say(h, &mut rng, number, looked_at, room);
            }
        }
    }
}

/// The sentence of a number and of an answer's first two words; the others, which are not looked at, are zeros as a refused call leaves them, or arbitrary.
fn say(h: &mut Harness, rng: &mut Rng, number: u8, [place, earlier]: [u64; 2], room: usize) {
    let others = [rng.next(), rng.next(), rng.next()];
    let [c, d, e] = rng.pick(&[[0; 3], others]);
    h.compare(Call::on_both(Name::RefusalSentence { number }, rng.bytes(room), vec![place, earlier, c, d, e]));
}
