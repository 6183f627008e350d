//! Where words come from and bytes go.

use super::{Pause, Stop};

const MAX_WIDTH: i32 = 255;

/// Console is a list of words to read and a buffer to write to.
pub struct Console<'a> {
    words: &'a [i32],
    taken: usize,
    buffer: &'a mut [u8],
    written: usize,
}

impl<'a> Console<'a> {
    /// new lends the words and the buffer.
    pub fn new(words: &'a [i32], buffer: &'a mut [u8]) -> Self {
        Console { words, taken: 0, buffer, written: 0 }
    }

    /// taken is the number of words that were taken.
    pub fn taken(&self) -> usize {
        self.taken
    }

    /// written is the number of bytes that were written.
    pub fn written(&self) -> usize {
        self.written
    }

    /// take gives the first waiting word, or pauses.
    #[inline(never)]
    pub fn take(&mut self) -> Result<i32, Stop> {
        let word = *self.words.get(self.taken).ok_or(Stop::Paused(Pause::Input))?;
        self.taken += 1;
        Ok(word)
    }

    /// put_int writes a number in decimal, as `put` writes a text.
    #[inline(never)]
    pub fn put_int(&mut self, number: i32, width: i32) -> Result<(), Stop> {
        let mut text = [0; 11];
        let mut from = text.len();
        let mut rest = number.unsigned_abs();
        loop {
            from -= 1;
            text[from] = b'0' + (rest % 10) as u8;
            rest /= 10;
            if rest == 0 {
                break;
            }
        }
        if number < 0 {
            from -= 1;
            text[from] = b'-';
        }
        self.put(&text[from..], width)
    }

    /// put writes a text with blanks in front up to the width, or pauses if that is longer than the room.
    #[inline(never)]
    pub fn put(&mut self, text: &[u8], width: i32) -> Result<(), Stop> {
        let length = text.len().max(width.clamp(0, MAX_WIDTH) as usize);
        let place = self.buffer[self.written..].get_mut(..length).ok_or(Stop::Paused(Pause::Output))?;
        let (blanks, rest) = place.split_at_mut(length - text.len());
        blanks.fill(b' ');
        rest.copy_from_slice(text);
        self.written += length;
        Ok(())
    }
}
