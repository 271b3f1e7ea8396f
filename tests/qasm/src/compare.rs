//! A comparison of texts, one at a time.

use comparing::Known;

pub trait CompareTexts {
    /// The texts that follow are counted under this name.
    fn texts_group(&mut self, name: &str);

    /// Compares what this text gives with what it should, and with what is known of it.
    fn text(&mut self, text: &[u8], known: &Known);
}
