//! A comparison of listings, one at a time.

use crate::Listing;
use comparing::Known;

pub trait CompareListings {
    /// The listings that follow are counted under this name.
    fn group(&mut self, name: &str);

    /// Compares what this listing gives with what it should, and with what is known of
    /// it.
    fn listing(&mut self, bytes: &[u8], known: &Known);

    /// A listing that the check accepts.
    fn accepted(&mut self, listing: &Listing) {
        self.listing(&listing.bytes(), &Known::Accepted);
    }
}
