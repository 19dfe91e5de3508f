//! The sizes of a switch model, as run-time numbers.

/// Bytes in a page and in a frame.
pub const PAGE_BYTES: usize = 1024;

/// How many spaces, pages in a space, and cache places a model has. It has as many frames as a space has pages.
#[derive(Clone, Copy, Debug, PartialEq, Eq)]
pub struct Sizes {
    pub spaces: usize,
    pub pages: usize,
    pub places: usize,
}

impl Sizes {
    /// The entry switch.
    pub const ENTRY: Sizes = Sizes { spaces: 8, pages: 32, places: 8 };

    /// The premium switch.
    pub const PREMIUM: Sizes = Sizes { spaces: 16, pages: 64, places: 16 };

    /// Both, the smaller one first.
    pub const MODELS: [Sizes; 2] = [Sizes::ENTRY, Sizes::PREMIUM];

    /// The model of that name.
    pub fn named(name: &str) -> Option<Sizes> {
        Sizes::MODELS.into_iter().find(|sizes| sizes.name() == name)
    }

    pub fn name(self) -> &'static str {
        if self == Sizes::ENTRY {
            "entry"
        } else {
            "premium"
        }
    }

    /// The other model.
    pub fn other(self) -> Sizes {
        if self == Sizes::ENTRY {
            Sizes::PREMIUM
        } else {
            Sizes::ENTRY
        }
    }

    /// The largest size of a range that is a part: it has every page of a space.
    pub fn largest_part(self) -> u32 {
        10 + self.pages.ilog2()
    }

    /// Bytes of memory, which is also the first address past the last page.
    pub fn memory(self) -> usize {
        PAGE_BYTES * self.pages
    }

    /// Bytes of a board's tables: slots, live spaces, cache places, next place.
    pub fn tables(self) -> usize {
        4 * self.spaces * self.pages + self.spaces + 4 * self.places + 1
    }

    /// Bytes of a board's image: the tables, then the summary with four counts of two bytes for each frame.
    pub fn image(self) -> usize {
        self.tables() + 8 * self.pages
    }
}

#[cfg(test)]
mod tests {
    use super::*;

    #[test]
    fn the_models_have_the_sizes_of_the_header() {
        assert_eq!(Sizes::MODELS.map(Sizes::memory), [32_768, 65_536]);
        assert_eq!(Sizes::MODELS.map(Sizes::tables), [1_065, 4_177]);
        assert_eq!(Sizes::MODELS.map(Sizes::image), [1_321, 4_689]);
    }

    #[test]
    fn the_largest_parts_are_those_of_the_documents() {
        assert_eq!(Sizes::MODELS.map(Sizes::largest_part), [15, 16]);
    }

    #[test]
    fn a_model_has_a_name() {
        assert_eq!(Sizes::named("entry"), Some(Sizes::ENTRY));
        assert_eq!(Sizes::named("premium"), Some(Sizes::PREMIUM));
        assert_eq!(Sizes::named("other"), None);
        assert_eq!(Sizes::MODELS.map(Sizes::other), [Sizes::PREMIUM, Sizes::ENTRY]);
    }
}
