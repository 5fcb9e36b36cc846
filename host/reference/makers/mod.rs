//! The makers of lines for the kit and for the access sheet.

mod bursts_lines;
mod efr_lines;
mod fields;
mod frame_lines;
mod full_lines;
mod help_lines;
mod hub_lines;
mod lend_lines;
mod lesson;
mod lesson_lines;
mod mark_lines;
mod missing_lines;
mod received_lines;
mod refused_calls;
mod request;
mod sent_lines;
mod sheet_lines;
#[cfg(test)]
mod sorts;
#[cfg(test)]
mod taken_blocks;
mod ties_lines;
mod totals_lines;
mod view_lines;
mod whose_lines;
mod windows_lines;

use crate::chance::random::Random;

/// A mode of the command line that makes lines.
pub struct Maker {
    pub mode: &'static str,
    /// The numbers behind the mode, as the usage calls them: a seed, and mostly how many.
    pub numbers: &'static str,
    /// A line may end in a carriage return. The kit passes over it, so that it must not where the
    /// line is meant as it stands.
    with_returns: bool,
    /// So many lines, without their newlines.
    lines: fn(&mut Random, usize) -> Vec<Vec<u8>>,
}

/// The makers that the usage names.
pub static MAKERS: [Maker; 18] = [
    Maker {
        mode: "make-lines",
        numbers: "SEED COUNT",
        with_returns: false,
        lines: |random, count| each(random, count, sent_lines::line),
    },
    Maker {
        mode: "make-received",
        numbers: "SEED COUNT",
        with_returns: false,
        lines: |random, count| each(random, count, received_lines::line),
    },
    Maker {
        mode: "make-views",
        numbers: "SEED COUNT",
        with_returns: false,
        lines: |random, count| each(random, count, view_lines::line),
    },
    Maker {
        mode: "make-lessons",
        numbers: "SEED COUNT",
        with_returns: false,
        lines: lesson_lines::lessons,
    },
    Maker {
        mode: "make-stream",
        numbers: "SEED BLOCKS",
        with_returns: false,
        lines: lesson_lines::stream,
    },
    Maker {
        mode: "make-lend",
        numbers: "SEED COUNT",
        with_returns: false,
        lines: lend_lines::lines,
    },
    Maker {
        mode: "make-help",
        numbers: "SEED COUNT",
        with_returns: false,
        lines: help_lines::lines,
    },
    Maker {
        mode: "make-totals",
        numbers: "SEED COUNT",
        with_returns: false,
        lines: totals_lines::lines,
    },
    Maker {
        mode: "make-ties",
        numbers: "SEED COUNT",
        with_returns: false,
        lines: ties_lines::lines,
    },
    Maker {
        mode: "make-missing",
        numbers: "SEED COUNT",
        with_returns: false,
        lines: missing_lines::lines,
    },
    Maker {
        mode: "make-bursts",
        numbers: "SEED COUNT",
        with_returns: false,
        lines: bursts_lines::lines,
    },
    Maker {
        mode: "make-efr",
        numbers: "SEED COUNT",
        with_returns: false,
        lines: |random, count| each(random, count, efr_lines::line),
    },
    Maker {
        mode: "make-whose",
        numbers: "SEED COUNT",
        with_returns: false,
        lines: whose_lines::lines,
    },
    Maker {
        mode: "make-marks",
        numbers: "SEED COUNT",
        with_returns: false,
        lines: |random, count| each(random, count, mark_lines::line),
    },
    Maker {
        mode: "make-hub",
        numbers: "SEED COUNT",
        with_returns: false,
        lines: hub_lines::lines,
    },
    Maker {
        mode: "make-windows",
        numbers: "SEED COUNT",
        with_returns: true,
        lines: windows_lines::lines,
    },
    Maker {
        mode: "make-full",
        numbers: "SEED",
        with_returns: false,
        lines: |random, _| full_lines::lines(random),
    },
    Maker {
        mode: "make-sheet",
        numbers: "SEED COUNT",
        with_returns: true,
        lines: |random, count| each(random, count, sheet_lines::line),
    },
];

/// The maker of frames, whose mode is known like the others'; the usage does not name it yet.
pub static FRAMES: Maker = Maker {
    mode: "make-frames",
    numbers: "SEED COUNT",
    with_returns: false,
    lines: frame_lines::lines,
};

/// So many lines, each made by itself.
fn each(random: &mut Random, count: usize, line: impl Fn(&mut Random) -> Vec<u8>) -> Vec<Vec<u8>> {
    (0..count).map(|_| line(random)).collect()
}

impl Maker {
    /// A page of lines from a seed; about one page in two lacks the last newline.
    pub fn page(&self, seed: u64, count: usize) -> Vec<u8> {
        let mut random = Random::new(seed);
        let mut page = Vec::new();
        for mut line in (self.lines)(&mut random, count) {
            if !self.with_returns {
                fields::end_otherwise(&mut line);
            }
            page.extend(line);
            page.push(10);
        }
        if random.one_in(2) {
            page.pop();
        }
        page
    }
}

#[cfg(test)]
mod tests {
    use super::*;

    #[test]
    fn some_made_pages_lack_the_last_newline() {
        let maker = Maker {
            mode: "",
            numbers: "",
            with_returns: true,
            lines: |random, count| each(random, count, |_| b"x".to_vec()),
        };
        let pages: Vec<Vec<u8>> = (0..100).map(|seed| maker.page(seed, 3)).collect();
        let lacking = pages.iter().filter(|page| *page == b"x\nx\nx").count();
        let ending = pages.iter().filter(|page| *page == b"x\nx\nx\n").count();
        assert_eq!(lacking + ending, 100);
        assert!(lacking > 20 && ending > 20);
    }

    #[test]
    fn no_made_line_holds_a_newline() {
        for maker in &MAKERS {
            for line in (maker.lines)(&mut Random::new(12), 5000) {
                assert!(!line.contains(&10), "{}", maker.mode);
            }
        }
    }

    #[test]
    fn no_made_line_of_frames_holds_a_newline() {
        let lines = (FRAMES.lines)(&mut Random::new(12), 5000);
        assert!(lines.iter().all(|line| !line.contains(&10)));
    }

    /// The page has a carriage return before a newline.
    fn has_returns(page: &[u8]) -> bool {
        page.windows(2).any(|two| two == b"\r\n")
    }

    #[test]
    fn a_return_stands_before_a_newline_where_it_may() {
        for maker in MAKERS.iter().filter(|maker| maker.mode != "make-full") {
            let page = maker.page(16, 3000);
            assert_eq!(has_returns(&page), maker.with_returns, "{}", maker.mode);
        }
    }

    #[test]
    fn no_return_stands_before_a_newline_of_frames() {
        assert!(!has_returns(&FRAMES.page(16, 3000)));
    }

    #[test]
    fn a_seed_gives_the_same_page_of_frames_again() {
        let page = FRAMES.page(1, 20);
        assert_eq!(FRAMES.page(1, 20), page);
        assert_ne!(FRAMES.page(2, 20), page);
    }

    #[test]
    fn a_seed_gives_the_same_page_again() {
        for maker in MAKERS.iter().filter(|maker| maker.mode != "make-full") {
            let page = maker.page(1, 20);
            assert_eq!(maker.page(1, 20), page, "{}", maker.mode);
            assert_ne!(maker.page(2, 20), page, "{}", maker.mode);
        }
    }
}
