//! Characters that nobody sees: one of them in a word makes it another word that looks the same.

/// Blanks other than the space, fillers, marks of no width, controls of direction, and what is no character at all.
const INVISIBLE: [(char, char); 21] = [
    ('\u{a0}', '\u{a0}'),
    ('\u{ad}', '\u{ad}'),
    ('\u{34f}', '\u{34f}'),
    ('\u{61c}', '\u{61c}'),
    ('\u{115f}', '\u{1160}'),
    ('\u{1680}', '\u{1680}'),
    ('\u{17b4}', '\u{17b5}'),
    ('\u{180b}', '\u{180f}'),
    ('\u{2000}', '\u{200f}'),
    ('\u{2028}', '\u{202f}'),
    ('\u{205f}', '\u{206f}'),
    ('\u{2800}', '\u{2800}'),
    ('\u{3000}', '\u{3000}'),
    ('\u{3164}', '\u{3164}'),
    ('\u{fe00}', '\u{fe0f}'),
    ('\u{feff}', '\u{feff}'),
    ('\u{ffa0}', '\u{ffa0}'),
    ('\u{fff0}', '\u{fffb}'),
    ('\u{fffe}', '\u{ffff}'),
    ('\u{1bca0}', '\u{1bca3}'),
    ('\u{e0000}', '\u{e0fff}'),
];

/// Whether a page shows nothing for it, or something else than it. The space is no such character; a tab is one.
pub fn is_invisible(character: char) -> bool {
    let within = |&(first, last): &(char, char)| (first..=last).contains(&character);
    character.is_control() || INVISIBLE.iter().any(within)
}
