//! Texts for tests: plans as prose shows them, one string a line, blanks for tabs, and
//! what is near a text.

/// The plan text of the given lines; each gets its line feed.
pub fn lines(lines: &[&str]) -> Vec<u8> {
    let mut text = Vec::new();
    for line in lines {
        text.extend(
            line.bytes()
                .map(|byte| if byte == b' ' { b'\t' } else { byte }),
        );
        text.push(b'\n');
    }
    text
}

/// The text with every byte in every place.
pub fn with_every_byte(text: &[u8]) -> impl Iterator<Item = Vec<u8>> + '_ {
    (0..text.len()).flat_map(move |place| {
        (0..=255).map(move |byte| {
            let mut changed = text.to_vec();
            changed[place] = byte;
            changed
        })
    })
}
