//! The example scripts in `examples/`, each with the listing that it says it has.

use std::fs;
use std::path::{Path, PathBuf};

/// An example: its script and its listing.
pub struct Example {
    pub name: String,
    pub script: Vec<u8>,
    pub listing: Vec<u8>,
}

/// Every example.
pub fn all() -> Result<Vec<Example>, String> {
    let folder = Path::new(env!("CARGO_MANIFEST_DIR")).join("../../examples");
    let mut paths = text_files(&folder)?;
    paths.sort();
    let examples = paths
        .iter()
        .map(|path| read(path))
        .collect::<Result<Vec<_>, _>>()?;
    if examples.is_empty() {
        return Err(format!("no example in {}", folder.display()));
    }
    Ok(examples)
}

fn text_files(folder: &Path) -> Result<Vec<PathBuf>, String> {
    let fail = |error| format!("{}: {error}", folder.display());
    let mut paths = Vec::new();
    for entry in fs::read_dir(folder).map_err(fail)? {
        let path = entry.map_err(fail)?.path();
        if path.extension().is_some_and(|extension| extension == "txt") {
            paths.push(path);
        }
    }
    Ok(paths)
}

fn read(path: &Path) -> Result<Example, String> {
    let fail = |error: String| format!("{}: {error}", path.display());
    let text = fs::read_to_string(path).map_err(|error| fail(error.to_string()))?;
    let name = path
        .file_name()
        .unwrap_or_default()
        .to_string_lossy()
        .into_owned();
    let (script, listing) = parse(&text).map_err(fail)?;
    Ok(Example {
        name,
        script,
        listing,
    })
}

fn parse(text: &str) -> Result<(Vec<u8>, Vec<u8>), String> {
    let mut script = Vec::new();
    let mut listing = Vec::new();
    for line in text.lines() {
        if line.is_empty() || line.starts_with('#') {
            continue;
        }
        let (command, answer) = line
            .split_once(": ")
            .ok_or_else(|| format!("no colon in {line:?}"))?;
        for word in command.split_whitespace() {
            script.extend(word_bytes(word).ok_or_else(|| format!("not hexadecimal: {word:?}"))?);
        }
        listing.extend_from_slice(answer.as_bytes());
        listing.push(b'\n');
    }
    Ok((script, listing))
}

/// A word of one character stands for that character, any other word for bytes in hexadecimal.
fn word_bytes(word: &str) -> Option<Vec<u8>> {
    if word.len() == 1 {
        return Some(word.as_bytes().to_vec());
    }
    let digits = word
        .chars()
        .map(|digit| digit.to_digit(16).map(|digit| digit as u8))
        .collect::<Option<Vec<u8>>>()?;
    let (pairs, rest) = digits.as_chunks::<2>();
    rest.is_empty()
        .then(|| pairs.iter().map(|[high, low]| high << 4 | low).collect())
}

#[cfg(test)]
mod tests {
    use super::*;

    #[test]
    fn words_are_characters_or_hexadecimal() {
        assert_eq!(word_bytes("L"), Some(b"L".to_vec()));
        assert_eq!(word_bytes("04B0"), Some(vec![0x04, 0xB0]));
        assert_eq!(word_bytes("04B"), None);
        assert_eq!(word_bytes("0G"), None);
    }

    #[test]
    fn the_second_program_lists_every_example_as_it_says() {
        for example in all().unwrap() {
            assert_eq!(second::listing(&example.script), example.listing);
        }
    }
}
