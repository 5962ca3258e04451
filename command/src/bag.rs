//! A bag as RFC 8493 describes it: its tag files and manifests as text.

use crate::seal::BAGIT;
use crate::sha256;

/// The tag files of an archive; the last has the sums of the others.
pub const INFO: &str = "bag-info.txt";
pub const MANIFEST: &str = "manifest-sha256.txt";
pub const TAGS: &str = "tagmanifest-sha256.txt";
pub const TAG_FILES: [&str; 4] = [BAGIT, INFO, MANIFEST, TAGS];

/// The folder of the payload.
pub const DATA: &str = "data";

/// What `bagit.txt` says.
pub const DECLARATION: &str = "BagIt-Version: 1.0\nTag-File-Character-Encoding: UTF-8\n";

/// A file of a bag: its path in the bag and its bytes.
pub type BagFile = (String, Vec<u8>);

/// A path and the SHA-256 of its file.
pub type Sum = (String, String);

/// The longest line of `bag-info.txt` that the RFC recommends.
const LINE: usize = 79;

/// All files of the bag with this payload (names without `data/`) and this metadata.
pub fn files(payload: Vec<BagFile>, info: &[(&str, String)]) -> Vec<BagFile> {
    let in_data = |(name, bytes): BagFile| (format!("{DATA}/{name}"), bytes);
    let mut payload: Vec<BagFile> = payload.into_iter().map(in_data).collect();
    payload.sort();
    let manifest = manifest(&sums(&payload));
    let mut tags = vec![
        (INFO.to_string(), info_text(info).into_bytes()),
        (BAGIT.to_string(), DECLARATION.as_bytes().to_vec()),
        (MANIFEST.to_string(), manifest.into_bytes()),
    ];
    let tag_manifest = self::manifest(&sums(&tags));
    tags.push((TAGS.to_string(), tag_manifest.into_bytes()));
    payload.extend(tags);
    payload
}

pub fn sums(files: &[BagFile]) -> Vec<Sum> {
    let sum = |(path, bytes): &BagFile| (path.clone(), sha256::hex(bytes));
    files.iter().map(sum).collect()
}

/// A manifest as `sha256sum` prints it, by path.
pub fn manifest(sums: &[Sum]) -> String {
    let mut sums: Vec<&Sum> = sums.iter().collect();
    sums.sort();
    let line = |(path, sum): &&Sum| format!("{sum}  {path}\n");
    sums.iter().map(line).collect()
}

/// The sums of a manifest; none where it is not exactly what `manifest` writes.
pub fn read_manifest(text: &[u8]) -> Option<Vec<Sum>> {
    let text = std::str::from_utf8(text).ok()?;
    let sums: Option<Vec<Sum>> = text.lines().map(read_line).collect();
    let sums = sums?;
    let twice = sums.windows(2).any(|pair| pair[0].0 == pair[1].0);
    (!twice && manifest(&sums) == text).then_some(sums)
}

fn read_line(line: &str) -> Option<Sum> {
    let (sum, path) = line.split_once("  ")?;
    let digit = |b: u8| b.is_ascii_digit() || (b'a'..=b'f').contains(&b);
    let whole = sum.len() == 64 && sum.bytes().all(digit) && !path.is_empty();
    whole.then(|| (path.to_string(), sum.to_string()))
}

/// `Payload-Oxum`: the bytes of all payload files, a point, and their number.
pub fn oxum<'a>(files: impl Iterator<Item = &'a [u8]>) -> String {
    let (mut bytes, mut count) = (0, 0);
    for file in files {
        bytes += file.len();
        count += 1;
    }
    format!("{bytes}.{count}")
}

/// Metadata, a label and its value each; long lines go on, indented, in the next.
pub fn info_text(info: &[(&str, String)]) -> String {
    let mut text = String::new();
    for (label, value) in info {
        let mut line = format!("{label}:");
        for word in value.split(' ') {
            if line.len() + 1 + word.len() > LINE {
                text.push_str(&line);
                text.push('\n');
                line = String::from(" ");
            }
            line.push(' ');
            line.push_str(word);
        }
        text.push_str(&line);
        text.push('\n');
    }
    text
}

/// The value of a label, its lines joined.
pub fn info_value(text: &str, label: &str) -> Option<String> {
    let mut lines = text.lines();
    let first = lines.find_map(|line| line.strip_prefix(label)?.strip_prefix(':'))?;
    let more = lines.take_while(|line| line.starts_with(' '));
    let words: Vec<&str> = std::iter::once(first).chain(more).map(str::trim).collect();
    Some(words.join(" ").trim().to_string())
}

#[cfg(test)]
mod tests {
    use super::{files, info_value, read_manifest, TAGS};

    #[test]
    fn what_is_written_reads_back() {
        let long = format!("one {} three", "x".repeat(70));
        let info = [("Label", "a value".to_string()), ("Long", long.clone())];
        let bag = files(vec![("b".into(), vec![1]), ("a".into(), vec![])], &info);
        let names: Vec<&str> = bag.iter().map(|(name, _)| &name[..]).collect();
        assert_eq!(names[..2], ["data/a", "data/b"]);
        let text = String::from_utf8(bag[2].1.clone()).unwrap();
        assert!(text.lines().all(|line| line.len() <= 79), "{text}");
        assert_eq!(info_value(&text, "Label").unwrap(), "a value");
        assert_eq!(info_value(&text, "Long").unwrap(), long);
        assert_eq!(info_value(&text, "None"), None);
        let tags = &bag.iter().find(|(name, _)| name == TAGS).unwrap().1;
        assert_eq!(read_manifest(tags).unwrap().len(), 3);
        for at in 0..tags.len() {
            let mut other = tags.clone();
            other.remove(at);
            assert_ne!(read_manifest(&other), read_manifest(tags));
        }
        let again = [&tags[..], tags].concat();
        assert_eq!(read_manifest(&again), None);
    }
}
