//! The archive that these tests are linked with is a proved one, and says so itself.

fn contains(bytes: &[u8], words: &str) -> bool {
    bytes
        .windows(words.len())
        .any(|part| part == words.as_bytes())
}

#[test]
fn the_archive_is_proved() {
    let path = cruachvel::ARCHIVE;
    let bytes = std::fs::read(path).unwrap_or_else(|error| panic!("{}: {}", path, error));
    assert!(
        !contains(&bytes, "rattle unproved"),
        "{} was built without its proofs",
        path
    );
    assert!(
        contains(&bytes, "rattle logic="),
        "{} doesn't say by what logic it is proved",
        path
    );
}
