//! The published files are the published ones, and a change of any is noticed.

#[path = "../spacepackets/published.rs"]
mod published;

use published::{FILES, check, sha256};
use std::fs;
use std::path::Path;

fn here() -> &'static Path {
    Path::new(concat!(env!("CARGO_MANIFEST_DIR"), "/spacepackets"))
}

/// FIPS 180-4's examples of one and of two blocks, and no octets.
#[test]
fn sha256_examples() {
    for (message, hash) in [
        (
            "",
            "e3b0c44298fc1c149afbf4c8996fb92427ae41e4649b934ca495991b7852b855",
        ),
        (
            "abc",
            "ba7816bf8f01cfea414140de5dae2223b00361a396177a9cb410ff61f20015ad",
        ),
        (
            "abcdbcdecdefdefgefghfghighijhijkijkljklmklmnlmnomnopnopq",
            "248d6a61d20638b8e5c026930c3e6039a33ce45964ff2167f6ecedd419db06c1",
        ),
    ] {
        assert_eq!(sha256(message.as_bytes()), hash);
    }
}

#[test]
fn files_are_the_published_ones() {
    assert_eq!(check(here()), Ok(()));
}

#[test]
fn a_change_of_any_file_is_noticed() {
    let copy = Path::new(env!("CARGO_TARGET_TMPDIR")).join("published");
    fs::create_dir_all(copy.join("src/ecss")).unwrap();
    for (name, _) in FILES {
        fs::copy(here().join(name), copy.join(name)).unwrap();
    }
    assert_eq!(check(&copy), Ok(()));
    for (name, _) in FILES {
        let content = fs::read(here().join(name)).unwrap();
        let mut flipped = content.clone();
        flipped[content.len() / 2] ^= 1;
        let longer = [&content[..], b"\n"].concat();
        let shorter = content[..content.len() - 1].to_vec();
        for changed in [flipped, longer, shorter] {
            fs::write(copy.join(name), changed).unwrap();
            let why = check(&copy).expect_err(name);
            assert!(why.starts_with(name), "{why}");
        }
        fs::remove_file(copy.join(name)).unwrap();
        assert!(check(&copy).is_err());
        fs::write(copy.join(name), content).unwrap();
    }
    assert_eq!(check(&copy), Ok(()));
}
