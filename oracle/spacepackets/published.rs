// The published files and their SHA-256, and the check of a folder against them.

use std::path::Path;

/// Each published file, from this folder, with its SHA-256.
pub const FILES: [(&str, &str); 7] = [
    (
        "LICENSE-APACHE",
        "a60eea817514531668d7e00765731449fe14d059d3249e0bc93b36de45f759f2",
    ),
    (
        "NOTICE",
        "c6aedee91fa96e43b4352b65d7fb17cb568e3c009ee17810a70c3fba15587ca8",
    ),
    (
        "src/crc.rs",
        "f2a47f7ef402deb64ba4cb565138cbc0fbb1957a6e29839bd756f98afe878ffa",
    ),
    (
        "src/ecss/mod.rs",
        "e4a2f8eda03299717498bd1dc32037560b5b246d97ca7f7d88e0409ef06666fb",
    ),
    (
        "src/ecss/tc.rs",
        "5fe77bc80abd85614966bf955d5b17080e3804192d963aca9a6cf3ab0b69f877",
    ),
    (
        "src/lib.rs",
        "ccddc92fda83e623d0f3745514c0d0220fd516b7d9858677b33aad74989cb7e8",
    ),
    (
        "src/util.rs",
        "a37471a3516b0c6862c9828f678f9c2a91d96f1a4723854f76065357b57619f6",
    ),
];

/// Compares every published file in `folder` with its SHA-256; names the first that differs.
pub fn check(folder: &Path) -> Result<(), String> {
    for (name, expected) in FILES {
        let content = std::fs::read(folder.join(name)).map_err(|e| format!("{name}: {e}"))?;
        let found = sha256(&content);
        if found != expected {
            return Err(format!(
                "{name} is not the published file: SHA-256 {found}, published {expected}"
            ));
        }
    }
    Ok(())
}

/// SHA-256 in hex (FIPS 180-4, 6.2).
pub fn sha256(message: &[u8]) -> String {
    let primes: Vec<u32> = (2..312).filter(|n| (2..*n).all(|d| n % d != 0)).collect();
    let k: Vec<u32> = primes.iter().map(|p| root_fraction(*p, 3)).collect();
    let mut hash: Vec<u32> = primes[..8].iter().map(|p| root_fraction(*p, 2)).collect();

    let mut padded = message.to_vec();
    padded.push(0x80);
    while padded.len() % 64 != 56 {
        padded.push(0);
    }
    padded.extend_from_slice(&(message.len() as u64 * 8).to_be_bytes());

    for block in padded.chunks(64) {
        let mut w: Vec<u32> = block
            .chunks(4)
            .map(|b| u32::from_be_bytes([b[0], b[1], b[2], b[3]]))
            .collect();
        for t in 16..64 {
            let (x, y) = (w[t - 15], w[t - 2]);
            let s0 = x.rotate_right(7) ^ x.rotate_right(18) ^ (x >> 3);
            let s1 = y.rotate_right(17) ^ y.rotate_right(19) ^ (y >> 10);
            w.push(
                w[t - 16]
                    .wrapping_add(s0)
                    .wrapping_add(w[t - 7])
                    .wrapping_add(s1),
            );
        }
        let mut v = hash.clone();
        for t in 0..64 {
            let (a, e) = (v[0], v[4]);
            let s1 = e.rotate_right(6) ^ e.rotate_right(11) ^ e.rotate_right(25);
            let choice = (e & v[5]) ^ (!e & v[6]);
            let t1 = v[7]
                .wrapping_add(s1)
                .wrapping_add(choice)
                .wrapping_add(k[t])
                .wrapping_add(w[t]);
            let s0 = a.rotate_right(2) ^ a.rotate_right(13) ^ a.rotate_right(22);
            let majority = (a & v[1]) ^ (a & v[2]) ^ (v[1] & v[2]);
            v.rotate_right(1);
            v[4] = v[4].wrapping_add(t1);
            v[0] = t1.wrapping_add(s0).wrapping_add(majority);
        }
        for (h, v) in hash.iter_mut().zip(v) {
            *h = h.wrapping_add(v);
        }
    }
    hash.iter().map(|h| format!("{h:08x}")).collect()
}

/// The first 32 bits of the fractional part of the square (2) or cube (3) root of `n`.
fn root_fraction(n: u32, degree: u32) -> u32 {
    // The largest r with r^degree <= n * 2^(32 * degree); its low 32 bits are the fraction.
    let power = |r: u128| if degree == 2 { r * r } else { r * r * r };
    let goal = u128::from(n) << (32 * degree);
    let (mut low, mut high) = (0u128, 1u128 << 38);
    while high - low > 1 {
        let middle = (low + high) / 2;
        if power(middle) <= goal {
            low = middle;
        } else {
            high = middle;
        }
    }
    low as u32
}
