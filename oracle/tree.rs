//! Lays out a module tree of the Rust, each file checked against hashes.txt, and over it stand-ins of ours: for the modules that
//! it names but does not bring, and, where speed is measured, for one that it does. Shared by the build scripts that compile it.
//!
//! The bytes that were hashed are the bytes laid out, so nothing else can be compiled.

use std::path::{Path, PathBuf};
use std::{env, fs};

/// Where the Rust lies, seen from the repository's top, unless LINTELPEAR_RUST says otherwise.
const DEFAULT: &str = "../shared/docs/src";

/// `oracle` is the folder of hashes.txt; later stand-ins replace earlier ones.
pub fn lay_out(oracle: &Path, standins: &[PathBuf]) {
    let out = PathBuf::from(env::var("OUT_DIR").unwrap());
    let given = env::var("LINTELPEAR_RUST").unwrap_or_else(|_| DEFAULT.into());
    let rust = oracle.join("..").join(&given);
    let tree = out.join("rust");
    println!("cargo:rerun-if-env-changed=LINTELPEAR_RUST");
    println!("cargo:rerun-if-changed=build.rs");
    watch(&oracle.join("hashes.txt"));
    assert!(rust.is_dir(), "the Rust is not at {given}");

    for line in fs::read_to_string(oracle.join("hashes.txt")).unwrap().lines() {
        let (hash, name) = line.split_once("  ").expect("hashes.txt: HASH, two spaces, NAME");
        let bytes = read(&rust.join(name));
        assert_eq!(hex(&sha256(&bytes)), hash, "{name} is not the file we know");
        lay(&tree.join(name), &bytes);
    }
    standins.iter().for_each(|folder| copy(folder, &tree.join("src")));

    // `#[path]` takes no expression, hence a file that spells the folder out.
    let modules = ["codec", "common", "hash", "hll"].map(|name| format!("{name}/mod.rs"));
    let modules: String = modules
        .iter()
        .map(String::as_str)
        .chain(["error.rs"])
        .map(|file| {
            let name = file.split(['/', '.']).next().unwrap();
            let path = tree.join("src").join(file);
            format!("#[allow(dead_code)]\n#[path = {path:?}]\npub mod {name};\n")
        })
        .collect();
    fs::write(out.join("modules.rs"), modules).unwrap();
}

fn watch(path: &Path) {
    println!("cargo:rerun-if-changed={}", path.display());
}

fn read(path: &Path) -> Vec<u8> {
    watch(path);
    fs::read(path).unwrap_or_else(|e| panic!("{}: {e}", path.display()))
}

fn lay(path: &Path, bytes: &[u8]) {
    fs::create_dir_all(path.parent().unwrap()).unwrap();
    fs::write(path, bytes).unwrap();
}

fn copy(from: &Path, to: &Path) {
    watch(from);
    for entry in fs::read_dir(from).unwrap() {
        let entry = entry.unwrap();
        let (from, to) = (entry.path(), to.join(entry.file_name()));
        match from.is_dir() {
            true => copy(&from, &to),
            false => lay(&to, &read(&from)),
        }
    }
}

fn hex(bytes: &[u8]) -> String {
    bytes.iter().map(|b| format!("{b:02x}")).collect()
}

/// SHA-256 (FIPS 180-4), so that the build needs no dependency and no tool.
fn sha256(message: &[u8]) -> [u8; 32] {
    let primes: Vec<u32> = (2..312).filter(|n| (2..*n).all(|d| n % d != 0)).collect();
    // The first 32 bits of the roots' fractional parts, found in whole numbers.
    let root = |p: u32, power: u32, bits: u32| -> u32 {
        let target = (p as u128) << bits;
        let mut r = 0u128;
        for bit in (0..40).rev() {
            if (r | 1 << bit).pow(power) <= target {
                r |= 1 << bit;
            }
        }
        r as u32
    };
    let k: Vec<u32> = primes.iter().take(64).map(|&p| root(p, 3, 96)).collect();
    let mut h: Vec<u32> = primes.iter().take(8).map(|&p| root(p, 2, 64)).collect();

    let mut padded = message.to_vec();
    padded.push(0x80);
    padded.resize(padded.len().next_multiple_of(64), 0);
    if padded.len() - message.len() < 9 {
        padded.resize(padded.len() + 64, 0);
    }
    let end = padded.len() - 8;
    padded[end..].copy_from_slice(&(message.len() as u64 * 8).to_be_bytes());

    for block in padded.chunks(64) {
        let mut w: Vec<u32> =
            block.chunks(4).map(|b| u32::from_be_bytes(b.try_into().unwrap())).collect();
        for t in 16..64 {
            let (x, y) = (w[t - 15], w[t - 2]);
            let s0 = x.rotate_right(7) ^ x.rotate_right(18) ^ x >> 3;
            let s1 = y.rotate_right(17) ^ y.rotate_right(19) ^ y >> 10;
            w.push(w[t - 16].wrapping_add(s0).wrapping_add(w[t - 7]).wrapping_add(s1));
        }
        let mut v = h.clone();
        for t in 0..64 {
            let s1 = v[4].rotate_right(6) ^ v[4].rotate_right(11) ^ v[4].rotate_right(25);
            let choice = v[4] & v[5] ^ !v[4] & v[6];
            let t1 = [s1, choice, k[t], w[t]].iter().fold(v[7], |a, b| a.wrapping_add(*b));
            let s0 = v[0].rotate_right(2) ^ v[0].rotate_right(13) ^ v[0].rotate_right(22);
            let majority = v[0] & v[1] ^ v[0] & v[2] ^ v[1] & v[2];
            v.rotate_right(1);
            v[4] = v[4].wrapping_add(t1);
            v[0] = t1.wrapping_add(s0).wrapping_add(majority);
        }
        for (a, b) in h.iter_mut().zip(v) {
            *a = a.wrapping_add(b);
        }
    }
    let mut digest = [0; 32];
    for (bytes, word) in digest.chunks_mut(4).zip(h) {
        bytes.copy_from_slice(&word.to_be_bytes());
    }
    digest
}
