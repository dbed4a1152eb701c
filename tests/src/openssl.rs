//! The library's ciphers against the `openssl` command, where it is installed.

use std::io::{ErrorKind, Write};
use std::process::{Command, Stdio};

use reference::aes::Block;
use reference::ciphers::Checked;
use reference::kdf;
use reference::library::Library;
use reference::rng::Rng;
use reference::show::{first_difference, hex};

/// Runs `openssl` on this input; its output, or what it complained of.
fn openssl(arguments: &[&str], input: &[u8]) -> Result<Vec<u8>, String> {
    let mut child = Command::new("openssl")
        .args(arguments)
        .stdin(Stdio::piped())
        .stdout(Stdio::piped())
        .stderr(Stdio::piped())
        .spawn()
        .map_err(|why| why.to_string())?;
    // The inputs fit a pipe, so writing before reading can't lock.
    let mut pipe = child.stdin.take().expect("piped");
    pipe.write_all(input).map_err(|why| why.to_string())?;
    drop(pipe);
    let done = child.wait_with_output().map_err(|why| why.to_string())?;
    if done.status.success() {
        Ok(done.stdout)
    } else {
        let complaint = String::from_utf8_lossy(&done.stderr).into_owned();
        Err(format!("openssl: {}: {complaint}", done.status))
    }
}

/// Only a missing command is none: one that is there and fails, fails its checks.
pub fn installed() -> bool {
    let tried = Command::new("openssl")
        .arg("version")
        .stdin(Stdio::null())
        .stdout(Stdio::null())
        .stderr(Stdio::null())
        .status();
    !matches!(tried, Err(why) if why.kind() == ErrorKind::NotFound)
}

fn same(what: &str, expected: &[u8], got: &[u8]) -> Result<(), String> {
    match first_difference(what, expected, got) {
        None => Ok(()),
        Some(difference) => Err(difference),
    }
}

/// Many blocks a run of the command, under a few keys.
fn aes(library: &dyn Library, rng: &mut Rng) -> Checked {
    let (keys, blocks) = (4, 256);
    for _ in 0..keys {
        let key: Block = rng.array();
        let text = rng.bytes(16 * blocks);
        let enc = ["enc", "-aes-128-ecb", "-nopad", "-K", &hex(&key)];
        let expected = openssl(&enc, &text)?;
        let mut got = Vec::new();
        for block in text.chunks_exact(16) {
            got.extend(library.aes(&key, block.try_into().expect("16 bytes"))?);
        }
        same("blocks", &expected, &got)?;
    }
    Ok(format!("{} blocks", keys * blocks))
}

fn openssl_cmac(key: &Block, message: &[u8]) -> Result<Vec<u8>, String> {
    let key = format!("hexkey:{}", hex(key));
    let options = ["-cipher", "AES-128-CBC", "-macopt", &key];
    openssl(
        &[&["mac", "-binary"], &options[..], &["CMAC"]].concat(),
        message,
    )
}

fn cmac(library: &dyn Library, rng: &mut Rng) -> Checked {
    let lengths = [0, 1, 15, 16, 17, 31, 32, 33, 64, 564, 5000];
    for length in lengths {
        let (key, message): (Block, _) = (rng.array(), rng.bytes(length));
        let got = library.cmac(&key, &message)?;
        same("tag", &openssl_cmac(&key, &message)?, &got)?;
    }
    Ok(format!("{} messages", lengths.len()))
}

fn ctr(library: &dyn Library, rng: &mut Rng) -> Checked {
    let lengths = [0, 1, 16, 17, 480, 5000];
    for length in lengths {
        let (key, iv, data): (Block, [u8; 8], _) = (rng.array(), rng.array(), rng.bytes(length));
        let counter = hex(&iv) + "0000000000000000";
        let enc = ["enc", "-aes-128-ctr", "-K", &hex(&key), "-iv", &counter];
        let got = library.ctr(&key, &iv, &data)?;
        same("text", &openssl(&enc, &data)?, &got)?;
    }
    Ok(format!("{} messages", lengths.len()))
}

/// KBKDF in counter mode with a count of 8 bits is 01's layout; a command that
/// has no such option is asked for the CMAC of the composed input.
fn derive(library: &dyn Library, rng: &mut Rng) -> Checked {
    let mut by = "KBKDF";
    let lengths = [1, 16, 28, 29, 64];
    for length in lengths {
        for prefix in [kdf::ENC, kdf::AUTH] {
            let (key, name): (Block, _) = (rng.array(), rng.bytes(length));
            let salt = [prefix, &name].concat();
            let salt = &salt[..salt.len().min(32)];
            let got = library.derive(&key, prefix, &name)?;
            let expected = kbkdf(&key, salt).or_else(|_| {
                by = "CMAC";
                let input = [b"\x01", salt, b"\x00\x00\x00\x00\x80"].concat();
                openssl_cmac(&key, &input)
            })?;
            same("key", &expected, &got)?;
        }
    }
    Ok(format!("{} names, by {by}", 2 * lengths.len()))
}

fn kbkdf(key: &Block, salt: &[u8]) -> Result<Vec<u8>, String> {
    let (key, salt) = (
        format!("hexkey:{}", hex(key)),
        format!("hexsalt:{}", hex(salt)),
    );
    let options = [
        "mac:CMAC",
        "cipher:AES-128-CBC",
        "mode:counter",
        "r:8",
        &key,
        &salt,
    ];
    let mut arguments = vec!["kdf", "-binary", "-keylen", "16"];
    for option in options {
        arguments.extend(["-kdfopt", option]);
    }
    arguments.push("KBKDF");
    openssl(&arguments, b"")
}

pub fn checks(library: &dyn Library, seed: u64) -> Vec<(String, Checked)> {
    let mut rng = Rng::part(seed, 5 << 40);
    vec![
        ("openssl-aes".into(), aes(library, &mut rng)),
        ("openssl-cmac".into(), cmac(library, &mut rng)),
        ("openssl-ctr".into(), ctr(library, &mut rng)),
        ("openssl-derive".into(), derive(library, &mut rng)),
    ]
}
