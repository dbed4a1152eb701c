//! Printing of buffers and calls, so that a mismatch can be read.

use crate::answer::Answer;
use crate::calls::Call;
use crate::handle::{Handle, HandleBytes};

pub fn hex(bytes: &[u8]) -> String {
    bytes.iter().map(|byte| format!("{byte:02x}")).collect()
}

/// The length, and the bytes with longer runs of zeros left out.
pub fn buffer(bytes: &[u8]) -> String {
    let mut text = format!("{} bytes", bytes.len());
    let mut at = 0;
    while at < bytes.len() {
        let zeros = bytes[at..].iter().take_while(|byte| **byte == 0).count();
        if zeros >= 8 {
            at += zeros;
            continue;
        }
        let rest = &bytes[at..];
        let end = rest.windows(8).position(|run| run == [0; 8]);
        let end = end.unwrap_or(rest.len());
        text += &format!(" @{at}:{}", hex(&rest[..end]));
        at += end;
    }
    text
}

fn name(bytes: &[u8]) -> String {
    format!("\"{}\"", bytes.escape_ascii())
}

pub fn call(call: &Call) -> String {
    match call {
        Call::Set {
            key,
            name: n,
            flags,
            iv,
            data,
        } => {
            let (key, n, iv) = (hex(key), name(n), hex(iv));
            format!(
                "set name {n} flags {flags:#x} key {key} iv {iv} data {}",
                buffer(data)
            )
        }
        Call::Get {
            key,
            name: n,
            offset,
            output,
        } => {
            let (key, n) = (hex(key), name(n));
            format!(
                "get name {n} offset {offset} key {key} output {}",
                buffer(output)
            )
        }
        Call::Info { key, name: n } => format!("info name {} key {}", name(n), hex(key)),
        Call::Remove { name: n } => format!("remove name {}", name(n)),
        Call::Reset => "reset".into(),
        Call::Walk {
            prefix,
            start,
            name_buffer,
        } => {
            let prefix = name(prefix);
            format!(
                "walk prefix {prefix} start {start} name buffer {}",
                buffer(name_buffer)
            )
        }
        Call::WriteKeyFile { .. } | Call::KeepKey { .. } | Call::LoadKey { .. } => key_call(call),
        Call::SetStart { .. } | Call::SetAddData { .. } | Call::SetFinalize { .. } => {
            handle_call(call)
        }
        _ => mix_call(call),
    }
}

fn mix_call(call: &Call) -> String {
    match call {
        Call::StoreMix {
            key,
            name: n,
            flags,
            iv,
            mix,
        } => format!(
            "store_mix name {} flags {flags:#x} key {} iv {} mix {}",
            name(n),
            hex(key),
            hex(iv),
            hex(mix)
        ),
        Call::FindMix {
            key,
            session,
            mix_buffer,
        } => format!(
            "find_mix session {session} key {} mix buffer {}",
            hex(key),
            buffer(mix_buffer)
        ),
        Call::EncodeMix {
            session,
            tags,
            levels,
            pans,
            mix_buffer,
        } => format!(
            "encode_mix session {session} tags {} levels {levels:08x?} pans {pans:08x?} mix buffer {}",
            hex(tags),
            buffer(mix_buffer)
        ),
        Call::DecodeMix {
            mix,
            tags,
            levels,
            pans,
        } => format!(
            "decode_mix mix {} tags {} levels {levels:08x?} pans {pans:08x?}",
            hex(mix),
            hex(tags)
        ),
        _ => unreachable!("no call of mixes"),
    }
}

fn handle_call(call: &Call) -> String {
    match call {
        Call::SetStart {
            name: n,
            flags,
            iv,
            declared,
            handle,
        } => format!(
            "set_start name {} flags {flags:#x} iv {} declared {declared} handle {}",
            name(n),
            hex(iv),
            buffer(handle)
        ),
        Call::SetAddData {
            handle: lent,
            staging,
            chunk,
        } => format!(
            "set_add_data handle {} chunk {} staging {}",
            handle(lent),
            buffer(chunk),
            buffer(staging)
        ),
        Call::SetFinalize {
            key,
            handle: lent,
            staging,
        } => format!(
            "set_finalize handle {} key {} staging {}",
            handle(lent),
            hex(key),
            buffer(staging)
        ),
        _ => unreachable!("no call with a handle"),
    }
}

/// The fields; the name with what stands behind its length.
fn handle(bytes: &HandleBytes) -> String {
    let handle = Handle::decode(bytes);
    format!(
        "(name {} length {} flags {:#x} iv {} declared {} count {})",
        buffer(&handle.name),
        handle.name_length,
        handle.flags,
        hex(&handle.iv),
        handle.declared,
        handle.count
    )
}

fn key_call(call: &Call) -> String {
    match call {
        Call::WriteKeyFile {
            attributes,
            material,
            key_buffer,
        } => format!(
            "write {attributes:x?} material {} key buffer {}",
            buffer(material),
            buffer(key_buffer)
        ),
        Call::KeepKey {
            key,
            identifier,
            attributes,
            material,
            flags,
            iv,
        } => format!(
            "keep {identifier:#x} flags {flags:#x} key {} iv {} {attributes:x?} material {}",
            hex(key),
            hex(iv),
            buffer(material)
        ),
        Call::LoadKey {
            key,
            identifier,
            key_buffer,
        } => format!(
            "load {identifier:#x} key {} key buffer {}",
            hex(key),
            buffer(key_buffer)
        ),
        _ => unreachable!("no call of key files"),
    }
}

pub fn answer(answer: &Answer) -> String {
    format!(
        "number {} returned {:?}\n      card {}\n      chip {}\n      output {}\n      handle {}\n      \
         levels {:08x?} pans {:08x?}",
        answer.number,
        answer.returned,
        buffer(&answer.card),
        buffer(&answer.chip),
        buffer(&answer.output),
        buffer(&answer.handle),
        answer.levels,
        answer.pans
    )
}

/// The bits of floats, as they stand in memory.
pub fn float_bytes(bits: &[u32]) -> Vec<u8> {
    bits.iter().flat_map(|bits| bits.to_le_bytes()).collect()
}

/// The first byte in which two buffers differ.
pub fn first_difference(what: &str, expected: &[u8], got: &[u8]) -> Option<String> {
    if expected == got {
        return None;
    }
    let at = expected.iter().zip(got).position(|(a, b)| a != b);
    Some(match at {
        Some(at) => {
            let (a, b) = (expected[at], got[at]);
            format!("{what} differs first at byte {at}: expected {a:02x}, got {b:02x}")
        }
        None => format!(
            "{what} has {} bytes, expected {}",
            got.len(),
            expected.len()
        ),
    })
}
