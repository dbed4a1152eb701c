//! Lengths past 32 bits, which a call that counts in 32 would take for short ones.

use std::alloc::{alloc_zeroed, dealloc, Layout};

use reference::ciphers::Checked;

use crate::ffi::{
    securestore_decode_mix, securestore_encode_mix, securestore_find_mix, securestore_set_add_data,
    securestore_set_finalize, securestore_set_start, securestore_store_mix,
};

const PAST: usize = 1 << 32;
/// Longer than any length that is right, so the buffer has room behind it.
const ROOM: usize = PAST + 4096;

/// Zeros that take no memory as long as nobody writes them.
struct Zeros {
    start: *mut u8,
    layout: Layout,
}

impl Zeros {
    fn new() -> Option<Zeros> {
        let layout = Layout::from_size_align(ROOM, 16).ok()?;
        // SAFETY: the layout is not empty.
        let start = unsafe { alloc_zeroed(layout) };
        (!start.is_null()).then_some(Zeros { start, layout })
    }

    /// Whether its ends are as they were.
    fn untouched(&self) -> bool {
        // SAFETY: both ends lie in the buffer, which nobody else has now.
        let ends = unsafe {
            [
                std::slice::from_raw_parts(self.start, 4096),
                std::slice::from_raw_parts(self.start.add(ROOM - 4096), 4096),
            ]
        };
        ends.iter().all(|end| end.iter().all(|byte| *byte == 0))
    }
}

impl Drop for Zeros {
    fn drop(&mut self) {
        // SAFETY: allocated with this layout.
        unsafe { dealloc(self.start, self.layout) };
    }
}

type Tried = (&'static str, u32, u32);

/// Each call with one length past 32 bits, whose low 32 bits are a right one: the
/// number that it answered, and the one that is due.
// SAFETY, of every call: each pointer is to a buffer of at least the length beside
// it, and what a call may write overlaps nothing else that it is lent.
fn calls(zeros: &Zeros, handle: &mut [u8; 88]) -> Vec<Tried> {
    let long = zeros.start;
    let (iv, key) = ([1; 8], [2; 16]);
    let (mut card, mut chip) = ([0; 584], [0; 82]);
    let mut staging = [3; 480];
    let (kv, rbp) = (card.as_mut_ptr(), chip.as_mut_ptr());
    let (staging, handle) = (staging.as_mut_ptr(), handle.as_mut_ptr());
    let (iv, key) = (iv.as_ptr(), key.as_ptr());
    let start = |name_len, iv_len, declared| unsafe {
        let iv = if iv_len == 8 { iv } else { long };
        securestore_set_start(long, name_len, 0, iv, iv_len, declared, handle)
    };
    let add = |staging, staging_len, chunk, chunk_len| unsafe {
        securestore_set_add_data(handle, staging, staging_len, chunk, chunk_len)
    };
    let finalize = |kv, kv_len, rbp, rbp_len, key, key_len, staging, staging_len| unsafe {
        securestore_set_finalize(
            kv,
            kv_len,
            rbp,
            rbp_len,
            key,
            key_len,
            handle,
            staging,
            staging_len,
        )
    };
    let mut tried = vec![
        ("set_start name", start(PAST + 1, 8, 4), 3),
        ("set_start IV", start(1, PAST + 8, 4), 1),
        ("set_start declared size", start(1, 8, PAST + 4), 5),
    ];
    // A good handle for the others: an empty name, four bytes declared.
    tried.push(("set_start", start(0, 8, 4), 0));
    tried.extend([
        ("set_add_data chunk", add(staging, 480, long, PAST + 1), 19),
        (
            "set_add_data empty chunk",
            add(staging, 480, long, PAST),
            19,
        ),
        (
            "set_add_data staging buffer",
            add(long, PAST + 480, key, 1),
            1,
        ),
        (
            "set_finalize card",
            finalize(long, PAST + 584, rbp, 82, key, 16, staging, 480),
            1,
        ),
        (
            "set_finalize chip",
            finalize(kv, 584, long, PAST + 82, key, 16, staging, 480),
            1,
        ),
        (
            "set_finalize device key",
            finalize(kv, 584, rbp, 82, long, PAST + 16, staging, 480),
            1,
        ),
        (
            "set_finalize staging buffer",
            finalize(kv, 584, rbp, 82, key, 16, long, PAST + 480),
            1,
        ),
    ]);
    tried
}

/// The same of the calls of mixes.
// SAFETY: as above.
fn mix_calls(zeros: &Zeros) -> Vec<Tried> {
    let long = zeros.start;
    let (iv, key, name, mix) = ([1_u8; 8], [2_u8; 16], *b"mix/a", [0_u8; 9]);
    let (mut card, mut chip, mut buffer) = ([0_u8; 584], [0_u8; 82], [3_u8; 153]);
    let (kv, rbp, buffer) = (card.as_mut_ptr(), chip.as_mut_ptr(), buffer.as_mut_ptr());
    let (iv, key, name, mix) = (iv.as_ptr(), key.as_ptr(), name.as_ptr(), mix.as_ptr());
    let store = |lengths: [usize; 6]| unsafe {
        let [kv_len, rbp_len, key_len, name_len, iv_len, mix_len] = lengths;
        let part = |own: *const u8, len: usize| if len < PAST { own } else { long as *const u8 };
        let area = |own: *mut u8, len: usize| if len < PAST { own } else { long };
        let (kv, rbp) = (area(kv, kv_len), area(rbp, rbp_len));
        let (key, name) = (part(key, key_len), part(name, name_len));
        let (iv, mix) = (part(iv, iv_len), part(mix, mix_len));
        securestore_store_mix(
            kv, kv_len, rbp, rbp_len, key, key_len, name, name_len, 0, iv, iv_len, mix, mix_len,
        )
    };
    let find = |kv, kv_len, rbp, rbp_len, key, key_len| unsafe {
        let (mut count, session) = (0, 0);
        securestore_find_mix(
            kv, kv_len, rbp, rbp_len, key, key_len, session, buffer, 153, &mut count,
        )
    };
    let encode = |tags_len, levels_len, pans_len| unsafe {
        let (mut count, floats) = (0, long as *const f32);
        securestore_encode_mix(
            0, long, tags_len, floats, levels_len, floats, pans_len, buffer, 153, &mut count,
        )
    };
    let decode = |mix_len| unsafe {
        let (mut session, mut sends) = (0, 0);
        let (mut tags, mut levels, mut pans) = ([0; 16], [0.0; 16], [0.0; 16]);
        let (tags, levels) = (tags.as_mut_ptr(), levels.as_mut_ptr());
        let pans = pans.as_mut_ptr();
        securestore_decode_mix(
            long,
            mix_len,
            &mut session,
            tags,
            16,
            levels,
            16,
            pans,
            16,
            &mut sends,
        )
    };
    vec![
        ("store_mix card", store([PAST + 584, 82, 16, 5, 8, 9]), 1),
        ("store_mix chip", store([584, PAST + 82, 16, 5, 8, 9]), 1),
        ("store_mix key", store([584, 82, PAST + 16, 5, 8, 9]), 1),
        // Zeros have no "mix/" in front.
        ("store_mix name", store([584, 82, 16, PAST + 5, 8, 9]), 3),
        ("store_mix IV", store([584, 82, 16, 5, PAST + 8, 9]), 1),
        ("store_mix mix", store([584, 82, 16, 5, 8, PAST + 9]), 20),
        ("find_mix card", find(long, PAST + 584, rbp, 82, key, 16), 1),
        ("find_mix chip", find(kv, 584, long, PAST + 82, key, 16), 1),
        ("find_mix key", find(kv, 584, rbp, 82, long, PAST + 16), 1),
        ("encode_mix tags", encode(PAST, 0, 0), 1),
        ("decode_mix mix", decode(PAST + 9), 20),
    ]
}

/// `None` where there is no room for such a length.
pub fn check() -> Option<Checked> {
    let zeros = Zeros::new()?;
    let mut handle = [0xee; 88];
    let mut tried = calls(&zeros, &mut handle);
    tried.extend(mix_calls(&zeros));
    let wrong = tried.iter().find(|(_, number, due)| number != due);
    // What the done start left, and nothing of the refused calls.
    let mut expected = [0; 88];
    expected[72..80].fill(1);
    expected[80] = 4;
    Some(match wrong {
        Some((what, number, due)) => Err(format!("{what}: {number}, not {due}")),
        None if handle != expected => Err("a refused call changed the handle".into()),
        None if !zeros.untouched() => Err("a refused call wrote the long buffer".into()),
        None => Ok(format!("{} calls", tried.len())),
    })
}
