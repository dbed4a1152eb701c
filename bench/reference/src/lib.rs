//! The second implementation's set, get and remove under C's calling convention, to be measured beside the library. It was written to be plain, not fast:
//! card and chip are decoded into values, and encoded again after a set or remove.

use reference::calls::{answer, Call};
use std::slice::{from_raw_parts, from_raw_parts_mut};

/// # Safety
/// As the header of the library says for `securestore_set`.
#[no_mangle]
#[allow(clippy::too_many_arguments)]
pub unsafe extern "C" fn reference_set(
    kv: *mut u8,
    kv_len: usize,
    rbp: *mut u8,
    rbp_len: usize,
    key: *const u8,
    key_len: usize,
    name: *const u8,
    name_len: usize,
    flags: u32,
    iv: *const u8,
    iv_len: usize,
    data: *const u8,
    data_len: usize,
) -> u32 {
    let (kv, rbp) = (from_raw_parts_mut(kv, kv_len), from_raw_parts_mut(rbp, rbp_len));
    let call = Call::Set {
        key: from_raw_parts(key, key_len).to_vec(),
        name: from_raw_parts(name, name_len).to_vec(),
        flags,
        iv: from_raw_parts(iv, iv_len).to_vec(),
        data: from_raw_parts(data, data_len).to_vec(),
    };
    let (done, _) = answer(kv, rbp, &call);
    kv.copy_from_slice(&done.card);
    rbp.copy_from_slice(&done.chip);
    done.number
}

/// # Safety
/// As the header of the library says for `securestore_get`.
#[no_mangle]
#[allow(clippy::too_many_arguments)]
pub unsafe extern "C" fn reference_get(
    kv: *const u8,
    kv_len: usize,
    rbp: *const u8,
    rbp_len: usize,
    key: *const u8,
    key_len: usize,
    name: *const u8,
    name_len: usize,
    offset: usize,
    output: *mut u8,
    output_len: usize,
    count: *mut usize,
) -> u32 {
    let output = from_raw_parts_mut(output, output_len);
    let call = Call::Get {
        key: from_raw_parts(key, key_len).to_vec(),
        name: from_raw_parts(name, name_len).to_vec(),
        offset,
        output: output.to_vec(),
    };
    let (done, _) = answer(from_raw_parts(kv, kv_len), from_raw_parts(rbp, rbp_len), &call);
    output.copy_from_slice(&done.output);
    *count = done.returned[0] as usize;
    done.number
}

/// # Safety
/// As the header of the library says for `securestore_remove`.
#[no_mangle]
pub unsafe extern "C" fn reference_remove(
    kv: *mut u8,
    kv_len: usize,
    rbp: *mut u8,
    rbp_len: usize,
    name: *const u8,
    name_len: usize,
) -> u32 {
    let (kv, rbp) = (from_raw_parts_mut(kv, kv_len), from_raw_parts_mut(rbp, rbp_len));
    let call = Call::Remove {
        name: from_raw_parts(name, name_len).to_vec(),
    };
    let (done, _) = answer(kv, rbp, &call);
    kv.copy_from_slice(&done.card);
    rbp.copy_from_slice(&done.chip);
    done.number
}
