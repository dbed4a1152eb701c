//! Each call as a function from its arguments to its answer.
//!
//! Points that 01 leaves to the reader, and the reading used here:
//!
//! - "1 comes first" holds for all lent buffers of fixed length together: every
//!   wrong length is told before any damage, whichever buffer it is in.
//! - A name buffer or key buffer longer than 64 or 480 bytes is right: the table
//!   says "under".
//! - Keeping a key gives 13 before 1, since the order is given ("13 for the
//!   material, then as set"). Its identifier is judged where set judges the name.
//! - Loading a key fixes the key buffer's length, so that is judged with the
//!   other 1s; the reading itself is a get at offset 0 of the whole record's data.
//! - Writing a key file and keeping one judge no type or policy number.
//! - A walk whose start place lies beyond the card has no used place from there
//!   on: 6. The place after the last one is a right answer.
//! - Storing a mix gives 20, then 3 for a name without "mix/" in front, before 1, since
//!   02 gives the order; the name "mix/" alone is as good as any.
//! - 02, No. 7: "any other order is damage" is a test of 2 like the others, of the whole
//!   card and the whole chip, whatever the call is about. A set moves what is in the way of
//!   a new name only, on card and chip each by itself: a name that the card holds and the
//!   chip has lost comes into the chip, and the card stays. "The lowest such place" of a
//!   search is that of the first name, and a walk's place counts the names before it.
//! - A mix is looked for in the card's records alone: what only the chip holds under
//!   such a name is no record, and is not tried.
//! - A mix buffer longer than 153 bytes is right, and so are more than 16 entries for
//!   a decoded mix's sends.

use crate::aes::Block;
use crate::answer::{Answer, Why};
use crate::area::{self, good_name, name_bytes, Card, Chip, Entry, Place, Slot};
use crate::ctr::Iv;
use crate::handle::{Handle, HandleBytes};
use crate::keyfile::{key_name, Attributes, KeyFile};
use crate::mix::{self, Mix, MIX_MAX, SENDS_MAX};
use crate::record::{Flags, Record, DATA_MAX};

/// A call with its arguments, without card and chip.
#[derive(Clone, Debug, PartialEq, Eq)]
pub enum Call {
    Set {
        key: Vec<u8>,
        name: Vec<u8>,
        flags: u32,
        iv: Vec<u8>,
        data: Vec<u8>,
    },
    Get {
        key: Vec<u8>,
        name: Vec<u8>,
        offset: usize,
        output: Vec<u8>,
    },
    Info {
        key: Vec<u8>,
        name: Vec<u8>,
    },
    Remove {
        name: Vec<u8>,
    },
    Reset,
    Walk {
        prefix: Vec<u8>,
        start: usize,
        name_buffer: Vec<u8>,
    },
    WriteKeyFile {
        attributes: Attributes,
        material: Vec<u8>,
        key_buffer: Vec<u8>,
    },
    KeepKey {
        key: Vec<u8>,
        identifier: u32,
        attributes: Attributes,
        material: Vec<u8>,
        flags: u32,
        iv: Vec<u8>,
    },
    LoadKey {
        key: Vec<u8>,
        identifier: u32,
        key_buffer: Vec<u8>,
    },
    SetStart {
        name: Vec<u8>,
        flags: u32,
        iv: Vec<u8>,
        declared: usize,
        /// As lent: it is written whole.
        handle: HandleBytes,
    },
    SetAddData {
        handle: HandleBytes,
        staging: Vec<u8>,
        chunk: Vec<u8>,
    },
    SetFinalize {
        key: Vec<u8>,
        handle: HandleBytes,
        staging: Vec<u8>,
    },
    StoreMix {
        key: Vec<u8>,
        name: Vec<u8>,
        flags: u32,
        iv: Vec<u8>,
        mix: Vec<u8>,
    },
    FindMix {
        key: Vec<u8>,
        session: u64,
        mix_buffer: Vec<u8>,
    },
    /// Levels and pans as bits, so that each NaN can be told from each.
    EncodeMix {
        session: u64,
        tags: Vec<u8>,
        levels: Vec<u32>,
        pans: Vec<u32>,
        mix_buffer: Vec<u8>,
    },
    DecodeMix {
        mix: Vec<u8>,
        /// As lent: the front of each is written.
        tags: Vec<u8>,
        levels: Vec<u32>,
        pans: Vec<u32>,
    },
}

impl Call {
    pub const KINDS: [&'static str; 16] = [
        "set",
        "get",
        "info",
        "remove",
        "reset",
        "walk",
        "write",
        "keep",
        "load",
        "set_start",
        "set_add_data",
        "set_finalize",
        "store_mix",
        "find_mix",
        "encode_mix",
        "decode_mix",
    ];
    /// Their places among the kinds.
    pub const SET_FINALIZE: usize = 11;
    pub const STORE_MIX: usize = 12;
    pub const FIND_MIX: usize = 13;

    pub fn kind(&self) -> usize {
        match self {
            Call::Set { .. } => 0,
            Call::Get { .. } => 1,
            Call::Info { .. } => 2,
            Call::Remove { .. } => 3,
            Call::Reset => 4,
            Call::Walk { .. } => 5,
            Call::WriteKeyFile { .. } => 6,
            Call::KeepKey { .. } => 7,
            Call::LoadKey { .. } => 8,
            Call::SetStart { .. } => 9,
            Call::SetAddData { .. } => 10,
            Call::SetFinalize { .. } => Call::SET_FINALIZE,
            Call::StoreMix { .. } => Call::STORE_MIX,
            Call::FindMix { .. } => Call::FIND_MIX,
            Call::EncodeMix { .. } => 14,
            Call::DecodeMix { .. } => 15,
        }
    }

    /// The lent buffer that the call writes its result to.
    pub fn output(&self) -> &[u8] {
        match self {
            Call::Get { output, .. } => output,
            Call::Walk { name_buffer, .. } => name_buffer,
            Call::WriteKeyFile { key_buffer, .. } | Call::LoadKey { key_buffer, .. } => key_buffer,
            Call::SetAddData { staging, .. } => staging,
            Call::FindMix { mix_buffer, .. } | Call::EncodeMix { mix_buffer, .. } => mix_buffer,
            Call::DecodeMix { tags, .. } => tags,
            _ => &[],
        }
    }

    /// The levels and pans that the call may write.
    pub fn floats(&self) -> [&[u32]; 2] {
        match self {
            Call::DecodeMix { levels, pans, .. } => [levels, pans],
            _ => [&[], &[]],
        }
    }

    /// The handle that the call may write.
    pub fn handle(&self) -> &[u8] {
        match self {
            Call::SetStart { handle, .. } | Call::SetAddData { handle, .. } => handle,
            _ => &[],
        }
    }

    /// The name that the call reads, sets or removes; none for a bad identifier.
    pub fn name(&self) -> Option<Vec<u8>> {
        match self {
            Call::Set { name, .. }
            | Call::Get { name, .. }
            | Call::Info { name, .. }
            | Call::Remove { name }
            | Call::StoreMix { name, .. } => Some(name.clone()),
            Call::KeepKey { identifier, .. } | Call::LoadKey { identifier, .. } => {
                key_name(*identifier)
            }
            Call::SetFinalize { handle, .. } => Some(Handle::decode(handle).name().to_vec()),
            _ => None,
        }
    }

    /// The flags that the call sets its name with.
    pub fn flags(&self) -> Option<u32> {
        match self {
            Call::Set { flags, .. }
            | Call::KeepKey { flags, .. }
            | Call::StoreMix { flags, .. } => Some(*flags),
            Call::SetFinalize { handle, .. } => Some(Handle::decode(handle).flags),
            _ => None,
        }
    }

    /// The long arguments that a shortened story may do with less of.
    pub fn long_arguments(&mut self) -> Vec<&mut Vec<u8>> {
        match self {
            Call::Set { data, .. } => vec![data],
            Call::Get { output, .. } => vec![output],
            Call::Walk { name_buffer, .. } => vec![name_buffer],
            Call::WriteKeyFile {
                material,
                key_buffer,
                ..
            } => vec![material, key_buffer],
            Call::KeepKey { material, .. } => vec![material],
            Call::LoadKey { key_buffer, .. } => vec![key_buffer],
            Call::SetStart { name, .. } => vec![name],
            Call::SetAddData { staging, chunk, .. } => vec![chunk, staging],
            Call::SetFinalize { staging, .. } => vec![staging],
            Call::StoreMix { mix, .. } => vec![mix],
            Call::FindMix { mix_buffer, .. } => vec![mix_buffer],
            Call::EncodeMix {
                tags, mix_buffer, ..
            } => vec![tags, mix_buffer],
            Call::DecodeMix { mix, tags, .. } => vec![mix, tags],
            Call::Info { .. } | Call::Remove { .. } | Call::Reset => Vec::new(),
        }
    }
}

/// What a done call returns and changes; `None` leaves a buffer as lent.
#[derive(Default)]
struct Done {
    returned: [u64; 2],
    card: Option<Vec<u8>>,
    chip: Option<Vec<u8>>,
    output: Option<Vec<u8>>,
    handle: Option<Vec<u8>>,
    floats: Option<[Vec<u32>; 2]>,
}

type Outcome = Result<Done, Why>;

/// The call's answer on this card and chip, and the test that refused it.
pub fn answer(card: &[u8], chip: &[u8], call: &Call) -> (Answer, Option<Why>) {
    let (done, why) = match run(card, chip, call) {
        Ok(done) => (done, None),
        Err(why) => (refused(call), Some(why)),
    };
    let [levels, pans] = done
        .floats
        .unwrap_or_else(|| call.floats().map(<[u32]>::to_vec));
    let answer = Answer {
        number: why.map_or(0, Why::number),
        returned: done.returned,
        card: done.card.unwrap_or_else(|| card.to_vec()),
        chip: done.chip.unwrap_or_else(|| chip.to_vec()),
        output: done.output.unwrap_or_else(|| call.output().to_vec()),
        handle: done.handle.unwrap_or_else(|| call.handle().to_vec()),
        levels,
        pans,
    };
    (answer, why)
}

/// A refusal returns zeros and every buffer as lent, but for one: "refused, it
/// returns an all-zero state".
fn refused(call: &Call) -> Done {
    let zeroed = matches!(call, Call::SetStart { .. });
    Done {
        handle: zeroed.then(|| Handle::ZERO.to_vec()),
        ..Done::default()
    }
}

fn run(card: &[u8], chip: &[u8], call: &Call) -> Outcome {
    match call {
        Call::Set {
            key,
            name,
            flags,
            iv,
            data,
        } => set(card, chip, key, Some(name), *flags, iv, data),
        Call::Get {
            key,
            name,
            offset,
            output,
        } => get(card, chip, key, name, *offset, output),
        Call::Info { key, name } => info(card, chip, key, name),
        Call::Remove { name } => remove(card, chip, name),
        Call::Reset => reset(card, chip),
        Call::Walk {
            prefix,
            start,
            name_buffer,
        } => walk(card, chip, prefix, *start, name_buffer),
        Call::WriteKeyFile {
            attributes,
            material,
            key_buffer,
        } => write_key_file(*attributes, material, key_buffer),
        Call::KeepKey {
            key,
            identifier,
            attributes,
            material,
            flags,
            iv,
        } => {
            let file = KeyFile::new(*attributes, material).ok_or(Why::MaterialTooLong)?;
            let name = key_name(*identifier);
            set(card, chip, key, name.as_deref(), *flags, iv, &file.encode())
        }
        Call::LoadKey {
            key,
            identifier,
            key_buffer,
        } => load_key(card, chip, key, *identifier, key_buffer),
        Call::SetStart {
            name,
            flags,
            iv,
            declared,
            ..
        } => set_start(name, *flags, iv, *declared),
        Call::SetAddData {
            handle,
            staging,
            chunk,
        } => set_add_data(&Handle::decode(handle), staging, chunk),
        Call::SetFinalize {
            key,
            handle,
            staging,
        } => set_finalize(card, chip, key, &Handle::decode(handle), staging),
        Call::StoreMix {
            key,
            name,
            flags,
            iv,
            mix,
        } => {
            Mix::decode(mix)?;
            check(name.starts_with(mix::PREFIX), Why::NotAMixName)?;
            set(card, chip, key, Some(name), *flags, iv, mix)
        }
        Call::FindMix {
            key,
            session,
            mix_buffer,
        } => find_mix(card, chip, key, *session, mix_buffer),
        Call::EncodeMix {
            session,
            tags,
            levels,
            pans,
            mix_buffer,
        } => encode_mix(*session, tags, levels, pans, mix_buffer),
        Call::DecodeMix {
            mix,
            tags,
            levels,
            pans,
        } => decode_mix(mix, tags, levels, pans),
    }
}

pub fn device_key(bytes: &[u8]) -> Result<Block, Why> {
    bytes.try_into().map_err(|_| Why::DeviceKeyLength)
}

pub fn lent_iv(bytes: &[u8]) -> Result<Iv, Why> {
    bytes.try_into().map_err(|_| Why::IvLength)
}

fn check(good: bool, why: Why) -> Result<(), Why> {
    if good {
        Ok(())
    } else {
        Err(why)
    }
}

/// No name stands for a key identifier out of range.
fn set(
    card: &[u8],
    chip: &[u8],
    key: &[u8],
    name: Option<&[u8]>,
    flags: u32,
    iv: &[u8],
    data: &[u8],
) -> Outcome {
    area::test_lengths(card, chip)?;
    let (key, iv) = (device_key(key)?, lent_iv(iv)?);
    let (mut card, mut chip) = area::decode(card, chip)?;
    let name = name.ok_or(Why::BadIdentifier)?;
    check(good_name(name), Why::BadName)?;
    let flags = Flags::accept(flags).ok_or(Why::BadFlags)?;
    check(data.len() <= DATA_MAX, Why::DataTooLong)?;

    let (place, entry) = (card.find(name), chip.find(name));
    may_follow(place, entry, flags)?;
    check(place.is_some() || card.has_free(), Why::NoPlace)?;
    check(
        !flags.replay_protection() || entry.is_some() || chip.has_free(),
        Why::NoEntry,
    )?;

    let record = Record::seal(&key, name, flags, &iv, data);
    card.put(Place {
        name: name.to_vec(),
        record: record.encode(),
    });
    if flags.replay_protection() {
        chip.put(Entry {
            name: name.to_vec(),
            cmac: record.cmac,
        });
    }
    Ok(Done {
        card: Some(card.encode()),
        chip: Some(chip.encode()),
        ..Done::default()
    })
}

/// Whether a set with these flags may follow what card and chip have under its name.
fn may_follow(place: Option<&Place>, entry: Option<&Entry>, flags: Flags) -> Result<(), Why> {
    match place {
        Some(place) => {
            let old = Record::decode(&place.record).ok_or(Why::NotWellFormed)?;
            check(!old.flags.write_once(), Why::OldWriteOnce)?;
            check(!flags.write_once(), Why::NewWriteOnce)?;
            check(old.flags == flags, Why::FlagsDiffer)?;
        }
        None => check(!flags.write_once() || entry.is_none(), Why::WriteOnceOnChip)?,
    }
    let protected = flags.replay_protection();
    check(protected || entry.is_none(), Why::Downgraded)
}

/// The record that a get may read: all its tests but the offset's.
pub fn readable(card: &Card, chip: &Chip, key: &Block, name: &[u8]) -> Result<Record, Why> {
    let entry = chip.find(name);
    let place = match card.find(name) {
        Some(place) => place,
        None => {
            return Err(match entry {
                Some(_) => Why::GoneFromCard,
                None => Why::NotFound,
            })
        }
    };
    let record = Record::decode(&place.record).ok_or(Why::NotWellFormed)?;
    check(record.authentic(key, name), Why::CmacWrong)?;
    match (record.flags.replay_protection(), entry) {
        (true, None) => return Err(Why::EntryAbsent),
        (true, Some(entry)) => check(entry.cmac == record.cmac, Why::EntryDiffers)?,
        (false, entry) => check(entry.is_none(), Why::Downgraded)?,
    }
    Ok(record)
}

fn get(card: &[u8], chip: &[u8], key: &[u8], name: &[u8], offset: usize, output: &[u8]) -> Outcome {
    area::test_lengths(card, chip)?;
    let key = device_key(key)?;
    let (card, chip) = area::decode(card, chip)?;
    check(good_name(name), Why::BadName)?;
    let record = readable(&card, &chip, &key, name)?;
    let data = record.data(&key, name);
    let rest = data.get(offset..).ok_or(Why::OffsetBeyondData)?;
    let count = rest.len().min(output.len());
    Ok(Done {
        returned: [count as u64, 0],
        output: Some(with_front(output, &rest[..count])),
        ..Done::default()
    })
}

/// The buffer with these bytes at its front, the rest as before.
pub fn with_front<T: Clone>(buffer: &[T], front: &[T]) -> Vec<T> {
    [front, &buffer[front.len()..]].concat()
}

fn info(card: &[u8], chip: &[u8], key: &[u8], name: &[u8]) -> Outcome {
    area::test_lengths(card, chip)?;
    let key = device_key(key)?;
    let (card, chip) = area::decode(card, chip)?;
    check(good_name(name), Why::BadName)?;
    let record = readable(&card, &chip, &key, name)?;
    Ok(Done {
        returned: [record.data_size().into(), record.flags.bits().into()],
        ..Done::default()
    })
}

fn remove(card: &[u8], chip: &[u8], name: &[u8]) -> Outcome {
    area::test_lengths(card, chip)?;
    let (mut card, mut chip) = area::decode(card, chip)?;
    check(good_name(name), Why::BadName)?;
    let place = card.find(name).ok_or(Why::NotFound)?;
    let record = Record::decode(&place.record).ok_or(Why::NotWellFormed)?;
    check(!record.flags.write_once(), Why::OldWriteOnce)?;
    card.take_out(name);
    if record.flags.replay_protection() {
        chip.take_out(name);
    }
    Ok(Done {
        card: Some(card.encode()),
        chip: Some(chip.encode()),
        ..Done::default()
    })
}

fn reset(card: &[u8], chip: &[u8]) -> Outcome {
    area::test_lengths(card, chip)?;
    Ok(Done {
        card: Some(vec![0; card.len()]),
        chip: Some(vec![0; chip.len()]),
        ..Done::default()
    })
}

fn walk(card: &[u8], chip: &[u8], prefix: &[u8], start: usize, name_buffer: &[u8]) -> Outcome {
    area::test_lengths(card, chip)?;
    check(name_buffer.len() >= area::NAME_MAX, Why::NameBufferLength)?;
    let (card, _) = area::decode(card, chip)?;
    check(name_bytes(prefix), Why::BadPrefix)?;
    let (at, place) = card
        .used()
        .find(|(at, place)| *at >= start && place.name().starts_with(prefix))
        .ok_or(Why::NotFound)?;
    Ok(Done {
        returned: [place.name.len() as u64, at as u64 + 1],
        output: Some(with_front(name_buffer, &place.name)),
        ..Done::default()
    })
}

fn write_key_file(attributes: Attributes, material: &[u8], key_buffer: &[u8]) -> Outcome {
    check(key_buffer.len() >= DATA_MAX, Why::KeyBufferLength)?;
    let file = KeyFile::new(attributes, material).ok_or(Why::MaterialTooLong)?;
    Ok(at_front(key_buffer, &file.encode()))
}

fn load_key(card: &[u8], chip: &[u8], key: &[u8], identifier: u32, key_buffer: &[u8]) -> Outcome {
    area::test_lengths(card, chip)?;
    let key = device_key(key)?;
    check(key_buffer.len() >= DATA_MAX, Why::KeyBufferLength)?;
    let (card, chip) = area::decode(card, chip)?;
    let name = key_name(identifier).ok_or(Why::BadIdentifier)?;
    let file = readable(&card, &chip, &key, &name)?.data(&key, &name);
    KeyFile::decode(&file).ok_or(Why::NotAKeyFile)?;
    Ok(at_front(key_buffer, &file))
}

/// A key file or a mix at the buffer's front, and its length.
fn at_front(buffer: &[u8], bytes: &[u8]) -> Done {
    Done {
        returned: [bytes.len() as u64, 0],
        output: Some(with_front(buffer, bytes)),
        ..Done::default()
    }
}

fn set_start(name: &[u8], flags: u32, iv: &[u8], declared: usize) -> Outcome {
    let handle = Handle::start(name, flags, lent_iv(iv)?, declared)?;
    Ok(Done {
        handle: Some(handle.encode().to_vec()),
        ..Done::default()
    })
}

fn set_add_data(handle: &Handle, staging: &[u8], chunk: &[u8]) -> Outcome {
    let (handle, staging) = handle.add_data(staging, chunk)?;
    Ok(Done {
        handle: Some(handle.encode().to_vec()),
        output: Some(staging),
        ..Done::default()
    })
}

/// Every 1, then 19, then as one set of the bytes held.
fn set_finalize(card: &[u8], chip: &[u8], key: &[u8], handle: &Handle, staging: &[u8]) -> Outcome {
    area::test_lengths(card, chip)?;
    device_key(key)?;
    let data = handle.whole(staging)?;
    let name = Some(handle.name());
    set(card, chip, key, name, handle.flags, &handle.iv, data)
}

/// Every record named "mix/..." is tried, in the order of the places, before it is asked
/// which of them hold the session.
fn find_mix(card: &[u8], chip: &[u8], key: &[u8], session: u64, mix_buffer: &[u8]) -> Outcome {
    area::test_lengths(card, chip)?;
    let key = device_key(key)?;
    check(mix_buffer.len() >= MIX_MAX, Why::MixBufferLength)?;
    let (card, chip) = area::decode(card, chip)?;
    let mut mixes = Vec::new();
    for (_, Place { name, .. }) in card.used() {
        if name.starts_with(mix::PREFIX) {
            let bytes = readable(&card, &chip, &key, name)?.data(&key, name);
            mixes.push(Mix::decode(&bytes)?);
        }
    }
    let holds = |mix: &&Mix| mix.session == session;
    let found: Vec<&Mix> = mixes.iter().filter(holds).collect();
    match found[..] {
        [] => Err(Why::NotFound),
        [mix] => Ok(at_front(mix_buffer, &mix.encode())),
        _ => Err(Why::Ambiguous),
    }
}

fn encode_mix(
    session: u64,
    tags: &[u8],
    levels: &[u32],
    pans: &[u32],
    mix_buffer: &[u8],
) -> Outcome {
    check(mix_buffer.len() >= MIX_MAX, Why::MixBufferLength)?;
    check(levels.len() == tags.len(), Why::LevelsDiffer)?;
    check(pans.len() == tags.len(), Why::PansDiffer)?;
    let send = |at: usize| {
        let (level, pan) = (f32::from_bits(levels[at]), f32::from_bits(pans[at]));
        (tags[at], level, pan)
    };
    let sends: Vec<(u8, f32, f32)> = (0..tags.len()).map(send).collect();
    Ok(at_front(mix_buffer, &Mix::new(session, &sends)?.encode()))
}

fn decode_mix(bytes: &[u8], tags: &[u8], levels: &[u32], pans: &[u32]) -> Outcome {
    check(tags.len() >= SENDS_MAX, Why::TagsLength)?;
    check(levels.len() >= SENDS_MAX, Why::LevelsLength)?;
    check(pans.len() >= SENDS_MAX, Why::PansLength)?;
    let Mix { session, sends } = Mix::decode(bytes)?;
    let sent = |part: fn(mix::Send) -> u32| sends.iter().map(move |send| part(*send));
    let tags_sent: Vec<u8> = sends.iter().map(|send| send.tag()).collect();
    let levels_sent: Vec<u32> = sent(mix::Send::level).collect();
    let pans_sent: Vec<u32> = sent(mix::Send::pan).collect();
    Ok(Done {
        returned: [session, sends.len() as u64],
        output: Some(with_front(tags, &tags_sent)),
        floats: Some([
            with_front(levels, &levels_sent),
            with_front(pans, &pans_sent),
        ]),
        ..Done::default()
    })
}

#[cfg(test)]
mod tests {
    use super::*;
    use crate::area::{ENTRY, PLACE};

    const KEY: &[u8] = b"0123456789abcdef";

    fn number(card: &[u8], chip: &[u8], call: &Call) -> u32 {
        answer(card, chip, call).0.number
    }

    fn started(name: &[u8], flags: u32, declared: usize) -> HandleBytes {
        let start = Call::SetStart {
            name: name.to_vec(),
            flags,
            iv: b"iv-iv-iv".to_vec(),
            declared,
            handle: [0xee; 88],
        };
        let answer = answer(&[], &[], &start).0;
        assert_eq!(answer.number, 0);
        answer.handle.try_into().unwrap()
    }

    fn added(handle: HandleBytes, staging: &[u8], chunk: &[u8]) -> (HandleBytes, Vec<u8>) {
        let add = Call::SetAddData {
            handle,
            staging: staging.to_vec(),
            chunk: chunk.to_vec(),
        };
        let answer = answer(&[], &[], &add).0;
        assert_eq!(answer.number, 0);
        (answer.handle.try_into().unwrap(), answer.output)
    }

    fn finalize(handle: HandleBytes, staging: &[u8]) -> Call {
        Call::SetFinalize {
            key: KEY.to_vec(),
            handle,
            staging: staging.to_vec(),
        }
    }

    /// 01's edge "whole": name "a", flags 0, the data behind the metadata.
    fn whole(data: &[u8]) -> Vec<u8> {
        let mut place = vec![1, 1, 36 + data.len() as u8, 0, b'a'];
        place.resize(68, 0);
        place.extend([20, 0, 1, 0, data.len() as u8]);
        place.resize(88, 0);
        place.extend(data);
        place.resize(PLACE, 0);
        place
    }

    #[test]
    fn what_is_finalized_is_stored_as_01_says() {
        let (card, chip) = (vec![0; PLACE], vec![0; ENTRY]);
        let empty = finalize(started(b"a", 0, 0), &[9; 480]);
        assert_eq!(answer(&card, &chip, &empty).0.card, whole(b""));

        let (handle, staging) = added(started(b"a", 0, 2), &[9; 480], b"A");
        assert_eq!(number(&card, &chip, &finalize(handle, &staging)), 19);
        let (handle, staging) = added(handle, &staging, b"");
        let (handle, mut staging) = added(handle, &staging, b"B");
        assert_eq!(staging[..3], [b'A', b'B', 9]);
        let done = answer(&card, &chip, &finalize(handle, &staging)).0;
        assert_eq!((done.number, done.card), (0, whole(b"AB")));
        assert_eq!(
            (done.chip, done.output, done.handle),
            (chip.clone(), vec![], vec![])
        );
        // The bytes then held count, and the card as it then is.
        (staging[0], staging[2]) = (b'C', 7);
        let done = answer(&card, &chip, &finalize(handle, &staging)).0;
        assert_eq!(done.card, whole(b"CB"));
        let once = started(b"a", 1, 0);
        assert_eq!(number(&whole(b"AB"), &chip, &finalize(once, &staging)), 7);
        let other = finalize(started(b"b", 0, 0), &staging);
        assert_eq!(number(&whole(b"AB"), &chip, &other), 10);
    }

    #[test]
    fn a_finalize_tells_what_a_start_did_not_judge() {
        let (card, chip) = (vec![0; PLACE], vec![0; ENTRY]);
        let mut damaged = card.clone();
        damaged[583] = 1;
        let cases: [(HandleBytes, u32); 6] = [
            (started(b"", 0, 0), 3),
            (started(b"a\x7f", 0, 0), 3),
            (started(b"a", 8, 0), 4),
            (started(b"a", u32::MAX, 0), 4),
            (Handle::ZERO, 3),
            ([0xff; 88], 19),
        ];
        for (handle, expected) in cases {
            let call = finalize(handle, &[0; 480]);
            assert_eq!(number(&card, &chip, &call), expected);
            assert_eq!(
                number(&damaged, &chip, &call),
                if expected == 19 { 19 } else { 2 }
            );
            assert_eq!(number(&card, &[], &call), 1);
            assert_eq!(number(&damaged, &chip, &finalize(handle, &[0; 479])), 1);
            let odd_key = Call::SetFinalize {
                key: vec![0; 15],
                handle,
                staging: vec![0; 480],
            };
            assert_eq!(number(&damaged, &chip, &odd_key), 1);
        }
    }

    #[test]
    fn a_refused_start_returns_the_all_zero_handle_and_a_refused_add_the_given_one() {
        let start = |name: &[u8], iv: &[u8], declared| {
            let call = Call::SetStart {
                name: name.to_vec(),
                flags: 14,
                iv: iv.to_vec(),
                declared,
                handle: [0xee; 88],
            };
            let answer = answer(&[], &[], &call).0;
            (answer.number, answer.handle == [0; 88])
        };
        assert_eq!(start(b"a", b"iv-iv-iv", 480), (0, false));
        assert_eq!(start(b"a", b"iv-iv-iv", 481), (5, true));
        assert_eq!(start(&[b'n'; 65], b"iv-iv-iv", 481), (3, true));
        for iv in [&b""[..], b"seven..", b"nine....."] {
            assert_eq!(start(&[b'n'; 65], iv, 481), (1, true));
        }
        for (staging, expected) in [(0, 1), (479, 1), (480, 19), (481, 1)] {
            let call = Call::SetAddData {
                handle: [0xff; 88],
                staging: vec![7; staging],
                chunk: b"chunk".to_vec(),
            };
            let answer = answer(&[], &[], &call).0;
            assert_eq!(answer.number, expected);
            assert_eq!(answer.handle, [0xff; 88]);
            assert_eq!(answer.output, vec![7; staging]);
        }
    }
}
