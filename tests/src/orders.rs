//! The order of tests of 01 and 02 for each call, written by hand: every set of
//! faults that a call can have at once must give the number of the first in the
//! order, so each test wins over each one behind it.

use crate::area::{Area, Card, Chip, Entry, Place, Slot, ENTRY, PLACE};
use crate::calls::Call;
use crate::ciphers::Checked;
use crate::handle::{Handle, STAGING};
use crate::keyfile::{Attributes, KeyFile};
use crate::library::Library;
use crate::mix::{Mix, Send};
use crate::record::{Flags, Record};
use crate::show;

const KEY: [u8; 16] = *b"0123456789abcdef";
const IV: [u8; 8] = *b"iv-iv-iv";
const IDENTIFIER: u32 = 42;
/// The known name, which is a key's too.
const NAME: &[u8] = b"000000000000002a";
/// The same for calls of mixes.
const MIX_NAME: &[u8] = b"mix/known";
const SESSION: u64 = 0x0123_4567_89ab_cdef;
/// Confidentiality, integrity and replay protection.
const FLAGS: u32 = 14;
const ATTRIBUTES: Attributes = Attributes {
    lifetime: 1,
    kind: 2,
    usage: 3,
    algorithm: 4,
    enrollment: 5,
};

#[derive(Clone)]
struct Scene {
    card: Vec<u8>,
    chip: Vec<u8>,
    call: Call,
}

/// A number of 01 and what makes its test fail, without making good another's.
type Fault = (u32, fn(&mut Scene));

fn seal(flags: u32, name: &[u8], data: &[u8]) -> (Place, Entry) {
    let flags = Flags::accept(flags).expect("good flags");
    let record = Record::seal(&KEY, name, flags, &IV, data);
    let place = Place {
        name: name.to_vec(),
        record: record.encode(),
    };
    let entry = Entry {
        name: name.to_vec(),
        cmac: record.cmac,
    };
    (place, entry)
}

/// Three places and three entries: the known name, another name, a free one. A search
/// for a mix has a second one in the middle, of another session, and no free one.
fn scene(call: Call) -> Scene {
    let name = known(&call);
    let content = if name == MIX_NAME {
        mix(SESSION)
    } else {
        let file = KeyFile::new(ATTRIBUTES, b"key").expect("short material");
        file.encode()
    };
    let second = matches!(call, Call::FindMix { .. });
    let second = second.then(|| seal(FLAGS, b"mix/second", &mix(!SESSION)));
    let (known, other) = (seal(FLAGS, name, &content), seal(FLAGS, b"other", b"data"));
    let (mut card, mut chip) = (Card::free(3), Chip::free(3));
    for (place, entry) in [known, other].into_iter().chain(second) {
        card.put(place);
        chip.put(entry);
    }
    Scene {
        card: card.encode(),
        chip: chip.encode(),
        call,
    }
}

fn known(call: &Call) -> &'static [u8] {
    match call {
        Call::StoreMix { .. } | Call::FindMix { .. } => MIX_NAME,
        _ => NAME,
    }
}

/// A mix of one send with a level and a pan.
fn mix(session: u64) -> Vec<u8> {
    let sends = vec![Send::LevelAndPan(0x3f80_0000, 0x8000_0000)];
    Mix { session, sends }.encode()
}

const CARD_LENGTH: Fault = (1, |scene| scene.card.push(0));
const CHIP_LENGTH: Fault = (1, |scene| scene.chip.push(0));
const KEY_LENGTH: Fault = (1, |scene| match &mut scene.call {
    Call::Set { key, .. }
    | Call::Get { key, .. }
    | Call::Info { key, .. }
    | Call::KeepKey { key, .. }
    | Call::LoadKey { key, .. }
    | Call::SetFinalize { key, .. }
    | Call::StoreMix { key, .. }
    | Call::FindMix { key, .. } => key.push(0),
    _ => unreachable!("lent no key"),
});
const IV_LENGTH: Fault = (1, |scene| match &mut scene.call {
    Call::Set { iv, .. }
    | Call::KeepKey { iv, .. }
    | Call::SetStart { iv, .. }
    | Call::StoreMix { iv, .. } => iv.truncate(7),
    _ => unreachable!("lent no IV"),
});
const STAGING_LENGTH: Fault = (1, |scene| match &mut scene.call {
    Call::SetAddData { staging, .. } | Call::SetFinalize { staging, .. } => staging.push(0),
    _ => unreachable!("lent no staging buffer"),
});
const BUFFER_LENGTH: Fault = (1, |scene| match &mut scene.call {
    Call::Walk { name_buffer, .. } => name_buffer.truncate(63),
    Call::WriteKeyFile { key_buffer, .. } | Call::LoadKey { key_buffer, .. } => {
        key_buffer.truncate(479)
    }
    Call::FindMix { mix_buffer, .. } | Call::EncodeMix { mix_buffer, .. } => {
        mix_buffer.truncate(152)
    }
    _ => unreachable!("lent no such buffer"),
});
// The last slots are damaged, so that the known name is still found.
const CARD_DAMAGED: Fault = (2, |scene| scene.card[3 * PLACE - 1] = 1);
const CHIP_DAMAGED: Fault = (2, |scene| scene.chip[2 * ENTRY] = 2);
// Each slot is as before, and stands where another stood. Of two used ones the higher comes
// first; of one used and one free, the free one.
const CARD_ORDER: Fault = (2, |scene| scene.card[..2 * PLACE].rotate_left(PLACE));
const CHIP_ORDER: Fault = (2, |scene| scene.chip[..2 * ENTRY].rotate_left(ENTRY));
const BAD_NAME: Fault = (3, |scene| match &mut scene.call {
    Call::Set { name, .. }
    | Call::Get { name, .. }
    | Call::Info { name, .. }
    | Call::Remove { name }
    | Call::StoreMix { name, .. }
    | Call::Walk { prefix: name, .. } => name.push(0x7f),
    Call::KeepKey { identifier, .. } | Call::LoadKey { identifier, .. } => *identifier = 0,
    Call::SetFinalize { .. } => change_handle(&mut scene.call, |handle| handle.name[0] = 0x7f),
    _ => unreachable!("no name"),
});
const BAD_FLAGS: Fault = (4, |scene| change_flags(&mut scene.call, |flags| flags | 16));
const DATA_TOO_LONG: Fault = (5, |scene| {
    if let Call::Set { data, .. } = &mut scene.call {
        data.resize(481, 1);
    }
});
const NAME_TOO_LONG: Fault = (3, |scene| {
    if let Call::SetStart { name, .. } = &mut scene.call {
        name.resize(65, b'n');
    }
});
const DECLARED_TOO_LONG: Fault = (5, |scene| {
    if let Call::SetStart { declared, .. } = &mut scene.call {
        *declared = 481;
    }
});
// Each leaves the handle broken where another has broken it.
const HANDLE_NAME: Fault = (19, |scene| {
    change_handle(&mut scene.call, |handle| handle.name_length = 65);
});
const HANDLE_DECLARED: Fault = (19, |scene| {
    change_handle(&mut scene.call, |handle| handle.declared = 481);
});
const HANDLE_COUNT: Fault = (19, |scene| {
    change_handle(&mut scene.call, |handle| handle.count = handle.declared + 1);
});
const DATA_MISSING: Fault = (19, |scene| {
    change_handle(&mut scene.call, |handle| handle.declared = handle.count + 1);
});
const CHUNK_PAST_DECLARED: Fault = (19, |scene| {
    if let Call::SetAddData { chunk, .. } = &mut scene.call {
        chunk.resize(481, 1);
    }
});
const REVISION: Fault = (8, |scene| scene.card[68 + 2] = 2);
const OLD_WRITE_ONCE: Fault = (7, |scene| scene.card[68 + 8] |= 1);
const NEW_WRITE_ONCE: Fault = (7, |scene| change_flags(&mut scene.call, |flags| flags | 1));
const FLAGS_DIFFER: Fault = (9, |scene| change_flags(&mut scene.call, |flags| flags ^ 2));
const WRITE_ONCE_ON_CHIP: Fault = (7, |scene| {
    change_flags(&mut scene.call, |flags| flags | 1);
    put_entry(scene, new_name(&scene.call));
});
const NO_PLACE: Fault = (10, |scene| {
    let mut card = Card::decode(&scene.card).expect("sound so far");
    card.put(seal(FLAGS, b"third", b"").0);
    scene.card = card.encode();
});
const NO_ENTRY: Fault = (10, |scene| put_entry(scene, b"third".to_vec()));
/// A known name can need an entry too: the chip has lost it and is full.
const ENTRY_LOST: Fault = (10, |scene| {
    let name = known(&scene.call);
    take_out::<Entry>(&mut scene.chip, name);
    put_entry(scene, b"third".to_vec());
    put_entry(scene, b"fourth".to_vec());
});
const CMAC_WRONG: Fault = (11, |scene| scene.card[68 + 20] ^= 1);
const ENTRY_DIFFERS: Fault = (12, |scene| scene.chip[ENTRY - 1] ^= 1);
const ENTRY_ABSENT: Fault = (12, |scene| {
    take_out::<Entry>(&mut scene.chip, known(&scene.call));
});
/// The record is one without flag 8, as authentic as before, and the chip keeps its entry.
const DOWNGRADED: Fault = (12, disown::<6>);
/// And one without integrity, which has no CMAC to be wrong.
const PLANTED: Fault = (12, disown::<0>);
const DOWNGRADED_BY_SET: Fault = (12, |scene| {
    disown::<6>(scene);
    change_flags(&mut scene.call, |_| 6);
});
const DOWNGRADED_BY_NEW: Fault = (12, |scene| {
    change_flags(&mut scene.call, |_| 6);
    put_entry(scene, new_name(&scene.call));
});
const GONE_FROM_CARD: Fault = (12, |scene| {
    take_out::<Place>(&mut scene.card, known(&scene.call));
});
const NOT_FOUND: Fault = (6, |scene| {
    let name = known(&scene.call);
    take_out::<Place>(&mut scene.card, name);
    take_out::<Entry>(&mut scene.chip, name);
});
const NOT_ON_CARD: Fault = (6, |scene| {
    take_out::<Place>(&mut scene.card, known(&scene.call));
});
const START_BEYOND: Fault = (6, |scene| {
    if let Call::Walk { start, .. } = &mut scene.call {
        *start = 3;
    }
});
const OFFSET_BEYOND: Fault = (14, |scene| {
    if let Call::Get { offset, .. } = &mut scene.call {
        *offset = 40;
    }
});
const NOT_A_KEY_FILE: Fault = (13, |scene| reseal(scene, NAME, b"no key file"));
const MATERIAL_TOO_LONG: Fault = (13, |scene| match &mut scene.call {
    Call::WriteKeyFile { material, .. } | Call::KeepKey { material, .. } => material.resize(445, 1),
    _ => unreachable!("no material"),
});

const MIX_BYTES: Fault = (20, |scene| match &mut scene.call {
    Call::StoreMix { mix, .. } | Call::DecodeMix { mix, .. } => mix.push(0),
    _ => unreachable!("no mix"),
});
const NOT_A_MIX_NAME: Fault = (3, |scene| match &mut scene.call {
    Call::StoreMix { name, .. } => name[3] = b':',
    _ => unreachable!("no name"),
});
const HOLDS_NO_MIX: Fault = (20, |scene| reseal(scene, MIX_NAME, b"no mix"));
// The same of the second mix.
const SECOND_REVISION: Fault = (8, |scene| scene.card[PLACE + 68 + 2] = 2);
const SECOND_CMAC_WRONG: Fault = (11, |scene| scene.card[PLACE + 68 + 20] ^= 1);
const SECOND_ENTRY_DIFFERS: Fault = (12, |scene| scene.chip[2 * ENTRY - 1] ^= 1);
const SECOND_HOLDS_NO_MIX: Fault = (20, |scene| reseal(scene, b"mix/second", b""));
const BOTH_HOLD_IT: Fault = (21, |scene| reseal(scene, b"mix/second", &mix(SESSION)));
const NONE_HOLDS_IT: Fault = (6, |scene| match &mut scene.call {
    Call::FindMix { session, .. } => *session ^= 1 << 63,
    _ => unreachable!("no session"),
});
const LEVELS_DIFFER: Fault = (1, |scene| match &mut scene.call {
    Call::EncodeMix { levels, .. } => levels.push(0),
    _ => unreachable!("no levels"),
});
const PANS_DIFFER: Fault = (1, |scene| match &mut scene.call {
    Call::EncodeMix { pans, .. } => pans.truncate(1),
    _ => unreachable!("no pans"),
});
const MANY_SENDS: Fault = (20, |scene| match &mut scene.call {
    Call::EncodeMix {
        tags, levels, pans, ..
    } => {
        tags.resize(17, 0);
        levels.resize(17, 0);
        pans.resize(17, 0);
    }
    _ => unreachable!("no sends"),
});
const BAD_TAG: Fault = (20, |scene| match &mut scene.call {
    Call::EncodeMix { tags, .. } => tags[0] = 3,
    _ => unreachable!("no tags"),
});
const BAD_LEVEL: Fault = (20, |scene| match &mut scene.call {
    Call::EncodeMix { levels, .. } => levels[1] = 0x4080_0001,
    _ => unreachable!("no levels"),
});
const BAD_PAN: Fault = (20, |scene| match &mut scene.call {
    Call::EncodeMix { pans, .. } => pans[2] = 0x7fc0_0000,
    _ => unreachable!("no pans"),
});
const FEW_TAGS: Fault = (1, |scene| match &mut scene.call {
    Call::DecodeMix { tags, .. } => tags.truncate(15),
    _ => unreachable!("no tags"),
});
const FEW_LEVELS: Fault = (1, |scene| match &mut scene.call {
    Call::DecodeMix { levels, .. } => levels.truncate(15),
    _ => unreachable!("no levels"),
});
const FEW_PANS: Fault = (1, |scene| match &mut scene.call {
    Call::DecodeMix { pans, .. } => pans.truncate(15),
    _ => unreachable!("no pans"),
});

/// Seals the record anew with other data, on card and chip.
fn reseal(scene: &mut Scene, name: &[u8], data: &[u8]) {
    let (place, entry) = seal(FLAGS, name, data);
    let mut card = Card::decode(&scene.card).expect("sound so far");
    let mut chip = Chip::decode(&scene.chip).expect("sound so far");
    card.put(place);
    chip.put(entry);
    (scene.card, scene.chip) = (card.encode(), chip.encode());
}

/// Seals the known name's record anew, with these flags.
fn disown<const BITS: u32>(scene: &mut Scene) {
    let mut card = Card::decode(&scene.card).expect("sound so far");
    let name = known(&scene.call);
    let known = card.find(name).expect("the known name");
    let known = Record::decode(&known.record).expect("sound so far");
    card.put(seal(BITS, name, &known.data(&KEY, name)).0);
    scene.card = card.encode();
}

fn change_flags(call: &mut Call, change: fn(u32) -> u32) {
    match call {
        Call::Set { flags, .. } | Call::KeepKey { flags, .. } | Call::StoreMix { flags, .. } => {
            *flags = change(*flags)
        }
        Call::SetFinalize { .. } => {
            change_handle(call, |handle| handle.flags = change(handle.flags))
        }
        _ => unreachable!("no flags"),
    }
}

fn change_handle(call: &mut Call, change: impl Fn(&mut Handle)) {
    match call {
        Call::SetAddData { handle, .. } | Call::SetFinalize { handle, .. } => {
            let mut changed = Handle::decode(handle);
            change(&mut changed);
            *handle = changed.encode();
        }
        _ => unreachable!("no handle"),
    }
}

/// The name that the call for a new name gives.
fn new_name(call: &Call) -> Vec<u8> {
    match call {
        Call::Set { .. } | Call::SetFinalize { .. } => b"new".to_vec(),
        Call::StoreMix { .. } => b"mix/new".to_vec(),
        _ => b"0000000000000001".to_vec(),
    }
}

fn put_entry(scene: &mut Scene, name: Vec<u8>) {
    let mut chip = Chip::decode(&scene.chip).expect("sound so far");
    let cmac = [7; 16];
    chip.put(Entry { name, cmac });
    scene.chip = chip.encode();
}

fn take_out<S: Slot>(bytes: &mut Vec<u8>, name: &[u8]) {
    let mut area = Area::<S>::decode(bytes).expect("sound so far");
    area.take_out(name);
    *bytes = area.encode();
}

/// Tries every set of the faults. They are made last first, so that those of the
/// record come before its damage.
fn order(library: &dyn Library, call: &Call, faults: &[Fault]) -> Result<usize, String> {
    for set in 0..1_usize << faults.len() {
        let chosen = || faults.iter().enumerate().filter(|(i, _)| set >> i & 1 == 1);
        let mut scene = scene(call.clone());
        for (_, (_, spoil)) in chosen().rev() {
            spoil(&mut scene);
        }
        let expected = chosen().next().map_or(0, |(_, (number, _))| *number);
        let got = library.call(&scene.card, &scene.chip, &scene.call);
        let answer = got.answer;
        let unchanged = answer.card == scene.card
            && answer.chip == scene.chip
            && answer.output == scene.call.output()
            && answer.handle == refused_handle(&scene.call)
            && [&answer.levels[..], &answer.pans] == scene.call.floats()
            && answer.returned == [0; 2];
        if answer.number != expected || !got.strays.is_empty() || expected != 0 && !unchanged {
            let numbers: Vec<u32> = chosen().map(|(_, (number, _))| *number).collect();
            return Err(format!(
                "{}: faults {numbers:?}, got {}, unchanged {unchanged}, strays {:?}",
                show::call(&scene.call),
                answer.number,
                got.strays
            ));
        }
    }
    Ok(1 << faults.len())
}

/// "refused, it returns an all-zero state"; else as given.
fn refused_handle(call: &Call) -> Vec<u8> {
    match call {
        Call::SetStart { .. } => vec![0; 88],
        _ => call.handle().to_vec(),
    }
}

fn set(name: &[u8]) -> Call {
    Call::Set {
        key: KEY.to_vec(),
        name: name.to_vec(),
        flags: FLAGS,
        iv: IV.to_vec(),
        data: b"data".to_vec(),
    }
}

fn get() -> Call {
    Call::Get {
        key: KEY.to_vec(),
        name: NAME.to_vec(),
        offset: 0,
        output: vec![0xee; 8],
    }
}

fn info() -> Call {
    Call::Info {
        key: KEY.to_vec(),
        name: NAME.to_vec(),
    }
}

fn remove() -> Call {
    Call::Remove {
        name: NAME.to_vec(),
    }
}

fn walk() -> Call {
    Call::Walk {
        prefix: b"0".to_vec(),
        start: 0,
        name_buffer: vec![0xee; 64],
    }
}

fn write() -> Call {
    Call::WriteKeyFile {
        attributes: ATTRIBUTES,
        material: b"key".to_vec(),
        key_buffer: vec![0xee; 480],
    }
}

fn keep(identifier: u32) -> Call {
    Call::KeepKey {
        key: KEY.to_vec(),
        identifier,
        attributes: ATTRIBUTES,
        material: b"other".to_vec(),
        flags: FLAGS,
        iv: IV.to_vec(),
    }
}

fn load() -> Call {
    Call::LoadKey {
        key: KEY.to_vec(),
        identifier: IDENTIFIER,
        key_buffer: vec![0xee; 480],
    }
}

fn set_start() -> Call {
    Call::SetStart {
        name: b"new".to_vec(),
        flags: FLAGS,
        iv: IV.to_vec(),
        declared: 4,
        handle: [0xee; 88],
    }
}

/// Of four bytes, of which so many have come.
fn handle(name: &[u8], count: u32) -> Handle {
    let mut handle = Handle::start(name, FLAGS, IV, 4).expect("a short name");
    handle.count = count;
    handle
}

fn set_add_data() -> Call {
    Call::SetAddData {
        handle: handle(b"new", 2).encode(),
        staging: vec![0xee; STAGING],
        chunk: b"ta".to_vec(),
    }
}

fn set_finalize(name: &[u8]) -> Call {
    Call::SetFinalize {
        key: KEY.to_vec(),
        handle: handle(name, 4).encode(),
        staging: vec![0xee; STAGING],
    }
}

fn store_mix(name: &[u8]) -> Call {
    Call::StoreMix {
        key: KEY.to_vec(),
        name: name.to_vec(),
        flags: FLAGS,
        iv: IV.to_vec(),
        mix: mix(SESSION),
    }
}

fn find_mix() -> Call {
    Call::FindMix {
        key: KEY.to_vec(),
        session: SESSION,
        mix_buffer: vec![0xee; 153],
    }
}

/// A muted send, one with a level and one with a level and a pan.
fn encode_mix() -> Call {
    Call::EncodeMix {
        session: SESSION,
        tags: vec![0, 1, 2],
        levels: vec![0x7fc0_0000, 0, 0x4080_0000],
        pans: vec![0, 0x7fc0_0000, 0xbf80_0000],
        mix_buffer: vec![0xee; 153],
    }
}

fn decode_mix() -> Call {
    Call::DecodeMix {
        mix: mix(SESSION),
        tags: vec![0xee; 16],
        levels: vec![0xeeee_eeee; 16],
        pans: vec![0xeeee_eeee; 16],
    }
}

const LENGTHS: &[Fault] = &[CARD_LENGTH, CHIP_LENGTH];
/// What every call on card and chip that names something is judged by behind them.
const NAMED: &[Fault] = &[CARD_DAMAGED, CHIP_DAMAGED, BAD_NAME];
const AREAS: &[Fault] = &[
    CARD_LENGTH,
    CHIP_LENGTH,
    CARD_DAMAGED,
    CHIP_DAMAGED,
    BAD_NAME,
];
/// A handle that is broken in each way.
const BROKEN: &[Fault] = &[HANDLE_NAME, HANDLE_DECLARED, HANDLE_COUNT];
/// What a set of a known name can meet behind its arguments' tests.
const STORED: &[Fault] = &[
    REVISION,
    OLD_WRITE_ONCE,
    NEW_WRITE_ONCE,
    FLAGS_DIFFER,
    ENTRY_LOST,
];
const FULL: &[Fault] = &[NO_PLACE, NO_ENTRY];
const ON_CHIP: &[Fault] = &[WRITE_ONCE_ON_CHIP, NO_PLACE];
const READ: &[Fault] = &[REVISION, CMAC_WRONG, ENTRY_DIFFERS];
/// The same for what lacks flag 8 though the chip holds the name.
const DOWNGRADE: &[Fault] = &[
    REVISION,
    OLD_WRITE_ONCE,
    NEW_WRITE_ONCE,
    FLAGS_DIFFER,
    DOWNGRADED_BY_SET,
];
const DOWNGRADE_ON_CHIP: &[Fault] = &[WRITE_ONCE_ON_CHIP, DOWNGRADED_BY_NEW, NO_PLACE];
const READ_DOWNGRADED: &[Fault] = &[REVISION, CMAC_WRONG, DOWNGRADED];
const READ_PLANTED: &[Fault] = &[REVISION, PLANTED];

type Order = (&'static str, Call, Vec<Fault>);

/// The faults in the order of their tests.
fn line(parts: &[&[Fault]]) -> Vec<Fault> {
    parts.concat()
}

fn set_orders() -> Vec<Order> {
    let sets = line(&[&[IV_LENGTH, KEY_LENGTH], AREAS, &[BAD_FLAGS]]);
    let set_tests = line(&[&sets, &[DATA_TOO_LONG]]);
    let keep_tests = line(&[&[MATERIAL_TOO_LONG], &sets]);
    let set_order = |name, of: &[u8], faults| (name, set(of), line(&[&set_tests, faults]));
    let keep_order = |name, of, faults| (name, keep(of), line(&[&keep_tests, faults]));
    vec![
        set_order("set-known", NAME, STORED),
        set_order("set-new", b"new", FULL),
        set_order("set-on-chip", b"new", ON_CHIP),
        set_order("set-downgrade", NAME, DOWNGRADE),
        set_order("set-downgrade-on-chip", b"new", DOWNGRADE_ON_CHIP),
        keep_order("keep-known", IDENTIFIER, STORED),
        keep_order("keep-new", 1, FULL),
        keep_order("keep-on-chip", 1, ON_CHIP),
        keep_order("keep-downgrade", IDENTIFIER, DOWNGRADE),
        keep_order("keep-downgrade-on-chip", 1, DOWNGRADE_ON_CHIP),
    ]
}

fn get_orders() -> Vec<Order> {
    let keyed = line(&[&[KEY_LENGTH], AREAS]);
    let order = |faults: &[Fault]| line(&[&keyed, faults]);
    let reading = line(&[READ, &[OFFSET_BEYOND]]);
    let downgraded = line(&[READ_DOWNGRADED, &[OFFSET_BEYOND]]);
    let planted = line(&[READ_PLANTED, &[OFFSET_BEYOND]]);
    vec![
        ("get", get(), order(&reading)),
        ("get-downgraded", get(), order(&downgraded)),
        ("get-planted", get(), order(&planted)),
        ("get-unkept", get(), order(&[ENTRY_ABSENT, OFFSET_BEYOND])),
        ("get-gone", get(), order(&[GONE_FROM_CARD, OFFSET_BEYOND])),
        ("get-absent", get(), order(&[NOT_FOUND, OFFSET_BEYOND])),
        ("info", info(), order(READ)),
        ("info-downgraded", info(), order(READ_DOWNGRADED)),
        ("info-planted", info(), order(READ_PLANTED)),
        ("info-gone", info(), order(&[GONE_FROM_CARD])),
        ("info-absent", info(), order(&[NOT_FOUND])),
    ]
}

fn load_orders() -> Vec<Order> {
    let order = |faults: &[Fault]| line(&[&[BUFFER_LENGTH, KEY_LENGTH], AREAS, faults]);
    let reading = |faults| order(&line(&[faults, &[NOT_A_KEY_FILE]]));
    vec![
        ("load", load(), reading(READ)),
        ("load-downgraded", load(), reading(READ_DOWNGRADED)),
        ("load-planted", load(), reading(READ_PLANTED)),
        ("load-gone", load(), order(&[GONE_FROM_CARD])),
        ("load-absent", load(), order(&[NOT_FOUND])),
    ]
}

fn keyless_orders() -> Vec<Order> {
    vec![
        (
            "remove",
            remove(),
            line(&[AREAS, &[REVISION, OLD_WRITE_ONCE]]),
        ),
        ("remove-absent", remove(), line(&[AREAS, &[NOT_ON_CARD]])),
        ("reset", Call::Reset, vec![CARD_LENGTH, CHIP_LENGTH]),
        (
            "walk",
            walk(),
            line(&[&[BUFFER_LENGTH], AREAS, &[START_BEYOND]]),
        ),
        ("write", write(), vec![BUFFER_LENGTH, MATERIAL_TOO_LONG]),
    ]
}

fn handle_orders() -> Vec<Order> {
    let add = line(&[&[STAGING_LENGTH], BROKEN, &[CHUNK_PAST_DECLARED]]);
    let first = line(&[LENGTHS, &[KEY_LENGTH, STAGING_LENGTH]]);
    let broken = line(&[BROKEN, &[DATA_MISSING]]);
    let finalize =
        |handle: &[Fault], faults: &[Fault]| line(&[&first, handle, NAMED, &[BAD_FLAGS], faults]);
    let (known, new) = (set_finalize(NAME), set_finalize(b"new"));
    let missing = &[DATA_MISSING];
    vec![
        (
            "set_start",
            set_start(),
            vec![IV_LENGTH, NAME_TOO_LONG, DECLARED_TOO_LONG],
        ),
        ("set_add_data", set_add_data(), add),
        (
            "set_finalize-known",
            known.clone(),
            finalize(missing, STORED),
        ),
        ("set_finalize-new", new.clone(), finalize(&broken, FULL)),
        (
            "set_finalize-on-chip",
            new.clone(),
            finalize(missing, ON_CHIP),
        ),
        (
            "set_finalize-downgrade",
            known.clone(),
            finalize(missing, DOWNGRADE),
        ),
        (
            "set_finalize-downgrade-on-chip",
            new,
            finalize(missing, DOWNGRADE_ON_CHIP),
        ),
    ]
}

fn store_mix_orders() -> Vec<Order> {
    let before = &[MIX_BYTES, NOT_A_MIX_NAME, IV_LENGTH, KEY_LENGTH];
    let order = |name, of: &[u8], faults| {
        let faults = line(&[before, AREAS, &[BAD_FLAGS], faults]);
        (name, store_mix(of), faults)
    };
    vec![
        order("store_mix-known", MIX_NAME, STORED),
        order("store_mix-new", b"mix/new", FULL),
        order("store_mix-on-chip", b"mix/new", ON_CHIP),
        order("store_mix-downgrade", MIX_NAME, DOWNGRADE),
        order("store_mix-downgrade-on-chip", b"mix/new", DOWNGRADE_ON_CHIP),
    ]
}

/// No name is given; the first mix decides before the second, and both before 21 and 6.
fn find_mix_orders() -> Vec<Order> {
    let damage = [CARD_DAMAGED, CHIP_DAMAGED];
    let first = line(&[LENGTHS, &[KEY_LENGTH, BUFFER_LENGTH], &damage]);
    let second = &[
        SECOND_REVISION,
        SECOND_CMAC_WRONG,
        SECOND_ENTRY_DIFFERS,
        SECOND_HOLDS_NO_MIX,
    ];
    let holds = &[HOLDS_NO_MIX];
    let order = |name, parts: &[&[Fault]]| (name, find_mix(), line(parts));
    let both = &[BOTH_HOLD_IT];
    let none = &[NONE_HOLDS_IT];
    vec![
        order("find_mix-first", &[&first, READ, holds, both]),
        order("find_mix-second", &[&first, second, both]),
        order("find_mix-second-absent", &[&first, second, none]),
        order("find_mix-twice", &[&damage, READ, holds, second, both]),
        order("find_mix-absent", &[&damage, READ, holds, second, none]),
        order("find_mix-downgraded", &[&first, READ_DOWNGRADED, both]),
        order("find_mix-planted", &[&first, READ_PLANTED, none]),
        order("find_mix-unkept", &[&first, &[ENTRY_ABSENT], second, both]),
    ]
}

fn float_orders() -> Vec<Order> {
    let lengths = &[BUFFER_LENGTH, LEVELS_DIFFER, PANS_DIFFER];
    let sends = &[MANY_SENDS, BAD_TAG, BAD_LEVEL, BAD_PAN];
    vec![
        ("encode_mix", encode_mix(), line(&[lengths, sends])),
        (
            "decode_mix",
            decode_mix(),
            vec![FEW_TAGS, FEW_LEVELS, FEW_PANS, MIX_BYTES],
        ),
    ]
}

/// 02, No. 7: an order that isn't that of the names is told where other damage is told. What
/// stands further before and behind is tried above.
fn disorder_orders() -> Vec<Order> {
    let disorder = &[CARD_ORDER, CHIP_ORDER];
    let areas = line(&[LENGTHS, disorder]);
    let named = line(&[&areas, &[BAD_NAME]]);
    let sets = line(&[&[IV_LENGTH, KEY_LENGTH], &named, &[BAD_FLAGS]]);
    let known = line(&[&sets, &[REVISION, ENTRY_LOST]]);
    let keyed = line(&[&[KEY_LENGTH], &named]);
    let read = line(&[&keyed, &[REVISION, CMAC_WRONG]]);
    let finalize = |faults: &[Fault]| {
        let before = &[KEY_LENGTH, STAGING_LENGTH, DATA_MISSING];
        line(&[LENGTHS, before, disorder, &[BAD_NAME], faults])
    };
    vec![
        ("set-known-disordered", set(NAME), known),
        ("set-new-disordered", set(b"new"), line(&[&sets, FULL])),
        ("get-disordered", get(), read.clone()),
        (
            "get-absent-disordered",
            get(),
            line(&[&keyed, &[NOT_FOUND]]),
        ),
        ("info-disordered", info(), read.clone()),
        ("remove-disordered", remove(), line(&[&named, &[REVISION]])),
        (
            "remove-absent-disordered",
            remove(),
            line(&[&named, &[NOT_ON_CARD]]),
        ),
        (
            "walk-disordered",
            walk(),
            line(&[&[BUFFER_LENGTH], &named, &[START_BEYOND]]),
        ),
        (
            "keep-disordered",
            keep(1),
            line(&[&[MATERIAL_TOO_LONG], &sets, FULL]),
        ),
        (
            "load-disordered",
            load(),
            line(&[&[BUFFER_LENGTH], &read, &[NOT_A_KEY_FILE]]),
        ),
        (
            "set_finalize-known-disordered",
            set_finalize(NAME),
            finalize(&[REVISION]),
        ),
        (
            "set_finalize-new-disordered",
            set_finalize(b"new"),
            finalize(FULL),
        ),
        (
            "store_mix-disordered",
            store_mix(b"mix/new"),
            line(&[&[MIX_BYTES, NOT_A_MIX_NAME], &sets, FULL]),
        ),
        (
            "find_mix-disordered",
            find_mix(),
            line(&[
                &[KEY_LENGTH, BUFFER_LENGTH],
                &areas,
                READ,
                &[HOLDS_NO_MIX, BOTH_HOLD_IT],
            ]),
        ),
    ]
}

fn orders() -> Vec<Order> {
    [
        get_orders(),
        load_orders(),
        keyless_orders(),
        set_orders(),
        handle_orders(),
        store_mix_orders(),
        find_mix_orders(),
        float_orders(),
        disorder_orders(),
    ]
    .concat()
}

pub fn checks(library: &dyn Library) -> Vec<(String, Checked)> {
    each(library, |_| true).collect()
}

/// Those whose names are asked for, one after the other.
pub fn each(
    library: &dyn Library,
    asked: fn(&str) -> bool,
) -> impl Iterator<Item = (String, Checked)> + '_ {
    let orders = orders().into_iter().filter(move |(name, ..)| asked(name));
    orders.map(|(name, call, faults)| {
        let checked = order(library, &call, &faults);
        let checked = checked.map(|sets| format!("{sets} sets of {} faults", faults.len()));
        (format!("order-{name}"), checked)
    })
}

#[cfg(test)]
mod tests {
    use super::*;
    use crate::library::Reference;

    #[test]
    fn the_reference_keeps_the_orders() {
        for (name, checked) in checks(&Reference) {
            assert!(checked.is_ok(), "{name}: {checked:?}");
        }
    }
}
