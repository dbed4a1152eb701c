//! 02, No. 4: a record without flag 8, or a set without it, under a name that the
//! chip holds. Every kind of record on the card with every kind of entry on the chip,
//! each call and all flags, with the answers written by hand.

use crate::aes::Block;
use crate::answer::Answer;
use crate::area::{Card, Chip, Entry, Place, PLACE};
use crate::calls::Call;
use crate::cast;
use crate::ciphers::Checked;
use crate::keyfile::key_name;
use crate::library::Library;
use crate::record::{Flags, Record};
use crate::rng::Rng;
use crate::show;
use crate::stories::same_answer;

/// What the card has under the name.
#[derive(Clone, Copy, Debug)]
enum Stored {
    Nothing,
    OutOfForm,
    /// As a set with these flags makes it.
    Sealed(u32),
    /// The same with one bit of the data inverted.
    Forged(u32),
}

/// What the chip has under the name.
#[derive(Clone, Copy, Debug)]
enum Kept {
    Nothing,
    /// The CMAC that the record has, of whatever flags.
    Same,
    Other,
}

const KEPT: [Kept; 3] = [Kept::Nothing, Kept::Same, Kept::Other];
/// A key's, so that every call can name it.
const IDENTIFIER: u32 = 42;

use Stored::{Forged, Nothing, OutOfForm, Sealed};

/// What a read answers, but for 14, with each of `KEPT`.
const READS: [(Stored, [u32; 3]); 26] = [
    (Nothing, [6, 12, 12]),
    (OutOfForm, [8, 8, 8]),
    (Sealed(0), [0, 12, 12]),
    (Sealed(1), [0, 12, 12]),
    (Sealed(2), [0, 12, 12]),
    (Sealed(3), [0, 12, 12]),
    (Sealed(4), [0, 12, 12]),
    (Sealed(5), [0, 12, 12]),
    (Sealed(6), [0, 12, 12]),
    (Sealed(7), [0, 12, 12]),
    (Sealed(12), [12, 0, 12]),
    (Sealed(13), [12, 0, 12]),
    (Sealed(14), [12, 0, 12]),
    (Sealed(15), [12, 0, 12]),
    (Forged(0), [0, 12, 12]),
    (Forged(1), [0, 12, 12]),
    (Forged(2), [0, 12, 12]),
    (Forged(3), [0, 12, 12]),
    (Forged(4), [11, 11, 11]),
    (Forged(5), [11, 11, 11]),
    (Forged(6), [11, 11, 11]),
    (Forged(7), [11, 11, 11]),
    (Forged(12), [11, 11, 11]),
    (Forged(13), [11, 11, 11]),
    (Forged(14), [11, 11, 11]),
    (Forged(15), [11, 11, 11]),
];

type ByFlags = [u32; 16];

const FROZEN: ByFlags = [7, 7, 7, 7, 7, 7, 7, 7, 4, 4, 4, 4, 7, 7, 7, 7];
const BLOCKED: ByFlags = [8, 8, 8, 8, 8, 8, 8, 8, 4, 4, 4, 4, 8, 8, 8, 8];

/// What a set with flags 0 to 15 answers where the chip lacks the name, and where it
/// holds it. A place and an entry are free.
const SETS: [(Stored, [ByFlags; 2]); 14] = [
    (
        Nothing,
        [
            [0, 0, 0, 0, 0, 0, 0, 0, 4, 4, 4, 4, 0, 0, 0, 0],
            [12, 7, 12, 7, 12, 7, 12, 7, 4, 4, 4, 4, 0, 7, 0, 7],
        ],
    ),
    (OutOfForm, [BLOCKED, BLOCKED]),
    (
        Sealed(0),
        [
            [0, 7, 9, 7, 9, 7, 9, 7, 4, 4, 4, 4, 9, 7, 9, 7],
            [12, 7, 9, 7, 9, 7, 9, 7, 4, 4, 4, 4, 9, 7, 9, 7],
        ],
    ),
    (
        Sealed(2),
        [
            [9, 7, 0, 7, 9, 7, 9, 7, 4, 4, 4, 4, 9, 7, 9, 7],
            [9, 7, 12, 7, 9, 7, 9, 7, 4, 4, 4, 4, 9, 7, 9, 7],
        ],
    ),
    (
        Sealed(4),
        [
            [9, 7, 9, 7, 0, 7, 9, 7, 4, 4, 4, 4, 9, 7, 9, 7],
            [9, 7, 9, 7, 12, 7, 9, 7, 4, 4, 4, 4, 9, 7, 9, 7],
        ],
    ),
    (
        Sealed(6),
        [
            [9, 7, 9, 7, 9, 7, 0, 7, 4, 4, 4, 4, 9, 7, 9, 7],
            [9, 7, 9, 7, 9, 7, 12, 7, 4, 4, 4, 4, 9, 7, 9, 7],
        ],
    ),
    (
        Sealed(12),
        [
            [9, 7, 9, 7, 9, 7, 9, 7, 4, 4, 4, 4, 0, 7, 9, 7],
            [9, 7, 9, 7, 9, 7, 9, 7, 4, 4, 4, 4, 0, 7, 9, 7],
        ],
    ),
    (
        Sealed(14),
        [
            [9, 7, 9, 7, 9, 7, 9, 7, 4, 4, 4, 4, 9, 7, 0, 7],
            [9, 7, 9, 7, 9, 7, 9, 7, 4, 4, 4, 4, 9, 7, 0, 7],
        ],
    ),
    (Sealed(1), [FROZEN, FROZEN]),
    (Sealed(3), [FROZEN, FROZEN]),
    (Sealed(5), [FROZEN, FROZEN]),
    (Sealed(7), [FROZEN, FROZEN]),
    (Sealed(13), [FROZEN, FROZEN]),
    (Sealed(15), [FROZEN, FROZEN]),
];

/// The same for a new name on a full card.
const FULL: [ByFlags; 2] = [
    [10, 10, 10, 10, 10, 10, 10, 10, 4, 4, 4, 4, 10, 10, 10, 10],
    [12, 7, 12, 7, 12, 7, 12, 7, 4, 4, 4, 4, 10, 7, 10, 7],
];

/// Card and chip, and who calls.
struct Scene<'a> {
    library: &'a dyn Library,
    rng: Rng,
    key: Block,
    name: Vec<u8>,
    /// Of the record that the card has, or else of one that it might have.
    size: usize,
    card: Vec<u8>,
    chip: Vec<u8>,
    tried: usize,
}

/// The name's record and entry between those of two others, of which one name is a prefix
/// of it; behind them free ones.
fn scene<'a>(library: &'a dyn Library, mut rng: Rng, stored: Stored, kept: Kept) -> Scene<'a> {
    let (key, name) = (rng.array(), key_name(IDENTIFIER).expect("good"));
    let file = cast::key_file(&mut rng, true);
    let flags = match stored {
        Nothing | OutOfForm => 14,
        Sealed(flags) | Forged(flags) => flags,
    };
    let flags = Flags::accept(flags).expect("good flags");
    let record = Record::seal(&key, &name, flags, &rng.array(), &file);
    let mut bytes = record.encode();
    match stored {
        OutOfForm => bytes[2] = 2,
        // The key's lifetime, which no call judges.
        Forged(_) => bytes[20 + 12] ^= 1,
        _ => {}
    }
    let other = Record::seal(&key, b"other", flags, &rng.array(), b"data");
    let others = [&b"0"[..], b"other"];
    let mut card = Card::holding(4, others.map(|name| place(name, other.encode())));
    let mut chip = Chip::holding(4, others.map(|name| entry(name, other.cmac)));
    if !matches!(stored, Nothing) {
        card.put(place(&name, bytes));
    }
    match kept {
        Kept::Nothing => {}
        Kept::Same => chip.put(entry(&name, record.cmac)),
        Kept::Other => chip.put(entry(&name, rng.array())),
    }
    Scene {
        library,
        rng,
        key,
        size: file.len(),
        name,
        card: card.encode(),
        chip: chip.encode(),
        tried: 0,
    }
}

fn place(name: &[u8], record: Vec<u8>) -> Place {
    let name = name.to_vec();
    Place { name, record }
}

fn entry(name: &[u8], cmac: Block) -> Entry {
    let name = name.to_vec();
    Entry { name, cmac }
}

impl Scene<'_> {
    /// The call answers this number, and as the reference does in all else.
    fn try_call(&mut self, call: &Call, number: u32) -> Result<Answer, String> {
        let answer = same_answer(self.library, &self.card, &self.chip, call)?;
        self.tried += 1;
        if answer.number == number {
            Ok(answer)
        } else {
            let got = answer.number;
            Err(format!("{got}, not {number}\n  {}", show::call(call)))
        }
    }

    /// The same, and card and chip go on.
    fn call(&mut self, call: &Call, number: u32) -> Result<(), String> {
        let answer = self.try_call(call, number)?;
        (self.card, self.chip) = (answer.card, answer.chip);
        Ok(())
    }

    fn get(&self, offset: usize, output: usize) -> Call {
        Call::Get {
            key: self.key.to_vec(),
            name: self.name.clone(),
            offset,
            output: vec![0xee; output],
        }
    }

    /// An info and a load.
    fn others(&self) -> [Call; 2] {
        let info = Call::Info {
            key: self.key.to_vec(),
            name: self.name.clone(),
        };
        let load = Call::LoadKey {
            key: self.key.to_vec(),
            identifier: IDENTIFIER,
            key_buffer: vec![0xee; 480],
        };
        [info, load]
    }

    fn remove(&self) -> Call {
        let name = self.name.clone();
        Call::Remove { name }
    }

    /// Every read, and at every kind of offset.
    fn read(&mut self, number: u32) -> Result<(), String> {
        for call in self.others() {
            self.try_call(&call, number)?;
        }
        for offset in [0, 1, self.size, self.size + 1, usize::MAX] {
            let beyond = number == 0 && offset > self.size;
            for output in [0, 1, 480] {
                let get = self.get(offset, output);
                self.try_call(&get, if beyond { 14 } else { number })?;
            }
        }
        Ok(())
    }

    /// A set, a keep and a `set_finalize` with these flags.
    fn sets(&mut self, flags: u32) -> [Call; 3] {
        let rng = &mut self.rng;
        let (iv, data) = (rng.bytes(8), cast::data(rng));
        let (handle, staging) = cast::held(rng, &self.name, flags, &iv, &data);
        let (key, name) = (self.key.to_vec(), self.name.clone());
        let keep = Call::KeepKey {
            key: key.clone(),
            identifier: IDENTIFIER,
            attributes: cast::attributes(rng),
            material: cast::material(rng),
            flags,
            iv: iv.clone(),
        };
        let finalize = Call::SetFinalize {
            key: key.clone(),
            handle: handle.encode(),
            staging,
        };
        let set = Call::Set {
            key,
            name,
            flags,
            iv,
            data,
        };
        [set, keep, finalize]
    }

    fn set(&mut self, numbers: &ByFlags) -> Result<(), String> {
        for (flags, number) in numbers.iter().enumerate() {
            for call in self.sets(flags as u32) {
                self.try_call(&call, *number)?;
            }
        }
        Ok(())
    }

    fn fill_card(&mut self) {
        let mut card = Card::decode(&self.card).expect("sound");
        for filler in [b"1", b"2", b"3"] {
            if card.has_free() {
                card.put(place(filler, Vec::new()));
            }
        }
        self.card = card.encode();
    }

    /// Remove takes out the card's place, behind which the card closes up, and keeps the
    /// chip's entry, which then blocks the name for all but a set with flag 8. Such a set
    /// and its remove free it.
    fn removed(&mut self) -> Result<(), String> {
        let (chip, mut card) = (self.chip.clone(), self.card.clone());
        card.drain(PLACE..2 * PLACE);
        card.extend([0; PLACE]);
        self.call(&self.remove(), 0)?;
        if self.chip != chip || self.card != card {
            return Err("remove of a downgraded record left another card or chip".into());
        }
        self.read(12)?;
        self.call(&self.remove(), 6)?;
        self.set(&SETS[0].1[1])?;
        let [set, ..] = self.sets(14);
        self.call(&set, 0)?;
        self.try_call(&self.get(0, 480), 0)?;
        self.call(&self.remove(), 0)?;
        if Chip::decode(&self.chip).map_or(true, |chip| chip.find(&self.name).is_some()) {
            return Err("remove of a protected record left the chip's entry".into());
        }
        self.try_call(&self.get(0, 480), 6)?;
        let [set, ..] = self.sets(0);
        self.call(&set, 0)?;
        self.try_call(&self.get(0, 480), 0).map(|_| ())
    }
}

/// Tries each of these scenes, under streams of their own.
struct Scenes<'a> {
    library: &'a dyn Library,
    seed: u64,
    scenes: u64,
    calls: usize,
}

impl<'a> Scenes<'a> {
    fn check(
        &mut self,
        stored: Stored,
        kept: Kept,
        check: impl FnOnce(&mut Scene<'a>) -> Result<(), String>,
    ) -> Result<(), String> {
        let rng = Rng::part(self.seed ^ 9 << 40, self.scenes);
        let mut scene = scene(self.library, rng, stored, kept);
        check(&mut scene).map_err(|why| format!("{stored:?}, on the chip {kept:?}: {why}"))?;
        self.scenes += 1;
        self.calls += scene.tried;
        Ok(())
    }
}

fn reads(scenes: &mut Scenes) -> Result<(), String> {
    for (stored, numbers) in READS {
        for (kept, number) in KEPT.into_iter().zip(numbers) {
            scenes.check(stored, kept, |scene| scene.read(number))?;
        }
    }
    Ok(())
}

/// A known name needs no free place, so that a full card says the same.
fn sets(scenes: &mut Scenes) -> Result<(), String> {
    for (stored, numbers) in SETS {
        let full = match stored {
            Nothing => FULL,
            _ => numbers,
        };
        for kept in KEPT {
            let held = usize::from(!matches!(kept, Kept::Nothing));
            scenes.check(stored, kept, |scene| scene.set(&numbers[held]))?;
            scenes.check(stored, kept, |scene| {
                scene.fill_card();
                scene.set(&full[held])
            })?;
        }
    }
    Ok(())
}

fn removes(scenes: &mut Scenes) -> Result<(), String> {
    for flags in [0, 2, 4, 6] {
        for stored in [Sealed(flags), Forged(flags)] {
            for kept in [Kept::Same, Kept::Other] {
                scenes.check(stored, kept, Scene::removed)?;
            }
        }
    }
    Ok(())
}

pub fn checks(library: &dyn Library, seed: u64) -> Vec<(String, Checked)> {
    type Part = fn(&mut Scenes) -> Result<(), String>;
    let parts: [(&str, Part); 3] = [("reads", reads), ("sets", sets), ("removes", removes)];
    let check = |(name, part): (&str, Part)| {
        let mut scenes = Scenes {
            library,
            seed,
            scenes: 0,
            calls: 0,
        };
        let checked = part(&mut scenes);
        let passed = format!("{} scenes, {} calls", scenes.scenes, scenes.calls);
        (format!("downgrade-{name}"), checked.map(|()| passed))
    };
    parts.into_iter().map(check).collect()
}

#[cfg(test)]
mod tests {
    use super::*;
    use crate::library::Reference;

    #[test]
    fn the_reference_answers_as_by_hand() {
        for (name, checked) in checks(&Reference, 1) {
            assert!(checked.is_ok(), "{name}: {checked:?}");
        }
    }
}
