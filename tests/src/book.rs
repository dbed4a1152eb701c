//! The book of demand 3: for each name a record or none, and a CMAC or none.
//! It has no places, entries or room.

use std::collections::BTreeMap;

use crate::answer::Why;
use crate::area::{good_name, Card, Chip};
use crate::calls::{device_key, lent_iv, with_front, Call};
use crate::handle::{Handle, HandleBytes};
use crate::record::{Flags, Record, DATA_MAX};

/// A name's contents. The record is kept as bytes, since a start may hold a
/// record that is not well formed.
#[derive(Clone, Debug, Default, PartialEq, Eq)]
pub struct Contents {
    pub record: Option<Vec<u8>>,
    pub cmac: Option<[u8; 16]>,
}

impl Contents {
    /// The tests of a set with these flags.
    fn may_become(&self, flags: Flags) -> Result<(), Why> {
        match &self.record {
            Some(bytes) => {
                let old = Record::decode(bytes).ok_or(Why::NotWellFormed)?;
                if old.flags.write_once() || flags.write_once() {
                    return Err(Why::OldWriteOnce);
                }
                if old.flags != flags {
                    return Err(Why::FlagsDiffer);
                }
            }
            None if flags.write_once() && self.cmac.is_some() => return Err(Why::WriteOnceOnChip),
            None => {}
        }
        if !flags.replay_protection() && self.cmac.is_some() {
            return Err(Why::Downgraded);
        }
        Ok(())
    }
}

/// The number, the returned numbers, and all final bytes of a get's output.
#[derive(Clone, Debug, PartialEq, Eq)]
pub struct Answer {
    pub number: u32,
    pub returned: [u64; 2],
    pub output: Vec<u8>,
}

#[derive(Clone, Debug, Default, PartialEq, Eq)]
pub struct Book {
    names: BTreeMap<Vec<u8>, Contents>,
}

impl Book {
    /// What the used places and entries of an undamaged card and chip hold.
    pub fn of(card: &Card, chip: &Chip) -> Book {
        let mut book = Book::default();
        for (_, place) in card.used() {
            book.line(&place.name).record = Some(place.record.clone());
        }
        for (_, entry) in chip.used() {
            book.line(&entry.name).cmac = Some(entry.cmac);
        }
        book
    }

    fn line(&mut self, name: &[u8]) -> &mut Contents {
        self.names.entry(name.to_vec()).or_default()
    }

    pub fn contents(&self, name: &[u8]) -> Contents {
        self.names.get(name).cloned().unwrap_or_default()
    }

    pub fn names(&self) -> impl Iterator<Item = &Vec<u8>> {
        self.names.keys()
    }

    /// One step: a set, get, info, remove or `set_finalize`.
    pub fn step(&mut self, call: &Call) -> Answer {
        let result = match call {
            Call::Set {
                key,
                name,
                flags,
                iv,
                data,
            } => self.set(key, name, *flags, iv, data),
            Call::Get {
                key,
                name,
                offset,
                output,
            } => self.get(key, name, *offset, output),
            Call::Info { key, name } => self.read(key, name).map(|(record, _)| {
                let returned = [record.data_size().into(), record.flags.bits().into()];
                (returned, Vec::new())
            }),
            Call::Remove { name } => self.remove(name),
            Call::SetFinalize {
                key,
                handle,
                staging,
            } => self.set_finalize(key, handle, staging),
            _ => panic!("no call of demand 3"),
        };
        let (number, (returned, output)) = match result {
            Ok(done) => (0, done),
            Err(why) => (why.number(), ([0; 2], call.output().to_vec())),
        };
        Answer {
            number,
            returned,
            output,
        }
    }

    fn set(
        &mut self,
        key: &[u8],
        name: &[u8],
        flags: u32,
        iv: &[u8],
        data: &[u8],
    ) -> Result<([u64; 2], Vec<u8>), Why> {
        let (key, iv) = (device_key(key)?, lent_iv(iv)?);
        if !good_name(name) {
            return Err(Why::BadName);
        }
        let flags = Flags::accept(flags).ok_or(Why::BadFlags)?;
        if data.len() > DATA_MAX {
            return Err(Why::DataTooLong);
        }
        self.contents(name).may_become(flags)?;
        let record = Record::seal(&key, name, flags, &iv, data);
        let line = self.line(name);
        line.record = Some(record.encode());
        if flags.replay_protection() {
            line.cmac = Some(record.cmac);
        }
        Ok(([0; 2], Vec::new()))
    }

    /// The tests of key, staging buffer and handle, then a set of the bytes held.
    fn set_finalize(
        &mut self,
        key: &[u8],
        handle: &HandleBytes,
        staging: &[u8],
    ) -> Result<([u64; 2], Vec<u8>), Why> {
        device_key(key)?;
        let handle = Handle::decode(handle);
        let data = handle.whole(staging)?;
        self.set(key, handle.name(), handle.flags, &handle.iv, data)
    }

    /// The record and its data, after every test but the offset's.
    fn read(&self, key: &[u8], name: &[u8]) -> Result<(Record, Vec<u8>), Why> {
        let key = device_key(key)?;
        if !good_name(name) {
            return Err(Why::BadName);
        }
        let contents = self.contents(name);
        let bytes = match (contents.record, contents.cmac) {
            (Some(bytes), _) => bytes,
            (None, Some(_)) => return Err(Why::GoneFromCard),
            (None, None) => return Err(Why::NotFound),
        };
        let record = Record::decode(&bytes).ok_or(Why::NotWellFormed)?;
        if !record.authentic(&key, name) {
            return Err(Why::CmacWrong);
        }
        let protected = record.flags.replay_protection();
        if protected && contents.cmac != Some(record.cmac) {
            return Err(Why::EntryDiffers);
        }
        if !protected && contents.cmac.is_some() {
            return Err(Why::Downgraded);
        }
        let data = record.data(&key, name);
        Ok((record, data))
    }

    fn get(
        &self,
        key: &[u8],
        name: &[u8],
        offset: usize,
        output: &[u8],
    ) -> Result<([u64; 2], Vec<u8>), Why> {
        let (_, data) = self.read(key, name)?;
        let rest = data.get(offset..).ok_or(Why::OffsetBeyondData)?;
        let count = rest.len().min(output.len());
        Ok(([count as u64, 0], with_front(output, &rest[..count])))
    }

    fn remove(&mut self, name: &[u8]) -> Result<([u64; 2], Vec<u8>), Why> {
        if !good_name(name) {
            return Err(Why::BadName);
        }
        let bytes = self.contents(name).record.ok_or(Why::NotFound)?;
        let record = Record::decode(&bytes).ok_or(Why::NotWellFormed)?;
        if record.flags.write_once() {
            return Err(Why::OldWriteOnce);
        }
        let line = self.line(name);
        line.record = None;
        if record.flags.replay_protection() {
            line.cmac = None;
        }
        Ok(([0; 2], Vec::new()))
    }
}
