//! What is tried: the product's library, or the reference in its place.

use crate::aes::Block;
use crate::answer::Answer;
use crate::calls::Call;
use crate::ctr::Iv;

/// What a call was seen to do.
#[derive(Clone, Debug)]
pub struct Observed {
    pub answer: Answer,
    /// Writes to where the call may not write.
    pub strays: Vec<String>,
}

/// A cipher's result, or the stray write that was seen.
pub type Seen<T> = Result<T, String>;

pub trait Library: Sync {
    fn call(&self, card: &[u8], chip: &[u8], call: &Call) -> Observed;
    fn aes(&self, key: &Block, block: &Block) -> Seen<Block>;
    fn cmac(&self, key: &Block, message: &[u8]) -> Seen<Block>;
    fn tag_difference(&self, a: &Block, b: &Block) -> Seen<u32>;
    fn ctr(&self, key: &Block, iv: &Iv, data: &[u8]) -> Seen<Vec<u8>>;
    fn derive(&self, key: &Block, prefix: &[u8], name: &[u8]) -> Seen<Block>;
    /// The answer's number; the attributes in the file's order, and the material's length.
    fn parse_key_file(&self, file: &[u8]) -> Seen<(u32, [u32; 6])>;
}

/// All but the calls as the reference has it. No defaults of the trait, or the product's library could be left out of a comparison unseen.
macro_rules! all_but_calls {
    () => {
        fn aes(
            &self,
            key: &crate::aes::Block,
            block: &crate::aes::Block,
        ) -> crate::library::Seen<crate::aes::Block> {
            Ok(crate::aes::Aes128::new(key).encrypt(block))
        }

        fn cmac(
            &self,
            key: &crate::aes::Block,
            message: &[u8],
        ) -> crate::library::Seen<crate::aes::Block> {
            Ok(crate::cmac::cmac(key, message))
        }

        fn tag_difference(
            &self,
            a: &crate::aes::Block,
            b: &crate::aes::Block,
        ) -> crate::library::Seen<u32> {
            Ok(crate::tags::difference(a, b))
        }

        fn ctr(
            &self,
            key: &crate::aes::Block,
            iv: &crate::ctr::Iv,
            data: &[u8],
        ) -> crate::library::Seen<Vec<u8>> {
            Ok(crate::ctr::ctr(key, iv, data))
        }

        fn derive(
            &self,
            key: &crate::aes::Block,
            prefix: &[u8],
            name: &[u8],
        ) -> crate::library::Seen<crate::aes::Block> {
            Ok(crate::kdf::derive(key, prefix, name))
        }

        fn parse_key_file(&self, file: &[u8]) -> crate::library::Seen<(u32, [u32; 6])> {
            Ok(crate::parsing::expected(file))
        }
    };
}
#[cfg(test)]
pub(crate) use all_but_calls;

/// The reference in the library's place.
pub struct Reference;

impl Library for Reference {
    fn call(&self, card: &[u8], chip: &[u8], call: &Call) -> Observed {
        Observed {
            answer: crate::calls::answer(card, chip, call).0,
            strays: Vec::new(),
        }
    }

    all_but_calls!();
}

/// The reference with a fault in its calls, for tests of what finds one.
#[cfg(test)]
pub struct Faulty<F: Fn(&Call, &mut Observed) + Sync>(pub F);

#[cfg(test)]
impl<F: Fn(&Call, &mut Observed) + Sync> Library for Faulty<F> {
    fn call(&self, card: &[u8], chip: &[u8], call: &Call) -> Observed {
        let mut observed = Reference.call(card, chip, call);
        (self.0)(call, &mut observed);
        observed
    }

    all_but_calls!();
}

/// Whether a check tells the library from the reference.
#[cfg(test)]
pub type Tells = fn(&dyn Library) -> bool;

/// Those of the checks that do not.
#[cfg(test)]
pub fn silent(checks: &[(&str, Tells)], library: &dyn Library) -> String {
    let silently = checks.iter().filter(|(_, tells)| !tells(library));
    let names: Vec<&str> = silently.map(|(check, _)| *check).collect();
    names.join(" ")
}
