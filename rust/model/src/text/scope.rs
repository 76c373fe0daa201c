//! Names in blocks: "Inner blocks may declare a name anew; a scope ends with its
//! block" (readings, 12).

use std::collections::BTreeMap;

/// What is known of each name, block by block, the innermost last.
#[derive(Clone, Debug, Default)]
pub struct Scopes<'t, T> {
    blocks: Vec<BTreeMap<&'t [u8], T>>,
}

impl<'t, T> Scopes<'t, T> {
    pub fn new() -> Scopes<'t, T> {
        Scopes { blocks: Vec::new() }
    }

    pub fn open(&mut self) {
        self.blocks.push(BTreeMap::new());
    }

    pub fn close(&mut self) {
        self.blocks.pop();
    }

    /// Declares a name in the innermost block. "of two declarations in one block
    /// the first stands" (readings, 11): false where it is the second.
    pub fn declare(&mut self, name: &'t [u8], known: T) -> bool {
        let Some(block) = self.blocks.last_mut() else {
            return false;
        };
        let is_new = !block.contains_key(name);
        if is_new {
            block.insert(name, known);
        }
        is_new
    }

    /// What is known of the name in the innermost block that declares it.
    pub fn find(&self, name: &[u8]) -> Option<&T> {
        self.blocks.iter().rev().find_map(|block| block.get(name))
    }
}
