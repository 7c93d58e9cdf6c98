//! In place of `environment.rs`, which is not supplied: modules in scope. There are never any.

use crate::ast::{Attrs, ModSymbol, Path};
use std::collections::BTreeMap;

#[derive(Debug, Default)]
pub struct ModuleEnv {
    pub attrs: Attrs,
    items: Vec<ModSymbol>,
}

impl ModuleEnv {
    pub fn items(&self) -> impl Iterator<Item = &ModSymbol> {
        self.items.iter()
    }
}

#[derive(Debug, Default)]
pub struct Env {
    modules: BTreeMap<usize, (Path, ModuleEnv)>,
}

impl Env {
    pub fn iter_modules(&self) -> impl Iterator<Item = (&Path, &ModuleEnv)> {
        self.modules.values().map(|(p, m)| (p, m))
    }
}
