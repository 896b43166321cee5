//! Stands for the macro engine, which document 01 excludes. The parser names its
//! types in a constructor that we never call.

use std::marker::PhantomData;

use mitex_spec::CommandSpec;

use crate::{MacroifyStream, TokenStream};

#[derive(Debug, Clone)]
pub struct Macro<'a>(PhantomData<&'a str>);

#[derive(Debug, Clone)]
pub struct MacroEngine<'a>(PhantomData<&'a str>);

impl MacroEngine<'_> {
    pub fn new(_: CommandSpec) -> Self {
        Self(PhantomData)
    }
}

impl<'a> TokenStream<'a> for MacroEngine<'a> {}

impl<'a> MacroifyStream<'a> for MacroEngine<'a> {}
