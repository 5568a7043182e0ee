//! Upstream's macro expander, compiled from the copies under ../upstream, which are not changed.
//!
//! | module | where it is from |
//! |---|---|
//! | `macros` | macros/mod.rs, whole; our `adapter` is its child |
//! | `ast` | ast.rs, whole |
//! | `extension::temporal::ast` | extension/temporal/ast.rs, whole |
//! | `extension::provider::ast` | extension/provider/ast.rs, whole |
//! | `deep_drop` | deep_drop.rs, whole |
//! | `error` | `Span` and `RawCedarifyError`, cut out of error.rs |
//! | `parser` | the measures of a tree, cut out of parser/mod.rs |
//! | `extension`, `cedarify` | stand-ins: not among the files |
//! | the crates `dogwood_syntax`, `cedar_policy_core` | stand-ins: not among the files |
//!
//! `rustfmt::skip` keeps the formatter out of the copies.
#![allow(dead_code, unused_imports)]

#[rustfmt::skip]
#[path = "../../upstream/dogwood-language/src/ast.rs"]
pub mod ast;
#[rustfmt::skip]
#[path = "../../upstream/dogwood-language/src/deep_drop.rs"]
mod deep_drop;
// These two stand below `extension` by re-export: a path from inside that module would go through folders that are
// not there.
#[rustfmt::skip]
#[path = "../../upstream/dogwood-language/src/extension/provider/ast.rs"]
pub mod provider_ast;
#[rustfmt::skip]
#[path = "../../upstream/dogwood-language/src/extension/temporal/ast.rs"]
pub mod temporal_ast;

include!(concat!(env!("OUT_DIR"), "/modules.rs"));

pub mod error {
    use std::fmt;

    include!(concat!(env!("OUT_DIR"), "/error.rs"));
}

pub mod parser {
    use crate::ast::{Expr, ExprKind};
    use crate::extension::{Extension, temporal};

    include!(concat!(env!("OUT_DIR"), "/parser.rs"));
}

/// Stands in for extension/mod.rs: what surrounds the two trees that are among the files.
pub mod extension {
    /// A `temporal { … }` block in a Cedar expression. The driver that is left out walks it; nothing here does.
    #[derive(Debug, Clone)]
    pub enum Extension {
        Temporal(temporal::Temporal),
    }

    pub mod temporal {
        pub use crate::temporal_ast as ast;

        #[derive(Debug, Clone)]
        pub struct Temporal {
            pub span: crate::error::Span,
            pub condition: ast::Condition,
        }

        /// Stands in for the binding checks of the driver (`expand_extension`), which document 01 leaves out and
        /// nothing here calls.
        pub mod check {
            use super::ast::Condition;
            use std::collections::BTreeSet;

            pub fn check_condition(_: &Condition, _: &BTreeSet<String>) -> Result<(), String> {
                Ok(())
            }

            pub fn check_leaf_closed(_: &Condition) -> Result<(), String> {
                Ok(())
            }

            pub fn check_demands(_: &Condition) -> Result<(), String> {
                Ok(())
            }

            pub fn reject_arithmetic_unless_enabled(_: &Condition) -> Result<(), String> {
                Ok(())
            }
        }
    }

    pub mod provider {
        pub use crate::provider_ast as ast;

        pub fn is_provider_name(name: &str) -> bool {
            name.contains("::")
        }
    }
}

/// Stands in for cedarify, which ast.rs names in a walk over Cedar expressions that nothing here calls.
mod cedarify {
    use crate::ast::Expr;
    use crate::error::{RawCedarifyError, Span};
    use crate::extension::provider::ast::Invocation;

    pub fn cedar_call_to_invocation(_: &str, _: &[Expr], _: Span) -> Result<Invocation, RawCedarifyError> {
        unreachable!("no Cedar expression is walked")
    }
}
