//! Stands in for Cedar's `cedar_policy_core`: the names that upstream's ast.rs uses as leaves of a Cedar expression.
//! Cedar bodies are left out by document 01, so none of them has a content here.

pub mod ast {
    /// `deep_drop` names `Principal` as its cheap leaf.
    #[derive(Debug, Clone)]
    pub enum Var {
        Principal,
    }

    #[derive(Debug, Clone)]
    pub struct Literal;
    #[derive(Debug, Clone)]
    pub struct SlotId;
    #[derive(Debug, Clone)]
    pub struct PatternElem;
    #[derive(Debug, Clone)]
    pub struct EntityType;
    #[derive(Debug, Clone)]
    pub struct PrincipalConstraint;
    #[derive(Debug, Clone)]
    pub struct ActionConstraint;
    #[derive(Debug, Clone)]
    pub struct ResourceConstraint;
}
