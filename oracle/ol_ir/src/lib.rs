//! The Rust original, compiled from its own files (see build.rs), with stand-ins for the modules that the clock
//! pass does not use.
#![allow(dead_code, unused_imports, unused_variables, clippy::all)]

include!(concat!(env!("OUT_DIR"), "/files.rs"));

pub use activation::{ActLowerError, ActivationDef};
pub use node::NodeKind;
pub use project::Project;
pub use state_machine::StateMachineDef;

pub mod diag {
    pub struct SourceSpan;
}

pub mod format {
    #[derive(Debug, Clone, PartialEq, Default)]
    pub struct CurrentFormat;
}

pub mod native_project {
    #[derive(Debug, Clone, PartialEq, Default)]
    pub struct NativeResolution {
        pub root_project_id: String,
        pub projects: Vec<NativeProject>,
        pub symbols: Vec<NativeSymbol>,
    }
    #[derive(Debug, Clone, PartialEq, Default)]
    pub struct NativeProject {
        pub project_id: String,
        pub dependencies: Vec<NativeDependency>,
    }
    #[derive(Debug, Clone, PartialEq, Default)]
    pub struct NativeDependency {
        pub alias: String,
        pub project_id: String,
    }
    #[derive(Debug, Clone, PartialEq, Default)]
    pub struct NativeSymbol {
        pub project_id: String,
        pub kind: String,
        pub local_name: String,
        pub resolved_name: String,
        pub exported: bool,
    }
}

pub mod slice {
    pub fn slice_for_root(_: &crate::Project, root: &str) -> Result<crate::Project, String> {
        Err(root.to_string())
    }
}

pub mod state_machine {
    #[derive(Debug, Clone, PartialEq, Default)]
    pub struct StateMachineDef {
        pub name: String,
        pub owner: Option<String>,
    }
    #[derive(Debug, PartialEq)]
    pub enum LowerError {
        UnknownOwner(String, String),
    }
    pub struct Lowered {
        pub node: crate::node::NodeDef,
        pub state_types: Vec<crate::project::TypeDef>,
    }
    pub fn resolve_refines(
        machine: &StateMachineDef,
        _: &std::collections::HashMap<String, StateMachineDef>,
    ) -> Result<StateMachineDef, LowerError> {
        Ok(machine.clone())
    }
    pub fn lower(machine: &StateMachineDef) -> Result<Lowered, LowerError> {
        Err(LowerError::UnknownOwner(machine.name.clone(), String::new()))
    }
}

/// The numbers that the two instrumented copies give out.
pub mod trace {
    use std::cell::Cell;

    thread_local! {
        static PASSES: Cell<usize> = const { Cell::new(0) };
        static EQUATION: Cell<usize> = const { Cell::new(0) };
    }

    pub fn pass() {
        PASSES.with(|n| n.set(n.get() + 1));
    }
    pub fn take_passes() -> usize {
        PASSES.with(|n| n.replace(0))
    }
    pub fn equation(i: usize) {
        EQUATION.with(|n| n.set(i));
    }
    pub fn last_equation() -> usize {
        EQUATION.with(|n| n.get())
    }
}
