//! Stand-in: the missing root file of this crate.

/// The given file, included unchanged, so that the function after it may name a private field.
pub mod interpreter {
    include!("interpreter.rs");

    impl<'a> Interpreter<'a> {
        pub fn open_state(&mut self) -> &mut ExecutionState {
            &mut self.state
        }
    }
}
