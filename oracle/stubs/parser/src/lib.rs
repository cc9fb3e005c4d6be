//! Stand-in: the missing root file of this crate.
pub mod convert;
pub mod decode;
pub mod infer;

/// The given file, included unchanged, so that the function after it may call a private one.
pub mod cfg {
    include!("cfg.rs");

    impl<'a> CFGBuilder<'a> {
        pub fn open_explore(&self, at: Position) -> Node {
            self.explore_region(at)
        }
    }
}
