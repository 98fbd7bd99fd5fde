//! What stands on a line card beside the ODU0 generic mapper, one module a component. There is none
//! yet. A component adds its crate to the line `odu0_components` of bindings/archives.txt, its
//! header to bindings/c/include, an example to bindings/c/examples and one to examples/, the
//! examples' output to tests/expected, and its module here.

#![no_std]
#![warn(missing_docs)]

/// The version of this crate. It is that of the mapper's.
pub const VERSION: &str = env!("CARGO_PKG_VERSION");

#[cfg(test)]
mod tests {
    #[test]
    fn the_version_is_the_mappers() {
        assert_eq!(super::VERSION, odu0::VERSION);
    }
}
