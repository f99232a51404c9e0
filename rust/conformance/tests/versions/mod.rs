//! The same test for problems of each version.

/// Makes tests of functions of a version: those of one version stand in a module
/// of its name.
macro_rules! of_each_version {
    ($($test:ident),+ $(,)?) => {
        mod version_1 {
            $(#[test] fn $test() { super::$test(&conformance::version::VERSION_1); })+
        }
        mod version_2 {
            $(#[test] fn $test() { super::$test(&conformance::version::VERSION_2); })+
        }
    };
}
