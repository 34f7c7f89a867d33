//! The original's own tests, over the functions of this crate. They are taken from the folder that the environment
//! variable `STR_INDICES_ORIGINAL` names; without it there are none.
original::own_tests!();
