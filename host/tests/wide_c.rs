//! An author's int in C is refused where it is too wide, and not cut (include/ramsummer_wide.h): tests/wide.c says what
//! was otherwise. This crate needs nothing of the sort, since its types cannot be cut unseen.

mod in_c;

#[test]
fn an_int_is_refused_and_not_cut() {
    in_c::succeeds("wide");
}
