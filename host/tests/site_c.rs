//! A site's pool in C, in one struct (include/ramsummer_site.h): tests/site.c says what was otherwise. tests/calls.rs has the
//! same of `Pool::put` and `Pool::get`.

mod in_c;

#[test]
fn a_site_puts_and_gets() {
    in_c::succeeds("site");
}
