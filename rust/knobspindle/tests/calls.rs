//! Every call through the library, which is x86-64 code: elsewhere these are compiled and not run.

mod checks;

#[test]
#[cfg_attr(not(target_arch = "x86_64"), ignore = "the library is x86-64 code")]
fn vectors() {
    checks::vectors();
}

#[test]
#[cfg_attr(not(target_arch = "x86_64"), ignore = "the library is x86-64 code")]
fn candidates() {
    checks::candidates();
}

#[test]
#[cfg_attr(not(target_arch = "x86_64"), ignore = "the library is x86-64 code")]
fn numbers() {
    checks::numbers();
}

#[test]
#[cfg_attr(not(target_arch = "x86_64"), ignore = "the library is x86-64 code")]
fn samples() {
    checks::samples();
}

#[test]
#[cfg_attr(not(target_arch = "x86_64"), ignore = "the library is x86-64 code")]
fn whole_prediction() {
    checks::whole_prediction();
}

#[test]
#[cfg_attr(not(target_arch = "x86_64"), ignore = "the library is x86-64 code")]
fn cut_into_rectangles() {
    checks::cut_into_rectangles();
}

#[test]
#[cfg_attr(not(target_arch = "x86_64"), ignore = "the library is x86-64 code")]
fn reach() {
    checks::reach();
}

#[test]
#[cfg_attr(not(target_arch = "x86_64"), ignore = "the library is x86-64 code")]
fn waiting_for_rows() {
    checks::waiting_for_rows();
}
