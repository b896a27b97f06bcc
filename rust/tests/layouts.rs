//! The layout of each struct that crosses over, against the numbers that c/test.c asserts too.
use std::mem::{align_of, offset_of, size_of};
use stilefray::ffi::{AnswerNumbers, EntryNumbers, FoundNumbers, Operation, Place, RequestNumbers, StartNumbers, SteppedNumbers};

fn width<T, F>(_: fn(&T) -> &F) -> usize {
    size_of::<F>()
}

/// A field's place and its width: padding would hide a width that is wrong.
macro_rules! lies {
    ($type:ty, $field:ident, $at:literal, $width:literal) => {
        assert_eq!((offset_of!($type, $field), width(|it: &$type| &it.$field)), ($at, $width), stringify!($field));
    };
}

#[test]
fn an_answer_lies_as_in_c() {
    assert_eq!((size_of::<AnswerNumbers>(), align_of::<AnswerNumbers>()), (16, 8));
    lies!(AnswerNumbers, kind, 0, 4);
    lies!(AnswerNumbers, refusal, 4, 4);
    lies!(AnswerNumbers, value, 8, 8);
}

#[test]
fn an_operation_lies_as_in_c() {
    assert_eq!((size_of::<Operation>(), align_of::<Operation>()), (120, 8));
    lies!(Operation, layout, 0, 4);
    lies!(Operation, fresh, 4, 4);
    lies!(Operation, lent, 8, 4);
    lies!(Operation, edit, 12, 4);
    lies!(Operation, next, 16, 4);
    lies!(Operation, aim, 20, 4);
    lies!(Operation, tag, 24, 4);
    lies!(Operation, version, 28, 1);
    lies!(Operation, flags, 29, 1);
    lies!(Operation, s, 32, 8);
    lies!(Operation, n, 40, 8);
    lies!(Operation, key, 48, 8);
    lies!(Operation, len, 56, 8);
    lies!(Operation, region, 64, 8);
    lies!(Operation, at, 72, 8);
    lies!(Operation, size, 80, 8);
    lies!(Operation, found, 88, 8);
    lies!(Operation, a, 96, 8);
    lies!(Operation, b, 104, 8);
    lies!(Operation, c, 112, 8);
}

#[test]
fn a_start_lies_as_in_c() {
    assert_eq!((size_of::<StartNumbers>(), align_of::<StartNumbers>()), (128, 8));
    lies!(StartNumbers, refusal, 0, 4);
    lies!(StartNumbers, op, 8, 120);
}

#[test]
fn a_request_lies_as_in_c() {
    assert_eq!((size_of::<RequestNumbers>(), align_of::<RequestNumbers>()), (56, 8));
    lies!(RequestNumbers, kind, 0, 4);
    lies!(RequestNumbers, region, 8, 8);
    lies!(RequestNumbers, from, 16, 8);
    lies!(RequestNumbers, to, 24, 8);
    lies!(RequestNumbers, place, 32, 8);
    lies!(RequestNumbers, answer, 40, 16);
}

#[test]
fn a_stepped_lies_as_in_c() {
    assert_eq!((size_of::<SteppedNumbers>(), align_of::<SteppedNumbers>()), (176, 8));
    lies!(SteppedNumbers, op, 0, 120);
    lies!(SteppedNumbers, request, 120, 56);
}

#[test]
fn a_found_lies_as_in_c() {
    assert_eq!((size_of::<FoundNumbers>(), align_of::<FoundNumbers>()), (24, 8));
    lies!(FoundNumbers, answer, 0, 16);
    lies!(FoundNumbers, place, 16, 8);
}

#[test]
fn an_entry_and_its_place_lie_as_in_c() {
    assert_eq!((size_of::<Place>(), align_of::<Place>()), (16, 8));
    lies!(Place, region, 0, 8);
    lies!(Place, place, 8, 8);
    assert_eq!((size_of::<EntryNumbers>(), align_of::<EntryNumbers>()), (56, 8));
    lies!(EntryNumbers, kind, 0, 4);
    lies!(EntryNumbers, refusal, 4, 4);
    lies!(EntryNumbers, live, 8, 4);
    lies!(EntryNumbers, checksum_right, 12, 4);
    lies!(EntryNumbers, key, 16, 8);
    lies!(EntryNumbers, value_place, 24, 8);
    lies!(EntryNumbers, value_len, 32, 8);
    lies!(EntryNumbers, next, 40, 16);
}
