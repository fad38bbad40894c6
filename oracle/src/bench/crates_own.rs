//! The crate's kernels, each called on an item with the views of its decomposition: run-time (`Dyn`)
//! lengths as in Hessenberg, the static axis of three and the two rows or columns of a rotation as
//! in a pass of Schur. None is inlined into its loop, as none of ours can be.

use super::inputs::Item;
use nalgebra::linalg::givens::GivensRotation;
use nalgebra::linalg::householder;
use nalgebra::{Const, Dyn, Reflection, Unit, Vector3};

#[inline(never)]
pub fn dot(x: &mut Item) {
    x.answer = x.a.rows(0, x.told.an).dotc(&x.c.rows(0, x.told.cn));
}

#[inline(never)]
pub fn axis(x: &mut Item) {
    x.put_back_c();
    x.answer = householder::reflection_axis_mut(&mut x.c.rows_mut(0, x.told.cn)).0;
}

#[inline(never)]
pub fn reflect(x: &mut Item) {
    let told = &x.told;
    let reflection = Reflection::new(Unit::new_unchecked(x.a.rows(0, told.an)), 0.0);
    let rows = told.row..told.row + told.an;
    reflection.reflect_with_sign(&mut x.t.view_range_mut(rows, told.c0..told.c1), told.sign);
}

#[inline(never)]
pub fn reflect_rows(x: &mut Item) {
    let told = &x.told;
    let reflection = Reflection::new(Unit::new_unchecked(x.a.rows(0, told.an)), 0.0);
    reflection.reflect_rows_with_sign(
        &mut x.t.view_range_mut(..told.rows, told.c0..told.c0 + told.an),
        &mut x.crates_work.rows_mut(0, told.rows),
        told.sign,
    );
}

#[inline(never)]
pub fn reflect3(x: &mut Item) {
    let told = &x.told;
    let axis = Vector3::from(told.axis);
    let reflection = Reflection::new(Unit::new_unchecked(axis), 0.0);
    let shape = (Const::<3>, Dyn(told.c1 - told.c0));
    reflection.reflect(&mut x.t.generic_view_mut((told.k, told.c0), shape));
}

#[inline(never)]
pub fn reflect_rows3(x: &mut Item) {
    let told = &x.told;
    let axis = Vector3::from(told.axis);
    let reflection = Reflection::new(Unit::new_unchecked(axis), 0.0);
    let shape = (Dyn(told.rows), Const::<3>);
    reflection.reflect_rows(
        &mut x.t.generic_view_mut((0, told.k), shape),
        &mut x.crates_work.rows_mut(0, told.rows),
    );
}

#[inline(never)]
pub fn rotate(x: &mut Item) {
    let told = &x.told;
    let rotation = GivensRotation::new_unchecked(told.turn[0], told.turn[1]);
    let shape = (Const::<2>, Dyn(told.c1 - told.c0));
    rotation.rotate(&mut x.t.generic_view_mut((told.k, told.c0), shape));
}

#[inline(never)]
pub fn rotate_rows(x: &mut Item) {
    let told = &x.told;
    let rotation = GivensRotation::new_unchecked(told.turn[0], told.turn[1]);
    let shape = (Dyn(told.rows), Const::<2>);
    rotation.rotate_rows(&mut x.t.generic_view_mut((0, told.k), shape));
}

#[inline(never)]
pub fn clear_column(x: &mut Item) {
    x.put_back_t();
    let work = Some(&mut x.crates_work);
    x.answer = householder::clear_column_unchecked(&mut x.t, x.told.c0, 1, work);
}

/// The crate makes a new matrix, and the old one is freed: that is in its time.
#[inline(never)]
pub fn assemble_q(x: &mut Item) {
    x.q = householder::assemble_q(&x.t, &x.signs[..x.told.sn]);
}
