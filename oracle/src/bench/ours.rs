//! Our kernels, each called on an item.

use super::inputs::Item;
use crate::door::leaf;

#[inline]
pub fn dot(x: &mut Item) {
    let (a, c) = (&x.a.as_slice()[..x.told.an], &x.c.as_slice()[..x.told.cn]);
    x.answer = leaf::dot(a, c);
}

#[inline]
pub fn axis(x: &mut Item) {
    x.put_back_c();
    x.answer = leaf::axis(&mut x.c.as_mut_slice()[..x.told.cn]);
}

#[inline]
pub fn reflect(x: &mut Item) {
    let (told, t) = (&x.told, &mut x.t.as_mut_slice()[..x.told.tn]);
    let a = &x.a.as_slice()[..told.an];
    leaf::reflect(a, t, told.n, told.row, told.c0, told.c1, told.sign);
}

#[inline]
pub fn reflect_rows(x: &mut Item) {
    let (told, t) = (&x.told, &mut x.t.as_mut_slice()[..x.told.tn]);
    let a = &x.a.as_slice()[..told.an];
    leaf::reflect_rows(a, t, told.n, told.rows, told.c0, told.sign);
}

#[inline]
pub fn reflect3(x: &mut Item) {
    let (told, t) = (&x.told, &mut x.t.as_mut_slice()[..x.told.tn]);
    leaf::reflect3(told.axis, t, told.n, told.k, told.c0, told.c1);
}

#[inline]
pub fn reflect_rows3(x: &mut Item) {
    let (told, t) = (&x.told, &mut x.t.as_mut_slice()[..x.told.tn]);
    leaf::reflect_rows3(told.axis, t, told.n, told.rows, told.k);
}

#[inline]
pub fn rotate(x: &mut Item) {
    let (told, t) = (&x.told, &mut x.t.as_mut_slice()[..x.told.tn]);
    leaf::rotate(told.turn, t, told.n, told.k, told.c0, told.c1);
}

#[inline]
pub fn rotate_rows(x: &mut Item) {
    let (told, t) = (&x.told, &mut x.t.as_mut_slice()[..x.told.tn]);
    leaf::rotate_rows(told.turn, t, told.n, told.k, told.rows);
}

#[inline]
pub fn clear_column(x: &mut Item) {
    x.put_back_t();
    let (told, t) = (&x.told, &mut x.t.as_mut_slice()[..x.told.tn]);
    x.answer = leaf::clear_column(t, told.n, told.c0, &mut x.work[..told.wn]);
}

#[inline]
pub fn assemble_q(x: &mut Item) {
    let (told, q) = (&x.told, &mut x.q.as_mut_slice()[..x.told.qn]);
    let (m, signs) = (&x.t.as_slice()[..told.tn], &x.signs[..told.sn]);
    leaf::assemble_q(m, told.n, signs, q);
}
