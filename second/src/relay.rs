//! The same tree in another form: forms 1 and 2 split alike and differ in the
//! lengths alone (request 2026-01), so that a table of one can be laid out as one of
//! the other without any search.

use crate::boxes::Box;
use crate::checker::check;
use crate::file::File;
use crate::form::Form;
use crate::lent::{zero_if_refused, Lent};
use crate::maker::put_lengths;
use crate::plant::read_plant;
use crate::refusal::{Refusal, FORM_NOT_KNOWN};
use crate::table::{Node, Table};

/// An accepted table laid out in this form, written to the buffer; its length.
/// Refused as the checker refuses it; then 2 at 0 where the form is not known or
/// splits otherwise; then 10.
pub fn relay(plant_bytes: &[u8], table_bytes: &[u8], form: u64, buffer: &mut [u8]) -> Result<usize, Refusal> {
    let answer = lay_table(plant_bytes, table_bytes, form, buffer);
    zero_if_refused(answer, buffer)
}

/// The same, but for what a refusal leaves of the buffer.
fn lay_table(plant_bytes: &[u8], table_bytes: &[u8], form: u64, buffer: &mut [u8]) -> Result<usize, Refusal> {
    check(plant_bytes, table_bytes)?;
    let plant = read_plant(plant_bytes)?;
    let mut table = Table::open(&plant, File::new(table_bytes))?;
    let form = Form::of(form, 0)?;
    if !form.splits_as(&table.form) {
        return Err(Refusal::at(FORM_NOT_KNOWN, 0));
    }
    let mut other = Lent::new(buffer);
    other.put(&[form.number(), plant.n as u8]);
    let depth = table.depth();
    lay_box(&mut table, &plant.r(), depth, form, &mut other)?;
    other.end()
}

/// Adds the part of the tree that stands for this box.
fn lay_box(table: &mut Table, here: &Box, depth_left: u64, form: Form, other: &mut Lent) -> Result<(), Refusal> {
    match table.node(here, depth_left)? {
        Node::Tile(pattern) => other.put_tile(pattern.modes()),
        Node::Split(children) => {
            table.lengths(&children)?;
            other.put_byte(0);
            let mut bounds = vec![other.length()];
            for child in children {
                lay_box(table, &child, depth_left - 1, form, other)?;
                bounds.push(other.length());
            }
            put_lengths(form, &bounds, other);
        }
    }
    Ok(())
}
