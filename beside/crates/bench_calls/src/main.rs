//! Reads recipes of values and calls from standard input, and writes the results of the calls:
//! `beside/` compares them with the release.
#![tactic(auto)]

mod answers;
mod asks;
mod casts;
mod desk;
mod dump;
mod holds;
mod makes;
mod moves;
mod operators;
mod parts;
mod recipe;
mod scopes;
mod targets;
mod writes;

use crate::desk::answer;
use std::alloc::{AllocError, Global};
use std::io;
use std::io::{Read, Write};

/// Fills a buffer; returns `false` if the input ends before.
fn fill<R: Read>(reader: &mut R, buffer: &mut [u8]) -> io::Result<bool> {
    let mut done = 0_usize;
    let wanted = buffer.len();
    // Every read except the last one returns at least one byte.
    for _read in 0..wanted {
        if done >= wanted {
            return Ok(true);
        }
        let count = match buffer.get_mut(done..) {
            Some(rest) => reader.read(rest)?,
            None => 0,
        };
        if count == 0 {
            return Ok(false);
        }
        done = done.wrapping_add(count);
    }
    Ok(done >= wanted)
}

/// Reads the four bytes at a position as a number.
fn size_at(bytes: &[u8], at: usize) -> usize {
    let mut size = 0_usize;
    for i in 0..4_usize {
        if let Some(byte) = bytes.get(at.wrapping_add(i)) {
            size |= usize::from(*byte) << (8 * i);
        }
    }
    size
}

fn add_size(out: &mut Vec<u8>, size: usize) -> Result<(), AllocError> {
    for i in 0..4_usize {
        out.push(((size >> (8 * i)) & 0xff) as u8)?;
    }
    Ok(())
}

/// The answers to the recipes of a batch, each after its size.
fn answer_all(alloc: Global, batch: &[u8]) -> Result<Vec<u8>, AllocError> {
    let mut out = Vec::new(alloc);
    let mut at = 0_usize;
    // There are no more recipes than bytes.
    for _recipe in 0..batch.len() {
        if at >= batch.len() {
            return Ok(out);
        }
        let start = at.wrapping_add(4);
        at = start.wrapping_add(size_at(batch, at));
        let bytes = match batch.get(start..at) {
            Some(bytes) => bytes,
            None => &[],
        };
        let text = answer(alloc, bytes)?;
        add_size(&mut out, text.len())?;
        out.extend_from_slice(text.as_bytes())?;
    }
    Ok(out)
}

/// Answers batches until the input ends.
fn run(rt: &(impl Input + Print + AllocGlobal)) -> io::Result<()> {
    let alloc = rt.alloc();
    let mut reader = rt.reader();
    let mut writer = io::writer(rt);
    for _turn in 0..u64::MAX {
        let mut head = [0_u8; 4];
        if !fill(&mut reader, &mut head)? {
            return Ok(());
        }
        let mut batch = vec![in alloc; 0_u8; size_at(&head, 0)]?;
        if !fill(&mut reader, batch.as_mut_slice())? {
            return Ok(());
        }
        let out = answer_all(alloc, batch.as_slice())?;
        let mut size = Vec::new(alloc);
        add_size(&mut size, out.len())?;
        writer.write_all(size.as_slice())?;
        writer.write_all(out.as_slice())?;
        writer.flush()?;
    }
    Ok(())
}

fn main(rt: HostRuntime) -> io::Result<()> {
    run(&rt)
}
