//! Lent memory: big-endian, in groups of eight bytes, and nothing outside it (the scope, "The board").

use crate::interrupts::Fault;

/// Bytes that dcbz clears, from a multiple of as many on.
pub const BLOCK: u32 = 32;

/// Bytes of an aligned group, which no load or store crosses (D27). A doubleword fills one, so it has to be aligned.
const GROUP: u32 = 8;

/// Where an access of SIZE bytes falls. Memory is whole groups, so a start inside is an end inside.
fn place<const SIZE: u32>(memory: &[u8], address: u32, store: bool) -> Result<usize, Fault> {
    if address % GROUP + SIZE > GROUP {
        Err(Fault::Alignment { address, store })
    } else if address as usize >= memory.len() {
        Err(Fault::DataStorage { address, store })
    } else {
        Ok(address as usize)
    }
}

pub fn fetch(memory: &[u8], address: u32) -> Result<u32, Fault> {
    let at = address as usize;
    match memory.get(at..).and_then(|rest| rest.first_chunk()) {
        Some(bytes) => Ok(u32::from_be_bytes(*bytes)),
        None => Err(Fault::InstructionStorage),
    }
}

pub fn load<const SIZE: u32>(memory: &[u8], address: u32) -> Result<u32, Fault> {
    let at = place::<SIZE>(memory, address, false)?;
    Ok(match SIZE {
        1 => memory[at] as u32,
        2 => u16::from_be_bytes([memory[at], memory[at + 1]]) as u32,
        _ => u32::from_be_bytes([memory[at], memory[at + 1], memory[at + 2], memory[at + 3]]),
    })
}

pub fn store<const SIZE: u32>(memory: &mut [u8], address: u32, value: u32) -> Result<(), Fault> {
    let at = place::<SIZE>(memory, address, true)?;
    let bytes = value.to_be_bytes();
    let size = SIZE as usize;
    memory[at..at + size].copy_from_slice(&bytes[4 - size..]);
    Ok(())
}

pub fn load_doubleword(memory: &[u8], address: u32) -> Result<u64, Fault> {
    let at = place::<8>(memory, address, false)?;
    Ok(u64::from_be_bytes(*memory[at..].first_chunk().expect("memory is whole blocks")))
}

pub fn store_doubleword(memory: &mut [u8], address: u32, value: u64) -> Result<(), Fault> {
    let at = place::<8>(memory, address, true)?;
    memory[at..at + 8].copy_from_slice(&value.to_be_bytes());
    Ok(())
}

/// Where the block that has this address begins.
pub fn block_of(address: u32) -> u32 {
    address - address % BLOCK
}

/// dcbz: EDR would hold the address as computed, not the block's.
pub fn clear_block(memory: &mut [u8], address: u32) -> Result<(), Fault> {
    let at = block_of(address) as usize;
    match memory.get_mut(at..at + BLOCK as usize) {
        Some(block) => {
            block.fill(0);
            Ok(())
        }
        None => Err(Fault::DataStorage { address, store: true }),
    }
}
