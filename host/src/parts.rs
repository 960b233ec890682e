//! Decoding a sound part by part, so that it is never in memory as a whole: to test its blocks, or to encode it.
//!
//! From block to block a channel takes nothing along but its index. So a part is encoded after a block of our own,
//! the lead-in, which leaves the index where the part before left it and is then dropped: the blocks are those of the
//! whole sound.
use crate::operations::{coded_bytes, decode, encode, read, samples_per_block, sound_of, write, Fault};
use crate::record::{Format, Record};
use crate::room::Room;
use crate::units::Frames;
use std::ops::Range;

/// How many frames a part has, more or less.
const PART: usize = 1 << 18;

/// The fewest samples of a block that can be a lead-in to every index.
pub const SHORTEST_LEAD_IN: u16 = 20;

/// The blocks of a sound in parts of about as many frames; how many blocks there are in all.
fn parts(format: &Format, sound: &[u8]) -> (usize, impl Iterator<Item = Range<usize>>) {
    let all = sound.len() / usize::from(format.align);
    let each = (PART / usize::from(format.samples)).max(1);
    (all, (0..all).step_by(each).map(move |start| start..all.min(start + each)))
}

/// Whether the sound of a file can be decoded: beside what reading asks of it, the headers of its ADPCM blocks.
pub fn check_sound(file: &[u8]) -> Result<(), Fault> {
    let (record, sound) = (read(file)?, sound_of(file)?);
    if record.format.tag == Format::PCM {
        return Ok(());
    }
    let (_, mut parts) = parts(&record.format, sound);
    parts.try_for_each(|blocks| decoded(&record, sound, blocks).map(drop))
}

/// Encodes the sound of a file to blocks of `align` bytes; the chased samples of each channel.
pub fn encode_parts(record: &Record, sound: &[u8], align: u16, out: &mut [u8]) -> Result<(Frames, Frames), Fault> {
    let mut coder = Coder::new(record.format.channels, align);
    let (all, parts) = parts(&record.format, sound);
    let (mut waiting, mut done): (Vec<i16>, usize) = (vec![], 0);
    for blocks in parts {
        let last = blocks.end == all;
        waiting.extend_from_slice(&decoded(record, sound, blocks)?);
        let ready = if last { waiting.len() } else { waiting.len() / coder.block() * coder.block() };
        done += coder.encode(&waiting[..ready], last, &mut out[done..])?;
        waiting.drain(..ready);
    }
    Ok((Frames(coder.chased[0]), Frames(coder.chased[1])))
}

/// The samples of some blocks, which are decoded as a file of their own; a block of PCM is a frame.
fn decoded(record: &Record, sound: &[u8], blocks: Range<usize>) -> Result<Room<i16>, Fault> {
    let Format { align, samples, .. } = record.format;
    let (align, samples) = (usize::from(align), usize::from(samples));
    let frames = (blocks.end * samples).min(record.frames.0 as usize) - blocks.start * samples;
    let part = Record { format: record.format, frames: Frames(frames as u32), ..Record::default() };
    decode(&write(&part, &sound[blocks.start * align..blocks.end * align])?)
}

/// The encoder between two parts.
struct Coder {
    channels: u16,
    align: u16,
    index: [u8; 2],
    chased: [u32; 2],
}

impl Coder {
    fn new(channels: u16, align: u16) -> Coder {
        Coder { channels, align, index: [0; 2], chased: [0; 2] }
    }

    /// How many samples of all channels a block has.
    fn block(&self) -> usize {
        usize::from(samples_per_block(self.channels, self.align)) * usize::from(self.channels)
    }

    /// Encodes a part, of whole blocks where it is not the last; how many bytes they have. A frame of silence after a
    /// part opens one block more, whose header says where the index is left.
    fn encode(&mut self, part: &[i16], last: bool, out: &mut [u8]) -> Result<usize, Fault> {
        let lead_in = self.lead_in();
        let silence = if last { 0 } else { usize::from(self.channels) };
        let coded = encode(&[&lead_in[..], part, &[0; 2][..silence]].concat(), self.channels, self.align)?;
        let before = encode(&lead_in, self.channels, self.align)?;
        let (_, blocks) = coded.blocks.split_at(self.align.into());
        let (kept, after) = blocks.split_at(coded_bytes(part.len(), self.channels, self.align));
        for channel in 0..usize::from(self.channels) {
            assert!(kept.is_empty() || kept[4 * channel + 2] == self.index[channel], "the lead-in leads to the index");
            self.index[channel] = after.get(4 * channel + 2).copied().unwrap_or_default();
        }
        self.chased[0] += coded.left.0 - before.left.0;
        self.chased[1] += coded.right.0 - before.right.0;
        out[..kept.len()].copy_from_slice(kept);
        Ok(kept.len())
    }

    /// A block of sound that takes each channel from index 0 to where it was left: silence, then swings so wide that
    /// each raises the index by 8, then as much silence as it takes to come down by 1 a sample.
    fn lead_in(&self) -> Vec<i16> {
        let samples = usize::from(samples_per_block(self.channels, self.align));
        let swing = |place: usize| if place % 2 == 0 { i16::MAX } else { -i16::MAX };
        let mut lead_in = vec![0; self.block()];
        for (channel, index) in self.index.iter().take(self.channels.into()).enumerate() {
            let swings = (usize::from(*index) + 7) / 8;
            let first = samples - swings - (8 * swings - usize::from(*index));
            for place in 0..swings {
                lead_in[usize::from(self.channels) * (first + place) + channel] = swing(place);
            }
        }
        lead_in
    }
}

#[cfg(test)]
mod tests {
    use super::*;

    /// Sound with quiet and loud stretches, and jumps from bound to bound.
    fn some_sound(samples: usize, seed: u32) -> Vec<i16> {
        let mut state = seed;
        let mut next = || {
            state = state.wrapping_mul(1_664_525).wrapping_add(1_013_904_223);
            state >> 16
        };
        let loud = |place: usize| [3, 40, 900, 32_767][place / 97 % 4];
        (0..samples).map(|place| ((next() as i32 - 32_768) * loud(place) / 32_768) as i16).collect()
    }

    #[test]
    fn a_lead_in_leads_to_every_index() {
        for (channels, align) in [(1, 16), (1, 20), (1, 1024), (2, 32), (2, 4096)] {
            for index in 0..=88 {
                let coder = Coder { index: [index, 88 - index], ..Coder::new(channels, align) };
                let coded =
                    encode(&[&coder.lead_in()[..], &[7; 2][..channels.into()]].concat(), channels, align).unwrap();
                let header = &coded.blocks[align.into()..];
                assert_eq!((header[2], channels == 1 || header[6] == 88 - index), (index, true));
            }
        }
        assert!(samples_per_block(1, 16) >= SHORTEST_LEAD_IN && samples_per_block(1, 12) < SHORTEST_LEAD_IN);
    }

    #[test]
    fn parts_of_any_length_make_the_blocks_of_the_whole() {
        for (channels, align, blocks) in [(1, 16, 60), (1, 256, 9), (2, 32, 50), (2, 64, 40), (2, 1024, 5)] {
            for seed in 0..20 {
                let mut coder = Coder::new(channels, align);
                let sound = some_sound(blocks * coder.block() - usize::from(channels) * seed as usize % 30, seed);
                let whole = encode(&sound, channels, align).unwrap();
                let mut out = vec![0; whole.blocks.len()];
                let (mut done, mut at) = (0, 0);
                while at < sound.len() {
                    let end = sound.len().min(at + coder.block() * (1 + (seed as usize + at) % 4));
                    done += coder.encode(&sound[at..end], end == sound.len(), &mut out[done..]).unwrap();
                    at = end;
                }
                assert!(out == whole.blocks[..] && coder.chased == [whole.left.0, whole.right.0]);
            }
        }
    }
}
