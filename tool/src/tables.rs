//! What is known of an image, in tables for people.

use crate::distance::{Distances, bound};
use crate::info::Known;
use crate::loops;
use crate::seams;
use crate::text::{count, counted, duration};
use std::io::{self, Write};

type Out<'a> = &'a mut dyn Write;

/// All tables.
pub fn write(known: &Known, out: Out) -> io::Result<()> {
    head(known, out)?;
    pairs(known, out)?;
    exponents(known, out)?;
    if let Some(distances) = &known.distances {
        against(distances, out)?;
    }
    if known.blocks {
        blocks(known, out)?;
    }
    Ok(())
}

fn head(known: &Known, out: Out) -> io::Result<()> {
    let head = known.image.head();
    let ratio = 2.0 * f64::from(head.total) / known.size as f64;
    let [newest, older] = known.start();
    writeln!(out, "{}", known.name)?;
    let (samples, rate) = (count(head.total), count(head.rate));
    let long = duration(head.total.into(), head.rate);
    writeln!(out, "  samples    {samples} at {rate} Hz ({long})")?;
    writeln!(out, "  frames     {}", count(known.survey.frames))?;
    let (what, made) = match known.is_dsp {
        false => ("image", ""),
        true => (".dsp file", ", as `import` makes them"),
    };
    let (blocks, block) = (count(head.blocks), count(head.block));
    writeln!(out, "  blocks     {blocks} of up to {block} bytes{made}")?;
    writeln!(out, "  {what:<9}  {} bytes, {ratio:.2} to 1", count(known.size as u64))?;
    if known.after > 0 {
        let after = counted(known.after, "byte", "bytes");
        writeln!(out, "  after it   {after} that do not belong to it")?;
    }
    writeln!(out, "  gain       {}", count(head.gain))?;
    if let Some(looped) = known.looped {
        writeln!(out, "  loop       {}", loops::long_words(looped.points, head.rate))?;
        let [newest, older] = looped.context.last_samples;
        writeln!(out, "             each turn begins after {newest},{older} (newest, older)")?;
    }
    writeln!(out, "  history    {newest},{older} before the first sample (newest, older)")?;
    match known.end.map(|end| end.last_samples) {
        Some([newest, older]) => writeln!(out, "  ends with  {newest},{older}")?,
        None => {
            writeln!(out, "  does not play: a pair of coefficients is -32,768 twice (refusal 13)")?;
        }
    }
    let clicks = seams::words(&known.seams, head.blocks);
    for words in clicks.into_iter().chain(known.looped.and_then(|looped| looped.click())) {
        writeln!(out, "  clicks     {words}")?;
    }
    Ok(())
}

fn pairs(known: &Known, out: Out) -> io::Result<()> {
    writeln!(out, "\n  predictor       c0       c1      frames")?;
    let frames = known.survey.pairs;
    for (i, (c0, c1)) in known.image.head().coefficients.pairs().into_iter().enumerate() {
        let (c0, c1) = (count(c0), count(c1));
        writeln!(out, "  {i:>9}  {c0:>7}  {c1:>7}  {}", share(frames[i], known.survey.frames))?;
    }
    Ok(())
}

fn exponents(known: &Known, out: Out) -> io::Result<()> {
    writeln!(out, "\n   exponent   scale      frames")?;
    for (p, &frames) in known.survey.exponents.iter().enumerate().filter(|(_, f)| **f > 0) {
        writeln!(out, "  {p:>9}  {:>6}  {}", count(1 << p), share(frames, known.survey.frames))?;
    }
    Ok(())
}

/// A count and its share.
fn share(part: u64, all: u64) -> String {
    format!("{:>10}  {:>5.1} %", count(part), 100.0 * part as f64 / all.max(1) as f64)
}

fn against(distances: &Distances, out: Out) -> io::Result<()> {
    let (largest, at) = distances.largest();
    writeln!(out, "\n  largest distance {} at sample {}", count(largest), count(at as u64))?;
    match distances.decibels() {
        Some(decibels) => writeln!(out, "  signal to noise {decibels:.1} dB")?,
        None => writeln!(out, "  signal to noise: none is lost, or there is no signal")?,
    }
    if distances.beyond() > 0 {
        let beyond = counted(distances.beyond(), "sample is", "samples are");
        writeln!(out, "  {beyond} beyond the bound: not what this library encodes from that clip")?;
    }
    writeln!(out, "\n   exponent     samples   bound  largest   at sample")?;
    for (p, reached) in distances.reached.iter().enumerate().filter(|(_, r)| r.samples > 0) {
        let bound = bound(p).map_or("none".into(), count);
        let (samples, largest) = (count(reached.samples), count(reached.largest));
        writeln!(
            out,
            "  {p:>9}  {samples:>10}  {bound:>6}  {largest:>7}  {:>10}",
            count(reached.at as u64)
        )?;
    }
    Ok(())
}

fn blocks(known: &Known, out: Out) -> io::Result<()> {
    let (mut offset, mut sample) = (known.bodies_at, 0);
    writeln!(
        out,
        "\n      block      offset  nibbles  from sample  samples  predictor  exponent   newest    older"
    )?;
    for (k, block) in known.image.blocks().enumerate() {
        let samples = block.sample_count();
        let header = block.context.predictor_and_scale;
        let [newest, older] = block.context.last_samples;
        writeln!(
            out,
            "  {:>9}  {:>10}  {:>7}  {:>11}  {:>7}  {:>9}  {:>8}  {:>7}  {:>7}",
            count(k as u64),
            count(offset as u64),
            count(block.nibbles),
            count(sample as u64),
            count(samples as u64),
            header >> 4 & 7,
            header & 15,
            count(newest),
            count(older)
        )?;
        offset += block.bytes.len();
        sample += samples;
    }
    Ok(())
}
