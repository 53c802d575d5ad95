//! The calls of the crate, against the archive that it is linked with.

mod altered;
mod banks;
mod blocks;
mod clips;
mod cuts;
mod damage;
mod dsp;
mod dsp_fields;
mod dsp_reading;
mod dsp_refusals;
mod editor;
mod entries;
mod lists;
mod loop_entries;
mod loops;
mod made;
mod older_banks;
mod parts;
mod reading;
mod refusals;
mod round_trip;
mod same;
mod sounds_same;
mod threads;
mod undo;
mod worked_numbers;
