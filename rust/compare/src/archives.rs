//! Archives: what a set of volumes holds, by both sides.

pub mod chain;
pub mod facts;
pub mod files;
pub mod folder;
pub mod opening;
pub mod places;
pub mod reading;
mod refused;
