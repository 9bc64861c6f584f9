//! The command, tried as a process and from within: kills, locks, rights, damage, a full disk, times ahead of the clock, random scripts, the limits, the published queries, pictures.
//! Chance has a fixed seed, so that a failure comes again.

mod apply;
mod damage;
mod diff;
mod export;
mod kills;
mod limits;
mod locks;
mod readings;
mod refusals;
mod rights;
mod scripts;
mod show;
mod support;
mod times;
mod words;
