//! Tests of the uses of the library: games, services, blocks that a write may reach, shapes, traits, and subtypes. Of
//! subtypes the search is laid beside a greatest fixpoint that is worked out plainly, on all small types, on types and texts
//! drawn at random and on cases of the textbook; and its runs are counted with the provisional cache and without it.

mod agreed;
mod blocks;
mod declared;
mod dependencies;
mod drawn;
mod equations;
mod plain;
mod positions;
mod sides;
mod small;
mod tables;
mod textbook;
mod towers;
mod traits;
