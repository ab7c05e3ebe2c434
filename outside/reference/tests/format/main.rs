//! `docs/format.md` against the reference: what the page tells an exporter is what the reference does.

mod fields;
mod page;
mod records;
mod rules;
mod tables;
