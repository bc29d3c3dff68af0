//! Compares every call with the independent implementation in reference/: answers, values and the final contents of everything lent. Seeds are
//! fixed, so every case can be repeated. With --nocapture each test prints how many cases it compared, by answer; those that are ignored (the
//! long ones) run with --include-ignored.

mod both;
mod calls;
mod draw;
mod plain_picture;
mod reference;

mod conversion;
mod lookup;
mod nan;
mod packed;
mod padding;
mod paint;
mod regions;
mod settings;
mod sheets;
mod walk;
mod worked;
