//! Seeded books for comparison: good ones of every kind and size, ones aimed at each refusal number at its edges,
//! damaged ones; and a shrinker that finds a small book showing the same difference.

mod aimed;
mod aimed_curves;
mod aimed_limits;
mod case;
mod currencies;
mod damage;
mod draw;
mod halves;
mod month_end;
mod position;
mod seeded;
mod shrink;
mod valid;
mod wide;

pub use aimed::case as aimed_case;
pub use case::{Case, Expected};
pub use draw::Draw;
pub use halves::{case as halves_case, rates_that_meet_a_half};
pub use month_end::month_end;
pub use seeded::{case, good as good_case};
pub use shrink::shrink;
