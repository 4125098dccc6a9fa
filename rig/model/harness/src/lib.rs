//! What holds the library and the bench program against the model (`rules`): random nets, plans and steps, damage,
//! slips, and the driver; and what to measure the library by (`fast`): the test for well shaped, the steps, the runs
//! and the conversion on the bytes themselves.

pub mod breaches;
pub mod damage;
pub mod fast;
pub mod make;
pub mod parts;
pub mod random;
pub mod replies;
pub mod served;
pub mod slips;
