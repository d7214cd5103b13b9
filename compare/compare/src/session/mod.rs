//! A session through the port's C exports, transfer by transfer: the original's
//! calls run on a bus that records what they ask for and what they were told,
//! and the record becomes operation lines with the answers that are right.

pub mod bus;
pub mod call;
pub mod host;
pub mod original;
pub mod part;
pub mod reading;
pub mod replies;
pub mod step;
pub mod tricks;

#[cfg(test)]
mod model;
