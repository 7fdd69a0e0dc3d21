mod any_bytes;
mod requests;
mod socket;
