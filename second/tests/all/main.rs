//! All tests, in one program so that they are built once.

mod floats;
mod generated;
mod grammar;
mod open_points;
mod oracle;
mod patterns;
mod places;
mod principals;
mod records;
mod references;
mod register;
mod rfc;
mod rounds;
mod rulings;
mod tokens;
