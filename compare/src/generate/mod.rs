//! Random cases: settings, files, texts, replies, and lists of calls that the plain program drives.
pub mod case;
pub mod files;
pub mod mood;
pub mod settings;
pub mod texts;
