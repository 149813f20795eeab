//! What no contract of the leaves says: values from outside, that their calls find memory, and
//! devices that fail in the middle of a text.

mod deadlines;
mod devices;
mod drawn_lines;
mod lines;
mod listed;
mod numbers;
mod refused;
mod retries;
mod rows;
mod without_memory;
