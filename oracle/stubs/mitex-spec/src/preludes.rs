//! Stands for the prepared specifications, which are not among the sources.
