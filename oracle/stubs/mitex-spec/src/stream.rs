//! Stands for the reader of serialised specifications, used only by features that are off.
