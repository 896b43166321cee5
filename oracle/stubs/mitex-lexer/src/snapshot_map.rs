//! Stands for the map that the macro engine keeps its definitions in.
