//! Stand-in for the module of this name, which is not among the files given and which no other file calls.
