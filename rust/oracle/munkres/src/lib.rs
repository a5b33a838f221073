// The whole of the published crate, read from its own files.
include!(env!("ORACLE_SOURCE"));
