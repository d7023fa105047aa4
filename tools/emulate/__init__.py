"""numaplan-emulate: runs a program as if on a machine that is described. tools/numaplan-emulate starts it.
Not proved; the rules are those of the library, which is."""
