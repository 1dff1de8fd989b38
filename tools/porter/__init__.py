"""The modules of `tools/port`, which translates ordinary C into the language of `secomp`. Nothing here is proved."""
