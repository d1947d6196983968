"""What `rim-match` is made of: it looks for a launch that has a given measurement, near one that has not.

words       the words of a command line
launch      a launch: its table, and the text of that
manifests   the manifests that are given
files       the files of launches: of manifests, named beside them, and made here
trees       devicetrees of changed launches, written by `outside.trees`
begins      where a kernel and REC 0 begin, as `rim` says
dumps       devicetrees that QEMU makes anew by changed words
lines       the lines of a manifest by which two launches differ
parts       the near things: parts of other launches, by the search of `finder`
people      what people change in a machine
axes        what may be wrong in a launch: one table
program     runs of `rim`
search      the launches that are tried, in their order
logs        what a machine has logged: a trace, a listing, a monitor's log
nearest     which launch shares the longest beginning with a log
explain     what a step is, by the launch's own names
main        the order of all this
"""
