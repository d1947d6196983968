"""How the scripts meet what is outside: files, programs, texts, signals. `rim-manifest`, `rim-match`, `rim-compare`, `rim-page`, `rim-verify`,
`rim-endorse` and `finder` share it.

faults      what stops a script: wrong words, a fault
words       the words of a command line: options, operands, and what comes after `--`
texts       how a text of somebody else's is shown
stopping    the signals that stop a script
files       files that are read with limits, and written with their path in each fault; TOML and JSON
programs    runs of programs that may misbehave; where the program `rim` is
cbor        CBOR of somebody else, read strictly
parameters  the numbers of a realm that are measured, a row each
measurement a measurement that a machine has, in the forms of tokens
rim         what `rim` says of an Image and of a devicetree
trees       the devicetree of another launch, as QEMU writes it
ending      how a script ends
"""
