"""What `rim-manifest` is made of: it turns a hypervisor's words into manifests of `rim`.

words               the options of rim-manifest: their lists, sizes and help
asked               what is asked for: the options, and a hypervisor's command line
lines               that line out of words, or of a text as a shell reads it
sorting             tables of a hypervisor's words, by which its line is sorted
names               names of launches and of what they are made of
host                the file about a machine
rows, ways          rows with alternatives that hypervisors share; which alternative is taken of each row
image               kernels and initrds as they are loaded: gzip, EFI zboot
devicetree          what the checks ask of a devicetree
guest               what a launch is: machine, memory, processors, kernel, initrd, command line
layout              rows of a table, and how places follow from them
hypervisor          the type of a hypervisor: what all else asks of one; `hypervisors` names those that there are
qemu, kvmtool, cloud_hypervisor     the layout of each hypervisor, the values of its words, and how its devicetrees are made
qemu_words, kvmtool_words, cloud_hypervisor_words   what each of its words does, and which of them a dump of a devicetree is given
realm               a launch as a manifest has it, by its places and the alternatives
launches            a launch for each combination; groups of launches for each manifest
dumps               devicetrees: made by the hypervisor's program, or handed in
derived             devicetrees of other launches than those that a dump fits
checks              the five checks of a launch against its devicetree
manifest            the text of a manifest
folder              the folder that is written, whole or not at all, and what `--force` replaces in one
measure             the script that is put into that folder
work                one run: the order of all this
settle              which alternatives give a measurement: what is tried, and what a value pins
measured, numbers   what is measured of a launch, exactly; the numbers of a machine that are tried
settling            the words of `rim-manifest settle`, its guests, and the file that it writes
main                words, help, and which of these is done

Files, programs, signals and what `rim` says of an Image and of a devicetree are met by the package `outside`; the search is that of `finder`.
"""
