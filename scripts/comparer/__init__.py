"""What `rim-compare` is made of: it compares a kept report of `rim measure --json` with another one, or with what a manifest gives now.
How `rim` is found and run, and how a script ends, are those of `outside`.

report      a report as it is read
folders     the manifests of a folder of rim-manifest
differ      the lines of what differs between two
main        words, and the order of all this
"""
